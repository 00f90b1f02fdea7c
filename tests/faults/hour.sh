# `hour`: it reads its block to the empty line, and what follows is not read.

cp "$here/../samples/hour/sample.txt" "$work/block" || exit 2
cp "$here/../samples/hour/sample.out" "$work/paid" || exit 2
{ cat "$work/block"; echo; } >"$work/closed"
size=$(size_of "$work/closed")

# --- The example itself, from a file.
cp "$work/paid" "$work/want"
run 20 <"$work/block"
answered "the example"

# --- The hour that only the longest day has, and the one behind it.
sed 's/^hour=[0-9]*/hour=24/' "$work/paid" >"$work/want"
sed '1s/^hour=[0-9]*/hour=24/' "$work/block" | run 20
answered "hour 24"
echo "refused=2 at=1" >"$work/want"
sed '1s/^hour=[0-9]*/hour=25/' "$work/block" | run 20
answered "hour 25"

# --- Input that ends anywhere.
n=0
while [ "$n" -le "$size" ]; do
    first "$work/closed" "$n" >"$work/text"
    same "input that ends after $n bytes"
    n=$((n + 1))
done

# --- A slow pipe.
cp "$work/paid" "$work/want"
one_by_one "$work/closed" 0 "$size" | run 120
answered "a byte at a time"

one_by_one "$work/closed" 0 $((size - 1)) | run 120
answered "a byte at a time, closed by the end"

{
    first "$work/closed" 500
    sleep 2
    one_by_one "$work/closed" 500 "$size"
} | run 120
answered "a pause within a line"

{
    first "$work/closed" $((size - 1))
    sleep 2
    echo
} | run 120
answered "a pause in front of the empty line"

# --- Input that stays open behind the block's empty line.
stays_open() {
    held_open "$work/closed"
    answered "an input that stays open"

    { cat "$work/closed"; printf 'hour=15 en='; } >"$work/text"
    held_open "$work/text"
    answered "an input that stays open within the next block"

    echo "refused=1 at=1" >"$work/want"
    echo >"$work/text"
    held_open "$work/text"
    answered "an empty line, and an input that stays open"

    echo "refused=1 at=7" >"$work/want"
    { first "$work/closed" $((size - 2)); printf ' \n\n'; } >"$work/text"
    held_open "$work/text"
    answered "a refused block, and an input that stays open"
}
stays_open

# --- Two of them on one input, one after the other: each reads its own block,
# however long that is, and not a byte of the next.

# The block in $work/front, which is refused for its form at line $1, and the
# example behind it: from a file, and through a pipe.
then_the_example() {
    { echo "refused=1 at=$1"; cat "$work/paid"; } >"$work/want"
    cat "$work/front" "$work/closed" >"$work/text"
    { bare 20 && bare 20; } <"$work/text" >"$work/got" 2>"$work/err"
    answered "$2, and the example"
    cat "$work/text" | { bare 20 && bare 20; } >"$work/got" 2>"$work/err"
    answered "$2, and the example, through a pipe"
}

one_after_the_other() {
    echo >"$work/front"
    then_the_example 1 "an empty line"
    # Short lines, whose empty line begins with the first or with the second
    # byte of a read; lines around what is kept of a block; and one far longer.
    for letters in 1 2 3 4 10637 10638 10639 10640 10641 10642 20000; do
        { fill "$letters" x; printf '\n\n'; } >"$work/front"
        then_the_example 1 "a line of $letters letters"
        { fill "$letters" x; printf '\ny\n\n'; } >"$work/front"
        then_the_example 1 "two lines, the first of $letters letters"
    done
    # The first line that no good block has.
    { grep -v '^s=' "$work/block"; yes "$(tail -n 1 "$work/block")" 2>/dev/null | head -n 500; echo; } >"$work/front"
    then_the_example 34 "500 interval lines"
}
one_after_the_other

# --- Both ends.
echo "refused=1 at=1" >"$work/want"
input_closed
cp "$work/paid" "$work/want"
output_closed "$work/closed"

if [ "$frugal" = yes ]; then
    arguments "$work/block"
fi

# --- Lines of 5 MB.
echo "refused=1 at=1" >"$work/want"
{ five a; echo; } | run 300
answered "a line of 5 MB"

five ' ' | run 300
answered "5 MB of blanks and no end of the line"

echo "refused=1 at=3" >"$work/want"
{
    sed -n 1,2p "$work/block"
    printf 'rt='
    five 7
    printf ' n=0\n'
    sed -n '4,$p' "$work/block"
} | run 300
answered "a number of 5 MB in line 3"

cp "$work/paid" "$work/want"
{ cat "$work/closed"; five a; } 2>/dev/null | run 300
answered "5 MB behind the empty line"

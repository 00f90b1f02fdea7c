# Texts of a header and the blocks of a day, which `day`, `import` and `line` read
# to the end of input or to the first byte behind the last block. Read by
# faults.sh. day.sh, import.sh and line.sh say first how long a block is and how
# the answers look:
#   most_lines             the lines of the longest good block
#   heads, own             how many headers stand before the blocks, and which of
#                          them is piece 0, counted from 0
#   which                  what then ends the line of a refused header
#   refused_at HOUR LINE   writes the sample's answer to $work/want, once that
#                          hour is refused for its form; the header's hour is -
#   withheld               the same, once bytes follow the last block

# Four pieces give their places to others: the header is piece 0, the blocks are
# 1 to $hours. Block 6 is hour 5, which is paid and has paid hours behind it. A
# header that is lacking is an empty line, as if it had no other.
middle=6

# The sample $1 as one that says its hours, $2 of them: of its 24 blocks the last
# one is left out, or the middle one stands behind it once more.
of_hours() {
    awk -v hours="$2" -v middle="$middle" -v heads="$heads" -v own="$own" '
        BEGIN { at = 1 - heads; own += at }
        $0 == "" { if (++at > hours) exit; print; next }
        at == own && /^form=/ { print "form=2"; $0 = "hours=" hours }
        at == own && /^import=/ { $0 = $0 " hours=" hours }
        at == own && /^hours=/ { $0 = "hours=" hours }
        at == own && /^cat=/ { $0 = substr($0 "1", 1, hours + 4) }
        at == own && /^mark=/ { $0 = substr($0 "1", 1, hours + 5) }
        at == own && /^x/ { $0 = substr($0 "0", 1, hours + 3) }
        at == middle { again = again $0 "\n" }
        { print }
        END { if (at < hours) { sub(/^hour=[0-9]+/, "hour=24", again); printf "\n%s", again } }' "$1"
}

# The sample $1, of $2 hours, in pieces. $work/closed is the sample with an empty
# line behind each piece, good.K the lines of piece K, before.K and after.K what
# stands before it and behind its empty line. $work/heads has the headers behind
# piece 0.
cut_up() {
    hours=$2
    { cat "$1"; echo; } >"$work/closed"
    echo >"$work/lf"
    printf a >"$work/letter"
    size=$(size_of "$work/closed")
    "$second" <"$1" >"$work/paid"
    for k in 0 1 "$middle" "$hours"; do
        : >"$work/before.$k"
        : >"$work/after.$k"
        place=$((k == 0 ? own : k + heads - 1))
        awk -v k="$k" -v place="$place" -v dir="$work" '
            at + 0 < place { print >(dir "/before." k) }
            at + 0 == place && $0 != "" { print >(dir "/good." k) }
            at + 0 > place { print >(dir "/after." k) }
            $0 == "" { at++ }' "$work/closed"
    done
    awk -v own="$own" -v heads="$heads" 'at + 0 > own && at < heads; $0 == "" { at++ }' "$work/closed" >"$work/heads"
    interval=$(tail -n 1 "$work/good.$middle")
}

# These files of $work, one behind the other, as the second program takes them.
try() {
    what=$1
    shift
    (cd "$work" && cat "$@") >"$work/text"
    same "$what"
}

# The sample from a file, closed by the end and by an empty line.
as_it_is() {
    cp "$work/paid" "$work/want"
    run 20 <"$1"
    answered "the sample"
    run 20 <"$work/closed"
    answered "the sample, closed"
}

# --- Input that ends anywhere: around each empty line, and in between.
ends_anywhere() {
    places=$(awk -v size="$size" '
        { at += length($0) + 1 }
        $0 == "" { for (n = at - 2; n <= at + 1; n++) if (n <= size) print n }
        END { for (n = 0; n < 40; n++) print int(size * n / 40) }' "$work/closed" | sort -n -u)
    for n in $places; do
        first "$work/closed" "$n" >"$work/text"
        same "input that ends after $n bytes"
    done
}

# Within the header, at each of its bytes.
ends_in_header() {
    n=0
    while [ "$n" -le "$(size_of "$work/before.1")" ]; do
        first "$work/closed" "$n" >"$work/text"
        same "input that ends after $n bytes"
        n=$((n + 1))
    done
}

# --- A slow pipe.

# The sample, a byte at a time from one place to another.
slow_from() {
    first "$work/closed" "$1"
    one_by_one "$work/closed" "$1" "$2"
    rest "$2" <"$work/closed"
}

# The sample with a pause at each of these places.
pausing_at() {
    from=0
    for place in "$@"; do
        first "$work/closed" "$place" | rest "$from"
        sleep 1
        from=$place
    done
    rest "$from" <"$work/closed"
}

slowly() {
    cp "$work/paid" "$work/want"
    head=$(size_of "$work/before.1")
    last=$(size_of "$work/before.$hours")

    dd if="$work/closed" bs=1 2>/dev/null | run 60
    answered "a write for each byte"

    slow_from $((head - 10)) $((head + 80)) | run 60
    answered "a byte at a time over the header's empty line"
    slow_from $((last - 80)) $((last + 80)) | run 60
    answered "a byte at a time over the last block's beginning"
    slow_from $((size - 80)) "$size" | run 60
    answered "a byte at a time to the end"

    pausing_at $((last + 5)) | run 60
    answered "a pause within a line"
    pausing_at $((last - 1)) "$last" | run 60
    answered "a pause in front of an empty line, and one behind it"
    pausing_at "$size" | run 60
    answered "a pause behind the last block"
}

# The header a byte at a time, and with a pause within each of its first lines.
slow_header() {
    cp "$work/paid" "$work/want"
    head=$(size_of "$work/before.1")
    slow_from 0 "$head" | run 60
    answered "a byte at a time over the header"
    pausing_at 3 14 20 | run 60
    answered "pauses within the first lines"
}

# --- Bytes behind the last block. The first of them decides, and no more are waited
# for, so that an input without an end has an answer, too.
behind() {
    try "a letter behind the last line" "before.$hours" "good.$hours" letter

    withheld
    { cat "$work/closed"; echo; } | run 20
    answered "an LF behind the last block"
    { cat "$work/closed"; printf a; } | run 20
    answered "a letter behind the last block"
    { cat "$work/closed"; sed "1s/^hour=[0-9]*/hour=$hours/" "$work/good.1"; } | run 20
    answered "one more block, of the next hour"
    { cat "$work/closed"; fifty a; } 2>/dev/null | run 60
    answered "50 MB behind the last block"
    if [ "$frugal" = no ]; then
        return
    fi

    { cat "$work/closed"; yes; } 2>/dev/null | run 10
    answered "an endless input behind the last block"
    { cat "$work/closed"; yes ''; } 2>/dev/null | run 10
    answered "endless empty lines behind the last block"
    { cat "$work/closed"; echo; } >"$work/text"
    held_open "$work/text"
    answered "an LF behind the last block, and an input that stays open"

    refused_at - 1
    yes '' 2>/dev/null | run 10
    answered "nothing but empty lines, endless"
}

# An empty input lacks the first header.
refused_empty() {
    refused_at - 1
    sed 's/ header=.*/ header=0/' "$work/want" >"$work/empty"
    cp "$work/empty" "$work/want"
}

# All cases of the sample $1. An empty input is a header without a line.
sheet_cases() {
    cut_up "$1" 24
    as_it_is "$1"
    ends_anywhere
    slowly
    refused_empty
    input_closed
    cp "$work/paid" "$work/want"
    output_closed "$work/closed"
    if [ "$frugal" = yes ]; then
        arguments "$1"
    fi
    long_blocks
    long_header
    edges
    crowded
    behind
}

# The cases that go by the count, over the sample $1 as one that says its hours.
counted_cases() {
    name=${about%: }
    for count in 23 24 25; do
        about="$name, $count hours said: "
        of_hours "$1" "$count" >"$work/sample"
        cut_up "$work/sample" "$count"
        as_it_is "$work/sample"
        behind
    done
    # The longest day, of which the most is kept.
    ends_anywhere
    ends_in_header
    slowly
    slow_header
    long_header
    for length in $lengths; do
        edge "$length" last
    done
    crowded
}

# `up` and `down`: the moved sheet goes to standard output, a refusal to standard
# error, and then nothing is written. The header is judged, and what stands
# behind it passes as it is. Read by faults.sh.

# --- The sheets: form.1 and form.2 are the same one in both forms, head.N are
# their headers with the empty line, and blocks is what follows.
make_forms() {
    heads=1
    own=0
    which=
    stored <"$here/../samples/day/paid.txt" >"$work/form.1" || exit 2
    { printf 'form=2\nhours=24\n'; sed 1d "$work/form.1"; } >"$work/form.2"
    for n in 1 2; do
        sed '/^$/q' "$work/form.$n" >"$work/head.$n"
    done
    rest "$(size_of "$work/head.1")" <"$work/form.1" >"$work/blocks"
    echo >"$work/lf"
    # What the pieces of long.sh stand in: a sheet that says its hours.
    grep . "$work/head.2" >"$work/good.0"
    : >"$work/before.0"
    cp "$work/blocks" "$work/after.0"
}

# The header of form $1 with line $2 written as $3, and its empty line.
header_with() {
    sed "$2s/.*/$3/" "$work/head.$1"
}

# --- How a run is judged.

# Stands directly behind a run: it was refused as $2 says, and nothing written.
refused() {
    status=$?
    echo "$2" >"$work/want"
    if [ "$status" -ne 0 ]; then
        fail "$1: status $status"
    elif [ -s "$work/got" ]; then
        fail "$1: it writes $(head -c 60 "$work/got" | head -n 1)"
    elif ! cmp -s "$work/err" "$work/want"; then
        fail "$1: $(differ "$work/err" "$work/want")"
    else
        pass
    fi
}

# The header, and what the command $2.. writes, pass: the command's bytes once
# more stand behind the moved header. Nothing of that is kept.
passes() {
    what=$1
    shift
    { cat "$work/head.$to"; "$@"; } 2>/dev/null >"$work/pipe" &
    feeding=$!
    { cat "$work/head.$from"; "$@"; } 2>/dev/null | {
        bare 60 2>"$work/err"
        echo $? >"$work/status"
    } | cmp -s - "$work/pipe"
    same=$?
    wait "$feeding"
    # The pipe's end is there before the status is.
    n=0
    while [ ! -s "$work/status" ] && [ "$n" -lt 50 ]; do
        sleep 0.1
        n=$((n + 1))
    done
    status=$(cat "$work/status")
    rm -f "$work/status"
    if [ "$same" -ne 0 ]; then
        fail "$what: it does not pass as it is"
    elif [ "${status:-124}" -ne 0 ]; then
        fail "$what: status $status"
    elif [ -s "$work/err" ]; then
        fail "$what: $(head -n 1 "$work/err")"
    else
        pass
    fi
}

# --- Input that ends anywhere. In the header that is FORM at the line that is
# not whole; behind it, what came is moved.
cut_sheets() {
    head=$(size_of "$work/head.$from")
    n=0
    while [ "$n" -lt "$head" ]; do
        first "$work/form.$from" "$n" >"$work/text"
        cat "$work/text" | run 20
        refused "input that ends after $n bytes" "refused=1 at=$(($(wc -l <"$work/text") + 1))"
        n=$((n + 1))
    done
    # FORM comes before the wrong way.
    for n in 0 1 6 7 16 20 100 $(($(size_of "$work/head.$to") - 1)); do
        first "$work/form.$to" "$n" >"$work/text"
        cat "$work/text" | run 20
        refused "the other form, ending after $n bytes" "refused=1 at=$(($(wc -l <"$work/text") + 1))"
    done
    size=$(size_of "$work/form.$from")
    longer=$(($(size_of "$work/form.$to") - size))
    for n in "$head" $((head + 1)) $((head + 75)) 4096 8192 10639 10640 10641 10642 $((size - 1)) "$size"; do
        first "$work/form.$to" $((n + longer)) >"$work/want"
        first "$work/form.$from" "$n" | run 20
        answered "input that ends after $n bytes"
    done
}

# --- A slow pipe.
slow_sheets() {
    cp "$work/form.$from" "$work/closed"
    cp "$work/form.$to" "$work/want"
    head=$(size_of "$work/head.$from")
    run 20 <"$work/closed"
    answered "the sample"
    dd if="$work/closed" bs=1 2>/dev/null | run 60
    answered "a write for each byte"
    slow_from 0 $((head + 80)) | run 60
    answered "a byte at a time over the header"
    pausing_at 3 $((head - 1)) "$head" | run 60
    answered "pauses within the header, before its empty line and behind it"
    one_by_one "$work/form.$to" 0 30 | run 60
    refused "a byte at a time up to the end" "refused=1 at=$(($(head -c 30 "$work/form.$to" | wc -l) + 1))"
}

# --- Both ends, also with more than a pipe holds.
moving_ends() {
    run 20 <&-
    refused "a closed standard input" "refused=1 at=1"
    run 20 <"$work"
    refused "a directory as standard input" "refused=1 at=1"

    cp "$work/form.$to" "$work/want"
    output_closed "$work/form.$from"
    bare 20 <"$work/form.$to" >"$work/got" 2>&-
    status=$?
    [ "$status" -eq 0 ] && [ ! -s "$work/got" ] && pass || fail "a refusal, and a closed standard error: status $status"
    bare 20 <"$work/form.$to" >&- 2>"$work/err"
    status=$?
    [ "$status" -eq 0 ] && echo 'refused=2 at=1' | cmp -s - "$work/err" && pass || fail "a refusal, and a closed standard output: status $status"

    { cat "$work/head.$from"; fifty a; } >"$work/long"
    bare 20 <"$work/long" >&- 2>"$work/err"
    ended "50 MB, and a closed standard output"
    if [ -w /dev/full ]; then
        bare 20 <"$work/long" >/dev/full 2>"$work/err"
        ended "50 MB, and a full standard output"
    fi
    : >"$work/err"
    unread "$work/long"
    ended "50 MB, and a reader that has gone"
    rm -f "$work/status"
    { bare 20 <"$work/long" 2>"$work/err"; echo $? >"$work/status"; } | head -c 100000 >"$work/got"
    status=$(cat "$work/status")
    { cat "$work/head.$to"; fill 100000 a; } | head -c 100000 | cmp -s - "$work/got" && [ ! -s "$work/err" ] &&
        { [ "$status" -eq 141 ] || [ "$status" -lt 101 ]; } && pass || fail "50 MB, and a reader that goes: status $status"
    # As on a disk that is full.
    (ulimit -f 100; trap '' XFSZ; bare 20 <"$work/long") >"$work/got" 2>"$work/err"
    ended "50 MB, and a file that takes 50 kB"
    rm -f "$work/long"
}

# --- A refused header has its answer at once, whatever follows.
refused_at_once() {
    while read -r form line text answer; do
        case $form in
            up | down)
                [ "$form:$from" = up:1 ] || [ "$form:$from" = down:2 ] || continue
                form=$from
                ;;
        esac
        header_with "$form" "$line" "$text" >"$work/text"
        held_open "$work/text"
        refused "line $line of form $form is $text, and the input stays open" "$answer"
        { cat "$work/text"; yes; } 2>/dev/null | run 10
        refused "line $line of form $form is $text, and no end" "$answer"
    done <<END
1 1 form=01 refused=1 at=1
1 1 form=3 refused=2 at=1
1 1 form=2 refused=1 at=2
2 1 form=1 refused=1 at=2
2 2 hours=024 refused=1 at=2
1 4 cat=1 refused=1 at=4
up 2 unit=0 refused=2 at=2
up 10 x6=000000000000000000000002 refused=2 at=10
down 2 hours=22 refused=2 at=2
down 3 unit=0 refused=2 at=3
down 5 cat=111111111111111111111112 refused=2 at=5
END
    # The wrong way.
    { cat "$work/form.$to"; yes; } 2>/dev/null | run 10
    refused "the other form, and no end" "refused=2 at=1"
    sed 's/^unit=.*/unit=0/' "$work/form.$to" | run 10
    refused "the other form, and another fault" "refused=2 at=1"
    yes '' 2>/dev/null | run 10
    refused "nothing but empty lines, endless" "refused=1 at=1"
    yes 2>/dev/null | run 10
    refused "no empty line, endless" "refused=1 at=1"
    { grep . "$work/head.$from"; yes; } 2>/dev/null | run 10
    refused "a header without its empty line, endless" "refused=1 at=$(wc -l <"$work/head.$from")"
    # Days of another count cannot go down; that comes last.
    for hours in 23 25; do
        of_hours "$work/form.1" "$hours" >"$work/counted"
        case $from in
            1) answer="refused=2 at=1" other="refused=2 at=1" ;;
            2) answer="refused=9 at=2" other="refused=2 at=3" ;;
        esac
        held_open "$work/counted"
        refused "$hours hours, and the input stays open" "$answer"
        { cat "$work/counted"; yes; } 2>/dev/null | run 10
        refused "$hours hours, and no end" "$answer"
        sed '3s/.*/unit=0/' "$work/counted" | run 10
        refused "$hours hours and unit 0" "$other"
    done
}

# --- Headers of 50 MB, in bounded memory.
long_headers() {
    last=$(wc -l <"$work/head.$from")
    { printf form=; fifty 1; } | run 60
    refused "a form of 50 MB up to the end" "refused=1 at=1"
    { printf form=; fifty 1; echo; sed 1d "$work/form.$from"; } | run 60
    refused "a form of 50 MB" "refused=1 at=1"
    { fifty a; echo; cat "$work/form.$from"; } | run 60
    refused "a line of 50 MB" "refused=1 at=1"
    fifty_lines short | run 60
    refused "short lines, 50 MB" "refused=1 at=1"
    { grep . "$work/head.$from"; fifty a; echo; cat "$work/blocks"; } | run 60
    refused "a header and a line of 50 MB" "refused=1 at=$last"
    { grep . "$work/head.$from"; fifty_lines x6=; } | run 60
    refused "a header and short lines, 50 MB" "refused=1 at=$last"
    { sed '/^x3=/,$d' "$work/head.$from"; printf x3=; fifty 0; echo; sed '1,/^x3=/d' "$work/form.$from"; } | run 60
    refused "a row of 50 MB" "refused=1 at=$((last - 4))"
    { sed '/^unit=/,$d' "$work/head.$from"; printf unit=; fifty 7; echo; sed '1,/^unit=/d' "$work/form.$from"; } | run 60
    refused "a unit of 50 MB" "refused=1 at=$((last - 9))"

    # Under 22 hours a row may have any number of digits, and what is wrong
    # behind it still decides.
    under 22
    case $from in
        1) answer="refused=2 at=1" ;;
        2) answer="refused=2 at=2" ;;
    esac
    fifty 0 | with_row x3 '' | in_place_of 0 | run 60
    refused "a row of 50 MB under 22 hours" "$answer"
    fifty 0 | with_row x3 x | in_place_of 0 | run 60
    refused "a row of 50 MB and a letter under 22 hours" "refused=1 at=8"
    { sed '/^x3=/,$d' "$work/header"; printf x3=; fifty 0; } | run 60
    refused "a row of 50 MB up to the end under 22 hours" "refused=1 at=8"
    { fifty 1 | with_row x6 ''; cat "$work/blocks"; } | run 60
    refused "a row of 50 MB under 22 hours, and no empty line" "refused=1 at=12"
    for row in cat x1 x2 x3 x4 x5 x6; do
        fill 11000 0 >"$work/row"
        with_row "$row" '' <"$work/row" >"$work/again"
        mv "$work/again" "$work/header"
    done
    { cat "$work/header"; echo; cat "$work/blocks"; } | run 60
    refused "seven rows of 11,000 digits under 22 hours" "$answer"
}

# --- What stands behind the header, at any length and of any bytes.
hundred_lines() {
    yes "$interval" 2>/dev/null | head -c 104857600
}

any_bytes() {
    awk 'BEGIN { for (i = 0; i < 256; i++) for (j = 0; j < 256; j++) printf "%c%c", i, j }'
}

long_sheets() {
    interval=$(tail -n 1 "$work/blocks")
    passes "nothing behind the header" true
    passes "an empty line behind the header" echo
    passes "one more header behind the header" cat "$work/head.$from"
    passes "50 MB of NUL" fifty '\0'
    passes "50 MB of 0xFF" fifty '\377'
    passes "50 MB of LF" fifty '\n'
    passes "50 MB of CR" fifty '\r'
    passes "every pair of bytes" any_bytes
    kept_kb=$memory
    memory=8192
    passes "a sheet of 100 MB in 8 MB of memory" hundred_lines
    memory=$kept_kb
}

# All cases of the program that moves form $1 to form $2.
moving_cases() {
    from=$1
    to=$2
    make_forms
    slow_sheets
    cut_sheets
    moving_ends
    if [ "$frugal" = yes ]; then
        arguments "$work/form.$from"
        refused_at_once
    fi
    long_headers
    long_sheets
}

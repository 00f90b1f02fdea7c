# Pieces of a sheet, headers or blocks, that are longer than any good one: of
# 50 MB, and of the length at which a program stops to keep them. The hours
# around them are as they were. Read by faults.sh.

# --- Pieces of 50 MB.

# Standard input in the place of piece $1, closed, in the sample.
in_place_of() {
    cat "$work/before.$1" - "$work/lf" "$work/after.$1"
}

long_blocks() {
    hour=$((middle - 1))
    refused_at "$hour" 1
    { fifty a; echo; } | in_place_of "$middle" | run 60
    answered "a block of one line of 50 MB"
    fifty_lines short | in_place_of "$middle" | run 60
    answered "a block of short lines, 50 MB"

    refused_at "$hour" 2
    {
        head -n 1 "$work/good.$middle"
        fifty 7
        echo
        sed 1,2d "$work/good.$middle"
    } | in_place_of "$middle" | run 60
    answered "a second line of 50 MB"

    # The first line that no good block has.
    refused_at "$hour" $((most_lines + 1))
    { grep -v '^s=' "$work/good.$middle"; fifty_lines "$interval"; } | in_place_of "$middle" | run 60
    answered "a block of good intervals, 50 MB"

    # As where the line is short.
    { cat "$work/before.$middle"; printf a; } | "$second" >"$work/want"
    { cat "$work/before.$middle"; fifty a; } | run 60
    answered "a line of 50 MB up to the end"
}

long_header() {
    refused_at - 1
    { fifty a; echo; } | in_place_of 0 | run 60
    answered "a header of one line of 50 MB"

    refused_at - $(($(wc -l <"$work/good.0") + 1))
    { cat "$work/good.0"; fifty a; echo; } | in_place_of 0 | run 60
    answered "a header and a line of 50 MB"
    { cat "$work/good.0"; fifty_lines short; } | in_place_of 0 | run 60
    answered "a header and short lines, 50 MB"
}

# --- Pieces as long as what is kept of one, and a little shorter or longer. No
# good piece is as long. The lengths are those of the lines without the empty
# line behind them.
kept=10640
lengths="10639 10640 10641 10642 10643"

# The lines of piece $1, made so long: $2 bytes with the last LF. The last line
# is too long, the first, or none but there are too many of them, the last one
# broken off; or the last byte that is kept is an LF, and a line follows.
lengthened() {
    good=$work/good.$1
    fitting=$(($2 - $(size_of "$good") - 1))
    case $3 in
        last) cat "$good"; fill "$fitting" a; echo ;;
        first) fill "$fitting" a; echo; cat "$good" ;;
        many)
            { cat "$good"; yes "$interval" 2>/dev/null | head -n 400; } >"$work/many"
            first "$work/many" $(($2 - 1))
            echo
            ;;
        split) lengthened "$1" "$kept" last; fill $(($2 - kept - 1)) b; echo ;;
    esac
}

# The same in $work/long, and without its last LF in $work/open.
lengthen() {
    lengthened "$@" >"$work/long"
    first "$work/long" $(($2 - 1)) >"$work/open"
}

# The header of so many bytes, lengthened like this.
header_edge() {
    like="$1 bytes, $2"
    lengthen 0 "$1" "$2"
    try "$like: a header" before.0 long lf after.0
    try "$like: a header and the end" before.0 long
    try "$like: a header without its last LF" before.0 open
}

# A piece of so many bytes, at each kind of place.
edge() {
    header_edge "$1" "$2"
    lengthen 1 "$1" "$2"
    try "$like: block 1" before.1 long lf after.1
    lengthen "$middle" "$1" "$2"
    try "$like: a block" "before.$middle" long lf "after.$middle"
    try "$like: a block, and an empty one" "before.$middle" long lf lf "after.$middle"
    try "$like: a block and the end" "before.$middle" long
    try "$like: a block without its last LF" "before.$middle" open
    lengthen "$hours" "$1" "$2"
    try "$like: the last block" "before.$hours" long
    try "$like: the last block without its last LF" "before.$hours" open
    try "$like: the last block, closed" "before.$hours" long lf
    try "$like: the last block and an LF behind it" "before.$hours" long lf lf
}

edges() {
    for length in $lengths; do
        edge "$length" last
        edge "$length" first
        edge "$length" many
        if [ "$length" -gt "$kept" ]; then
            edge "$length" split
        fi
    done
}

# All pieces together that long: what is kept of them leaves room for the last
# block, and for the byte behind it.
crowded() {
    for length in $lengths; do
        lengthen 0 "$length" last
        cp "$work/long" "$work/header"
        lengthen "$middle" "$length" last
        n=1
        while [ "$n" -lt "$hours" ]; do
            cat "$work/long" "$work/lf"
            n=$((n + 1))
        done >"$work/blocks"
        try "blocks of $length bytes, the last one good" before.1 blocks "good.$hours"
        try "blocks of $length bytes, and an LF" before.1 blocks long lf lf
        try "pieces of $length bytes, and an LF" before.0 header lf heads blocks long lf lf
    done
    if [ "$frugal" = yes ]; then
        { (cd "$work" && cat before.0 header lf heads blocks long lf); yes; } 2>/dev/null | run 10
        answered "pieces of $length bytes, and no end"
    fi
}

# --- Rows of marks of any length, in a sheet that says its hours: cut_up has its
# header in $work/good.0. Where no day has so many hours a row may have any
# number of digits, and what is wrong behind them still decides.

# The header's lines under $1 hours, in $work/header.
under() {
    sed "2s/.*/hours=$1/" "$work/good.0" >"$work/header"
}

# The lines of $work/header, with standard input for the digits of row $1, and
# the bytes $2 behind them.
with_row() {
    sed "/^$1=/,\$d" "$work/header"
    printf '%s=' "$1"
    cat
    printf '%s\n' "$2"
    sed -n "/^$1=/,\$p" "$work/header" | sed 1d
}

# The answer is FORM at the header's line that has the key $1.
form_at() {
    refused_at - "$(sed -n "/^$1=/=" "$work/good.0")"
}

# How row $1 with $2 MB under 22 hours is refused: by the count, or for a letter
# at its far end.
long_row() {
    under 22
    echo "refused=2 at=2$which" >"$work/want"
    megabytes "$2" 0 | with_row "$1" '' | in_place_of 0 | run 120
    answered "a row of $2 MB under 22 hours"
    form_at "$1"
    megabytes "$2" 0 | with_row "$1" x | in_place_of 0 | run 120
    answered "a row of $2 MB and a letter under 22 hours"
}

# The key $1 has a number, and $2, $3 and $4 are the first, a middle and the last
# row.
long_rows() {
    long_row "$3" 50
    { cat "$work/before.0"; sed "/^$3=/,\$d" "$work/header"; printf '%s=' "$3"; fifty 0; } | run 60
    answered "a row of 50 MB up to the end under 22 hours"
    under 25
    fifty 0 | with_row "$3" '' | in_place_of 0 | run 60
    answered "a row of 50 MB under 25 hours"
    # The second program would take a good deal more memory than that.
    if [ "$frugal" = yes ]; then
        long_row "$3" 200
    fi

    under -24
    echo "refused=2 at=2$which" >"$work/want"
    fifty 9 | with_row "$2" '' | in_place_of 0 | run 60
    answered "a row of 50 MB of nines under -24 hours"
    refused_at - $(($(wc -l <"$work/good.0") + 1))
    { cat "$work/before.0"; fifty 1 | with_row "$4" ''; sed '/./,$!d' "$work/after.0"; } | run 60
    answered "a row of 50 MB, and no empty line behind it"
    for key in "$1" hours; do
        form_at "$key"
        fifty 7 | with_row "$key" '' | in_place_of 0 | run 60
        answered "a number of 50 MB behind $key"
    done
}

# `day`: a unit's day, between the headers of its neighbours.

. "$here/faults/hours.sh"

heads=3
own=1
which=' header=1'

# Both neighbours are lacking.
sheet_cases "$here/../samples/day/paid.txt"
counted_cases "$here/../samples/day/paid.txt"
long_rows unit cat x3 x6

# --- Both neighbours are there, a day of 23 hours before and one of 25 behind.

# The header of the sample $1 as one of $2 hours, with its empty line.
header_of_hours() {
    of_hours "$1" "$2" | sed 1d | sed '/^$/q'
}

of_three() {
    for count in 23 24 25; do header_of_hours "$1" "$count"; done
    stored <"$1" | sed '1,/^$/d'
}

# What is cut or slow within any of the three.
cut_three() {
    cut_up "$work/three" 24
    as_it_is "$work/three"
    ends_in_header
    slow_header
    for place in $(awk '{ at += length($0) + 1 } $0 == "" { print at - 1, at; if (++n == 3) exit }' "$work/three"); do
        pausing_at "$place" | run 60
        answered "a pause at $place"
    done
    behind
}

# One of them is left out, empty or there twice: the second program says what follows.
moved_three() {
    for n in 0 1 2; do
        own=$n
        cut_up "$work/three" 24
        try "header $n left out" before.0 after.0
        try "header $n as an empty line" before.0 lf after.0
        try "header $n twice" before.0 good.0 lf good.0 lf after.0
        try "header $n without its empty line" before.0 good.0 after.0
        try "header $n and the end" before.0 good.0
        try "header $n, its empty line and the end" before.0 good.0 lf
        try "header $n and an empty line more" before.0 good.0 lf lf after.0
    done
}

# Each of them is longer than any good one, or has a row of any length.
long_three() {
    for n in 0 1 2; do
        own=$n
        which=" header=$n"
        about="day, header $n of three: "
        cut_up "$work/three" 24
        long_header
        for length in $lengths; do
            header_edge "$length" last
            header_edge "$length" first
            header_edge "$length" many
        done
        long_row cat 50
        long_row x6 50
        form_at x3
        { cat "$work/before.0"; sed '/^x3=/,$d' "$work/header"; printf 'x3='; fifty 0; } | run 60
        answered "a row of 50 MB up to the end under 22 hours"
    done
    # All three, in front of good blocks and of long ones.
    own=1
    about="day, three headers: "
    for length in $lengths; do
        lengthen 0 "$length" last
        try "headers of $length bytes" long lf long lf long lf after.0
        try "headers of $length bytes, and the end" long lf long lf open
        try "two headers of $length bytes" before.0 long lf long lf after.0
    done
}

about="day, three headers: "
of_three "$here/../samples/day/paid.txt" >"$work/three"
cut_three
moved_three
long_three

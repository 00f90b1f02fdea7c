# `line`: the day of a controllable line, whose header always says its hours and has one row.

. "$here/faults/hours.sh"

heads=1
own=0
which=

sheet_cases "$here/../samples/line/paid.txt"
counted_cases "$here/../samples/line/paid.txt"
long_rows line mark mark mark

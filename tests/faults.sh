#!/bin/sh
# Faults of the world around the programs: input that ends anywhere, that comes
# slowly, that stays open, never ends or cannot be read, output that is closed
# or full, arguments, and texts of 50 MB and more, in little memory.
#
#   sh faults.sh PATH-OF-HOUR PATH-OF-DAY PATH-OF-IMPORT PATH-OF-LINE PATH-OF-UP PATH-OF-DOWN
#
# The answers of the first four are held against the second program's, from
# second/target/release beside this script. The last line counts what passed and
# what failed; the exit status is 1 if anything failed.
here=$(dirname -- "$0")
. "$here/common.sh"

all_programs faults "$@"
release=$here/second/target/release
need "$release/hour2" "$release/day2" "$release/import2" "$release/line2"

. "$here/faults/common.sh"
. "$here/faults/arguments.sh"
. "$here/faults/ends.sh"
. "$here/faults/long.sh"
. "$here/faults/sheet.sh"
. "$here/faults/archive.sh"

take hour "$1"
. "$here/faults/hour.sh"
take day "$2"
. "$here/faults/day.sh"
take import "$3"
. "$here/faults/import.sh"
take line "$4"
. "$here/faults/line.sh"
take up "$5"
moving_cases 1 2
take down "$6"
moving_cases 2 1

finish

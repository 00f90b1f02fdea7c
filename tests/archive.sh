#!/bin/sh
# An archive of sheets, up to form 2 and back, by the commands that README has:
# they are taken out of it, and run by a user who has installed the programs.
#
#   sh archive.sh PATH-OF-UP PATH-OF-DOWN PATH-OF-DAY
#
# Three years of sheets go up and come back. Then what can happen to an archive:
# runs that are killed at each of their steps and at any moment, sheets that are
# refused, sheets that change meanwhile, programs that are missing or fail, and
# a full disk. The last line counts what passed and what failed; the status is 1
# if anything failed.
. "$(dirname -- "$0")/common.sh"
. "$(dirname -- "$0")/user.sh"

[ $# -eq 3 ] || usage "archive.sh PATH-OF-UP PATH-OF-DOWN PATH-OF-DAY"
need "$@" setsid
work_in archive
work=$(cd "$work" && pwd) || exit 2
home=$work/home
user=$work/user
bin=$home/culvertjig
samples=$root/samples
day=$bin/day
# A run that is killed leaves its own folder, too.
TMPDIR=$work
export TMPDIR

# --- What README says.
up=$(commands "An archive, up and back" | grep '^archive up sheets')
down=$(commands "An archive, up and back" | grep '^archive down sheets')
found "$up" "$down"

# --- The user. The programs stand in $work, too, since those of the user are replaced.
mkdir -p "$bin" "$user" "$work/slow" || exit 2
cp "$1" "$bin/up" && cp "$2" "$bin/down" && cp "$3" "$bin/day" && cp "$root/tools/archive" "$root/tools/settle" "$bin" || exit 2
cp -p "$bin/up" "$bin/down" "$work" || exit 2

# --- How a run is judged. $work/old has each sheet as it was, $work/new as it has to be when it has moved.

# The user's sheets are those of the folder $1, byte for byte, and nothing else lies about.
are() {
    diff -r -q "$work/$1" "$user/sheets" >"$work/differ" 2>&1
}

# How many of the user's sheets are like those of the folder $1.
alike() {
    diff -r -s "$work/$1" "$user/sheets" | grep -c ' are identical$'
}

# Each of the user's sheets is the old or the moved one. What a killed run has left bears no sheet's name.
is_whole() {
    sheets=$(find "$user/sheets" -name '*.txt' | wc -l)
    [ "$sheets" -eq "$(find "$work/old" -name '*.txt' | wc -l)" ] && [ $(($(alike old) + $(alike new))) -eq "$sheets" ]
}

# Time, mode and owner of each sheet.
marks() {
    find "$user/sheets" -name '*.txt' -printf '%P %T@ %m %u %g\n' | sort
}

# The run has the status $2; the sheets are now those of the folder $3, and it has printed as many as $4, where that is known.
left() {
    if [ "$status" -ne "$2" ]; then
        fail "$1: status $status, $(tail -n 1 "$work/err")"
    elif ! are "$3"; then
        fail "$1: $(head -n 1 "$work/differ")"
    elif [ $# -eq 4 ] && [ "$(wc -l <"$work/out")" -ne "$4" ]; then
        fail "$1: it prints $(wc -l <"$work/out") sheets"
    else
        pass
    fi
}

# The same where no sheet could be moved: $2 stands on standard error.
not_moved() {
    left "$1" 1 old 0
    grep -q -F -e "$2" "$work/err" && pass || fail "$1: nothing is said of $2"
}

# Nothing was tried: status 2, and $2 on standard error.
not_tried() {
    if [ "$status" -ne 2 ]; then
        fail "$1: status $status"
    elif ! grep -q -F -e "$2" "$work/err"; then
        fail "$1: it says $(head -n 1 "$work/err")"
    else
        pass
    fi
}

. "$root/tests/archive/sheets.sh"
. "$root/tests/archive/cases.sh"

three_years
few_cases
finish

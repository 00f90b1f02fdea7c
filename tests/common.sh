# What the scripts of this folder share: how they begin and end, how a
# program is run and judged, and what is counted. Each reads this file first.
set -u
LC_ALL=C
export LC_ALL

passed=0
failed=0

# --- How a script begins and ends.

# Says how the script is called, and ends it.
usage() {
    echo "usage: sh $1" >&2
    exit 2
}

# Each of these programs has to be there.
need() {
    for program in "$@"; do
        if ! command -v "$program" >/dev/null; then
            echo "no program $program" >&2
            exit 2
        fi
    done
}

# A script NAME.sh that is told the paths of the four programs that settle, `four_programs NAME "$@"`: `named` finds them.
four_programs() {
    [ $# -eq 5 ] || usage "$1.sh PATH-OF-HOUR PATH-OF-DAY PATH-OF-IMPORT PATH-OF-LINE"
    need "$2" "$3" "$4" "$5"
    work_in "$1"
    hour=$2
    day=$3
    import=$4
    line=$5
}

# The one of them that has this name, as $program.
named() {
    case $1 in
        hour) program=$hour ;;
        day) program=$day ;;
        import) program=$import ;;
        line) program=$line ;;
    esac
}

# The same for a script that is told the paths of all programs, the two that move a sheet behind the four.
all_programs() {
    [ $# -eq 7 ] || usage "$1.sh PATH-OF-HOUR PATH-OF-DAY PATH-OF-IMPORT PATH-OF-LINE PATH-OF-UP PATH-OF-DOWN"
    name=$1
    shift
    need "$@"
    work_in "$name"
}

# Copies them, `copy_programs FOLDER "$@"`, each to its name in that folder.
copy_programs() {
    folder=$1
    shift
    for name in hour day import line up down; do
        cp "$1" "$folder/$name" || exit 2
        shift
    done
}

# A folder of this name for the script's files, as long as it runs: $work.
work_in() {
    work=target/$1.$$
    mkdir -p "$work" || exit 2
    trap 'rm -rf "$work"; rmdir target 2>/dev/null' EXIT
    trap 'exit 2' HUP INT TERM
}

# The last line, and the script's status: 1 if anything failed.
finish() {
    echo "$passed passed, $failed failed"
    [ "$failed" -eq 0 ]
}

# --- What is counted. $about stands in front of each message.
about=

pass() {
    passed=$((passed + 1))
}

fail() {
    failed=$((failed + 1))
    echo "failed: $about$1"
}

# --- How a program is run and judged.

# A program that has not ended after so many seconds is ended: status 124.
if command -v timeout >/dev/null; then
    within() { timeout "$@"; }
else
    within() { shift; "$@"; }
fi

# Where two files differ, for the message: < is of the first, > of the second.
differ() {
    diff "$1" "$2" | grep '^[<>]' | head -n 4 | tr '\n' ' '
}

# Stands directly behind a run. The answer in $work/got has to be the one in $2,
# or else in $work/want, with status 0 and nothing in $work/err, which is what
# the program wrote on standard error.
answered() {
    status=$?
    want=${2:-$work/want}
    if [ "$status" -ne 0 ]; then
        fail "$1: status $status"
    elif [ -s "$work/err" ]; then
        fail "$1: $(head -n 1 "$work/err")"
    elif ! cmp -s "$work/got" "$want"; then
        fail "$1: $(differ "$work/got" "$want")"
    else
        pass
    fi
}

# The answer in the file $2 begins, goes on and ends as the file $1 does, where `...` stands for any lines.
is_answer() {
    awk 'NR == FNR { want[++n] = $0; next } { got[++m] = $0 }
        END {
            i = 1
            for (j = 1; j <= m; j++) {
                if (want[i] == "..." && got[j] == want[i + 1]) i++
                if (want[i] == got[j]) i++
                else if (want[i] != "...") exit 1
            }
            exit i != n + 1
        }' "$1" "$2"
}

# --- A day's sheet as it is stored, with its own header alone.

# Standard input as `day` reads it, where both neighbours are lacking, without the empty lines for them.
stored() {
    sed 1d | sed '1,/^$/{/^$/{n;/^$/d;};}'
}

# The stored sheet $1 as `day` reads it, if both neighbours are lacking.
framed() {
    echo
    sed '/^$/q' "$1"
    echo
    sed '1,/^$/d' "$1"
}

#!/bin/sh
# The commands of docs/answers.md, as they stand there: each block behind
# <!-- run --> is run in the repository, with the programs on the path, and has to
# print the block behind <!-- prints -->, where ` ...` leaves out a line's rest.
#
#   sh commands.sh PATH-OF-HOUR PATH-OF-DAY PATH-OF-IMPORT PATH-OF-LINE PATH-OF-UP PATH-OF-DOWN
#
# The commands for the rows that exclude an hour, a unit's and a controllable
# line's, are then tried on every hour of other headers, with marks of the days
# before and after too, against what the program pays. The last line counts what
# passed and what failed; the status is 1 if anything failed.
. "$(dirname -- "$0")/common.sh"

all_programs commands "$@"
work=$(cd "$work" && pwd) || exit 2
root=$(cd "$(dirname -- "$0")/.." && pwd) || exit 2
page=$root/docs/answers.md

mkdir "$work/bin" || exit 2
copy_programs "$work/bin" "$@"
PATH=$work/bin:$PATH
cd "$root" || exit 2

# --- The page's commands, run.N, and what they print, prints.N.
awk -v dir="$work" '
/^<!-- run -->/ { file = dir "/run." ++n; next }
/^<!-- prints -->/ { file = dir "/prints." n; next }
/^```/ { inside = file != "" && !inside; if (inside) printf "" >file; else file = ""; next }
inside { print >file }
END { print n + 0 >(dir "/count") }' "$page"
count=$(cat "$work/count")
[ "$count" -gt 0 ] || fail "the page has no commands"

# Each line of $work/got is that of the file, or begins with it.
is_printed() {
    awk 'NR == FNR { want[++n] = $0; next }
        { rest = sub(/ \.\.\.$/, " ", want[++m]); if (rest ? index($0, want[m]) != 1 : $0 != want[m]) exit 1 }
        END { if (n != m) exit 1 }' "$1" "$work/got"
}

n=1
while [ "$n" -le "$count" ]; do
    (within 20 sh -e "$work/run.$n") >"$work/got" 2>"$work/err"
    status=$?
    if [ "$status" -gt 1 ] || [ -s "$work/err" ]; then
        fail "command $n: status $status, $(head -n 1 "$work/err")"
    elif [ ! -s "$work/prints.$n" ] || ! is_printed "$work/prints.$n"; then
        fail "command $n: $(differ "$work/got" "$work/prints.$n")"
    else
        pass
    fi
    n=$((n + 1))
done

# --- Which hours are excluded: the command that reads `rtc`, or `mark`, and the
# program, on a day that pays in every hour. A mark at each hour, one row after
# the other.
excluding=$(grep -l 'rtc' "$work"/run.*)
unmarked=$(grep -l '"mark"' "$work"/run.*)
[ -n "$excluding" ] && [ -n "$unmarked" ] || fail "the page has no command for an excluded hour"

# A day that pays in each hour, but for what its three headers say: digit $2, from 0, of row $1 of header $5 is $3, and its rtc $4. The others have the
# other rtc. The days have the hours $6, where - is a neighbour that is lacking. Form 1 has 24 hours.
marked() {
    awk -v row="$1" -v at="$2" -v digit="$3" -v rtc="$4" -v head="$5" -v counts="$6" '
        function marks(key, n, all, i) {
            for (i = 0; i < hours[n]; i++) all = all (n == head && key == row && i == at ? digit : key == "cat")
            print key "=" all
        }
        BEGIN {
            split(counts, said, " ")
            for (n = 0; n < 3; n++) {
                hours[n] = said[n + 1]
                if (hours[n] != "-") {
                    print hours[n] == 24 ? "form=1" : "form=2\nhours=" hours[n]
                    print "unit=4711\nrtc=" (n == head ? rtc : 1 - rtc)
                    marks("cat", n)
                    for (i = 1; i <= 6; i++) marks("x" i, n)
                }
                print ""
            }
        }
        { block = block $0 "\n" }
        END { for (i = 0; i < hours[1]; i++) { sub(/hour=[0-9]*/, "hour=" i, block); printf "%s%s", i ? "\n" : "", block } }' samples/hour/sample.txt
}

# A controllable line's day of $2 hours that pays in each, but for the one at $1: each mark is $3, and that one is 0.
line_marked() {
    awk -v at="$1" -v hours="$2" -v digit="$3" '
        $0 == "" { block++; next }
        block == 6 { lines = lines $0 "\n" }
        END {
            for (i = 0; i < hours; i++) all = all (i == at ? 0 : digit)
            print "line=314\nhours=" hours "\nmark=" all
            for (i = 0; i < hours; i++) { sub(/hour=[0-9]*/, "hour=" i, lines); printf "\n%s", lines }
        }' samples/line/paid.txt
}

# The hours of $2 that the command in the file $3 excludes in $work/sheet, and those to which the program $4 pays 0.
same_hours() {
    h=0
    while [ "$h" -lt "$2" ]; do
        sed "s/-v hour=[0-9]*/-v hour=$h/; s|samples/$4/[a-z]*.txt|$work/sheet|" "$3" >"$work/command"
        [ -z "$(sh "$work/command")" ] || echo "hour=$h pay=0"
        h=$((h + 1))
    done >"$work/want"
    "$4" <"$work/sheet" | grep ' pay=0$' >"$work/got"
    if cmp -s "$work/got" "$work/want"; then pass; else fail "$4, $2 hours, $1: $(differ "$work/got" "$work/want")"; fi
}

# The row $1 with a mark at hour $2 of header $3, with rtc $4, on days of the hours $5.
tried() {
    digit=1
    [ "$1" = cat ] && digit=0
    marked "$1" "$2" "$digit" "$4" "$3" "$5" >"$work/sheet"
    # shellcheck disable=SC2086
    set -- "$1 at hour $2 of header $3 with rtc=$4 on days of $5" $5
    same_hours "$1" "$3" "$excluding" day
}

for row in cat x1 x2 x3 x4 x5 x6; do
    for at in 0 1 2 4 11 19 21 22 23; do
        tried "$row" "$at" 1 1 "- 24 -"
    done
done
for row in x4 x5 x6; do
    tried "$row" 12 1 0 "- 24 -"
done
for hours in 23 25; do
    for at in 0 $((hours - 3)) $((hours - 2)) $((hours - 1)); do
        for row in x3 x4; do
            tried "$row" "$at" 1 0 "- $hours -"
        done
    done
done

# Over midnight, each neighbour with each count, the other one being there or not. What it reaches is told apart from what it does not.
for days in "23 24 25" "24 25 23" "25 23 24" "24 24 -" "- 25 24"; do
    # shellcheck disable=SC2086
    set -- $days
    for row in cat x1 x3 x4 x5 x6; do
        [ "$1" = - ] || tried "$row" $(($1 - 1)) 0 1 "$days"
        [ "$3" = - ] || tried "$row" 0 2 1 "$days"
    done
    for rtc in 0 1; do
        for row in x4 x5; do
            [ "$1" = - ] || tried "$row" $(($1 - 2)) 0 "$rtc" "$days"
            [ "$3" = - ] || tried "$row" 1 2 "$rtc" "$days"
        done
    done
    [ "$1" = - ] || tried x4 $(($1 - 3)) 0 1 "$days"
    [ "$3" = - ] || tried x4 2 2 1 "$days"
    tried x4 0 1 1 "$days"
    tried x6 $(($2 - 1)) 1 1 "$days"
done

for hours in 23 24 25; do
    for at in 0 11 $((hours - 1)); do
        for digit in 1 2; do
            line_marked "$at" "$hours" "$digit" >"$work/sheet"
            same_hours "0 at hour $at, else $digit" "$hours" "$unmarked" line
        done
    done
done

finish

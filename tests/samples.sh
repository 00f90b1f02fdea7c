#!/bin/sh
# The samples, and the page that explains them. Each samples/PROGRAM/NAME.txt
# goes through its program, and what is printed has to be NAME.out, byte for
# byte. Each stored sheet samples/sheets/NAME.txt goes through `day` with its
# neighbours in that folder, by README's command. Then docs/answers.md: what it
# quotes has to stand in the samples.
#
#   sh samples.sh PATH-OF-HOUR PATH-OF-DAY PATH-OF-IMPORT PATH-OF-LINE
#
# What the page quotes, a sample being named as in hour/reach:
#   <!-- sample: NAME [H] --> stands before a quoted block. In it `L | text` is
#       line L of the sample's first block, which is its own header in a text for
#       `day`, or of hour H's, or of header N's with header=N for H (`...` leaves
#       out the rest), a bar alone is a remark, and the other lines are the
#       printed answer, each with a remark of ours behind two spaces; `...` alone
#       leaves out lines of it.
#   <!-- column: NAME --> stands before a table whose first cells are the answer.
#   A table row that begins with a NAME has the answer's last line in its second
#   cell, and in "NAME prints ANSWER" that line follows.
# Every name is a sample's, and every sample is named. The last line counts what
# passed and what failed; the status is 1 if anything failed.
. "$(dirname -- "$0")/common.sh"
. "$(dirname -- "$0")/user.sh"

four_programs samples "$@"
page=$root/docs/answers.md

# --- Each sample through its program.
for name in hour day import line; do
    named "$name"
    for text in "$root/samples/$name"/*.txt; do
        said=${text%.txt}.out
        label=$name/$(basename "$text" .txt)
        if [ ! -f "$said" ]; then
            fail "$label: no .out"
            continue
        fi
        within 20 "$program" <"$text" >"$work/got" 2>"$work/err"
        answered "$label" "$said"
    done
    for said in "$root/samples/$name"/*.out; do
        [ -f "${said%.out}.txt" ] || fail "$name/$(basename "$said" .out): no .txt"
    done
done

# --- Each stored sheet between its neighbours, which are the sheets before and behind it in its folder.

# README's command, for the sheet $own between $before and $after. `echo` stands for the `sed` of one that is lacking.
# shellcheck disable=SC2016
neighbours_command() {
    lacking=
    [ "$before" = - ] && lacking='s|sed [^ ]* "$before"|echo|;'
    [ "$after" = - ] && lacking=$lacking's|sed [^ ]* "$after"|echo|;'
    commands "A day between its neighbours" | sed -n '/^{/,/^}/p' |
        sed 's|samples/sheets/4711-2026-10-31.txt|"$before"|; s|samples/sheets/4711-2026-11-01.txt|"$own"|
            s|samples/sheets/4711-2026-11-02.txt|"$after"|; s|target/bin/day|"$day"|;'"$lacking"
}

set -- - "$root"/samples/sheets/*.txt -
while [ $# -ge 3 ]; do
    before=$1
    own=$2
    after=$3
    shift
    neighbours_command >"$work/command"
    (. "$work/command") >"$work/got" 2>"$work/err"
    answered "sheets/$(basename "$own" .txt)" "${own%.txt}.out"
done
for said in "$root"/samples/sheets/*.out; do
    [ -f "${said%.out}.txt" ] || fail "sheets/$(basename "$said" .out): no .txt"
done

# --- What the page quotes: for each quotation a line in the list, a file of
# answers and a file of sheet lines.
: >"$work/list"
awk -v dir="$work" '
function start(kind, name, hour) {
    n++
    printf "" >(dir "/answer." n)
    printf "" >(dir "/lines." n)
    print n, kind, name, hour >(dir "/list")
}
function finish() {
    close(dir "/answer." n)
    close(dir "/lines." n)
    mark = ""
    inside = 0
}
function answer(text) {
    print text >(dir "/answer." n)
}
# The code within a table cell, counted from 1.
function cell(i, cells, codes) {
    if (split($0, cells, "|") <= i || split(cells[i + 1], codes, "`") < 3) return ""
    return codes[2]
}
/^<!-- (sample|column): / { mark = $2; start(mark, $3, $4 == "-->" ? "-" : $4); next }
mark == "sample:" {
    if (/^```/) { if (inside) finish(); else inside = 1; next }
    if (!inside || /^ *\|/) next
    if (match($0, /^ *[0-9]+ \| /)) print $1 "\t" substr($0, RLENGTH + 1) >(dir "/lines." n)
    else { sub(/  .*/, ""); answer($0) }
    next
}
mark == "column:" {
    if (/^\|/) { if (cell(1) != "") answer(cell(1)); inside = 1; next }
    if (inside) finish()
    next
}
/^\| `(hour|day|import|line|sheets)\// { start("last:", cell(1), "-"); answer(cell(2)); finish(); next }
# "prints" may stand at a line end, so a line is read together with the one before.
{
    both = before " " $0
    before = $0
    while (match(both, /`(hour|day|import|line|sheets)\/[a-z0-9-]+` prints `[^`]+`/)) {
        split(substr(both, RSTART, RLENGTH), codes, "`")
        both = before = substr(both, RSTART + RLENGTH)
        start("last:", codes[2], "-")
        answer(codes[4])
        finish()
    }
}
END { if (mark != "") print "the page: a quotation without an end" }' "$page" >"$work/open"
[ -s "$work/open" ] && fail "$(cat "$work/open")"

# The first line of a quotation that does not stand at its place in the sample. Each header and block ends with an empty line, and one that is lacking
# is an empty line: a text for `day` has three before its hour 0, a text for `hour` none, and others have one.
misquoted() {
    case $4 in
        day/*) heads=3 ;;
        hour/*) heads=0 ;;
        *) heads=1 ;;
    esac
    awk -v block="$3" -v heads="$heads" '
        BEGIN {
            if (block == "-") block = heads == 3
            else if (!sub(/^header=/, "", block)) block += heads
        }
        NR == FNR { want[$1 + 0] = substr($0, index($0, "\t") + 1); next }
        $0 == "" { at++; line = 0; next }
        { line++ }
        at + 0 == block + 0 && line in want {
            quote = want[line]
            same = sub(/ \.\.\.$/, " ", quote) ? index($0, quote) == 1 : $0 == quote
            if (same) delete want[line]
        }
        END { for (line in want) { print "line " line; exit } }' "$1" "$2"
}

while read -r n kind name block; do
    said=$root/samples/$name.out
    if [ ! -f "$said" ]; then
        fail "the page: no sample $name"
        continue
    elif [ ! -s "$work/answer.$n" ] && [ ! -s "$work/lines.$n" ]; then
        fail "the page: nothing quoted for $name"
    fi
    if [ -s "$work/lines.$n" ]; then
        wrong=$(misquoted "$work/lines.$n" "$root/samples/$name.txt" "$block" "$name")
        if [ -n "$wrong" ]; then fail "the page: $name, $wrong"; else pass; fi
    fi
    if [ -s "$work/answer.$n" ]; then
        case $kind in
            last:) tail -n 1 "$said" >"$work/want" ;;
            *) cp "$said" "$work/want" ;;
        esac
        if is_answer "$work/answer.$n" "$work/want"; then
            pass
        else
            fail "the page: $name, $(differ "$work/answer.$n" "$work/want")"
        fi
    fi
done <"$work/list"

# --- Every name on the page is a sample's, and every sample is named there.
awk '{
    while (match($0, /`(hour|day|import|line|sheets)\/[a-z0-9-]+`/)) {
        print substr($0, RSTART + 1, RLENGTH - 2)
        $0 = substr($0, RSTART + RLENGTH)
    }
}' "$page" | sort -u >"$work/named"
(cd "$root/samples" && ls hour/*.txt day/*.txt import/*.txt line/*.txt sheets/*.txt) | sed 's/\.txt$//' | sort -u >"$work/there"
for name in $(comm -23 "$work/named" "$work/there"); do
    fail "the page names $name, which is no sample"
done
for name in $(comm -13 "$work/named" "$work/there"); do
    fail "the page does not name $name"
done
[ -s "$work/named" ] && pass

finish

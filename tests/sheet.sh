#!/bin/sh
# The sheet's page, docs/sheet.md, against the reader: its listings have the
# answers that stand beside them, its tables have the reader's keys in the
# reader's order, and every range is the reader's on both sides.
#
#   sh sheet.sh PATH-OF-HOUR PATH-OF-DAY PATH-OF-IMPORT PATH-OF-LINE
#
# What the page says of itself, each before a fenced block or a table:
#   <!-- listing: NAME -->                    a text, or a part of one
#   <!-- answer: PROGRAM NAME [NAME] -->      what is printed for it: for the
#       first name alone, or for it and the second for each hour of its day. A
#       day sheet has no neighbours then, but where its listing has three
#       headers. `...` stands for any lines.
#   <!-- keys: NAME.. lines A to B, keys K.. -->   the next rows are these keys of
#       the reader, and stand on these lines of each listing. K is a kind of line,
#       for all of its keys in their order, or one key of it, KIND.N; K=L is a row
#       for both. A key may have its row in more than one table.
# What it says of the count of hours is tried at the end, for each of the three,
# and what it says of the three headers of `day`.
# The last line counts what passed and what failed; the status is 1 if anything
# failed.
. "$(dirname -- "$0")/common.sh"

four_programs sheet "$@"
root=$(dirname -- "$0")/..
page=$root/docs/sheet.md

# --- The page in pieces: listing.NAME; answer.N with its words in answers; rows
# with key, unit and range; and kinds with what the marks say of them: a key or a
# kind, and the listings, A+B, with the first and last line.
: >"$work/answers"
: >"$work/rows"
: >"$work/kinds"
awk -v dir="$work" '
/^<!-- listing: / { file = dir "/listing." $3; next }
/^<!-- answer: / { file = dir "/answer." ++n; print n, $3, $4, $5 == "-->" ? "" : $5 >(dir "/answers"); next }
/^<!-- keys: / {
    table = 1
    names = $3
    for (i = 4; $i != "lines"; i++) names = names "+" $i
    lines = $(i + 1) " " $(i + 3) + 0
    for (i += 5; $i != "-->"; i++) print $i, names, lines >(dir "/kinds")
    next
}
/^```/ { inside = file != "" && !inside; if (inside) printf "" >file; else { if (file != "") close(file); file = "" } next }
inside { print >file; next }
table && /^\| `/ {
    gsub(/`/, "")
    split($0, cells, / *\| */)
    print cells[2] "\t" cells[4] "\t" cells[5] >(dir "/rows")
    next
}
table && !/^\|/ { table = 0 }' "$page"
[ -s "$work/answers" ] && [ -s "$work/rows" ] || fail "the page has no listings or no tables"

# --- Texts of the listings.

# The hours of the day that a part begins. Of three headers the second is the day's own.
hours_of() {
    said=$(case $1 in *.three) sed '1,/^$/d' "$1" ;; *) cat "$1" ;; esac | sed -n '/^$/q; s/^\(.* \)\{0,1\}hours=\(2[345]\)$/\2/p')
    echo "${said:-24}"
}

# A part, and for each hour of its day, or for as many as are told, a block like the other one.
with_blocks() {
    cat "$1"
    awk -v hours="${3:-$(hours_of "$1")}" '{ line[NR] = $0 } END {
        for (hour = 0; hour < hours; hour++) {
            if (hour) print ""
            for (i = 1; i <= NR; i++) { if (i == 1) sub(/^hour=[^ ]*/, "hour=" hour, line[i]); print line[i] }
        }
    }' "$2"
}

# What `day` reads for the stored sheet $2 with the headers of the stored sheets $1 and $3 beside its own; - is a neighbour that is lacking.
between() {
    for sheet in "$1" "$2" "$3"; do
        if [ "$sheet" = - ]; then echo; else sed '/^$/q' "$sheet"; fi
    done
    sed '1,/^$/d' "$2"
}

# Runs the program of this name on $work/text. For `day` that is a stored sheet, without neighbours, or it begins with the listing of three headers.
run() {
    named "$1"
    case $1,${2-} in
        day,three | hour,* | import,* | line,*) cp "$work/text" "$work/input" ;;
        day,*) between - "$work/text" - >"$work/input" ;;
    esac
    within 20 "$program" <"$work/input" >"$work/got" 2>"$work/err"
}

while read -r n program first blocks; do
    if [ -n "$blocks" ]; then
        with_blocks "$work/listing.$first" "$work/listing.$blocks" >"$work/text"
    else
        cp "$work/listing.$first" "$work/text"
    fi
    run "$program" "$first"
    if is_answer "$work/answer.$n" "$work/got"; then
        pass
    else
        fail "$program, $first $blocks: $(differ "$work/got" "$work/answer.$n")"
    fi
done <"$work/answers"

# --- The keys: KIND.N and key of the reader's table, and those of the page's rows. Each kind begins at the number that is its constant.
kinds='ahead AHEAD curve DA energy INTERVAL reserve RESERVES regulation REGULATION
    import IMPORT curtailed CURTAILED header HEADER icl LINE_LINE'
awk -v kinds="$kinds" '
    BEGIN { n = split(kinds, word, " "); for (i = 2; i <= n; i += 2) kind_of[word[i]] = word[i - 1] }
    FNR == NR { if (/^pub const [A-Z_]+: usize = [0-9]+;/) { sub(/:/, "", $3); if ($3 in kind_of) first[$6 + 0] = kind_of[$3] }; next }
    {
        while (match($0, /b" *[a-z0-9]+="/)) {
            key = substr($0, RSTART + 2, RLENGTH - 4)
            $0 = substr($0, RSTART + RLENGTH)
            sub(/^ */, "", key)
            if (k in first) { kind = first[k]; n = 0 }
            print kind "." n++, key
            k++
        }
    }' k=0 "$root/crates/keys/src/lib.rt" "$root/crates/keys/src/table.rt" >"$work/reader"
[ -s "$work/reader" ] || fail "the reader's table of keys was not found in crates/keys/src/table.rt"
awk 'NR == FNR { kind = $1; sub(/\..*/, "", kind); all[kind] = all[kind] " " $1; next }
    { n = split($1 in all ? all[$1] : $1, k, " "); for (i = 1; i <= n; i++) print k[i], $2, $3, $4 }' \
    "$work/reader" "$work/kinds" >"$work/numbers"
paste -d ' ' "$work/numbers" "$work/rows" >"$work/table"
awk '{ n = split($1, k, "="); for (i = 1; i <= n; i++) print k[i], $5 }' "$work/table" | sort -u >"$work/keys"
sort -o "$work/reader" "$work/reader"
if cmp -s "$work/reader" "$work/keys"; then
    pass
else
    fail "the keys of the page and of the reader: $(differ "$work/keys" "$work/reader")"
fi

# --- The ranges. Each key of a listing's line gets values on both sides.

# The listing $1 with the first value behind key $3 on line $2 changed to $4. The
# curve's n changes its pairs, too.
changed() {
    awk -v at="$2" -v key="$3" -v value="$4" 'NR != at { print; next } {
        n = split($0, pair, " ")
        line = ""
        for (i = 1; i <= n; i++) {
            if (key == "n" && i > 2) break
            if (!done && index(pair[i], key "=") == 1) { pair[i] = key "=" value; done = 1 }
            line = line (i > 1 ? " " : "") pair[i]
        }
        for (i = 1; key == "n" && i <= value; i++) line = line " to=" i * 1000 " at=100"
        print line
    }' "$work/listing.$1"
}

# The text of the part $1 and 25 blocks like $2, of which the first is the changed one.
first_of() {
    { cat "$work/listing.$1" "$work/changed"; echo; with_blocks /dev/null "$work/listing.$2" 25 | sed '1,/^$/d'; } >"$work/text"
}

# The number of the check that refuses line $2 of the listing $1, if it is its
# first block or its header, with key $3 at $4; 0 where none refuses that line.
refusal_of() {
    end=
    case $1 in form-*) end=' header=1' ;; esac
    changed "$@" >"$work/changed"
    case $1 in
        form-*) with_blocks "$work/changed" "$work/listing.block" >"$work/text" && run day ;;
        block) cp "$work/changed" "$work/text" && run hour ;;
        import*) with_blocks "$work/changed" "$work/listing.curtailed" >"$work/text" && run import ;;
        curtailed) first_of import-25 curtailed && run import ;;
        line*) with_blocks "$work/changed" "$work/listing.transfer" >"$work/text" && run line ;;
        transfer) first_of line-25 transfer && run line ;;
    esac
    sed -n "s/^\(hour=0 \)\{0,1\}refused=\([0-9]*\) .*at=$2$end\$/\2/p; 1q" "$work/got" | grep . || echo 0
}

# With key $3 at $4 line $2 is refused by one of the checks $5, or by none.
judged() {
    number=$(refusal_of "$1" "$2" "$3" "$4")
    case " $5 " in
        *" $number "*) pass ;;
        *) fail "$1, line $2, $3=$4: refused=$number, and not $5" ;;
    esac
}

# A number from $4 to $5: RANGE beyond them, or FORM where that takes eight digits or is a count of pairs. A minus alone is FORM, but for a
# key that may be missing ($6).
number_row() {
    beyond=2
    [ "$3" = n ] && beyond=1
    judged "$1" "$2" "$3" "$4" "$admitted"
    judged "$1" "$2" "$3" "$5" "$admitted"
    judged "$1" "$2" "$3" "$(($4 - 1))" "$beyond"
    if [ "$5" -eq 9999999 ]; then
        judged "$1" "$2" "$3" 10000000 1
    else
        judged "$1" "$2" "$3" "$(($5 + 1))" "$beyond"
    fi
    if [ "$6" = yes ]; then
        judged "$1" "$2" "$3" - "$admitted"
    elif [ "$3" != n ]; then
        judged "$1" "$2" "$3" - 1
    fi
}

# A digit of the list $4 for each hour: at hour 5 and at the last each of the ten, and elsewhere 0.
digits_row() {
    zeros=$(printf "%0$(($(hours_of "$work/listing.$1") - 1))d" 0)
    for digit in 0 1 2 3 4 5 6 7 8 9; do
        case "$4," in
            *" $digit,"*) wanted=$admitted ;;
            *) wanted=2 ;;
        esac
        judged "$1" "$2" "$3" "00000$digit${zeros#00000}" "$wanted"
        judged "$1" "$2" "$3" "$zeros$digit" "$wanted"
    done
    judged "$1" "$2" "$3" "$zeros" 1
    judged "$1" "$2" "$3" "${zeros}00" 1
}

# What may be said of a line whose numbers are in their ranges.
admitted="0 3 4 5 6 7 10"

# Tries a row of the page, with key $4, unit $5 and range $6, on the lines $2 to $3 of the listing $1.
try_row() {
    tried=0
    at=$2
    while [ "$at" -le "$3" ]; do
        if sed -n "${at}p" "$work/listing.$1" | tr ' ' '\n' | grep -q "^$4="; then
            tried=1
            may_miss=no
            case $5 in *' or -') may_miss=yes ;; esac
            case $6 in
                'digits of '*) digits_row "$1" "$at" "$4" "${6#digits of}" ;;
                *' to '*) number_row "$1" "$at" "$4" "${6% to *}" "${6#* to }" "$may_miss" ;;
                *' or '*) number_row "$1" "$at" "$4" "${6% or *}" "${6#* or }" "$may_miss" ;;
                *) number_row "$1" "$at" "$4" "$6" "$6" "$may_miss" ;;
            esac
        fi
        at=$((at + 1))
    done
    [ "$tried" -eq 1 ] || fail "$1: no line $2 to $3 has the key $4"
}

tab=$(printf '\t')
while IFS=$tab read -r place unit range; do
    # shellcheck disable=SC2086
    set -- $place
    for listing in $(echo "$2" | tr + ' '); do
        try_row "$listing" "$3" "$4" "$5" "$unit" "$range"
    done
done <"$work/table"

. "$root/tests/sheet/counts.sh"
. "$root/tests/sheet/headers.sh"

finish

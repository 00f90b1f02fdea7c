# Days and their neighbours. Read by month.sh, whose $way is the command that
# each case runs.

# The folder of stored samples: three days of one unit, the second of them with 25 hours. Marks of the first and the third reach into the second, at
# its first two hours and its last two.
first=4711-2026-10-31
second=4711-2026-11-01
third=4711-2026-11-02

# The stored sample $2 as the user's sheet $1.
keep_sheet() {
    cp "$samples/sheets/$2.txt" "$user/sheets/$1.txt"
}

# Its header, or an empty line for -.
top() {
    if [ "$1" = - ]; then echo; else sed '/^$/q' "$user/sheets/$1.txt"; fi
}

# The answer that the sheet $1 has to have between $2 and $3.
between() {
    { top "$2"; top "$1"; top "$3"; sed '1,/^$/d' "$user/sheets/$1.txt"; } | "$work/day" >"$work/want/$1"
}

# The same where this is the answer.
refused_as() {
    echo "$2" >"$work/want/$1"
}

# The headers beside the answer to sheet $1 are those of the sheets $2 and $3.
has_days() {
    { top "$2"; top "$3"; } | cmp -s - "$user/sheets/$1.days" && pass || fail "$1.days has not the headers of $2 and $3"
}

# The answer to sheet $1 has these lines.
prints() {
    answer=$user/sheets/$1.out
    shift
    for line in "$@"; do
        grep -q -x -e "$line" "$answer" && pass || fail "${answer##*/} has no line $line"
    done
}

# The three days come, and have to have the answers that they have beside each other.
add_three() {
    for name in "$first" "$second" "$third"; do
        [ -f "$user/sheets/$name.txt" ] || keep_sheet "$name" "$name"
        cp "$samples/sheets/$name.out" "$work/want/$name"
    done
}

three_days() {
    no_sheets
    add_three
}

# The sheet $1 becomes what a command makes of it, and is newer then; or as old as it was.
correct() {
    sh -c "$2" <"$user/sheets/$1.txt" >"$work/corrected"
    cp "$work/corrected" "$user/sheets/$1.txt"
}

correct_unseen() {
    touch -r "$user/sheets/$1.txt" "$work/time"
    correct "$@"
    touch -r "$work/time" "$user/sheets/$1.txt"
}

# --- Neighbours that come, change and go.

neighbours_change() {
    three_days
    as_user "$way"
    settled "three days" 0 "$first" "$second" "$third"
    # What the samples show of them.
    for name in "$first" "$second" "$third"; do
        cmp -s "$samples/sheets/$name.days" "$user/sheets/$name.days" && pass || fail "samples/sheets/$name.days is not what settle keeps"
    done
    has_days "$first" - "$second"
    has_days "$second" "$first" "$third"
    has_days "$third" "$second" -
    prints "$second" 'hour=0 pay=0' 'hour=1 pay=0' 'hour=2 pay=10000' 'hour=22 pay=30000' 'hour=23 pay=0' 'hour=24 pay=0'
    as_user "$way"
    settled "three days, and nothing new" 0

    # A new time is a new sheet, and no new neighbour.
    touch "$user/sheets/$second.txt"
    as_user "$way"
    settled "a neighbour that is touched" 0 "$second"
    correct "$third" "sed 's/pen=5000/pen=5001/'"
    between "$third" "$second" -
    as_user "$way"
    settled "a neighbour with a corrected block" 0 "$third"
    correct "$third" "sed '/^x6=/s/1/0/'"
    between "$third" "$second" -
    between "$second" "$first" "$third"
    as_user "$way"
    settled "a neighbour with a corrected header" 0 "$second" "$third"
    prints "$second" 'hour=0 pay=0' 'hour=23 pay=30000' 'hour=24 pay=30000'

    mv "$user/sheets/$third.txt" "$work/third"
    as_user "$way"
    [ "$status" -eq 1 ] && grep -q "without a sheet: sheets/$third.out" "$work/err" && grep -q "without a sheet: sheets/$third.days" "$work/err" &&
        pass || fail "a neighbour that is gone, and its answer is there: status $status"
    rm "$user/sheets/$third.out" "$user/sheets/$third.days" "$work/want/$third"
    between "$second" "$first" -
    as_user "$way"
    settled "a neighbour that is gone" 0
    has_days "$second" "$first" -
    mv "$work/third" "$user/sheets/$third.txt"
    between "$third" "$second" -
    between "$second" "$first" "$third"
    as_user "$way"
    settled "a neighbour that comes back" 0 "$second" "$third"
}

# The first answer of a day comes before the day after.
day_after_comes() {
    three_days
    rm "$user/sheets/$third.txt" "$work/want/$third"
    between "$second" "$first" -
    as_user "$way"
    settled "two days" 0 "$first" "$second"
    prints "$second" 'hour=0 pay=0' 'hour=23 pay=30000' 'hour=24 pay=30000'
    add_three
    as_user "$way"
    settled "a day after that comes later" 0 "$second" "$third"
    prints "$second" 'hour=0 pay=0' 'hour=23 pay=0' 'hour=24 pay=0'
}

# What stands beside the answer is not what it was.
headers_spoilt() {
    three_days
    as_user "$way"
    days=$user/sheets/$second.days
    for change in 'cat /dev/null' 'head -c -1' 'head -c 5' 'sed 1d' 'sed s/unit=4711/unit=4712/' "tr '\\n' '\\0'" 'cat; echo' 'cat; cat /etc/passwd' \
        "sed '\$!d'" "sed 's/^rtc=1/&\\x00/'" 'echo; cat'; do
        sh -c "$change" <"$days" >"$work/spoilt"
        cp "$work/spoilt" "$days"
        as_user "$way"
        settled "headers through $change" 0 "$second"
        has_days "$second" "$first" "$third"
    done
    rm "$days"
    as_user "$way"
    settled "headers that are gone" 0 "$second"
    rm "$user/sheets/$second.out"
    as_user "$way"
    settled "headers without an answer" 0 "$second"
}

# --- Neighbours that are no good sheets. The day in the middle is refused for them, and says for which.

# The neighbour $1 is what the command $2 makes of it; the day in the middle is then refused with $3.
faulty() {
    three_days
    correct "$1" "$2"
    rm -f "$work/want/$first" "$work/want/$second" "$work/want/$third"
    refused_as "$second" "$3"
    as_user "$way"
    settled "a neighbour through $2" 0 "$first" "$second" "$third"
}

faulty_neighbours() {
    faulty "$first" 'cat /dev/null' 'refused=1 at=1 header=0'
    faulty "$third" 'cat /dev/null' 'refused=1 at=1 header=2'
    as_user "$way"
    settled "an empty neighbour, and nothing new" 0
    prints "$third" 'refused=1 at=1 header=1'
    # It comes, when it was lacking before; and the other way round.
    rm "$user/sheets/$third".*
    between "$second" "$first" -
    as_user "$way"
    settled "an empty neighbour that is gone" 0 "$second"
    for sheet in 'cat /dev/null' 'echo' 'echo; echo' 'echo; cat'; do
        rm -f "$user/sheets/$third".*
        between "$second" "$first" -
        as_user "$way"
        sh -c "$sheet" <"$samples/sheets/$third.txt" >"$user/sheets/$third.txt"
        refused_as "$second" 'refused=1 at=1 header=2'
        as_user "$way"
        settled "a neighbour by $sheet that comes" 0 "$second" "$third"
    done

    faulty "$first" 'echo' 'refused=1 at=1 header=0'
    faulty "$third" 'echo; cat' 'refused=1 at=1 header=2'
    faulty "$first" "sed '/^$/d'" 'refused=1 at=11 header=0'
    faulty "$third" "sed '/^$/Q'" 'refused=1 at=11 header=2'
    faulty "$first" 'head -n 4' 'refused=1 at=5 header=0'
    faulty "$first" "sed '/^$/Q' | head -c -1" 'refused=1 at=10 header=0'
    faulty "$third" 'head -c 100' 'refused=1 at=6 header=2'
    faulty "$third" 'head -c 6' 'refused=1 at=1 header=2'
    faulty "$first" "sed 's/$/\\r/'" 'refused=1 at=1 header=0'
    faulty "$first" "sed 's/^x1=.*/&\\x00/'" 'refused=1 at=5 header=0'
    faulty "$first" "sed 's/^unit=.*/unit=4712/'" 'refused=2 at=2 header=0'
    faulty "$third" "sed 's/^unit=.*/unit=4712/; s/^form=1/form=2\\nhours=24/'" 'refused=2 at=3 header=2'
    faulty "$first" "sed 's/^rtc=.*/rtc=2/'" 'refused=2 at=3 header=0'
    # The day before is refused first.
    correct "$third" 'cat /dev/null'
    as_user "$way"
    settled "two faulty neighbours" 0 "$second" "$third"
    prints "$third" 'refused=1 at=1 header=1'
}

# The day itself is no good sheet, among good neighbours and alone.
faulty_itself() {
    for change in 'cat /dev/null:1' 'echo:1' 'echo; cat:1' "sed '/^$/d':12" "sed '/^$/Q':12" 'head -n 4:5' "sed '/^$/Q' | head -c -1:11" 'head -c 100:7' \
        "sed 's/$/\\r/':1" "sed 's/^x1=.*/&\\x00/':6"; do
        three_days
        correct "$second" "${change%:*}"
        rm -f "$work/want/$first" "$work/want/$third"
        refused_as "$second" "refused=1 at=${change##*:} header=1"
        as_user "$way"
        settled "a day through ${change%:*}" 0 "$first" "$second" "$third"
        rm "$user/sheets/$first".* "$user/sheets/$third".*
        as_user "$way"
        settled "a day through ${change%:*}, alone" 0 "$second"
    done
}

# No header takes lines of the next one for its own, even if they would fit.
fitting_parts() {
    three_days
    rm -f "$work/want/$first" "$work/want/$third"
    correct "$first" "sed '/^$/q' | head -c -22"
    correct "$second" 'printf "%s\n\n" 00000000000000001000; cat'
    refused_as "$second" 'refused=1 at=10 header=0'
    as_user "$way"
    settled "a header that goes on in the next sheet" 0 "$first" "$second" "$third"
}

# --- Changes that only the bytes show.

# The header of the day before becomes what the command $1 makes of it, at the time that it had. The day in the middle is then refused with $2, or is not.
unseen() {
    correct_unseen "$first" "$1"
    if [ $# -eq 2 ]; then
        refused_as "$second" "$2"
    else
        between "$second" "$first" "$third"
    fi
    as_user "$way"
    settled "a neighbour through $1, at its old time" 0 "$second"
}

# By one byte, also by one that text tools may not see.
unseen_changes() {
    three_days
    as_user "$way"
    rm "$work/want/$first"
    unseen "sed '/^x4=/s/1$/0/'"
    unseen "sed '/^x4=/s/0$/1/'"
    unseen "sed 's/^rtc=1/&\\x00/'" 'refused=1 at=3 header=0'
    unseen "sed 's/\\x00/\\x01/'" 'refused=1 at=3 header=0'
    unseen "sed 's/\\x01/\\x00/'" 'refused=1 at=3 header=0'
    unseen "sed 's/\\x00//'"
    unseen "sed 's/^x4=0*/&\\xff/'" 'refused=1 at=8 header=0'
    unseen "sed 's/\\xff//'"
    unseen "sed '/^$/Q'" 'refused=1 at=11 header=0'
    unseen 'cat; echo'
    unseen 'head -c -1' 'refused=1 at=11 header=0'
    unseen 'head -c -1' 'refused=1 at=10 header=0'
    unseen 'cat; echo' 'refused=1 at=11 header=0'
    unseen "cat; head -c 3000 /dev/zero | tr '\\0' a; echo; echo" 'refused=1 at=11 header=0'
    unseen "sed '11s/a$/b/'" 'refused=1 at=11 header=0'
    unseen "sed 11d"
}

# --- Where neighbours are.

# The same three days, each in a folder of its own.
in_folders() {
    no_sheets
    for name in a/$first b/$second c/$third; do
        mkdir "$user/sheets/${name%/*}" "$work/want/${name%/*}"
        keep_sheet "$name" "${name#*/}"
        cp "$samples/sheets/${name#*/}.out" "$work/want/$name"
    done
}

# The run has left these sheets without an answer, each for the reason $2, and no others.
unclear() {
    what=$1
    why=$2
    shift 2
    if [ "$status" -ne 1 ]; then
        fail "$what: status $status"
    elif [ "$(grep -c 'no answer: ' "$work/err")" -ne $# ]; then
        fail "$what: it names $(grep -c 'no answer: ' "$work/err") sheets"
    else
        for name in "$@"; do
            grep -q -x -F -e "settle: no answer: sheets/$name.txt: $why" "$work/err" && [ ! -e "$user/sheets/$name.out" ] &&
                [ ! -e "$user/sheets/$name.days" ] && pass || fail "$what: $name has an answer, or is not named"
        done
    fi
}

other_folders() {
    in_folders
    as_user "$way"
    settled "neighbours in other folders" 0 "a/$first" "b/$second" "c/$third"
    as_user "$way"
    settled "neighbours in other folders, and nothing new" 0
    has_days "b/$second" "a/$first" "c/$third"

    # One beside the sheet comes before one elsewhere.
    keep_sheet "b/$first" "$first"
    correct "b/$first" "sed '/^x4=/s/1$/0/'"
    between "b/$first" - "b/$second"
    between "b/$second" "b/$first" "c/$third"
    as_user "$way"
    settled "a neighbour that comes to the sheet's folder" 0 "b/$first" "b/$second"

    # Of two elsewhere nobody knows which is meant; and its answer is of no use.
    mkdir "$user/sheets/d" "$work/want/d"
    mv "$user/sheets/b/$first.txt" "$user/sheets/d/$first.txt"
    rm "$user/sheets/b/$first.out" "$user/sheets/b/$first.days" "$work/want/b/$first"
    as_user "$way"
    unclear "two neighbours of one name" "more than one sheet is $first.txt" "b/$second"
    cp -p "$user/sheets/c/$third.txt" "$user/sheets/d"
    rm "$user/sheets/a/$first".*
    as_user "$way"
    unclear "two neighbours of one name behind" "more than one sheet is $third.txt" "b/$second"
    rm "$user/sheets/c/$third".*
    rm "$work/want/a/$first" "$work/want/c/$third"
    between "d/$first" - "b/$second"
    between "b/$second" "d/$first" "d/$third"
    between "d/$third" "b/$second" -
    as_user "$way"
    settled "one of two neighbours of one name is gone" 0 "b/$second"

    # One that is found on two ways is one.
    ln -s d "$user/sheets/e"
    as_user "$way"
    settled "a folder that is found on two ways" 0
    # Another unit's are no neighbours.
    in_folders
    mv "$user/sheets/a/$first.txt" "$user/sheets/a/4712-2026-10-31.txt"
    mv "$user/sheets/c/$third.txt" "$user/sheets/c/14711-2026-11-02.txt"
    rm "$work/want/a/$first" "$work/want/c/$third"
    between "b/$second" - -
    as_user "$way"
    settled "sheets of other units" 0 a/4712-2026-10-31 "b/$second" c/14711-2026-11-02
}

# What bears the name of a neighbour and is none, or cannot be read, is not taken for a lacking one.
unreadable() {
    for kind in 'ln -s absent' mkfifo mkdir; do
        three_days
        rm "$user/sheets/$first.txt" "$work/want/$first"
        $kind "$user/sheets/$first.txt"
        as_user "$way"
        not_settled "a neighbour by $kind" "no answer: sheets/$second.txt" "$second"
        grep -q -x -F "settle: sheets/$first.txt cannot be read" "$work/err" && pass || fail "a neighbour by $kind: nothing is said of it"
        [ -f "$user/sheets/$third.out" ] && pass || fail "a neighbour by $kind: the day behind has no answer"
    done
    in_folders
    rm "$user/sheets/a/$first.txt"
    ln -s absent "$user/sheets/a/$first.txt"
    as_user "$way"
    not_settled "a neighbour elsewhere by ln -s absent" "no answer: sheets/b/$second.txt" "b/$second"
    if [ "$(id -u)" -eq 0 ]; then
        echo "skipped: root may read everything, so a neighbour that may not be read was not tried"
        return
    fi
    three_days
    chmod 000 "$user/sheets/$first.txt"
    as_user "$way"
    not_settled "a neighbour that may not be read" "no answer: sheets/$second.txt" "$second"
    chmod 644 "$user/sheets/$first.txt"
}

# Names of any bytes, with neighbours beside and elsewhere.
names() {
    no_sheets
    mkdir -p "$user/sheets/a b" "$work/want/a b" "$user/sheets/-n" "$work/want/-n"
    for unit in ' ' '-n' '*' "it's" 'a  b' '$(x)' 'back\slash' '.' '?' '[a]' 'é' '2026-10-31' 'x-2026-11-01.txt' 'x.several'; do
        keep_sheet "a b/$unit-2026-10-31" "$first"
        keep_sheet "$unit-2026-11-01" "$second"
        keep_sheet "-n/$unit-2026-11-02" "$third"
        for name in "a b/$unit-2026-10-31:$first" "$unit-2026-11-01:$second" "-n/$unit-2026-11-02:$third"; do
            cp "$samples/sheets/${name##*:}.out" "$work/want/${name%:*}"
        done
    done
    as_user "$way"
    [ "$status" -eq 0 ] && [ "$(wc -l <"$work/out")" -eq 42 ] && [ -z "$(all_answered)" ] && pass ||
        fail "names of any bytes: status $status, $(all_answered | head -n 1) $(head -n 1 "$work/err")"
    # A line end in the names of a folder and a unit.
    no_sheets
    folder=$(printf 'two\nlines\n.')
    folder=${folder%.}
    mkdir "$user/sheets/$folder"
    keep_sheet "$folder/$folder-2026-10-31" "$first"
    keep_sheet "$folder-2026-11-01" "$second"
    as_user "$way"
    [ "$status" -eq 0 ] && pass || fail "a line end in names: status $status"
    has_days "$folder/$folder-2026-10-31" - "$folder-2026-11-01"
    has_days "$folder-2026-11-01" "$folder/$folder-2026-10-31" -
}

# --- Dates.

# Around each end of a month, in years with a leap day and without, the headers are those that the calendar says. The sheets have a header and no blocks.
calendar() {
    no_sheets
    dates=
    for year in 1999 2000 2026 2027 2028 2100; do
        for month in 01 02 03 04 05 06 07 08 09 10 11 12; do
            case $year:$month in
                2027:* | *:02 | *:12) ;;
                *) continue ;;
            esac
            end=$(date -u -d "$year-$month-01 + 1 month - 1 day" +%F)
            for days in -1 0 1 2; do dates="$dates $(date -u -d "$end + $days days" +%F)"; done
        done
    done
    n=0
    for date in $dates; do
        n=$((n + 1))
        sed "/^\$/q; s/^unit=.*/unit=$n/" "$samples/sheets/$third.txt" >"$user/sheets/7-$date.txt"
    done
    as_user "$way"
    [ "$status" -eq 0 ] && pass || fail "a calendar: status $status, $(tail -n 1 "$work/err")"
    for date in $dates; do
        eve=7-$(date -u -d "$date - 1 day" +%F)
        morrow=7-$(date -u -d "$date + 1 day" +%F)
        [ -e "$user/sheets/$eve.txt" ] || eve=-
        [ -e "$user/sheets/$morrow.txt" ] || morrow=-
        has_days "7-$date" "$eve" "$morrow"
    done
    # The calendar's own days, by hand.
    for pair in 2026-12-31:2027-01-01 2028-02-28:2028-02-29 2028-02-29:2028-03-01 2026-02-28:2026-03-01 2100-02-28:2100-03-01 2000-02-29:2000-03-01; do
        top "7-${pair#*:}" >"$work/header"
        tail -c "$(wc -c <"$work/header")" "$user/sheets/7-${pair%:*}.days" | cmp -s - "$work/header" && pass || fail "a calendar: $pair"
    done
}

# A name without a date is no day's, whatever the sheet says.
undated() {
    why="its name does not end in a date, as 2026-11-01"
    for names in 'notes 4711 2026-11-01 -2026-11-01 4711-2026-11 4711-26-11-01 4711-2026-1-1 4711_2026-11-03 4711-2026-11-03b' \
        '4711-2026-02-29 4711-2026-02-30 4711-2027-04-31 4711-2026-13-01 4711-2026-00-10 4711-2026-11-00 4711-2026-11-32 4711-2100-02-29 4711-0026-11-03'; do
        three_days
        for name in $names; do
            keep_sheet "$name" "$second"
            cp "$samples/sheets/$second.out" "$user/sheets/$name.out"
            touch -r "$user/sheets/$name.txt" "$user/sheets/$name.out"
        done
        as_user "$way"
        # shellcheck disable=SC2086
        unclear "names without a date" "$why" $names
        for name in "$first" "$second" "$third"; do
            cmp -s "$work/want/$name" "$user/sheets/$name.out" && pass || fail "names without a date: $name has not its answer"
        done
        as_user "$way"
        # shellcheck disable=SC2086
        unclear "names without a date, once more" "$why" $names
    done
}

# --- Days of 23 and 25 hours, and of 24 with marks on both sides: samples that `day` reads, taken apart into stored sheets.
hours_of_days() {
    for name in midnight midnight-spring; do
        no_sheets
        awk -v dir="$user/sheets" '
            { to = dir "/4711-2027-03-" (at == 0 ? "13" : at == 2 ? "15" : "14") ".txt"; print >to }
            $0 == "" { at++ }' "$samples/day/$name.txt"
        cp "$samples/day/$name.out" "$work/want/4711-2027-03-14"
        as_user "$way"
        settled "samples/day/$name as stored sheets" 0 4711-2027-03-13 4711-2027-03-14 4711-2027-03-15
    done
}

# --- Runs and changes at once.

# The neighbour is corrected when the program has read its first header.
neighbour_moves() {
    three_days
    sed '/^x4=/s/1$/0/' "$user/sheets/$first.txt" >"$work/corrected"
    replace_program "cat >'$work/read.'\$\$; cp '$work/corrected' '$user/sheets/$first.txt'; exec '$work/day' <'$work/read.'\$\$"
    as_user "PATH=$bin:\$PATH settle day sheets xargs -P 1"
    not_settled "a neighbour that changes meanwhile" "no answer: sheets/$second.txt" "$second"
    restore_program
    between "$first" - "$second"
    between "$second" "$first" "$third"
    as_user "$way"
    [ "$status" -eq 0 ] && [ -z "$(all_answered)" ] && pass || fail "a neighbour that changed meanwhile: $(all_answered | head -n 1)"
}

# Two runs at once; and a second one that settles a sheet between other neighbours when the first has put its headers in place and its answer not yet.
runs_at_once() {
    three_days
    as_user 'settle day sheets & settle day sheets; wait'
    as_user "$way"
    [ "$status" -eq 0 ] && [ -z "$(all_answered)" ] && pass || fail "two runs at once: $(all_answered | head -n 1)"

    rm "$user/sheets/$second.out"
    mkdir -p "$work/between"
    cat >"$work/between/mv" <<END
#!/bin/sh
$(command -v mv) "\$@"
case \$3 in
    *.days)
        sed '/^x4=/s/1\$/0/' '$samples/sheets/$first.txt' >'$user/sheets/$first.txt'
        PATH='$bin:$PATH' settle .settle '$work' day 'sheets/$second.txt'
        ;;
esac
END
    chmod +x "$work/between/mv"
    as_user "PATH=$work/between:\$PATH; $way"
    not_settled "a run within a run" "no answer: sheets/$second.txt" "$second"
    between "$first" - "$second"
    between "$second" "$first" "$third"
    as_user "$way"
    [ "$status" -eq 0 ] && [ -z "$(all_answered)" ] && pass || fail "behind a run within a run: $(all_answered | head -n 1)"
}

# --- In each way, and in one alone.

neighbours() {
    neighbours_change
    day_after_comes
    headers_spoilt
    hours_of_days
    unreadable
}

neighbours_once() {
    about="neighbours: "
    faulty_neighbours
    faulty_itself
    fitting_parts
    unseen_changes
    other_folders
    names
    calendar
    undated
    neighbour_moves
    runs_at_once
    about=
}

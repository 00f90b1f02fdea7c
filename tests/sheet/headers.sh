# What the sheet's page says of the three headers that `day` reads. Read by sheet.sh,
# behind counts.sh, which has left a good sheet.

# `day` has a line $2 in what it prints for $work/input, and a header's refusal alone.
day_prints() {
    within 20 "$day" <"$work/input" >"$work/got" 2>"$work/err"
    case $2 in
        refused=*) said=$(cat "$work/got") ;;
        *) said=$(grep -x -e "$2" "$work/got") ;;
    esac
    if [ "$said" = "$2" ]; then pass; else fail "$1: not $2, but $(head -n 1 "$work/got")"; fi
}

head=$work/listing.form-1
good=$work/good

# What stands where a header should: an empty line, nothing, or something else.
while read -r parts answer; do
    for part in $(echo "$parts" | tr , ' '); do
        case $part in
            empty) echo ;;
            crlf) printf '\r\n' ;;
            space) printf ' \n' ;;
            header) cat "$head" ;;
            sheet) cat "$good" ;;
            blocks) sed '1,/^$/d' "$good" ;;
        esac
    done >"$work/input"
    day_prints "$parts" "$answer"
done <<'END'
nothing refused=1 at=1 header=0
empty refused=1 at=1 header=1
header refused=1 at=1 header=1
empty,empty,header,blocks refused=1 at=1 header=1
header,empty,header,blocks refused=1 at=1 header=1
sheet refused=1 at=1 header=1
empty,header refused=1 at=1 header=2
header,header refused=1 at=1 header=2
empty,sheet refused=1 at=1 header=2
header,sheet refused=1 at=1 header=2
header,header,blocks refused=1 at=1 header=2
header,empty,blocks refused=1 at=1 header=1
header,blocks refused=1 at=1 header=1
header,header,sheet total=479750
empty,header,header,blocks total=479750
header,header,empty,blocks total=479750
empty,header,empty,empty,blocks hour=0 refused=1 at=1
crlf,header,empty,blocks refused=1 at=1 header=0
space,header,empty,blocks refused=1 at=1 header=0
empty,crlf,empty,blocks refused=1 at=1 header=1
empty,header,crlf,blocks refused=1 at=1 header=2
END

# Another unit, the day before first, and only where all three stand.
sed 's/^unit=.*/unit=4712/' "$head" >"$work/other-1"
sed 's/^unit=.*/unit=4712/' "$work/listing.form-2" >"$work/other-2"
sed 's/^rtc=.*/rtc=2/' "$head" >"$work/range"
sed 's/^rtc=.*/rtc=02/' "$head" >"$work/form"
cp "$head" "$work/own"
echo >"$work/lacking"
while read -r before own after answer; do
    cat "$work/$before" "$work/$own" "$work/$after" >"$work/input"
    day_prints "the headers $before, $own and $after" "$answer"
done <<'END'
other-1 own own refused=2 at=2 header=0
other-2 own own refused=2 at=3 header=0
own own other-1 refused=2 at=2 header=2
lacking own other-2 refused=2 at=3 header=2
other-1 own other-2 refused=2 at=2 header=0
own other-2 own refused=2 at=2 header=0
lacking other-2 own refused=2 at=2 header=2
other-1 other-2 other-1 hour=0 refused=1 at=1
other-1 own range refused=2 at=3 header=2
other-1 range own refused=2 at=3 header=1
range form own refused=2 at=3 header=0
range own form refused=2 at=3 header=0
own range form refused=2 at=3 header=1
form form form refused=1 at=3 header=0
lacking form lacking refused=1 at=3 header=1
END

# A mark at hour 22 of the day before, by its count: it reaches two hours over midnight, one, or none. The own mark excludes five.
for hours in 23 24 25; do
    awk -F= -v hours="$hours" '$1 == "hours" { $2 = hours } $1 ~ /^(cat|x[1-6])$/ { $2 = substr($2, 1, hours) }
        { print NF == 2 ? $1 "=" $2 : $0 }' "$work/listing.form-2" >"$work/counted"
    between "$work/counted" "$good" - >"$work/input"
    day_prints "x4 at hour 22 of $hours, the day before" "total=$((25250 * (hours - 6)))"
done

# What the sheet's page says of the two forms, of a controllable line's header and
# of the count of hours. Read by sheet.sh, as is headers.sh.

# The listing $2, through sed, and blocks like the other listing for its hours: its program prints $5.
prints_for() {
    sed "$4" "$work/listing.$2" >"$work/changed"
    with_blocks "$work/changed" "$work/listing.$3" >"$work/text"
    echo "$5" >"$work/want"
    run "$1"
    answered "$2, $4"
}

# A good sheet, as a neighbour or between neighbours.
with_blocks "$work/listing.form-1" "$work/listing.block" >"$work/good"

# The listing $1, through sed, alone and as each of the three headers: `day` prints $3, and which header it is.
each_header() {
    prints_for day "$1" block "$2" "$3 header=1"
    mv "$work/text" "$work/faulty"
    n=0
    for places in "faulty good good" "good faulty good" "good good faulty"; do
        # shellcheck disable=SC2086
        set -- "$1" "$2" "$3" $places
        between "$work/$4" "$work/$5" "$work/$6" >"$work/input"
        echo "$3 header=$n" >"$work/want"
        within 20 "$day" <"$work/input" >"$work/got" 2>"$work/err"
        answered "$1, $2, as header $n"
        n=$((n + 1))
    done
}

# What is refused of the two forms, and of a controllable line's header.
while read -r listing change answer; do
    case $listing in
        form-*) each_header "$listing" "$change" "$answer" ;;
        line*) prints_for line "$listing" transfer "$change" "$answer" ;;
    esac
done <<'END'
form-1 1{p;s/.*/hours=24/;} refused=1 at=2
form-2 2d refused=1 at=2
form-1 1s/1/3/ refused=2 at=1
form-2 1s/2/3/ refused=1 at=2
form-2 2s/=.*/=024/ refused=1 at=2
form-2 2s/=.*/=+24/ refused=1 at=2
form-2 2s/=.*/=/ refused=1 at=2
form-2 2s/=.*/=22/ refused=2 at=2
form-2 2s/=.*/=22/;5,11s/=.*/=/ refused=2 at=2
form-2 2s/=.*/=24/ refused=1 at=5
form-1 4s/1$// refused=1 at=4
form-1 11d refused=1 at=11
form-2 12d refused=1 at=12
form-2 2s/=.*/=22/;8s/0$/o/ refused=1 at=8
form-2 2s/=.*/=22/;12d refused=1 at=12
line 1d refused=1 at=1
line 1{h;s/.*/form=2/;p;g;} refused=1 at=1
line 1s/=.*/=0314/ refused=1 at=1
line 1s/=.*/=0/ refused=2 at=1
line 2d refused=1 at=2
line 2s/=.*/=024/ refused=1 at=2
line 2s/=.*/=/ refused=1 at=2
line 2s/=.*/=22/ refused=2 at=2
line 2s/=.*/=22/;3s/=.*/=/ refused=2 at=2
line 2s/=.*/=22/;3s/0$/3/ refused=2 at=2
line 2s/=.*/=25/ refused=1 at=3
line-25 2s/=.*/=24/ refused=1 at=3
line 3s/0$/3/ refused=2 at=3
line 3s/0$/-/ refused=1 at=3
line 4d refused=1 at=4
line 3p refused=1 at=4
line 1s/=.*/=0/;3s/0$/3/ refused=2 at=1
line 1s/=.*/=0/;4d refused=1 at=4
line 2s/=.*/=22/;3s/0$/o/ refused=1 at=3
line 2s/=.*/=22/;4d refused=1 at=4
END
prints_for import import-25 curtailed 's/ cts=0 hours=25/ hours=25 cts=0/' "refused=1 hour=- at=1"
prints_for import import-25 curtailed 's/ hours=25/&&/' "refused=1 hour=- at=1"
prints_for import import curtailed '2s/$/hours=25/' "refused=1 hour=- at=2"

# With $3 blocks behind the head in $work/changed, the first saying hour $4, a line of what is printed is $5.
has_line() {
    with_blocks "$work/changed" "$work/listing.$2" "$3" | sed "s/^hour=0 /hour=$4 /" >"$work/text"
    run "$1"
    if grep -q -x -e "$5" "$work/got"; then
        pass
    else
        fail "$1, $hours hours, $3 blocks, the first says $4: not $5"
    fi
}

# The program's day of $hours hours, with the head and the block of these listings: the total is $4.
counted() {
    awk -F= -v hours="$hours" '$1 == "hours" { $2 = hours }
        $1 ~ /^(cat|x[1-6]|mark)$/ { $2 = substr($2, 1, hours) }
        { print NF == 2 ? $1 "=" $2 : $0 }' "$work/listing.$2" >"$work/changed"
    has_line "$1" "$3" "$hours" 0 "total=$4"
    has_line "$1" "$3" "$before" 0 "hour=$before refused=1 at=1"
    has_line "$1" "$3" $((hours + 1)) 0 total=-
    has_line "$1" "$3" "$hours" 23 "hour=0 refused=3 at=1"
    has_line "$1" "$3" "$hours" 24 "hour=0 refused=$late at=1"
    has_line "$1" "$3" "$hours" 25 "hour=0 refused=2 at=1"
}

# Each count: as many blocks, a block fewer and one more, and which hours a block may say.
for hours in 23 24 25; do
    late=2
    [ "$hours" -eq 25 ] && late=3
    before=$((hours - 1))
    counted day form-2 block 505000
    counted line line-25 transfer $((13450 * (hours / 25 + 2)))
    sed "s/=25/=$hours/" "$work/listing.import-25" >"$work/changed"
    has_line import curtailed "$hours" 0 "import=815 pay=$((hours * 15000))"
    has_line import curtailed "$before" 0 "refused=1 hour=$before at=1"
    has_line import curtailed $((hours + 1)) 0 "refused=3 hour=- at=0"
    has_line import curtailed "$hours" 23 "refused=3 hour=0 at=1"
    has_line import curtailed "$hours" 24 "refused=$late hour=0 at=1"
    has_line import curtailed "$hours" 25 "refused=2 hour=0 at=1"
done

# A day of 24 hours has the same answer in both forms.
with_blocks "$work/listing.form-1" "$work/listing.block" >"$work/text"
run day
mv "$work/got" "$work/want"
sed '1s/.*/form=2/; 2{h; s/.*/hours=24/; p; g; }' "$work/text" >"$work/form-2"
mv "$work/form-2" "$work/text"
run day
answered "form 1's day in form 2"

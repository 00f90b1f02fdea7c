# What can happen to an archive. Read by archive.sh.

# --- Three years, up and back.

# What `day` prints for some 60 of the folder's sheets, alone.
answers() {
    find "$1" -name '*.txt' | sort | awk 'NR % 18 == 1' | while IFS= read -r sheet; do
        echo "${sheet#"$1"}"
        framed "$sheet" | "$day"
    done
}

# The sheets of the folder, one behind the other.
bytes_of() {
    (cd "$1" && find . -name '*.txt' -print0 | sort -z | xargs -0 cat)
}

same_marks() {
    marks | cmp -s - "$work/marks" && pass || fail "$1: a sheet has another time, mode or owner"
}

three_years() {
    about="three years: "
    years
    marks >"$work/marks"
    bytes_of "$user/sheets" >"$work/bytes"
    answers "$user/sheets" >"$work/answers"
    as_user "$up"
    left "up" 0 new 1096
    same_marks "up"
    answers "$user/sheets" | cmp -s - "$work/answers" && pass || fail "up: \`day\` prints another answer"
    as_user "$down"
    left "down" 0 old 1096
    bytes_of "$user/sheets" | cmp -s - "$work/bytes" && pass || fail "down: not the bytes of before"
    same_marks "down"
}

# --- Runs one behind the other.
again() {
    few
    as_user "$up"
    left "up" 0 new 3
    as_user "$up"
    left "up once more" 0 new 0
    grep -q '3 there already' "$work/err" && pass || fail "up once more: $(cat "$work/err")"
    as_user "$down"
    left "down" 0 old 3
    as_user "$down"
    left "down once more" 0 old 0
    # Some of each form.
    cp -p "$work/new/4711-2026-05-02.txt" "$user/sheets"
    as_user "$up"
    left "up, one of them there already" 0 new 2
    cp -p "$work/old/4711-2026-05-02.txt" "$user/sheets"
    as_user "$down"
    left "down, one of them there already" 0 old 2
}

# The answers stay: none is made anew but of a day whose neighbour has moved, since its header is another then; and that one is as it was.
settled_stays() {
    few
    as_user "settle day sheets"
    [ "$(wc -l <"$work/out")" -eq 3 ] && pass || fail "settled: $(cat "$work/err")"
    rm -rf "$work/answers"
    mkdir "$work/answers"
    cp "$user"/sheets/*.out "$work/answers"
    printf '%s\n' sheets/4711-2026-05-01.txt sheets/4711-2026-05-02.txt >"$work/want"
    for command in "$up" "$down"; do
        as_user "$command"
        [ "$status" -eq 0 ] && pass || fail "$command: $(cat "$work/err")"
        as_user "settle day sheets"
        [ "$status" -eq 0 ] && sort "$work/out" | cmp -s - "$work/want" && pass || fail "$command: settled anew: $(cat "$work/out" "$work/err")"
        for answer in "$work"/answers/*; do
            cmp -s "$answer" "$user/sheets/${answer##*/}" && pass || fail "$command: ${answer##*/} is another"
        done
        as_user "settle day sheets"
        [ "$status" -eq 0 ] && [ ! -s "$work/out" ] && pass || fail "$command: settled once more: $(cat "$work/out" "$work/err")"
    done
}

# --- Runs that are killed.

# In the place of the program or tool $1 a script that does $2, says that it is halfway and waits. $real is the one itself.
halt_in() {
    case $1 in
        up | down) real=$work/$1 place=$bin/$1 ;;
        *) real=$(command -v "$1") place=$work/slow/$1 ;;
    esac
    rm -f "$place"
    { echo '#!/bin/sh'; echo "real='$real'"; echo "$2"; echo "echo >'$work/halfway'"; echo 'sleep 10'; } >"$place"
    chmod +x "$place"
}

restore() {
    rm -f "$bin/up" "$bin/down" "$work"/slow/*
    cp -p "$work/up" "$work/down" "$bin"
}

# Killed by this signal when the program or tool $2 has done $3: each sheet is whole, and the next run does the rest. What is left bears no
# sheet's name, and is removed by a run of another day; a run that still can takes it away itself.
killed() {
    what="killed by $1 in $2 that does $3"
    few
    halt_in "$2" "$3"
    start_as_user "PATH=$work/slow:\$PATH; $up"
    is_halfway || fail "$what: it did not begin"
    kill_it "$1"
    is_whole && pass || fail "$what: a sheet is not whole"
    # The moved sheet is beside the old one, and so in the same file system; where it is in its place already there may be none.
    find "$user/sheets" -name '*.txt.moving.*' -printf '%m %f\n' >"$work/beside"
    case $1:$2:$3 in
        KILL:*'"$@"') ;;
        # Others might not be allowed to read the sheet.
        KILL:up:*) grep -q '^600 ' "$work/beside" && pass || fail "$what: nothing is beside a sheet, or others may read it" ;;
        KILL:*) [ -s "$work/beside" ] && pass || fail "$what: nothing is beside a sheet" ;;
        *) [ ! -s "$work/beside" ] && pass || fail "$what: something is left" ;;
    esac
    restore
    find "$user/sheets" -name '*.moving.*' -exec rm -f {} +
    as_user "$up"
    left "behind a run $what" 0 new
}

kills() {
    killed KILL up ':'
    killed KILL up '$real'
    killed KILL sync ':'
    killed KILL cmp ':'
    killed KILL mv '$real "$@"'
    for signal in KILL TERM; do
        killed "$signal" up '$real | head -c 700'
        killed "$signal" cp ':'
        killed "$signal" down '$real | head -c 700'
        killed "$signal" mv ':'
    done
}

# At any moment of a longer run, one behind the other, and then to the end.
killed_at_moments() {
    few
    for n in 1 2 3 4 5 6 7 8 9; do
        mkdir "$work/old/$n" "$work/new/$n"
        for form in old new; do cp "$work/$form"/*.txt "$work/$form/other units"/*.txt "$work/$form/$n"; done
        for form in old new; do cp -R "$work/$form/$n" "$work/$form/other units"; done
    done
    give old
    for way in up:new down:old; do
        for seconds in 0.03 0.06 0.09 0.12; do
            start_as_user "archive ${way%:*} sheets"
            sleep "$seconds"
            kill_it KILL
            is_whole && pass || fail "$way, killed after $seconds seconds: a sheet is not whole"
        done
        find "$user/sheets" -name '*.moving.*' -exec rm -f {} +
        as_user "archive ${way%:*} sheets"
        left "${way%:*} behind killed runs" 0 "${way#*:}"
    done
}

# Two runs at once: one of them moves a sheet, or both the same way.
at_once() {
    few
    as_user "archive up sheets & archive up sheets; wait"
    left "two runs at once" 0 new
}

# What a killed run has left is removed when it is a day old; `find` is told that this is so now.
leftovers() {
    few
    as_user "$up"
    for name in 4711-2026-05-01.txt.moving.77 4711-2026-05-01.txt.new 4711-2026-05-01.out.new.77; do echo left >"$user/sheets/$name"; done
    as_user "$down"
    [ -f "$user/sheets/4711-2026-05-01.txt.moving.77" ] && pass || fail "what may be of another run is gone"
    cat >"$work/slow/find" <<END
#!/bin/sh
for word; do
    shift
    [ "\$word" != +0 ] || word=-1
    set -- "\$@" "\$word"
done
exec $(command -v find) "\$@"
END
    chmod +x "$work/slow/find"
    as_user "PATH=$work/slow:\$PATH; $up"
    restore
    [ ! -e "$user/sheets/4711-2026-05-01.txt.moving.77" ] && pass || fail "what a killed run left is still there"
    rm "$user/sheets/4711-2026-05-01.txt.new" "$user/sheets/4711-2026-05-01.out.new.77" && pass || fail "what is no leftover is gone"
    left "with leftovers" 0 new 3
}

# --- Sheets that are refused: named with the refusal, and left.

# A sheet $1 that stays as it is, from standard input.
stays() {
    cat >"$work/old/$1.txt"
    cp -p "$work/old/$1.txt" "$work/new"
    cp -p "$work/old/$1.txt" "$user/sheets"
}

# The refusal $2 was printed for sheet $1.
refused() {
    printf 'archive: %s: %s\n' "$user/sheets/$1.txt" "$2" >>"$work/refusals"
}

named() {
    sort "$work/refusals" >"$work/want"
    grep 'refused=' "$work/err" | sort >"$work/got"
    cmp -s "$work/got" "$work/want" && pass || fail "$1: $(differ "$work/got" "$work/want")"
}

refusals() {
    few
    : >"$work/refusals"
    for name in header-form header-open header-range hours-form-1; do
        stored <"$samples/day/$name.txt" | stays "$name"
        refused "$name" "$(sed 's/ header=1$//' "$samples/day/$name.out")"
    done
    stored <"$samples/day/paid.txt" | sed '1s/1/3/' | stays form-3
    refused form-3 'refused=2 at=1'
    stays empty </dev/null
    refused empty 'refused=1 at=1'
    head -c 5000 "$bin/up" | stays program
    refused program 'refused=1 at=1'
    # Of the asked form in its first line and nowhere else.
    stored <"$samples/day/hours-missing.txt" | stays hours-missing
    refused hours-missing "$(sed 's/ header=1$//' "$samples/day/hours-missing.out")"
    # What `day` reads is no stored sheet.
    stays framed <"$samples/day/paid.txt"
    refused framed 'refused=1 at=1'
    # These have the asked form.
    stored <"$samples/day/autumn.txt" | stays autumn
    stored <"$samples/day/hours-22.txt" | stays hours-22
    marks >"$work/marks"
    as_user "$up"
    left "up, refused sheets" 1 new 3
    named "up"
    same_marks "up, refused sheets"

    # And down: the refused ones of form 1 have the asked form now.
    few
    : >"$work/refusals"
    for name in spring autumn; do
        stored <"$samples/day/$name.txt" | stays "$name"
        refused "$name" 'refused=9 at=2'
    done
    for name in hours-22 hours-missing hours-rows; do
        stored <"$samples/day/$name.txt" | stays "$name"
        refused "$name" "$(sed 's/ header=1$//' "$samples/day/$name.out")"
    done
    stored <"$samples/day/autumn.txt" | sed '3s/=.*/=0/' | stays autumn-0
    refused autumn-0 'refused=2 at=3'
    stored <"$samples/day/header-range.txt" | stays header-range
    give new
    marks >"$work/marks"
    as_user "$down"
    left "down, refused sheets" 1 old 3
    named "down"
    same_marks "down, refused sheets"
}

# --- Programs and sheets that are not as they should be.

# In the place of the program $1 a script that does $2.
replace() {
    rm -f "$bin/$1"
    { echo '#!/bin/sh'; echo "$2"; } >"$bin/$1"
    chmod +x "$bin/$1"
}

programs_fail() {
    few
    for program in up down; do
        rm "$bin/$program"
        as_user "$up"
        not_tried "no $program" "no program $bin/$program"
        restore
    done
    for fault in 'exit 0' 'exit 1' 'kill -9 $$' 'echo no >&2' "'$work/up' | head -c 700" "'$work/up' | head -c -1" "'$work/up'; echo" cat \
        "'$work/up' | sed 20d" "'$work/up' | tr 7 8" "'$work/up' | sed 's/^hours=24/hours=23/'" "'$work/up' | sed 1s/2/1/"; do
        replace up "$fault"
        as_user "$up"
        not_moved "up that does $fault" "$user/sheets/4711-2026-05-01.txt: "
    done
    restore
    # Without the way back nothing is moved.
    for fault in 'exit 0' 'exit 1' "'$work/down' | head -c -1" "'$work/down' | head -c 700; kill -9 \$\$" cat; do
        replace down "$fault"
        as_user "$up"
        not_moved "down that does $fault" "$user/sheets/4711-2026-05-01.txt: "
    done
    # Two that agree, and move nothing.
    replace up cat
    as_user "$up"
    not_moved "up and down that do cat" "$user/sheets/4711-2026-05-01.txt: "
    restore
    # One that fails once leaves the others.
    replace up "if mkdir '$work/once' 2>/dev/null; then kill -9 \$\$; fi; exec '$work/up'"
    as_user "$up"
    [ "$status" -eq 1 ] && [ "$(alike old) $(alike new)" = '1 2' ] && pass || fail "up that fails once: status $status, $(alike new) moved"
    restore
    as_user "$up"
    left "behind programs that failed" 0 new 1
}

# The sheet changes when the program $1 has read, in its file or by another file in its place: what it is then is not lost.
sheet_changes() {
    stored <"$samples/day/surplus.txt" >"$work/corrected"
    for change in "cat '$work/corrected' >'$user/sheets/4711-2026-05-01.txt'" \
        "cp '$work/corrected' '$user/sheets/new' && mv '$user/sheets/new' '$user/sheets/4711-2026-05-01.txt'"; do
        one
        replace "$1" "cat >'$work/read'; $change; exec '$work/$1' <'$work/read'"
        as_user "$up"
        put 4711-2026-05-01 <"$work/corrected"
        not_moved "a sheet that changes in $1" "$user/sheets/4711-2026-05-01.txt: "
        restore
        as_user "$up"
        left "a sheet that changed in $1" 0 new 1
    done
}

# --- Names, links, and folders.

names() {
    few
    for name in ' ' '-n' '*' "it's" 'a  b' '$(x)' 'back\slash' "$(printf 'two\nlines')" '.hidden' 'é'; do
        stored <"$samples/day/mixed.txt" | put "$name"
    done
    mkdir -p "$work/old/-r/$(printf 'a\nb').txt" "$work/new/-r/$(printf 'a\nb').txt"
    stored <"$samples/day/paid.txt" | put "-r/$(printf 'a\nb').txt/x"
    echo 'no sheet' | tee "$work/old/notes" >"$work/new/notes"
    give old
    as_user "$up"
    left "names, up" 0 new 16
    as_user "$down"
    left "names, down" 0 old 16
}

links() {
    few
    mkdir -p "$user/elsewhere/folder"
    for name in real.sheet folder/real.txt; do cp "$work/old/4711-2026-05-01.txt" "$user/elsewhere/$name"; done
    ln -s ../elsewhere/real.sheet "$user/sheets/link.txt"
    ln -s ../elsewhere/folder "$user/sheets/folder"
    ln -s 4711-2026-05-02.txt "$user/sheets/newest.txt"
    ln -s absent "$user/sheets/absent.txt"
    ln "$user/sheets/4711-2026-05-02.txt" "$user/sheets/same.txt"
    for way in up:new down:old; do
        as_user "archive ${way%:*} sheets"
        [ "$status" -eq 0 ] && [ "$(wc -l <"$work/out")" -eq 6 ] && grep -q ': 6 sheets' "$work/err" && pass ||
            fail "links, $way: $(cat "$work/err")"
        for name in 4711-2026-05-01:link 4711-2026-05-01:folder/real 4711-2026-05-02:newest 4711-2026-05-02:same; do
            cmp -s "$work/${way#*:}/${name%:*}.txt" "$user/sheets/${name#*:}.txt" && pass || fail "links, $way: $name"
        done
        for name in link.txt newest.txt folder; do [ -L "$user/sheets/$name" ] && pass || fail "links, $way: $name is no link"; done
    done
    # The folder itself may be a link.
    few
    mv "$user/sheets" "$user/elsewhere"
    ln -s elsewhere/sheets "$user/sheets"
    as_user "$up"
    left "a folder that is a link" 0 new 3
}

# A file may have 4,096 bytes and no more, as on a disk that is full: of these sheets one can be copied and not be made longer.
disk_full() {
    few
    stored <"$samples/day/paid.txt" >"$work/paid"
    head -c 4096 "$work/paid" | put 4711-2026-05-01
    head -c 3000 "$work/paid" | put 4711-2026-05-02
    head -c 5000 "$work/paid" | put "other units/it's 12-2026-05-02"
    for signal in '' "trap '' XFSZ; "; do
        give old
        as_user "${signal}ulimit -f 8; $up"
        [ "$status" -eq 1 ] && [ "$(wc -l <"$work/out")" -eq 1 ] && pass || fail "a full disk: status $status, $(cat "$work/out")"
        cmp -s "$work/new/4711-2026-05-02.txt" "$user/sheets/4711-2026-05-02.txt" && is_whole && [ "$(alike old)" -eq 2 ] && pass ||
            fail "a full disk: a sheet is not whole"
        find "$user/sheets" -name '*.moving.*' | grep -q . && fail "a full disk: something is left" || pass
        as_user "$up"
        left "behind a full disk" 0 new 2
    done
}

# What may not be written or read is left, and named.
forbidden() {
    if [ "$(id -u)" -eq 0 ]; then
        echo "skipped: root may write everywhere, so folders and sheets that may not be written were not tried"
        return
    fi
    few
    chmod 555 "$user/sheets/other units"
    as_user "$up"
    [ "$status" -eq 1 ] && grep -q -F "it's 12-2026-05-02.txt: it cannot be moved" "$work/err" && is_whole && [ "$(alike new)" -eq 2 ] && pass ||
        fail "a folder that may not be written: status $status, $(cat "$work/err")"
    chmod 000 "$user/sheets/other units"
    as_user "$up"
    not_tried "a folder that may not be read" "cannot look through sheets"
    chmod 755 "$user/sheets/other units"
    give old
    chmod 000 "$user/sheets/4711-2026-05-01.txt"
    as_user "$up"
    chmod 644 "$user/sheets/4711-2026-05-01.txt"
    [ "$status" -eq 1 ] && grep -q -F '4711-2026-05-01.txt: it cannot be moved' "$work/err" && is_whole && [ "$(alike new)" -eq 2 ] && pass ||
        fail "a sheet that may not be read: status $status, $(cat "$work/err")"
    # It is not written, but gives its place to another.
    give old
    chmod 444 "$user/sheets/4711-2026-05-01.txt"
    marks >"$work/marks"
    as_user "$up"
    left "a sheet that may not be written" 0 new 3
    same_marks "a sheet that may not be written"
}

# What is no archive.
nothing_to_do() {
    few
    for command in archive 'archive up' 'archive sheets' 'archive up sheets more' 'archive sideways sheets' 'archive .move'; do
        as_user "$command"
        case $command in
            *.move) ;;
            *) not_tried "$command" 'usage: archive up|down FOLDER' ;;
        esac
        are old && pass || fail "$command: a sheet is changed"
    done
    rm -rf "$user/sheets"
    as_user "$up"
    not_tried "no folder" "no folder sheets"
    mkdir "$user/sheets"
    as_user "$up"
    not_tried "an empty folder" "no sheet NAME.txt in sheets"
    echo >"$user/sheets/4711.out"
    as_user "$up"
    not_tried "a folder without sheets" "no sheet NAME.txt in sheets"
    rm -rf "$user/sheets"
    cp "$samples/day/paid.txt" "$user/sheets"
    as_user "$up"
    not_tried "a sheet for a folder" "no folder sheets"
    rm "$user/sheets"
}

few_cases() {
    about=
    again
    settled_stays
    kills
    killed_at_moments
    at_once
    leftovers
    refusals
    programs_fail
    sheet_changes up
    sheet_changes down
    names
    links
    disk_full
    forbidden
    nothing_to_do
}

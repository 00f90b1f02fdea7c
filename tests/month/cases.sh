# What can happen to a month of sheets. Read by month.sh, whose $way is the
# command that each case runs.

# --- Sheets and answers that change between two runs.

sheets_change() {
    fresh
    as_user "$way"
    settled "a first run" 0 4711-2026-05-01 4711-2026-05-11 "other units/it's 12-2026-05-02"
    as_user "$way"
    settled "nothing new" 0

    put 4711-2026-05-01 mixed
    touch -d '2024-05-01 06:00:00.25' "$user/sheets/4711-2026-05-01.txt"
    as_user "$way"
    settled "a corrected sheet" 0 4711-2026-05-01
    put 4711-2026-05-01 paid
    touch -d '2024-05-01 06:00:00.75' "$user/sheets/4711-2026-05-01.txt"
    as_user "$way"
    settled "a sheet that is corrected within a second" 0 4711-2026-05-01
    # As where it comes by a copy that keeps its time, or is put back.
    put 4711-2026-05-01 mixed
    touch -d '2024-05-01 05:00:00' "$user/sheets/4711-2026-05-01.txt"
    as_user "$way"
    settled "a corrected sheet that is older than the answer" 0 4711-2026-05-01

    put 4711-2026-04-20 short
    put 4711-2026-05-21 surplus
    put 4711-2027-03-14 spring
    put 4711-2027-11-07 autumn
    as_user "$way"
    settled "sheets added, in front and behind, of days of 23 to 25 hours" 0 4711-2026-04-20 4711-2026-05-21 4711-2027-03-14 4711-2027-11-07

    touch "$bin/day"
    as_user "$way"
    settled "a new program" 0 4711-2026-04-20 4711-2026-05-01 4711-2026-05-11 4711-2026-05-21 4711-2027-03-14 4711-2027-11-07 "other units/it's 12-2026-05-02"
    touch -r "$work/day" "$bin/day"
}

# The answer of a sheet becomes what a command makes of it, at its old time.
spoil() {
    answer=$user/sheets/$1.out
    cat "$answer" | sh -c "$2" >"$work/spoilt"
    cp "$work/spoilt" "$answer"
    touch -r "$user/sheets/$1.txt" "$answer"
}

answers_change() {
    fresh
    as_user "$way"
    for cut in 'cat /dev/null' 'head -c -1' 'head -c -3' 'head -n -1' 'head -n 3' 'head -c 5' 'sed 3d'; do
        spoil 4711-2026-05-01 "$cut"
        as_user "$way"
        settled "an answer through $cut" 0 4711-2026-05-01
    done
    for cut in 'cat /dev/null' 'head -c -1' 'head -c 5' "sed 's/ header=1//'" "sed 's/=1$/=/'"; do
        spoil 4711-2026-05-11 "$cut"
        as_user "$way"
        settled "a header's refusal through $cut" 0 4711-2026-05-11
    done
    rm "$user/sheets/other units/it's 12-2026-05-02.out"
    as_user "$way"
    settled "an answer that is gone" 0 "other units/it's 12-2026-05-02"

    echo 'total=1' >"$user/sheets/4711-2026-05-29.out"
    as_user "$way"
    if [ "$status" -eq 1 ] && grep -q 'without a sheet: sheets/4711-2026-05-29.out' "$work/err"; then
        pass
    else
        fail "an answer without a sheet: status $status"
    fi
    mv "$user/sheets/4711-2026-05-29.out" "$user/sheets/4711-2026-05-29.days"
    as_user "$way"
    if [ "$status" -eq 1 ] && grep -q 'without a sheet: sheets/4711-2026-05-29.days' "$work/err"; then
        pass
    else
        fail "headers without a sheet: status $status"
    fi
}

# --- Programs that are not there, or fail.

# In the place of `day` a script that does this, and is no newer.
replace_program() {
    rm -f "$bin/day"
    { echo '#!/bin/sh'; echo "$1"; } >"$bin/day"
    chmod +x "$bin/day"
    touch -r "$work/day" "$bin/day"
}

restore_program() {
    rm -f "$bin/day"
    cp -p "$work/day" "$bin/day"
}

programs_fail() {
    fresh
    as_user "$way"
    put 4711-2026-05-01 mixed
    rm -f "$bin/day"
    as_user "$way"
    not_settled "a missing program" "no program $bin/day"

    for fault in 'exit 1' 'exit 0' "'$work/day' | head -n 7" "'$work/day' | head -c -1" "'$work/day'; echo" \
        "'$work/day' | head -c -1; kill -9 \$\$" 'echo no sheet >&2; exit 3'; do
        replace_program "$fault"
        as_user "$way"
        not_settled "a program that does $fault" "no answer: sheets/4711-2026-05-01.txt" 4711-2026-05-01
    done
    # A half answer is in its place at no time: not before the folder is looked through for the last time, either.
    replace_program "'$work/day' | head -n 7"
    as_user "PATH=$bin:\$PATH settle .settle '$work' day sheets/4711-2026-05-01.txt"
    not_settled "a half answer" sheets/4711-2026-05-01.txt 4711-2026-05-01
    restore_program
    as_user "$way"
    settled "behind programs that failed" 0 4711-2026-05-01
}

# The sheet is corrected when the program has read the first one.
sheet_moves() {
    fresh
    stored <"$samples/day/short.txt" >"$work/corrected"
    replace_program "cat >'$work/read'; cp '$work/corrected' '$user/sheets/4711-2026-05-01.txt'; exec '$work/day' <'$work/read'"
    as_user "$way"
    not_settled "a sheet that changes meanwhile" "no answer: sheets/4711-2026-05-01.txt" 4711-2026-05-01
    restore_program
    put 4711-2026-05-01 short
    as_user "$way"
    settled "a sheet that changed meanwhile" 0 4711-2026-05-01
}

# --- A run that is killed by this signal, when it has half an answer.

run_killed() {
    fresh
    replace_program "said=\$('$work/day'); printf %.9s \"\$said\"; echo >'$work/halfway'; sleep 10; printf '%s\n' \"\${said#?????????}\""
    start_as_user "$way"
    is_halfway
    began=$?
    # Left alone, it would end with whole answers.
    kill_it "$1"
    if [ "$began" -ne 0 ]; then
        fail "a run that is killed by $1: it did not begin"
    elif find "$user/sheets" -name '*.out' -o -name '*.days' | grep -q .; then
        fail "a run that is killed by $1: it left an answer"
    else
        pass
    fi
    restore_program
    # What is left of it bears no answer's name, and is removed by a run of another day.
    find "$user/sheets" -name '*.new.*' -exec rm -f {} +
    as_user "$way"
    settled "behind a run that was killed by $1" 0 4711-2026-05-01 4711-2026-05-11 "other units/it's 12-2026-05-02"
}

all_cases() {
    sheets_change
    answers_change
    programs_fail
    sheet_moves
    neighbours
    run_killed TERM
    run_killed KILL
}

# --- Another machine: its commands are run here, in a home of its own and with the shell that sshd names; where this test runs may have none.
stand_in_ssh() {
    cat >"$work/ssh" <<END
#!/bin/sh
while :; do
    case \$1 in
        -l | -p | -o | -S) shift 2 ;;
        -*) shift ;;
        *) break ;;
    esac
done
HOME=$work/\$1
SHELL=/bin/sh
export HOME SHELL
shift
[ "\$1" != -- ] || shift
mkdir -p "\$HOME" && cd "\$HOME" && exec sh -c "\$*"
END
    chmod +x "$work/ssh"
}

# --- Answers that break off on their way from another machine: what came of them is in no place, and no other sheet has it. In the place of
# GNU parallel a script that cuts the answer to sheet $1, in the order of the copies, as the command $2 does.
answers_break_off() {
    fresh
    mkdir -p "$work/cut"
    cat >"$work/cut/parallel" <<END
#!/bin/sh
n=0
while read -r copy; do
    n=\$((n + 1))
    echo "=\${copy##*/}"
    if [ "\$n" -eq $1 ]; then day <"\$copy" | $2 && cp "\${copy%.day}.name" '$work/cut/lost'; else day <"\$copy" && echo =; fi
done
END
    chmod +x "$work/cut/parallel"
    as_user "settle day sheets '$work/cut/parallel'"
    lost=$(cat "$work/cut/lost")
    lost=${lost#sheets/}
    not_settled "answer $1 through $2" "no answer: sheets/$lost" "${lost%.txt}"
    find "$user/sheets" -name '*.out' >"$work/kept"
    while IFS= read -r answer; do
        name=${answer#"$user/sheets/"}
        cmp -s "$answer" "$work/want/${name%.out}" || fail "answer $1 through $2: $name has another answer"
    done <"$work/kept"
}

# --- The rest of the month's commands, and what is no month.
other_commands() {
    fresh
    as_user "$here"
    as_user "$totals"
    printf '%s\n' 'sheets/4711-2026-05-11.out' "sheets/other units/it's 12-2026-05-02.out" | sort >"$work/want.totals"
    sort "$work/out" | cmp -s - "$work/want.totals" && pass || fail "$totals: $(cat "$work/out")"
    as_user "$refusals"
    [ "$(grep -c 'refused=' "$work/out")" -eq 8 ] && pass || fail "$refusals: $(wc -l <"$work/out") lines"

    mkdir -p "$user/imports"
    for name in paid range autumn; do cp "$samples/import/$name.txt" "$user/imports"; done
    as_user "$imports"
    for name in paid range autumn; do cmp -s "$samples/import/$name.out" "$user/imports/$name.out" && pass || fail "$imports: $name"; done
    mkdir -p "$user/lines"
    for name in paid autumn header-range surplus; do cp "$samples/line/$name.txt" "$user/lines"; done
    as_user "$lines"
    for name in paid autumn header-range surplus; do cmp -s "$samples/line/$name.out" "$user/lines/$name.out" && pass || fail "$lines: $name"; done

    for sheet in 1 2 3; do
        for cut in 'head -n 3' 'head -c -1' 'head -c 4' 'cat'; do answers_break_off "$sheet" "$cut"; done
    done

    rm -rf "$user/sheets"
    as_user "$here"
    [ "$status" -eq 2 ] && pass || fail "no folder: status $status"
    mkdir "$user/sheets"
    as_user "$here"
    [ "$status" -eq 2 ] && pass || fail "an empty folder: status $status"
    fresh
    as_user 'settle day sheets absent'
    [ "$status" -eq 2 ] && grep -q 'no program absent' "$work/err" && pass || fail "a missing engine: status $status"
}

#!/bin/sh
# A month of sheets, by the commands that README has: they are taken out of it,
# and run in the home of a user who has installed the programs as it says.
#
#   sh month.sh PATH-OF-HOUR PATH-OF-DAY PATH-OF-IMPORT PATH-OF-LINE PATH-OF-UP PATH-OF-DOWN
#
# Each way of running them, on this machine and by GNU parallel, goes through
# corrected and added sheets, days and their neighbours, answers that are cut or
# gone, runs that are killed and programs that are missing or fail. Where GNU
# parallel is not to be found, its cases are skipped, and that is said. The last
# line counts what passed and what failed; the status is 1 if anything failed.
. "$(dirname -- "$0")/common.sh"
. "$(dirname -- "$0")/user.sh"

all_programs month "$@"
need setsid
work=$(cd "$work" && pwd) || exit 2
clone=$work/clone
home=$work/home
user=$work/user
samples=$root/samples

# --- What README says.

# That one of the month's commands which has the first words and not the second.
command_with() {
    commands "A month of sheets" | grep -e "^$1" | grep -v -e "$2"
}

install=$(commands "Install" | grep -v '^sh tools/build ')
here=$(command_with 'settle day sheets' parallel)
there=$(command_with 'settle day sheets parallel --sshloginfile nodes' none)
imports=$(command_with 'settle import imports' none)
lines=$(command_with 'settle line lines' none)
totals=$(command_with 'grep -rL' none)
refusals=$(command_with 'grep -rH' none)
found "$install" "$here" "$there" "$imports" "$lines" "$totals" "$refusals"

# --- The user: programs as installed from a clone that is gone, and sheets.

mkdir -p "$clone/target/bin" "$clone/tools" "$home" "$user" || exit 2
copy_programs "$clone/target/bin" "$@"
cp "$root/tools/settle" "$root/tools/archive" "$clone/tools" || exit 2
if (cd "$clone" && HOME=$home && export HOME && sh -e -c "$install") 2>"$work/err"; then
    pass
else
    fail "install: $(head -n 1 "$work/err")"
fi
rm -rf "$clone"
# The folder that README puts on the path.
bin=$(HOME=$home && eval "$(echo "$install" | grep '^PATH=')" && echo "${PATH%%:*}")
cp -p "$bin/day" "$work/day" || exit 2

# A sheet of the user's, and the answer that it has to have in the end, if it has no neighbours.
put() {
    stored <"$samples/day/$2.txt" >"$user/sheets/$1.txt"
    cp "$samples/day/$2.out" "$work/want/$1"
}

# A folder without sheets.
no_sheets() {
    rm -rf "$user/sheets" "$work/want"
    mkdir -p "$user/sheets" "$work/want"
}

# Three sheets without answers, none of them a neighbour of another.
fresh() {
    no_sheets
    mkdir "$user/sheets/other units" "$work/want/other units"
    put 4711-2026-05-01 paid
    put 4711-2026-05-11 header-range
    put "other units/it's 12-2026-05-02" mixed
}

# --- How a run is judged.

# Each answer is right and has its neighbours' headers beside it, and nothing else lies about.
all_answered() {
    (cd "$work/want" && find . -type f) | while IFS= read -r name; do
        cmp -s "$work/want/$name" "$user/sheets/$name.out" || echo "$name has not its answer"
        [ -f "$user/sheets/$name.days" ] || echo "$name has no .days"
    done
    find "$user/sheets" -type f ! -name '*.txt' ! -name '*.out' ! -name '*.days' | sed 's/$/ is left/'
    find "$user/sheets" -type f -name '*.days' | while IFS= read -r days; do
        [ -f "${days%.days}.out" ] || echo "$days is left"
    done
}

# The run has the status $2; it has settled the sheets $3.. and no other.
settled() {
    what=$1
    wanted=$2
    shift 2
    : >"$work/listed"
    for name in "$@"; do echo "sheets/$name.txt"; done | sort >"$work/listed"
    sort "$work/out" >"$work/got"
    wrong=$(all_answered | head -n 1)
    if [ "$status" -ne "$wanted" ]; then
        fail "$what: status $status, $(tail -n 1 "$work/err")"
    elif ! cmp -s "$work/got" "$work/listed"; then
        fail "$what: $(differ "$work/got" "$work/listed")"
    elif [ -n "$wrong" ]; then
        fail "$what: $wrong"
    else
        pass
    fi
}

# The run has failed and said so, naming $2; these sheets have no answer.
not_settled() {
    what=$1
    named=$2
    shift 2
    if [ "$status" -eq 0 ]; then
        fail "$what: status 0"
    elif ! grep -q -F -e "$named" "$work/err"; then
        fail "$what: nothing is said of $named"
    elif find "$user/sheets" -name '*.new.*' | grep -q .; then
        fail "$what: a half answer is left"
    else
        for name in "$@"; do
            if [ -e "$user/sheets/$name.out" ]; then
                fail "$what: $name has an answer"
                return
            fi
        done
        pass
    fi
}

. "$root/tests/month/cases.sh"
. "$root/tests/month/neighbours.sh"

# --- The ways.

about="one machine: "
way=$here
all_cases

if command -v parallel >/dev/null; then
    mkdir -p "$home/.parallel"
    : >"$home/.parallel/will-cite"
    about="GNU parallel, this machine: "
    way=$there
    echo : >"$user/nodes"
    all_cases
    if command -v rsync >/dev/null; then
        about="GNU parallel, other machines: "
        stand_in_ssh
        printf '%s\n' "1/$work/ssh alpha" "1/$work/ssh beta" >"$user/nodes"
        all_cases
    else
        echo "skipped: no rsync, so GNU parallel has no other machines"
    fi
else
    echo "skipped: no GNU parallel, so its cases were not run"
fi

about=
way=$here
neighbours_once
other_commands
finish

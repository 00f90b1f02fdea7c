# What the scripts share that run README's commands as a user does: the
# commands, and runs of them to the end or to a kill. Read behind common.sh, by
# a script that has a folder $user to run them in, a home $home and the folder
# $bin of the installed programs, all of them from the root.

root=$(cd "$(dirname -- "$0")/.." && pwd) || exit 2

# The commands of README's section with this heading.
commands() {
    awk -v heading="## $1" '/^## / { inside = $0 == heading } inside && /^    / { print substr($0, 5) }' "$root/README.md"
}

# Each of these commands was found, or nothing is tried.
found() {
    for command in "$@"; do
        if [ -z "$command" ]; then
            fail "README has not the commands that are tested here"
            finish
            exit
        fi
    done
}

# Runs a command as the user does, and keeps its status.
as_user() {
    (cd "$user" && HOME=$home PATH=$bin:$PATH within 120 sh -c "$1") >"$work/out" 2>"$work/err"
    status=$?
}

# Starts a command as the user does, in a group of its own.
start_as_user() {
    rm -f "$work/halfway"
    (cd "$user" && HOME=$home PATH=$bin:$PATH exec setsid sh -c "$1") >/dev/null 2>&1 &
    running=$!
}

# Whether something of it still runs. What has ended and was not waited for yet does not.
still_runs() {
    cat /proc/[0-9]*/stat 2>/dev/null | sed 's/.*) //' | awk -v group="$running" '$3 == group && $1 != "Z" { n++ } END { exit !n }'
}

# Ends it by this signal, itself and whatever it started.
kill_it() {
    kill "-$1" "-$running" 2>/dev/null
    wait "$running" 2>/dev/null
    n=0
    while still_runs && [ "$n" -lt 100 ]; do
        sleep 0.02
        n=$((n + 1))
    done
}

# Waits until it has come to where $work/halfway is written.
is_halfway() {
    n=0
    until [ -s "$work/halfway" ]; do
        [ "$n" -lt 1000 ] || return 1
        sleep 0.02
        n=$((n + 1))
    done
}

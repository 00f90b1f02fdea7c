# What the faults of the programs share: how a program is run, how it is
# judged, and the bytes that texts are made of. Read by faults.sh, behind the
# common.sh of all scripts.

mkfifo "$work/pipe" || exit 2

# --- How a program is run.

# What a run may take of memory, in kB, however long its input is. It is less
# than the long inputs, so that a program that keeps them is found out.
memory=16384
if (ulimit -v "$memory") 2>/dev/null; then
    can_limit=yes
else
    can_limit=no
    echo "no limit of memory can be set here: not tested"
fi

# The program that the next cases are about: its name and its path. The second
# program keeps all its input in memory and reads it to the end. Where it is
# itself under test, memory has no limit and no input is endless.
take() {
    about="$1: "
    program=$2
    second=$release/${1}2
    frugal=yes
    limit=$can_limit
    if cmp -s "$(command -v "$program")" "$second"; then
        frugal=no
        limit=no
    fi
}

# Runs the program for so many seconds at most, with these arguments, if any.
bare() (
    if [ "$limit" = yes ]; then
        ulimit -v "$memory"
    fi
    seconds=$1
    shift
    within "$seconds" "$program" "$@"
)

# The same, and keeps what it writes.
run() {
    bare "$@" >"$work/got" 2>"$work/err"
}

# Runs it on the file $1, written to a pipe that stays open until it has ended.
held_open() {
    run 20 <"$work/pipe" &
    running=$!
    exec 3>"$work/pipe"
    # What has an early answer may not take the rest.
    (cat "$1" >&3) 2>/dev/null
    wait "$running"
    status=$?
    exec 3>&-
    return "$status"
}

# --- How it is judged.

# Stands directly behind a run. The program has to have ended by itself, without
# a panic, a signal or a message. It may say by its status that it could not do
# its work.
ended() {
    status=$?
    if [ "$status" -eq 101 ] || [ "$status" -ge 124 ]; then
        fail "$1: status $status"
    elif [ -s "$work/err" ]; then
        fail "$1: $(head -n 1 "$work/err")"
    else
        pass
    fi
}

# Runs it on $work/text, through a pipe: the answer has to be the second
# program's on the same bytes.
same() {
    "$second" <"$work/text" >"$work/want"
    cat "$work/text" 2>/dev/null | run 20
    answered "$1"
}

# --- What texts are made of.

# The first so many bytes of a file.
first() {
    if [ "$2" -gt 0 ]; then
        dd if="$1" bs="$2" count=1 2>/dev/null
    fi
}

# What stands behind so many bytes.
rest() {
    tail -c "+$(($1 + 1))"
}

# The bytes of a file from one place to another, one by one.
one_by_one() {
    at=$2
    while [ "$at" -lt "$3" ]; do
        dd if="$1" bs=1 skip="$at" count=1 2>/dev/null
        at=$((at + 1))
    done
}

size_of() {
    echo $(($(wc -c <"$1")))
}

# So many bytes like this one.
fill() {
    if [ "$1" -gt 0 ]; then
        dd if=/dev/zero bs="$1" count=1 2>/dev/null | tr '\0' "$2"
    fi
}

# So many MB of this byte.
megabytes() {
    dd if=/dev/zero bs=1048576 count="$1" 2>/dev/null | tr '\0' "$2"
}

fifty() {
    megabytes 50 "$1"
}

# 5 MB of it: enough for `hour`, which reads a byte or two at a time.
five() {
    megabytes 5 "$1"
}

# 50 MB of this line.
fifty_lines() {
    yes "$1" 2>/dev/null | head -n $((52428800 / (${#1} + 1)))
}

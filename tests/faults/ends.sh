# What stands at the two ends of a program: an input that is closed or cannot be
# read, an output that is closed, full or gone. Read by faults.sh.

# A closed input has the answer in $work/want, that of an empty one; so has one
# that cannot be read, since a failed read is the end of input.
input_closed() {
    run 20 <&-
    answered "a closed standard input"

    run 20 <"$work"
    answered "a directory as standard input"
}

# The text $1 has the answer in $work/want, if there is where to write it.
output_closed() {
    bare 20 <"$1" >&- 2>"$work/err"
    ended "a closed standard output"

    : >"$work/err"
    bare 20 <"$1" >"$work/got" 2>&-
    answered "a closed standard error"

    bare 20 <"$1" >&- 2>&-
    ended "closed standard output and error"

    if [ -w /dev/full ]; then
        bare 20 <"$1" >/dev/full 2>"$work/err"
        ended "a full standard output"
    fi

    unread "$1"
    ended "a reader that has gone"
}

# The reader has gone before the program can answer. A program that does not
# look away ends by the signal for that, which is no fault either.
unread() {
    rm -f "$work/status"
    {
        bare 20 <"$work/pipe" 2>"$work/err"
        echo $? >"$work/status"
    } | : &
    running=$!
    exec 3>"$work/pipe"
    sleep 1
    (cat "$1" >&3) 2>/dev/null
    exec 3>&-
    wait "$running"
    # The pipeline's last command ends first: wait for the status, too.
    n=0
    while [ ! -s "$work/status" ] && [ "$n" -lt 25 ]; do
        sleep 1
        n=$((n + 1))
    done
    status=$(cat "$work/status" 2>/dev/null)
    [ "${status:=124}" -eq 141 ] && status=0
    return "$status"
}

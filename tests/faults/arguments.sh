# Arguments. A program takes none: given any, it prints no answer, which might
# be taken for that of a file, and says on standard error what it reads, what it
# prints or writes and where to read on. Read by faults.sh.

# Stands directly behind a run.
told_of_use() {
    status=$?
    if [ "$status" -ne 0 ]; then
        fail "$1: status $status"
    elif [ -s "$work/got" ]; then
        fail "$1: it prints $(head -n 1 "$work/got")"
    elif [ "$(wc -l <"$work/err")" -gt 3 ]; then
        fail "$1: it says more than three lines"
    elif ! grep -q "^${about%: } takes no argument.*standard input" "$work/err" || ! grep -q '^It \(prints\|writes\) ' "$work/err" ||
        ! grep -q 'docs/sheet.md.*docs/answers.md' "$work/err"; then
        fail "$1: it does not say how it is used"
    else
        pass
    fi
}

# With a good text $1 on standard input, and with none.
arguments() {
    for argument in x --help -h - '' "$1" '*'; do
        run 20 "$argument" </dev/null
        told_of_use "the argument '$argument'"
        run 20 "$argument" <"$1"
        told_of_use "the argument '$argument', and a text"
    done
    run 20 "$1" "$1" <"$1"
    told_of_use "two arguments"
    bare 20 "$1" </dev/null >"$work/got" 2>&-
    status=$?
    [ "$status" -eq 0 ] && [ ! -s "$work/got" ] && pass || fail "an argument, and a closed standard error: status $status"
}

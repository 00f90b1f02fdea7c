#!/bin/sh
# The must-fail edits, as evidence.
#
#   sh edits.sh LOG            of rt ci: what it said of each edit
#   sh edits.sh same [CRATE..] tries each edit's harmless twin
#
# An edit shows something if the crate that it leaves is wrong, goes through the same steps, and is refused because a fact is false. So
# rt ci has said of each that it is refused, and of none that the refusal is for a name that the edit took away, as it is where the code takes a step more or
# less: then anything would be refused. Nor may an edited text be one that cannot be read, or a refusal a limit of the prover. And each edit has a twin, its `same:` lines in place of its `new:` ones: a change of the same shape at the same
# place that says the same value another way. The twins have to be proved; `same` tries that, which takes as long as the edits do, and
# is for whoever writes or doubts an edit. The last line counts what passed and what failed; the status is 1 if anything failed.
. "$(dirname -- "$0")/common.sh"

root=$(cd "$(dirname -- "$0")/.." && pwd) || exit 2
cd "$root" || exit 2

# Whether the first thing said of an edit is that a file of specs/ which it changes has no meaning: an expression of one type where another is asked for.
ill_typed() { # LINE EDIT
    sed -n 's/^file: \(specs\/.*\)$/\1/p' "$2" | sort -u | while IFS= read -r file; do
        printf '%s\n' "$1" | grep -E "[ /]$file:[0-9]+:[0-9]+: error: .*expected type"
    done | grep -q .
}

refused() {
    line=$(grep -F "rt: must-fail $1/$2.edit: " "$log" | tail -n 1)
    case $line in
        '') fail "$1/$2 was not tried: $log says nothing of it" ;;
        *': refused, as it must be (only'*) fail "$1/$2 is refused for its shape: $(echo "$line" | cut -c 1-200)" ;;
        *': refused, as it must be'*)
            if ill_typed "$line" "crates/$1/must-fail/$2.edit"; then
                fail "$1/$2 is refused since what it writes has no meaning"
            else
                pass
            fi
            ;;
        *) fail "$(echo "$line" | cut -c 1-200)" ;;
    esac
    if awk '/^new:/ { n++; want = 1 } /^same:/ { s++; if (!want) bad = 1; want = 0 } END { exit !(n && s == n && !bad) }' "crates/$1/must-fail/$2.edit"; then
        pass
    else
        fail "$1/$2 has no twin: a 'same:' line behind each 'new:'"
    fi
}

# Puts the `same:` text of each pair in place of its `old:` one, in the crate's copy.
twin() { # EDIT CRATE-FOLDER
    f='' old=''
    while IFS= read -r line || [ -n "$line" ]; do
        case $line in
        'file: '*) f=${line#file: } ;;
        'old: '*) old=${line#old: } ;;
        'same:'*)
            new=${line#same:}
            OLD=$old NEW=${new# } awk '
                { text = text $0 "\n" }
                END {
                    at = index(text, ENVIRON["OLD"])
                    if (!at) exit 3
                    printf "%s%s%s", substr(text, 1, at - 1), ENVIRON["NEW"], substr(text, at + length(ENVIRON["OLD"]))
                }' "$2/$f" >"$2/$f.twin" || return 1
            mv "$2/$f.twin" "$2/$f"
            ;;
        esac
    done <"$1"
}

proved() {
    rm -rf "$work/tree/crates/$1"
    cp -R "crates/$1" "$work/tree/crates/$1"
    if ! twin "crates/$1/must-fail/$2.edit" "$work/tree/crates/$1"; then
        fail "$1/$2: an 'old:' text is not there"
    elif (cd "$work/tree/crates/$1" && rt check) >"$work/said" 2>&1; then
        echo "$1/$2: its twin is proved"
        pass
    else
        fail "$1/$2: its twin is refused: $(grep -m1 ': error' "$work/said" | sed 's/.*\(proofs\|specs\|src\)\//\1\//' | cut -c 1-200)"
    fi
    rm -rf "$work/tree/crates/$1"
    cp -R "crates/$1" "$work/tree/crates/$1"
}

each=refused
if [ "${1:-}" = same ]; then
    shift
    each=proved
    # a copy of the repository, with what is proved already
    work=$(mktemp -d) || exit 2
    trap 'rm -rf "$work"' EXIT
    mkdir -p "$work/tree" && cp -R crates crates.txt "$work/tree"
else
    [ $# -eq 1 ] && [ -r "$1" ] || usage "edits.sh LOG | same [CRATE..]"
    log=$1
    shift
fi
for edit in crates/*/must-fail/*.edit; do
    crate=${edit#crates/}
    crate=${crate%%/*}
    case " $* " in *" $crate "* | "  ") $each "$crate" "$(basename "$edit" .edit)" ;; esac
done

finish

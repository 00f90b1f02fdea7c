#!/bin/sh
# The library as C and Rust programs use it. include/culvertjig.h and the
# declarations of the Rust callers have to say what crates/culvertjig_c/src/lib.rt
# says, parameter by parameter. The examples are built by README's commands, and
# have to settle the sample hour, or the sample days of a controllable line.
#
#   sh examples.sh PATH-OF-ARCHIVE
#
# The last line counts what passed and what failed; the status is 1 if anything
# failed.
. "$(dirname -- "$0")/common.sh"

[ $# -eq 1 ] || usage "examples.sh PATH-OF-ARCHIVE"
need cc rustc
if [ ! -f "$1" ]; then
    echo "no archive $1: sh tools/staticlib writes it" >&2
    exit 2
fi
work_in examples
work=$(cd "$work" && pwd) || exit 2
root=$(cd "$(dirname -- "$0")/.." && pwd) || exit 2
source=$root/crates/culvertjig_c/src/lib.rt
header=$root/include/culvertjig.h

# --- The declarations: a line for each function, in one spelling.

# What the library exports, as $1 declares it: c or rust. A slice passes as a
# pointer and a length, and a lent number as a pointer.
exported() {
    awk -v as="$1" '
    function in_c(type) {
        if (type == "bool") return type
        if (type == "usize") return "size_t"
        if (type !~ /^[ui](8|16|32|64)$/) return "unknown " type
        return (type ~ /^u/ ? "uint" : "int") substr(type, 2) "_t"
    }
    function parameter(name, type, lent, slice) {
        lent = sub(/^&mut /, "", type) ? "mut" : sub(/^&/, "", type) ? "const" : ""
        slice = sub(/^\[/, "", type) && sub(/\]$/, "", type)
        if (as == "c") return (lent == "const" ? "const " : "") in_c(type) (lent ? " *" : " ") name (slice ? ", size_t " name "_length" : "")
        return name ": " (lent ? "*" lent " " : "") type (slice ? ", " name "_length: usize" : "")
    }
    /^pub extern "C" fn / { name = $5; sub(/\(.*/, "", name); list = ""; inside = 1; next }
    inside && /^\) -> / {
        print as == "c" ? in_c($3) " " name "(" list ")" : "fn " name "(" list ") -> " $3
        inside = 0
    }
    inside && match($0, /^ *[a-z_]+: [^,]+,$/) {
        split($0, pair, ": ")
        gsub(/ /, "", pair[1])
        sub(/,$/, "", pair[2])
        list = list (list ? ", " : "") parameter(pair[1], pair[2])
    }' "$source" | sort
}

declared_in_c() {
    awk '/^#/ { next } { text = text " " $0 }
    END {
        while (i = index(text, "/*")) text = substr(text, 1, i - 1) substr(text, i + index(substr(text, i), "*/") + 1)
        gsub(/extern "C" \{|\}/, "", text)
        gsub(/ +/, " ", text)
        n = split(text, parts, / *; */)
        for (i = 1; i <= n; i++) if (sub(/^ */, "", parts[i]) && parts[i] != "") print parts[i]
    }' "$1" | sort
}

declared_in_rust() {
    awk '{ sub(/\/\/.*/, ""); text = text " " $0 }
    END {
        gsub(/ +/, " ", text)
        gsub(/&mut /, "*mut ", text)
        while (match(text, /fn [a-z_]+\([^)]*\) -> [a-z0-9]+;/)) {
            one = substr(text, RSTART, RLENGTH - 1)
            text = substr(text, RSTART + RLENGTH)
            gsub(/\( /, "(", one)
            gsub(/,? \)/, ")", one)
            print one
        }
    }' "$1" | sort
}

# What a file declares in this language is what the library exports: all of it,
# or some, as $3 says.
as_exported() {
    exported "$2" >"$work/exported"
    "declared_in_$2" "$1" >"$work/declared"
    if [ ! -s "$work/exported" ] || [ ! -s "$work/declared" ]; then
        fail "${1#"$root/"}: no function was found there or in $source"
    elif [ "$3" = all ] && cmp -s "$work/declared" "$work/exported"; then
        pass
    elif [ "$3" = some ] && [ -z "$(comm -13 "$work/exported" "$work/declared")" ]; then
        pass
    else
        fail "${1#"$root/"}: $(differ "$work/declared" "$work/exported")"
    fi
}

# The header has all of it, and all of it is compared with the second program;
# an example leaves out what it does not call.
as_exported "$header" c all
as_exported "$root/tests/library/src/archive.rs" rust all
for example in "$root"/examples/*.rs; do as_exported "$example" rust some; done

# The header's comment explains each parameter, on a line that begins with it.
for name in $(exported rust | tr '(,' '\n\n' | sed -n 's/^ *\([a-z_]*\): .*/\1/p' | sort -u); do
    if grep -q -E "^ \*   ([a-z_]+, )?${name}[, ]" "$header"; then pass; else fail "the header does not explain $name"; fi
done

# --- The examples, by README's commands, as they stand in the repository.
mkdir -p "$work/clone/target/staticlib" "$work/clone/samples/hour" "$work/clone/samples/line" || exit 2
cp -R "$root/include" "$root/examples" "$work/clone" && cp "$1" "$work/clone/target/staticlib/libculvertjig.a" || exit 2
cd "$work/clone" || exit 2

awk '/^## / { inside = $0 ~ /library/ } inside && /^    (cc|rustc) / { print substr($0, 5) }' "$root/README.md" >"$work/commands"
while IFS= read -r command; do
    if sh -c "$command" >"$work/out" 2>&1 && [ ! -s "$work/out" ]; then
        pass
    else
        fail "$command: $(head -n 1 "$work/out")"
    fi
done <"$work/commands"
for example in examples/*; do
    [ "$(grep -c -F " $example " "$work/commands")" -eq 1 ] || fail "README does not build $example"
done

# Where warnings count, and in C++.
for example in examples/*.c; do
    if cc -std=c99 -pedantic -Wall -Wextra -Werror -Iinclude -fsyntax-only "$example" 2>"$work/err"; then
        pass
    else
        fail "$example: $(head -n 1 "$work/err")"
    fi
done
if echo 'int main() { return 0; }' | cc -x c++ -fsyntax-only - 2>/dev/null; then
    if echo '#include <culvertjig.h>' | cc -x c++ -Wall -Wextra -Werror -Iinclude -fsyntax-only - 2>"$work/err"; then
        pass
    else
        fail "the header in C++: $(head -n 1 "$work/err")"
    fi
else
    echo "skipped: no C++ compiler, so the header was not tried there"
fi

# --- What they print, each in the place of the sample hour or day.

# The line of an example for an answer of `hour`: the sum, the cents and interval 1; or the refusal.
line_for() {
    awk -F '[ =]' '/^refused/ { print } $1 == "i" { sum += $4; if ($2 == 1) first = $4 }
        $3 == "pay" { printf "grains=%.0f pay=%s, interval 1: %s\n", sum, $4, first }' "$1"
}

# The programs of the examples $1, of any language, are what README's commands
# write behind -o.
settles() {
    for program in $(sed -n "/ examples\/$1\./s/.* -o \([^ ]*\).*/\1/p" "$work/commands"); do
        about="$program: "
        "./$program" >"$work/got" 2>"$work/err"
        answered "$2"
    done
    about=
}

for name in sample reach seconds; do
    cp "$root/samples/hour/$name.txt" samples/hour/sample.txt
    line_for "$root/samples/hour/$name.out" >"$work/want"
    settles settle "$name"
done

# The longest block: a row of 30 places has room for it.
{
    sed -n 1,3p "$root/samples/hour/sample.txt"
    for ten in 1 2 3; do
        for interval in 1 2 3 4 5 6 7 8 9 10; do sed -n '4s/^s=900/s=120/p' "$root/samples/hour/sample.txt"; done
    done
} >samples/hour/sample.txt
echo "grains=108000000000 pay=30000, interval 1: 3600000000" >"$work/want"
settles settle "30 intervals"

# A controllable line's hours, as `line` answers them.
for name in mixed paid autumn; do
    cp "$root/samples/line/$name.txt" samples/line/mixed.txt
    grep '^hour=' "$root/samples/line/$name.out" >"$work/want"
    settles line "$name"
done

cd "$root" || exit 2
finish

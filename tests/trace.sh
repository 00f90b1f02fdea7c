#!/bin/sh
# The auditors' page, docs/trace.md, against the files that it names.
#
#   sh trace.sh [PAGE]
#
# A code span of the page with a slash in it is a reference, `path` or
# `path#name`: the path is there, and the name is declared in that file, in
# .antt as `name :`, in .rt as a fn, struct, enum or static, in .rs as one of
# these, a const, mod or type, or an enum's case, in .sh as `name()`.
# And the page is whole: it names each theorem of the front pages and of every
# Unique.antt, each must-fail edit and each public function. No public function
# of a library has a `requires`, and no operator of public types a condition:
# the page says so. The last line counts what passed and what failed; the status
# is 1 if anything failed.
. "$(dirname -- "$0")/common.sh"

[ $# -le 1 ] || usage "trace.sh [PAGE]"
root=$(cd "$(dirname -- "$0")/.." && pwd) || exit 2
page=${1:-$root/docs/trace.md}
case $page in
    /*) ;;
    *) page=$PWD/$page ;;
esac
if [ ! -r "$page" ]; then
    echo "no page $page" >&2
    exit 2
fi
cd "$root" || exit 2

# The pages that state what is proved of the definitions.
fronts='demands/proofs/Demands tariff/proofs/Demands tariff/proofs/ShareDemands tariff/proofs/Imports sheet/proofs/BlockDemands
    marks/proofs/Far ledger/proofs/DayDemands imports/proofs/ImportDemands spelling/proofs/Spelling archived/proofs/ArchiveDemands
    demands/proofs/LineDemands demands/proofs/NeighbourDemands demands/proofs/CentDemands demands/proofs/MoveDemands demands/proofs/PointDemands marks/proofs/Midnight ledger/proofs/MidnightDemands tariff/proofs/IclDemands iclsheet/proofs/IclBlockDemands ledger/proofs/IclDayDemands
    tariff/proofs/PointDemands sheet/proofs/BlockPoints ledger/proofs/DayPoints'

work_in trace
tab=$(printf '\t')

# --- The references: a path, a tab, and the name or nothing.
awk '{
    n = split($0, spans, "`")
    for (i = 2; i <= n; i += 2) {
        if (spans[i] !~ /\//) continue
        at = index(spans[i], "#")
        if (at) print substr(spans[i], 1, at - 1) "\t" substr(spans[i], at + 1)
        else print spans[i] "\t"
    }
}' "$page" | sort -u >"$work/refs"
[ -s "$work/refs" ] || fail "the page names nothing"

# --- Each path is there.
: >"$work/named"
while IFS=$tab read -r path name; do
    if [ ! -e "$path" ]; then
        fail "no $path${name:+, for $name}"
    elif [ -z "$name" ]; then
        pass
    else
        printf '%s\t%s\n' "$path" "$name" >>"$work/named"
    fi
done <"$work/refs"

# --- Each name is declared there: first, what the named files declare.
cut -f 1 "$work/named" | sort -u | awk '
# What stands behind the arguments (x : A) and {x : A} of a declaration.
function behind(s, depth, i, c) {
    while (s ~ /^ [({]/) {
        depth = 0
        for (i = 2; i <= length(s); i++) {
            c = substr(s, i, 1)
            if (c == "(" || c == "{") depth++
            else if ((c == ")" || c == "}") && --depth == 0) break
        }
        s = substr(s, i + 1)
    }
    return s
}
function antt(line, name) {
    sub(/^ +/, "", line)
    while (sub(/^(abbrev|unfoldable|pub|data|record) /, "", line)) ;
    name = line
    sub(/ .*/, "", name)
    if (name !~ /^[({]/ && behind(substr(line, length(name) + 1)) ~ /^ :( |$)/) print file "\t" name
}
function rt(line, words) {
    if (match(line, /^ *(pub )?(extern "C" )?(fn|struct|enum|static) [A-Za-z0-9_]+/))
        print file "\t" words[split(substr(line, 1, RLENGTH), words, " ")]
}
# The word behind a keyword, and each case of an enum.
function rs(line, words, edge, n) {
    sub(/ *\/\/.*/, "", line)
    edge = match(line, /[^ ]/) - 1
    if (match(line, /^ *(pub(\([a-z]+\))? )?(const |unsafe |extern "C" )*(fn|struct|enum|const|static|mod|type) [A-Za-z0-9_]+/)) {
        n = split(substr(line, 1, RLENGTH), words, " ")
        print file "\t" words[n]
        if (words[n - 1] == "enum") inside = edge
    } else if (edge == inside && line ~ /^ *[}]/) inside = -1
    else if (inside >= 0 && edge == inside + 4 && match(line, /^ *[A-Z][A-Za-z0-9]*/))
        print file "\t" substr(line, edge + 1, RLENGTH - edge)
}
function sh(line) {
    if (match(line, /^[A-Za-z0-9_]+\(\)/)) print file "\t" substr(line, 1, RLENGTH - 2)
}
{
    file = $0
    inside = -1
    while ((getline line < file) > 0) {
        if (file ~ /\.antt$/) antt(line)
        else if (file ~ /\.rt$/) rt(line)
        else if (file ~ /\.rs$/) rs(line)
        else if (file ~ /\.sh$/) sh(line)
    }
    close(file)
}' | sort -u >"$work/declared"

comm -23 "$work/named" "$work/declared" >"$work/strange"
while IFS=$tab read -r path name; do
    fail "$path does not declare $name"
done <"$work/strange"
passed=$((passed + $(comm -12 "$work/named" "$work/declared" | wc -l)))

# --- The page is whole: what it has to name.
: >"$work/all"

# The theorems that a page states, also inside its modules. A page without any says nothing, so it is in the wrong list.
theorems() {
    sed -n "s|^ *pub \([^ ]*\) :.*|$1$tab\1|p" "$1" >"$work/stated"
    [ -s "$work/stated" ] || fail "$1 states nothing"
    cat "$work/stated" >>"$work/all"
}

for front in $fronts; do
    if [ -f "crates/$front.antt" ]; then
        theorems "crates/$front.antt"
    else
        fail "no front page crates/$front.antt"
    fi
done
for file in crates/*/proofs/Unique.antt; do
    [ -f "$file" ] && theorems "$file"
done
for file in crates/*/must-fail/*.edit; do
    [ -f "$file" ] && printf '%s\t\n' "$file" >>"$work/all"
done

# --- What a library's callers can call: the functions that its root has, opens or brings out, the methods of its public types and traits, and their
# operators. Each line has the file, the name, `pub` where the page has to name it, and `asks` where it has a `requires` or an operator has a
# condition, with tabs between. What a private module keeps to itself is inner, and so are the methods of such a type.
# A private module that is brought out by its name, another name of an inner type and a method of one that a public field shows are not looked for; there are none.
: >"$work/calls"
for lib in crates/*/src/lib.rt; do
    find "${lib%/lib.rt}" -name '*.rt' | sort | awk '
# The words of a line.
function words_of(line, words) { return split(line, words, /[^A-Za-z0-9_]+/) }
# The name behind the last of these keywords.
function name_in(line, words, n) {
    n = words_of(line, words)
    return words[n]
}
function is_inner(line, words, n, i) {
    n = words_of(line, words)
    for (i = 1; i <= n; i++) if ((words[i] in inner) && !(words[i] in brought)) return 1
    return 0
}
# A function that can be called begins: what it asks stands before its body.
function begins(line) {
    match(line, /fn [A-Za-z0-9_]+/)
    name = substr(line, RSTART + 3, RLENGTH - 3)
    shown = line ~ /^ *pub / ? "pub" : ""
    asks = line ~ / requires[* ]/ ? "asks" : ""
    head = 1
}
function ends() {
    if (head) print file "\t" name "\t" shown "\t" asks
    head = 0
}
function first_look(line) {
    # What the root brings out or opens, and what is declared where no caller sees it.
    if (is_root && line ~ /^pub use /) bringing = 1
    if (bringing) {
        n = words_of(line, words)
        for (i = 1; i <= n; i++) brought[words[i]]
        if (line ~ /\*/) unclear = 1
        if (line ~ /;$/) bringing = 0
    }
    if (is_root && match(line, /^pub mod [a-z0-9_]+/)) is_open[substr(line, 9, RLENGTH - 8)]
    if (match(line, /^(pub(\([a-z]+\))? )?(struct|enum|trait|type) [A-Za-z0-9_]+/))
        if (!(module in is_open) || line !~ /^pub /) inner[name_in(substr(line, 1, RLENGTH))]
}
function second_look(line) {
    if (head) {
        if (line ~ /^ *requires[* ]/) asks = "asks"
        if (line ~ /^ *\{$/ || line ~ /;$/ || (line ~ /\{\}?$/ && line !~ /^ *(requires|ensures|ghost)[* ]/)) ends()
        return
    }
    if (line ~ /^}/) within = ""
    else if (line ~ /^(unsafe )?impl[ <]/) within = is_inner(line) ? "" : line ~ / for / ? "impl for" : "impl"
    else if (match(line, /^pub (unsafe )?trait [A-Za-z0-9_]+/)) within = (module in is_open) || (name_in(substr(line, 1, RLENGTH)) in brought) ? "trait" : ""
    else if (match(line, /^pub (const |unsafe |extern "C" )*fn [A-Za-z0-9_]+/)) {
        if ((module in is_open) || (name_in(substr(line, 1, RLENGTH)) in brought)) begins(line)
    } else if (within == "impl" && line ~ /^    pub (const |unsafe )*fn /) begins(line)
    else if ((within == "impl for" || within == "trait") && line ~ /^    (const |unsafe |final )*fn /) begins(line)
    else if (within == "impl for" && match(line, /^    ghost can_[a-z0-9_]+ =/)) {
        name = name_in(substr(line, 1, RLENGTH - 2))
        print file "\t" name "\t\tasks"
    }
    if (head && line ~ /[{};]$/) ends()
}
function read_all(look, i, line) {
    for (i = 1; i <= files; i++) {
        file = names[i]
        module = file
        sub(/.*\/src\//, "", module)
        sub(/\.rt$/, "", module)
        is_root = module == "lib"
        within = ""
        head = 0
        while ((getline line < file) > 0) if (look == 1) first_look(line); else second_look(line)
        close(file)
    }
}
# The root is read first, since it says what is open.
{
    if ($0 ~ /\/src\/lib\.rt$/) names[1] = $0
    else names[++others + 1] = $0
}
END {
    files = others + 1
    is_open["lib"]
    read_all(1)
    read_all(2)
    exit unclear
}' >>"$work/calls" || fail "$lib brings out more than it names"
done

# --- None of them asks anything of its caller.
awk -F "$tab" '$4 == "asks"' "$work/calls" >"$work/asking"
while IFS=$tab read -r path name rest; do
    fail "$path: $name asks something of its callers"
done <"$work/asking"
passed=$((passed + $(awk -F "$tab" '$4 == ""' "$work/calls" | wc -l)))

# --- The page names each function and method of them.
awk -F "$tab" '$3 == "pub" { print $1 "\t" $2 }' "$work/calls" >"$work/public"
[ -s "$work/public" ] || fail "no library has a public function"
cat "$work/public" >>"$work/all"
sort -u "$work/all" >"$work/wanted"
comm -23 "$work/wanted" "$work/refs" >"$work/unnamed"
while IFS=$tab read -r path name; do
    fail "the page does not name $path${name:+#$name}"
done <"$work/unnamed"
passed=$((passed + $(comm -12 "$work/wanted" "$work/refs" | wc -l)))

finish

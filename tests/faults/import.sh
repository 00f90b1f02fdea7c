# `import`: the first refused block refuses the day.

most_lines=31
heads=1
own=0
which=

refused_at() {
    echo "refused=1 hour=$1 at=$2" >"$work/want"
}

withheld() {
    echo "refused=3 hour=- at=0" >"$work/want"
}

sheet_cases "$here/../samples/import/paid.txt"
counted_cases "$here/../samples/import/paid.txt"

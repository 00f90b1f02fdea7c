# How the answers of `day` and `line` look, a line for each hour and the total: a
# refused hour leaves the others as they are and withholds the total. Read by
# day.sh and line.sh, and sheet.sh says what these are. $which ends the line of a
# refused header.

most_lines=33

refused_at() {
    if [ "$1" = - ]; then
        echo "refused=1 at=$2$which"
    else
        sed "s/^hour=$1 .*/hour=$1 refused=1 at=$2/; s/^total=.*/total=-/" "$work/paid"
    fi >"$work/want"
}

withheld() {
    sed 's/^total=.*/total=-/' "$work/paid" >"$work/want"
}

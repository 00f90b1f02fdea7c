# The sheets of the archive. Read by archive.sh.

# A file of $work/old of this name, from standard input, and what becomes of it: all behind line 1 as it is.
put() {
    cat >"$work/old/$1.txt"
    { printf 'form=2\nhours=24\n'; tail -n +2 "$work/old/$1.txt"; } >"$work/new/$1.txt"
}

# The user has the sheets of the folder $1, with their times and modes.
give() {
    rm -rf "$user/sheets"
    cp -R -p "$work/$1" "$user/sheets"
}

# One sheet.
one() {
    rm -rf "$work/old" "$work/new"
    mkdir -p "$work/old" "$work/new"
    stored <"$samples/day/paid.txt" | put 4711-2026-05-01
    give old
}

# Three sheets: two days of one unit, and one of another.
few() {
    one
    mkdir "$work/old/other units" "$work/new/other units"
    stored <"$samples/day/mixed.txt" | put 4711-2026-05-02
    stored <"$samples/day/short.txt" | put "other units/it's 12-2026-05-02"
    give old
}

# --- Three years of sheets of three units, a sheet a day: each with marks and prices of its own. Some have a block that is faulty, missing or
# too much, lines that end in CR LF, or nothing behind the header.
years() {
    rm -rf "$work/old" "$work/new"
    for year in 2022 2023 2024; do mkdir -p "$work/old/$year" "$work/new/$year"; done
    awk -v dir="$work" '
        { block = block $0 "\n" }
        # A row of marks, by a generator that goes on from one to the next.
        function row(key, digits, text, h) {
            for (h = 0; h < 24; h++) {
                seed = (seed * 1103 + 12345) % 1048573
                text = text substr(digits, seed % length(digits) + 1, 1)
            }
            return key "=" text "\n"
        }
        function sheet(name, d, text, hours, prices, h, one) {
            text = "unit=" (d % 3 ? d % 3 == 1 ? 4711 : 9999999 : 1) "\nrtc=" d % 2 "\n" row("cat", "1111103451")
            for (h = 1; h <= 6; h++) text = text row("x" h, "0000000000000001")
            text = text "\n"
            prices = block
            gsub(/pen=5000/, "pen=" 3000 + d * 7 % 5000, prices)
            hours = d % 50 == 43 ? 0 : d % 50 == 23 ? 25 : 24
            for (h = 0; h < hours; h++) {
                if (d % 50 == 13 && h == 7) continue
                one = prices
                sub(/hour=14/, "hour=" h, one)
                if (d % 50 == 3 && h == 5) sub(/s=900/, "s=901", one)
                if (d % 50 == 33) gsub(/\n/, "\r\n", one)
                text = text (h ? "\n" : "") one
            }
            printf "form=1\n%s", text >(dir "/old/" name)
            printf "form=2\nhours=24\n%s", text >(dir "/new/" name)
            close(dir "/old/" name)
            close(dir "/new/" name)
        }
        END {
            split("31 28 31 30 31 30 31 31 30 31 30 31", days)
            for (year = 2022; year <= 2024; year++)
                for (month = 1; month <= 12; month++)
                    for (date = 1; date <= days[month] + (month == 2 && year == 2024); date++)
                        sheet(sprintf("%d/%02d-%02d.txt", year, month, date), d++)
        }' "$samples/hour/sample.txt"
    # One without its last LF, one of 2 MB, one with bytes that no block has, and one that its owner alone may read.
    other=$work/old/2023/06-30.txt
    head -c -1 "$other" | put 2023/07-01
    { cat "$other"; yes "$(cat "$other")" 2>/dev/null | head -c 2000000; } | put 2023/07-02
    { sed '/^$/q' "$other"; head -c 70000 /dev/zero; head -c 70000 /dev/zero | tr '\0' '\377'; } | put 2023/07-03
    chmod 600 "$work/old/2023/07-04.txt"
    touch -d '2023-07-04 06:00:00.25' "$work/old/2023/07-04.txt"
    give old
}

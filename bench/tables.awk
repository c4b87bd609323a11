# Tables of what the harness printed. Of lines that measure the same, the best of each side counts.
#
#   awk -v form=text      all, with both times
#   awk -v form=cases     a table of ratios by case, things in use and levels
#   awk -v form=growth    tables of growth, the smallest plain time being 1
#   awk -v form=trail     the ratio of the script programs
#
# In form=text, -v unit=WORD says what was measured, ns or instructions, and -v sides='A B' on what.

NF == 7 {
    key = $1 " " $2 " " $3 " " $4 " " $5
    if (!(key in plain)) {
        keys[++count] = key
        plain[key] = $6
        proved[key] = $7
    }
    if ($6 < plain[key]) plain[key] = $6
    if ($7 < proved[key]) proved[key] = $7
}

function ratio(key) { return sprintf("%.2f", proved[key] / plain[key]) }

function spoken(name) { gsub(/_/, " ", name); return name }

function text(    i, part, side) {
    split(sides, side)
    printf "%-8s %-34s %6s %6s %6s %10s %10s %6s\n", "table", "case", "in use", "levels",
        "rounds", side[1] " " unit, side[2] " " unit, "ratio"
    for (i = 1; i <= count; i++) {
        split(keys[i], part)
        printf "%-8s %-34s %6s %6s %6s %10.1f %10.1f %6s\n", part[1], spoken(part[2]), part[3],
            part[4], part[5], plain[keys[i]], proved[keys[i]], ratio(keys[i])
    }
}

# Lines of one case and one number of things stand together, their levels rising.
function cases(    i, part, row, last) {
    print "| case | in use | 1 level | 4 levels | 16 levels |"
    print "|---|---|---|---|---|"
    for (i = 1; i <= count; i++) {
        split(keys[i], part)
        if (part[1] != "cases") continue
        row = spoken(part[2]) " | " part[3]
        if (row != last) printf "%s| %s |", last == "" ? "" : "\n", row
        printf " %s |", ratio(keys[i])
        last = row
    }
    print ""
}

function growth_of(table, place, heading,    i, part, base) {
    print "| " heading " | plain C | proved | ratio |"
    print "|---|---|---|---|"
    for (i = 1; i <= count; i++) {
        split(keys[i], part)
        if (part[1] != table) continue
        if (!base) base = plain[keys[i]]
        printf "| %s | %.2f | %.2f | %s |\n", part[place], plain[keys[i]] / base,
            proved[keys[i]] / base, ratio(keys[i])
    }
}

function growth() {
    growth_of("things", 3, "things in use (write, 4 levels)")
    print ""
    growth_of("levels", 4, "levels (write, 3 things in use)")
    print ""
    growth_of("full", 4, "levels (write, 128 things in use)")
    print ""
    growth_of("unsound", 5, "unsound record (refusal with 2, 128 things in use, 4 levels)")
    print ""
    growth_of("rounds", 5, "rounds (spread of a chain, 128 things in use, 4 levels)")
}

function trail(    i, part) {
    for (i = 1; i <= count; i++) {
        split(keys[i], part)
        if (part[1] == "trail") print "Ratio for " spoken(part[2]) ": " ratio(keys[i]) "."
    }
}

END {
    if (form == "text") text()
    else if (form == "cases") cases()
    else if (form == "growth") growth()
    else if (form == "trail") trail()
}

# Reads the lines of timing.c, one for each row and place of the code, and prints medians over the places.

function median(list, n,    i, j, x) {
    for (i = 2; i <= n; i++) {
        x = list[i]
        for (j = i; j > 1 && list[j - 1] > x; j--) list[j] = list[j - 1]
        list[j] = x
    }
    return n % 2 ? list[(n + 1) / 2] : (list[n / 2] + list[n / 2 + 1]) / 2
}

# The nanoseconds of a version: 5 is Rattle, 6 C, 7 the scan.
function ns(row, version,    i, list) {
    for (i = 1; i <= places[row]; i++) list[i] = time[row, i, version]
    return median(list, places[row])
}

# One version's time over another's; the least and the most stay in low and high.
function ratio(row, a, b,    i, list, middle) {
    for (i = 1; i <= places[row]; i++) list[i] = time[row, i, a] / time[row, i, b]
    middle = median(list, places[row])
    low = list[1]
    high = list[places[row]]
    return middle
}

function spread(row,    middle) {
    middle = ratio(row, 5, 6)
    return sprintf("%.2f (%.2f to %.2f)", middle, low, high)
}

function commas(n,    s) {
    s = sprintf("%d", n)
    while (s ~ /[0-9][0-9][0-9][0-9]/) sub(/[0-9][0-9][0-9]($|,)/, ",&", s)
    return s
}

function heading(title, more) {
    printf "\n%s\n  %-10s %8s %14s %9s %9s  %-21s%s\n", title, "periods", "elements", "lengths", "Rattle", "C", "ratio", more
}

# A line of a table; a unit of 0 is the number of lengths.
function line(row, unit,    f) {
    split(row, f, " ")
    if (!unit) unit = f[4]
    printf "  %-10s %8d %14s %9.2f %9.2f  %-21s", f[2], f[3], f[4] + 0 ? commas(f[4]) : "-", ns(row, 5) / unit, ns(row, 6) / unit, spread(row)
    if (f[1] == "exact") printf " %8.1f %12.1f", ns(row, 7) / unit, ratio(row, 7, 5)
    printf "\n"
}

function table(job, title, more, unit,    i) {
    heading(title, more)
    for (i = 1; i <= rows; i++) if (index(name[i], job " ") == 1) line(name[i], unit)
}

function by_elements(periods,    i, f) {
    printf "  %-10s", periods
    for (i = 1; i <= rows; i++) {
        split(name[i], f, " ")
        if (f[1] == "exact" && f[2] == periods) printf " %4d: %5.1f ", f[3], ns(name[i], 5) / f[4]
    }
    printf "\n"
}

function by_lengths(    i, f) {
    for (i = 1; i <= rows; i++) {
        split(name[i], f, " ")
        if (f[1] == "growing") printf "  %14s %10.2f ms %8.2f ns a length\n", commas(f[4]), ns(name[i], 5) / 1e6, ns(name[i], 5) / f[4]
    }
}

# The largest ratio among the rows that match; the row stays in worst.
function largest(pattern, a, b,    i, r, most) {
    most = 0
    for (i = 1; i <= rows; i++) {
        if (name[i] !~ pattern) continue
        r = ratio(name[i], a, b)
        if (r > most) {
            most = r
            worst = name[i]
        }
    }
    return most
}

function goal(text, value, is_met,    f) {
    split(worst, f, " ")
    printf "  %-78s %6.2f  %-7s  (periods %s, elements %d)\n", text, value, is_met ? "met" : "NOT MET", f[2], f[3]
}

function goals(    r) {
    print "\nGoals, and the row that decides each"
    r = largest("^(exact|longest|growing) ", 5, 6)
    goal("exact: at most 1.2 times C in segments, in every row", r, r <= 1.2)
    r = largest("^exact thousand 128 ", 7, 5)
    goal("exact: at least 20 times as fast as the scan, 128 elements, periods thousand", r, r >= 20)
    r = largest("^exact million ", 5, 7)
    goal("exact: at most 1.1 times the scan, periods million", r, r <= 1.1)
    r = largest("^superposition ", 5, 6)
    goal("superposition: at most 1.2 times C, in every row", r, r <= 1.2)
    r = largest("^rewrite ", 5, 6)
    goal("reading and writing: at most 1.5 times C", r, r <= 1.5)
}

{
    row = $1 " " $2 " " $3 " " $4
    if (!(row in places)) name[++rows] = row
    places[row]++
    for (i = 5; i <= NF; i++) time[row, places[row], i] = $i
}

END {
    print "\nA ratio is Rattle's time over C's: the median over four places of the code, and the least and the most."
    table("exact", "The exact test, C in segments; nanoseconds for each length", "  C, scan  over Rattle", 0)
    table("longest", "The longest runs, C in segments; seconds", "", 1e9)
    table("superposition", "Superposition with k = 255; nanoseconds for each length", "", 0)
    table("rewrite", "Reading and writing a set; nanoseconds", "", 1)
    print "\nThe exact test in Rattle by elements; nanoseconds for each length"
    by_elements("thousand")
    by_elements("million")
    print "\nThe exact test in Rattle by lengths; 64 elements, one period changed"
    by_lengths()
    goals()
}

# Lays out the lines of figures that host/benchmark/run makes, parted by bars: title, bytes moved, then the instructions of the proved library, of
# the second program and of the copy, then (timed is yes) their nanoseconds. measured heads the first of these columns.
#
# The closing lines name the rows that miss the aims: 1.3 times the second program; 1.35 times the copy for 128 blocks; for a WRITE SAME that writes
# 128 blocks, 1.3 times the WRITE of as many, mapped or new; for GET LBA STATUS, 40,000 above TEST UNIT READY on the same store, which is the check.

function ratio(a, b) { return b > 0 ? sprintf("%.2f", a / b) : "-" }

function add(list, title) { return (list == "none" ? "" : list "; ") title }

function header() {
    printf "| operation | bytes | %s | second | copy | %s / second | %s / copy |", measured, measured, measured
    print timed == "yes" ? " " measured " ns | second ns | copy ns |" : ""
    printf "|---|--:|--:|--:|--:|--:|--:|"
    print timed == "yes" ? "--:|--:|--:|" : ""
}

function row(bytes) {
    printf "| %s | %s | %d | %d | %s | %s | %s |", $1, bytes ? bytes : "-", $3, $4, bytes ? $5 : "-", ratio($3, $4), bytes ? ratio($3, $5) : "-"
    if (timed == "yes")
        printf " %s | %s | %s |", $6, $7, bytes ? $8 : "-"
    print ""
}

# What a row costs that stands above; where there is none the titles do not fit, and nothing would be compared.
function cost(title) {
    if (title in instructions)
        return instructions[title]
    print "host/benchmark/run: no row '" title "'" >"/dev/stderr"
    failed = 1
    exit 1
}

function beside_write(title,    share) {
    share = cost(title) / cost("WRITE(10), 128 blocks, " (title ~ /new/ ? "new, 128 free slots" : "mapped"))
    if (share > 1.3)
        dearer = add(dearer, title)
    if (share > most_share)
        most_share = share
}

# What follows the runs in such a title names the store.
function above_check(title,    store, extra) {
    store = title
    sub(/^GET LBA STATUS, [0-9]+ runs?, /, "", store)
    extra = cost(title) - cost("TEST UNIT READY, " store)
    if (extra > 40000)
        longer = add(longer, title)
    if (extra > most_extra)
        most_extra = extra
}

BEGIN {
    header()
    slower = missed = dearer = longer = "none"
}

{
    instructions[$1] = $3
    row($2 + 0)
    if ($3 > 1.3 * $4)
        slower = add(slower, $1)
    if ($2 == 65536 && $3 > 1.35 * $5)
        missed = add(missed, $1)
    if ($2 == 65536 && $1 ~ /^WRITE SAME/)
        beside_write($1)
    if ($1 ~ /^GET LBA STATUS, [0-9]/)
        above_check($1)
}

END {
    if (failed)
        exit 1
    print "\nAbove 1.3 times the second program: " slower "."
    print "128 blocks above 1.35 times the copy: " missed "."
    printf "WRITE SAME of 128 blocks above 1.3 times the WRITE of them: %s; the most is %.2f.\n", dearer, most_share
    printf "GET LBA STATUS more than 40000 above TEST UNIT READY on its store: %s; the most is %d.\n", longer, most_extra
}

# From the rows and lines `ROW COUNT FUNCTION` to a table for each kind of message: instructions by function. The first row
# is the copy of the table alone, which every other one has too.
FILENAME != file { file = FILENAME; files++ }
files == 1 { rows = FNR; kind[FNR] = $3; records[FNR] = $4; next }
{
    row = $1
    name = $0
    sub(/^[^ ]+ [^ ]+ /, "", name)
    if (row == 1) copy[name] = $2
    count[row, name] = $2 - copy[name]
    total[row] += count[row, name]
    known[name] = 1
}

# The functions with at least `least` instructions in some row of the kind, the dearest at the most records first.
function table(first, last,    order, name) {
    print line("\n| " kind[first] ", records:", records, first, last, 1)
    print line("|---", dashes, first, last, 1)
    print line("| all", total, first, last, calls)
    order = "sort -t '\t' -k 1,1 -rn | cut -f 2"
    for (name in known)
        if (most(name, first, last) >= least * calls) print count[last, name] "\t" functions(name, first, last) | order
    close(order)
}

function line(start, cells, first, last, parts,    row) {
    for (row = first; row <= last; row++) start = start " | " (row in cells ? int(cells[row] / parts) : "---")
    return start " |"
}

function functions(name, first, last,    row, cells) {
    for (row = first; row <= last; row++) cells[row] = count[row, name]
    return line("| " name, cells, first, last, calls)
}

function most(name, first, last,    row, x) {
    for (row = first; row <= last; row++) if (count[row, name] > x) x = count[row, name]
    return x
}

END {
    for (first = 2; first <= rows; first = last + 1) {
        for (last = first; kind[last + 1] == kind[first]; last++);
        table(first, last)
    }
}

# From lines `IDENTITIES ORDER KIND RECORDS SIDE VALUE`, a value being of so many calls, to the tables of ratios.
$5 == "memcpy" { copy = $6 / calls }
{ value[$1, $2, $3, $4, $5] = $6 / calls }

# The number of records in column k: 0 or 1, 16, 64, and 256 or 255.
function size(what, k,    n, some, i) {
    split(k == 1 ? "0 1" : k == 2 ? "16" : k == 3 ? "64" : "256 255", some, " ")
    for (i = 1; i in some; i++) if ((what, some[i], "proved") in value) return some[i]
    return -1
}

# What a call costs, less the copy made before it; less that of `pd_box_live` where only the rest is asked for.
function cost(world, kind, k, side, rest,    n) {
    n = size(world SUBSEP kind, k)
    if (n < 0) return ""
    return value[world, kind, n, side] - (rest ? value[world, "live", n, side] : copy)
}

function show(x) { return x == "" ? "" : sprintf(x < 10 ? "%.2f" : x < 100 ? "%.1f" : "%.0f", x) }

function over(a, b) { return a == "" ? "" : a / b }

# Four cells: of a side in copies of the table, of one side over another, or of soundness in percent.
function cells(world, kind, a, b, rest,    k, line, x, n) {
    for (k = 1; k <= 4; k++) {
        x = cost(world, kind, k, a, rest)
        if (b == "share") {
            n = size(world SUBSEP kind, k)
            x = n < 0 ? "" : 100 * (value[world, "live", n, a] - copy) / x
        } else x = over(x, b ? cost(world, kind, k, b, rest) : copy)
        line = line " " show(x) " |"
    }
    return line
}

function head(first, one, two, three,    line) {
    line = "| " first " | " one ": few | 16 | 64 | most | " two ": few | 16 | 64 | most |"
    if (three) line = line " " three ": few | 16 | 64 | most |"
    print "\n" line
    gsub(/[^|]+/, "---", line)
    print line
}

function messages(world, kinds, titles,    i, kind, title) {
    split(kinds, kind, ",")
    split(titles, title, ",")
    head("message", "proved ÷ memcpy", "soundness in it, %")
    for (i = 1; i in kind; i++)
        print "| " title[i] " |" cells(world, kind[i], "proved") cells(world, kind[i], "proved", "share")
    head("message", "proved ÷ plain", "proved ÷ sorted")
    for (i = 1; i in kind; i++)
        print "| " title[i] " |" cells(world, kind[i], "proved", "plain") cells(world, kind[i], "proved", "sorted")
}

function soundness(    i, j, who, order, world) {
    split("real iaids late", who, " ")
    split("ascending descending shuffled mixed", order, " ")
    head("identities, order", "proved ÷ memcpy", "proved ÷ plain", "proved ÷ sorted")
    for (i = 1; i <= 3; i++) for (j = 1; j <= 4; j++) {
        world = who[i] SUBSEP order[j]
        print "| " who[i] ", " order[j] " |" cells(world, "live", "proved") cells(world, "live", "proved", "plain") \
            cells(world, "live", "proved", "sorted")
    }
}

function choice(title, world, kind) {
    print "| " title " |" cells(world, kind, "proved", "", "rest") cells(world, kind, "proved", "plain", "rest")
}

# One row a table, one column a message: in copies of the table, and as a multiple of the typical message of its kind.
function dear(    i, j, k, who, order, kind, line, x, times, against) {
    split("real late middle last twins tree comb", who, " ")
    split("mixed mixed-ended", order, " ")
    split("renew renew-long rebind rebind-long rebind-deep", kind, " ")
    line = "| identities, order |"
    for (k = 1; k in kind; k++) line = line " " kind[k] " |"
    print "\n" line
    gsub(/[^|]+/, "---", line)
    print line
    for (i = 1; i in who; i++) for (j = 1; j in order; j++) {
        line = "| " who[i] ", " order[j] " |"
        for (k = 1; k in kind; k++) {
            x = cost(who[i] SUBSEP order[j], kind[k], 4, "proved")
            times = x / cost("real" SUBSEP "ascending", k < 3 ? "renew" : "rebind", 4, "proved")
            against = who[i] ~ /middle|tree|comb/
            if (times > dearest[against]) dearest[against] = times
            line = line " " show(x / copy) " (" show(times) ") |"
        }
        print line
    }
}

# The most that soundness takes of the side that goes the same way, over every table.
function most_over(side,    part, i, x, most) {
    for (i in value) {
        split(i, part, SUBSEP)
        if (part[3] != "live" || part[5] != "proved") continue
        x = (value[i] - copy) / (value[part[1], part[2], part[3], part[4], side] - copy)
        if (x > most) most = x
    }
    return most
}

function bound(what, is, most) {
    printf "%s %s: %.2f, at most %s\n", is <= most ? "kept" : "BROKEN", what, is, most
    if (is > most) broken = 1
}

function bounds(    growth) {
    growth = cost("real" SUBSEP "ascending", "renew", 4, "proved") / cost("real" SUBSEP "ascending", "renew", 2, "proved")
    print "\nBounds"
    print ""
    bound("soundness of every table over plain Rust that goes the same way", most_over("sorted"), 1.5)
    bound("a Renew with 256 records over one with 16, over that of n log n", growth / 32, 1.2)
    bound("the dearest over the typical message of its kind", dearest[0], 4)
    bound("the dearest with names made against the merge and the search", dearest[1], 4.5)
}

END {
    kinds = "solicit-new,solicit-bound,request-new,request-bound,renew,renew-long,rebind,release,refused-5,refused-7"
    titles = "Solicit: new,Solicit: bound,Request: new,Request: bound,Renew,Renew of 1232 bytes,Rebind,Release,refused with 5,refused with 7"
    printf "In %s; a copy of the table is %d. Few records are 0 or 1, most are 256 or 255.\n", unit, copy
    print "\nMessages, identities of one maker"
    messages("real" SUBSEP "ascending", kinds, titles)
    print "\nMessages, DUIDs of 130 bytes that differ late"
    messages("late" SUBSEP "ascending", kinds, titles)
    print "\nSoundness by identities and by the records' order"
    soundness()
    print "\nTables and messages made to be dear, 256 records: in copies of the table, and as a multiple of the typical Renew or Rebind"
    dear()
    print "\nThe choice of a prefix, less soundness"
    head("Solicit from a new identity", "proved ÷ memcpy", "proved ÷ plain")
    choice("the first place is free", "real" SUBSEP "ascending", "solicit-new")
    choice("the first free place is the last", "real" SUBSEP "packed", "solicit-new")
    choice("the worst", "real" SUBSEP "filled", "solicit-worst")
    if (unit == "instructions") bounds()
    exit broken
}

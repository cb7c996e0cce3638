# From lines `SERVER HOUSES PHASE COST`, one for each round, to two tables: what a message costs at the floor and costs Kea, and what
# it costs the others above the floor as a multiple of what it costs Kea.
{ list[$1, $2, $3] = list[$1, $2, $3] " " $4 }

# The median of the rounds.
function cost(server, houses, phase,    all, n, i, j, x) {
    n = split(list[server, houses, phase], all, " ")
    for (i = 2; i <= n; i++) {
        x = all[i] + 0
        for (j = i - 1; j >= 1 && all[j] + 0 > x; j--) all[j + 1] = all[j]
        all[j + 1] = x
    }
    return all[int((n + 1) / 2)] + 0
}

function ratio(server, houses, phase,    low) {
    low = cost("floor", houses, phase)
    return sprintf("%.2f", (cost(server, houses, phase) - low) / (cost("kea", houses, phase) - low))
}

function rows(first, last, ratios,    k, s, h, line) {
    line = "| message |"
    for (s = first; s <= last; s++) line = line " " server[s] ": 16 houses | 64 | 256 |"
    print "\n" line
    gsub(/[^|]+/, "---", line)
    print line
    for (k = 1; k in phase; k++) {
        line = "| " title[k] " |"
        for (s = first; s <= last; s++) for (h = 1; h <= 3; h++)
            line = line " " (ratios ? ratio(server[s], houses[h], phase[k]) : int(cost(server[s], houses[h], phase[k]))) " |"
        print line
    }
}

END {
    n = split(servers, server, " ")
    split("16 64 256", houses, " ")
    split("bind solicit request renew rebind release", phase, " ")
    split("binding (Solicit and Request),Solicit of a bound one,Request of a bound one,Renew,Rebind,Release", title, ",")
    rows(1, 2, 0)
    print "\nAbove the floor, ÷ Kea"
    rows(3, n, 1)
}

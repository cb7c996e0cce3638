# From `nm -C --radix=d -n` of the program, its rows, and the plugin's blocks, in this order: lines `ROW COUNT FUNCTION`, the row by
# its number. The first row is where the program's mark lies in memory; what lies past its functions is of libc. With `-v apart=1` a
# function's blocks stand apart, by their distance from its start.
FILENAME != file { file = FILENAME; files++ }
files == 1 && $2 ~ /^[tTwW]$/ {
    start[++n] = $1 + 0
    name[n] = $0
    sub(/^[^ ]+ . /, "", name[n])
    sub(/::h[0-9a-f]+$/, "", name[n])
    if (name[n] == "bench_mark") at = start[n]
}
files == 1 && $3 == "_end" { end = $1 + 0 }
files == 2 && FNR == 1 { base = $1 - at }

function named(address,    low, high, middle) {
    address -= base
    if (address < start[1] || address >= end) return "libc"
    low = 1
    high = n
    while (low < high) {
        middle = int((low + high + 1) / 2)
        if (start[middle] <= address) low = middle
        else high = middle - 1
    }
    return name[low] (apart ? sprintf(" +%x", address - start[low]) : "")
}

files == 3 && NF == 2 { count[named($1)] += $2 }
files == 3 && NF == 1 {
    if (++marks % 2 == 0) for (f in count) print marks / 2, count[f], f
    split("", count)
}

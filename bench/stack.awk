# From `objdump -dr` of the proved library: the most stack that each operation takes, over every path of calls.
# A frame is its pushes, what it takes off the stack pointer, and the return address. What calls nothing, and libc's memcpy
# and memset, may also use the 128 bytes below. Only check_area calls itself, at most three deep: the message's own area,
# an IA_PD's, an IA Prefix's.
BEGIN { RETURN = 8; BELOW = 128; AREAS = 3 }

/^[0-9a-f]+ <.*>:$/ { name = $2; gsub(/^<|>:$/, "", name); frame[name] = RETURN; next }
/\tpush / { frame[name] += 8 }
/\tsub +\$0x[0-9a-f]+,%rsp/ { taken = $NF; gsub(/^\$0x|,%rsp$/, "", taken); frame[name] += number(taken); next }
/,%rsp$/ && !/\tadd +\$0x[0-9a-f]+,%rsp/ { stop($0) }
/\tadd +\$0xffff[0-9a-f]+,%rsp/ { stop($0) }
/\tcall / { calls[name] = 1; if ($NF == "<" name ">") again[name] = 1 }
/R_X86_64_PLT32/ { callee = $NF; gsub(/^\.text\.|-0x[0-9a-f]+$/, "", callee); into[name, callee] = 1 }

function stop(why) { print "stack: not understood: " why; stopped = 1; exit 1 }

function number(hex,    k, sum) {
    for (k = 1; k <= length(hex); k++) sum = sum * 16 + index("0123456789abcdef", substr(hex, k, 1)) - 1
    return sum
}

function depth(f,    pair, part, most, d) {
    if (!(f in frame)) return RETURN + BELOW
    if (f in open) stop(f " calls itself by way of another")
    open[f] = 1
    most = calls[f] ? 0 : BELOW
    for (pair in into) {
        split(pair, part, SUBSEP)
        if (part[1] == f && (d = depth(part[2])) > most) most = d
    }
    delete open[f]
    return frame[f] * (again[f] ? AREAS : 1) + most
}

END {
    if (!stopped) for (f in frame) if (f ~ /^pd_/) print f, depth(f), "bytes of stack" | "sort"
}

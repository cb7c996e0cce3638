# From callgrind's file of one row: lines `ROW COUNT FUNCTION`, a function without what it calls.
/^fn=/ { name = substr($0, 4) }
/^calls=/ { skip = 1; next }
/^[-+*0-9]/ { if (!skip) count[name] += $2; skip = 0 }
END { for (name in count) print row, count[name], name }

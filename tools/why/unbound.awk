# What a problem that was read leaves open, in sentences: rows and columns without a line of bounds, and a file that no `e` line
# ends.

# The numbers up to this one that are not among those seen, by name the first eight.
function numbers(seen, all,    i, out, last) {
    open = 0
    for (i = 1; i <= all; i++) {
        if (i in seen) continue
        if (++open > 8) continue
        if (open > 1) out = out (out == "" ? "" : ", ") last
        last = i
    }
    if (open > 8) return out ", " last " and " open - 8 " more"
    return out == "" ? last : out " and " last
}

{ sub(/\r$/, "") }
$1 == "p" { rows = $4; columns = $5 }
$1 == "i" { bounded_rows[$2 + 0] = 1 }
$1 == "j" { bounded_columns[$2 + 0] = 1 }
$1 == "e" { ended = 1; exit }
END {
    if (!ended) print "no `e` line ends it: if it was cut off, this is the answer of another problem"
    list = numbers(bounded_rows, rows + 0)
    if (open) print (open == 1 ? "row " : "rows ") list (open == 1 ? " has" : " have") " no `i` line, and so no bound: " (open == 1 ? "it is" : "they are") " no constraint"
    list = numbers(bounded_columns, columns + 0)
    if (open) print (open == 1 ? "column " : "columns ") list (open == 1 ? " has" : " have") " no `j` line, and so no bound: " (open == 1 ? "it" : "they") " may be negative"
}

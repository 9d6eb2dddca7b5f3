# With text.awk before it: why the representation has the fault of this kind (kind) at this line (at), in one sentence. The other
# words are its command (command) and whether its last line has its line feed (closed).

function first_line(    width) {
    if (command == "vertices" && $1 == "gens") return "`vertices` reads a text that begins with `sides`; `facets` reads this one"
    if (command == "facets" && $1 == "sides") return "`facets` reads a text that begins with `gens`; `vertices` reads this one"
    if ($1 == "p") return "this is a problem, and no representation: `solve` reads it"
    if ($1 == "version" || $1 == "conv") return "this is a log: the representation is named first, and the log after it"
    if ($1 != "sides" && $1 != "gens") return "the first line is `sides K` or `gens K`, without comments before it"
    if (NF == 1) return "K, the entries of a vector, is wanting after `" $1 "`"
    width = number_fault($2)
    if (width != "") return width
    if ($2 !~ /^[0-9]+$/ || $2 + 0 < 1 || $2 + 0 > 19) return "K is " shown($2) ", and 1 to 19 are its limits"
    return "after K stands no other word"
}

function other_line(    i, fault, wanted) {
    wanted = width + (text == "sides")
    if (ended) return "after the line `end` stands no other"
    if ($1 == "end") return "after `end` stands no other word"
    if ($1 ~ /^[#*%\/!;c]/) return "there are no comments in these texts"
    if (text == "sides" && $1 !~ /^[he]$/)
        return "after `sides` a line begins with `h` (at least) or `e` (equal), and not with " shown($1)
    if (text == "gens" && $1 !~ /^[l01]$/)
        return "after `gens` a line begins with `1` (a point), `0` (a direction) or `l` (a line), and not with " shown($1)
    for (i = 2; i <= NF && i <= wanted + 1; i++) {
        fault = number_fault($i)
        if (fault != "") return fault
    }
    return "after `" $1 "` stand " plural(wanted, "number") (text == "sides" ? ", the last of them the bound" : "") ", and here " (NF == 2 ? "is 1" : "are " NF - 1)
}

function reason(    blanks) {
    if (kind == "OutOfRange" && at > 10000) return "a text has at most 10,000 lines"
    blanks = blank_fault($0)
    if (blanks != "") return blanks
    return shown($0) ": " (at == 1 ? first_line() : other_line())
}

NR == 1 && encoding($0) != "" { say(encoding($0)); exit }
NR == 1 { text = $1; width = $2 + 0 }
NR < at && $0 == "end" { ended = 1 }
NR == at { why = reason(); last = $0 }
NR < 100 && /^([HV]-representation|begin)/ { foreign = 1 }
END {
    if (said) exit
    if (kind == "NoEnd") say(NR == 0 ? "the file is empty: it begins with `sides K` or `gens K`" : "the line `end` is wanting: is the file cut off?")
    else if (at == NR && !closed && kind == "BadLine") say(shown(last) ": the last line has no line feed: is the file cut off?")
    else if (at == 1 && foreign) say(shown(last) ": this is a file of lrs or cdd: docs/USING.md, \"For who comes from lrs or cdd\", has what turns it into one")
    else say(why == "" ? kind : why)
}

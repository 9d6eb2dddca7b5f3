# With text.awk before it: why the problem has the fault of this kind (kind) at this line (at), in one sentence.

function p_words() {
    return "`p vlp min|max ROWS COLS NONZ OBJS OBJNONZ`, or the same with `cone|dualcone GENS GENNONZ` after it"
}

function bad_p(    i, names) {
    if ($2 != "vlp") return "the second word is `vlp`, and not " shown($2)
    if ($3 != "min" && $3 != "max") return "the third word is `min` or `max`, and not " shown($3)
    if (NF != 8 && NF != 11) return "it has " NF " words, and the line is " p_words()
    split("- - - ROWS COLS NONZ OBJS OBJNONZ CONE GENS GENNONZ", names, " ")
    for (i = 4; i <= NF; i++) {
        if (i == 9 && $i != "cone" && $i != "dualcone") return "the ninth word is `cone` or `dualcone`, and not " shown($i)
        if (i != 9 && $i !~ /^[0-9]+$/) return "its word " i ", " names[i] ", is " shown($i) ", which is no count: digits alone"
    }
    return "the line is " p_words()
}

function bad_entry(    first) {
    first = $1 == "a" ? "ROW COLUMN" : $1 == "o" ? "OBJECTIVE COLUMN" : "OBJECTIVE VECTOR"
    if (NF != 4)
        return "it has " plural(NF, "word") ", and the line is `" $1 " " first " VALUE`" (NF > 4 && $5 ~ /^(c|#|%|\/\/)/ ? " (a comment has a line of its own)" : "")
    return shown($2 !~ /^[0-9]+$/ ? $2 : $3) " is no place: digits alone, counted from 1"
}

function bad_bound(    values) {
    if (NF < 3) return "it has " plural(NF, "word") ", and the line is `" $1 " " ($1 == "i" ? "ROW" : "COLUMN") " TYPE ..`"
    if ($2 !~ /^[0-9]+$/) return shown($2) " is no " ($1 == "i" ? "row" : "column") ": digits alone, counted from 1"
    if ($3 !~ /^[fluds]$/)
        return "the third word is a type, `l` (lower), `u` (upper), `d` (both), `s` (one value) or `f` (free), and " shown($3) " is none"
    values = $3 == "f" ? "no number" : $3 == "d" ? "two numbers" : "one number"
    return "after the type `" $3 "` stands " values ", and here " (NF == 4 ? "is 1" : "are " NF - 3)
}

# A line whose first word is none of a problem's.
function bad_first() {
    if ($1 == "sides" || $1 == "gens") return "this is a representation, which `vertices` (sides) and `facets` (gens) read, and no problem"
    if (($1 == "version" || $1 == "conv") && NF == 2) return "this is a log: the problem is named first, and the log after it"
    if ($1 == "n") return "names are not read: leave lines `n` out, or make them comments with `c` before them"
    if ($1 ~ /^[#*%\/!;]/ || $1 ~ /^c/) return "a comment is a line whose first word is `c` alone"
    if (tolower($1) == "end") return "the last line is `e`"
    if ($0 ~ /[^\t\r -~]/) return "the line has " odd_byte($0)
    return "no line begins with " shown($1) ": the first words are p, a, o, k, i, j, e, and c for a comment"
}

function bad_line() {
    if ($0 ~ /\r/) return "its lines end with carriage returns alone: put line feeds in their place (tr '\\r' '\\n')"
    if ($1 !~ /^[paokije]$/) return bad_first()
    if (odd_byte($0) != "") return "the line has " odd_byte($0)
    if ($1 == "p") return bad_p()
    return $1 ~ /^[aok]$/ ? bad_entry() : bad_bound()
}

function bad_number(    i, word) {
    for (i = 4; i <= NF; i++) {
        word = $i
        if (word ~ /^[-+]?([0-9]+\.?[0-9]*|\.[0-9]+)([eE][-+]?[0-9]+)?$/) continue
        if (odd_byte(word) != "") return shown(word) " has " odd_byte(word)
        if (word ~ /^[-+]?[0-9]+,[0-9]+$/) return shown(word) ": a decimal has a point and no comma"
        if (word ~ /^[-+]?[0-9]+\/[0-9]+$/) return shown(word) " is a fraction, and here stand decimals alone: multiply its row, or round it"
        if (tolower(word) ~ /inf/) return shown(word) ": a bound that is not there is left out, by the types `l`, `u` and `f` in place of `d`"
        if (word ~ /^[-+]?[0-9]+[_'][0-9_']+/) return shown(word) ": nothing stands between thousands"
        if (word ~ /^[-+]?[0-9.]+[dD][-+]?[0-9]+$/) return shown(word) ": an exponent begins with `e` or `E`"
        return shown(word) " is no number: as `-4.5` or `12e-3`"
    }
    return "a number is not of its form"
}

# Cuts a number of the file into its significant digits and its power of ten.
function cut_number(word,    place, before, after) {
    sub(/^[-+]/, "", word)
    power = 0
    place = match(word, /[eE]/)
    if (place) { power = substr(word, place + 1) + 0; word = substr(word, 1, place - 1) }
    place = index(word, ".")
    if (place) { after = substr(word, place + 1); word = substr(word, 1, place - 1) after; power -= length(after) }
    sub(/^0+/, "", word)
    before = length(word)
    sub(/0+$/, "", word)
    power += before - length(word)
    digits = word
}

function too_many_digits(    i) {
    for (i = 4; i <= NF; i++) {
        cut_number($i)
        if (length(digits) > 36) return shown($i) " has " length(digits) " significant digits, and 36 is the limit: round it"
    }
    return "a number has more than 36 significant digits"
}

function too_wide(    i, zeros) {
    for (i = 4; i <= NF; i++) {
        cut_number($i)
        if (digits == "") continue
        if (power < -36 || power > 36)
            return shown($i) ": its last digit that is not 0 stands at the power " power " of ten, and -36 to 36 are the limits" (power > 36 ? " (a bound that is not there is left out)" : "")
        zeros = sprintf("%" (power > 0 ? power : 1) "s", "")
        gsub(/ /, "0", zeros)
        if (power > 0 && is_wide(digits zeros)) return shown($i) " is 2^120 or more, " limit " and up"
    }
    return "a number is not held: its numerator or denominator is 2^120 or more"
}

# What is wrong with a place, of so many of this name.
function bad_place(word, name, count) {
    if (word + 0 == 0) return "there is no " name " 0: they count from 1"
    return "there is no " name " " word ": the p line says " plural(count, name)
}

function out_of_range() {
    if ($1 == "p") {
        if ($5 + 0 == 0) return "COLS, the fifth word, is 0: there is at least one column"
        if ($7 + 0 == 0) return "OBJS, the seventh word, is 0: there is at least one objective (a line `p` with 1 and 0 has one that is 0)"
        return "GENS, the tenth word, is 0: a cone has at least one vector"
    }
    if ($1 == "i") return bad_place($2, "row", p[4])
    if ($1 == "j") return bad_place($2, "column", p[5])
    if ($1 == "a" && ($2 + 0 == 0 || $2 + 0 > p[4] + 0)) return bad_place($2, "row", p[4])
    if ($1 == "a") return bad_place($3, "column", p[5])
    if ($2 + 0 == 0 || $2 + 0 > p[7] + 0) return bad_place($2, "objective", p[7])
    if ($1 == "o") return bad_place($3, "column", p[5])
    return p[10] == "" ? "the p line names no cone: `cone GENS GENNONZ` or `dualcone GENS GENNONZ` is wanting at its end" : bad_place($3, "cone vector", p[10])
}

function key() {
    return $1 ~ /^[aok]$/ ? $1 " " $2 + 0 " " $3 + 0 : $1 == "p" ? "p" : $1 " " $2 + 0
}

function twice() {
    if ($1 == "p") return "there is a p line before, in line " given["p"]
    if ($1 ~ /^[ij]$/) return "the bounds of " ($1 == "i" ? "row " : "column ") $2 + 0 " stand in line " given[key()] " already: both go on one line, as `" $1 " " $2 + 0 " d LOWER UPPER`"
    return "this place was given before, in line " given[key()]
}

function past_limit(    all) {
    if ($4 + 0 > 1000) return "it says " $4 " rows, and 1,000 is the limit"
    if ($5 + 0 > 1000) return "it says " $5 " columns, and 1,000 is the limit"
    if ($7 + 0 > 20) return "it says " $7 " objectives, and 20 is the limit"
    if ($10 + 0 > 64) return "it says " $10 " cone vectors, and 64 is the limit"
    all = $6 + $8 + $11
    return "it says " all " entries in all, and 100,000 is the limit"
}

# Where counts differ: each letter with both counts.
function wrong_counts(    out, left) {
    if (p[6] + 0 != count["a"] + 0) out = out "; " wrong_count("a", p[6])
    if (p[8] + 0 != count["o"] + 0) out = out "; " wrong_count("o", p[8])
    if (p[9] != "" && p[11] + 0 != count["k"] + 0 && p[11] + 0 != count["k"] - scaled) out = out "; " wrong_count("k", p[11])
    if (scaled && p[9] != "") out = out " (of the k lines " scaled " are the duality vector's, which count or not)"
    if (!ended) out = out "; no `e` line ends the file: is it cut off?"
    left = after["a"] + after["o"] + after["k"]
    if (left) out = out "; after the `e` line, where nothing is read, " (left == 1 ? "stands 1 more" : "stand " left " more")
    return substr(out, 3)
}

function wrong_count(letter, told) {
    return "the p line says " plural(told + 0, letter " line") ", and there " (count[letter] == 1 ? "is 1" : "are " count[letter] + 0)
}

function no_problem() {
    if (NR == 0) return "the file is empty"
    if (!others) return "the file has comments and blank lines alone"
    return "the p line comes before all others: " p_words()
}

NR == 1 && encoding($0) != "" { say(encoding($0)); exit }
{ sub(/\r$/, "") }
NF == 0 || $1 == "c" { if (NR != at || kind != "LineLong") next }
{ others = 1 }
$1 == "p" && NR < at && !("p" in given) { split($0, p, /[ \t]+/); if (p[1] == "") split(substr($0, match($0, /[^ \t]/)), p, /[ \t]+/) }
ended { after[$1]++; next }
$1 == "e" && kind == "CountWrong" { ended = 1; next }
NR < at && $1 ~ /^[paokij]$/ {
    if (!(key() in given)) given[key()] = NR
    count[$1]++
    if ($1 == "k" && $3 + 0 == 0) scaled++
}
# Where the first line is none of a problem the others may tell what the file is.
NR < 100 && /^([HV]-representation|begin)/ { foreign = "a file of lrs or cdd, whose polyhedron `vertices` and `facets` read after it was turned as docs/USING.md says" }
NR < 100 && tolower($1) ~ /^(minimi[sz]e|maximi[sz]e|min|max|subject|rows|columns)$/ { foreign = "a file of another form" }
NR > at { next }
NR == at && kind == "BadLine" && !("p" in given) && $1 != "p" { why = shown($0) ": " bad_line(); start = shown($0); next }
NR == at && kind != "CountWrong" {
    if (kind == "LineLong") say("the line has " length($0) " bytes, and 4,096 is the limit, of comments too" ($0 ~ /\r/ ? "; its lines end with carriage returns alone" : ""))
    else if (kind == "NoProblem") say(shown($0) ": " no_problem())
    else if (kind == "BadLine") say(shown($0) ": " bad_line())
    else if (kind == "BadNumber") say(shown($0) ": " bad_number())
    else if (kind == "Digits") say(shown($0) ": " too_many_digits())
    else if (kind == "NumberWide") say(shown($0) ": " too_wide())
    else if (kind == "OutOfRange") say(shown($0) ": " out_of_range())
    else if (kind == "Twice") say(shown($0) ": " twice())
    else if (kind == "LimitPassed") say(shown($0) ": " past_limit())
    else say(shown($0) ": " kind)
    exit
}
END {
    if (kind == "CountWrong") say(wrong_counts())
    else if (kind == "NoProblem") say(no_problem())
    else if (foreign != "") say(start ": this is " foreign "; a problem is a vlp file, which begins with a line " p_words())
    else say(why == "" ? kind : why)
}

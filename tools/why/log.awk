# With text.awk before it: why the text of the log is none, from its line with the first fault alone. The other words are the
# kind of the fault (kind), the number of the line (at), whether it has its line feed (closed), whether `end` stands before it
# (ended), and whether it is the log of a conversion (conv).

BEGIN {
    # What stands after the first word: N a natural, Q a number, L a list of numbers, I a list of naturals, P pairs, S a sparse
    # vector, K the kind of an answer.
    if (conv) {
        form["conv"] = "N"; form["line"] = "L"; form["start"] = "I L"; form["add"] = "N P"; form["end"] = ""
    } else {
        form["version"] = "N"; form["duality"] = "L L I L"; form["cut"] = "L Q S S"; form["start"] = "I L L"; form["add"] = "N P"
        form["point"] = "N S S"; form["ray"] = "N S S"; form["farkas"] = "S"; form["whole"] = "S S S"; form["line"] = "L S S S S S"
        form["facet"] = "N"; form["end"] = "K"; form["share"] = "S"; form["cutof"] = "L Q N S"; form["pointof"] = "N N S"
        form["rayof"] = "N N S"; form["addh"] = "N P I"
    }
    name["N"] = "a number of digits alone"; name["Q"] = "a number"; name["L"] = "a list: a count and as many numbers"
    name["I"] = "a list: a count and as many numbers of digits alone"; name["P"] = "pairs: a count and as many pairs of numbers"
    name["S"] = "a sparse vector: a count and as many places and values"; name["K"] = "the answer: `solved`, `infeasible` or `whole`"
}

function wanting(part) {
    wrong = "after its word " place - 1 " stands " name[part] ", of which word " place " is wanting"
}

# Takes a natural, and answers it.
function natural(part) {
    if (place > NF) { wanting(part); return 0 }
    if ($place !~ /^(0|[1-9][0-9]*)$/) {
        wrong = "its word " place ", " shown($place) ", is no count or place: digits alone, without a zero in front"
        if ($place ~ /\r$/) wrong = "the line ends with a carriage return; in a log lines end with a line feed alone (tr -d '\\r' takes it off)"
        return 0
    }
    if (length($place) > 10 || $place + 0 > 4294967295) { wrong = "its word " place ", " shown($place) ", is above 4,294,967,295"; return 0 }
    return $(place++) + 0
}

function number(part,    fault) {
    if (place > NF) { wanting(part); return }
    fault = number_fault($place)
    if (fault != "") wrong = "its word " place ", " fault
    place++
}

function sparse(part,    count, before, at_place, value) {
    count = natural(part)
    for (before = 0; count > 0 && wrong == ""; count--) {
        at_place = natural(part)
        if (wrong != "") return
        if (at_place <= before) { wrong = "its word " place - 1 ", a place, is " at_place " after " before ": places rise, from 1"; return }
        before = at_place
        value = $place
        number(part)
        if (wrong == "" && value == "0") wrong = "its word " place - 1 ", the value at place " at_place ", is 0: a place with the value 0 is left out"
    }
}

function take(part,    count) {
    if (part == "N") natural(part)
    else if (part == "Q") number(part)
    else if (part == "S") sparse(part)
    else if (part == "K") {
        if (place > NF) wanting(part)
        else if ($place !~ /^(infeasible|whole|solved|novertex)$/) wrong = "its last word is an answer, `solved`, `infeasible` or `whole`, and not " shown($place)
        place++
    } else {
        count = natural(part) * (part == "P" ? 2 : 1)
        for (; count > 0 && wrong == ""; count--) {
            if (part == "L") number(part)
            else natural(part)
        }
    }
}

function first_words() {
    return conv ? "`conv`, `line`, `start`, `add` or `end`" : "a word of a log, as `version`, `duality`, `cut`, `add`, `point` or `end`"
}

function reason(    parts, count, i) {
    if (ended) return shown($0) ": after the line `end` stands no other"
    if (!closed) return shown($0) ": the last line has no line feed: is the log cut off?"
    wrong = blank_fault($0)
    if (wrong != "") return wrong
    if (!($1 in form)) {
        if (conv && $1 == "version") return shown($0) ": this is the log of a problem, which `check` reads"
        if (!conv && $1 == "conv") return shown($0) ": this is the log of a conversion, which `reconv` reads"
        if ($1 == "report") return shown($0) ": this is a report, and no log"
        if ($1 == "p" || $1 == "sides" || $1 == "gens") return shown($0) ": this is no log: FILE is named first, and the log after it"
        return shown($0) ": a line begins with " first_words() ", and not with " shown($1)
    }
    place = 2
    count = split(form[$1], parts, " ")
    for (i = 1; i <= count && wrong == ""; i++) take(parts[i])
    if (wrong == "" && place <= NF) wrong = "its word " place ", " shown($place) ", is one more than `" $1 "` has"
    return shown($0) ": " (wrong == "" ? kind : wrong)
}

{ found = 1 }
encoding($0) != "" && at == 1 { say(encoding($0)); exit }
{ say(reason()); exit }
END {
    if (!found) say(at == 1 ? "the log is empty: a run that ended without an answer leaves it so" : "the line `end` is wanting: is the log cut off?")
}

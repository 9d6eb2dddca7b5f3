# What the readers of faulty texts share: how a piece of a text is shown, and what is wrong with a number. Bytes are told as
# they are, so run it with LC_ALL=C.

BEGIN {
    for (code = 1; code < 256; code++) code_of[sprintf("%c", code)] = code
    limit = "1329227995784915872903807060280344576"
    said = 0
}

# A text between quotes, at most 60 bytes of it, with the bytes that are no plain ASCII by their numbers.
function shown(text,    i, byte, out, count) {
    count = length(text)
    for (i = 1; i <= count && i <= 60; i++) {
        byte = substr(text, i, 1)
        if (byte == "\t") out = out "\\t"
        else if (byte == "\r") out = out "\\r"
        else if (byte == "\001") out = out "\\0"
        else if (byte ~ /[ -~]/) out = out byte
        else out = out sprintf("\\x%02X", code_of[byte])
    }
    return "`" out (count > 60 ? " .." : "") "`"
}

# Says the sentence, once.
function say(text) {
    if (!said) print text
    said = 1
}

# What the marks at the front of a file of another encoding say, or nothing.
function encoding(first) {
    if (substr(first, 1, 3) == "\357\273\277")
        return "it begins with a byte order mark, which is no plain ASCII: save it as UTF-8 without the mark, or as ASCII"
    if (substr(first, 1, 2) == "\377\376" || substr(first, 1, 2) == "\376\377")
        return "it is UTF-16, as its byte order mark says: save it as plain ASCII (iconv -f UTF-16 -t ASCII)"
    if (substr(first, 1, 40) ~ /\001/)
        return "it has bytes of value 0, as UTF-16 and files that are no texts have: save it as plain ASCII"
    return ""
}

# What a byte of a line is that is no plain ASCII, or nothing.
function odd_byte(line,    byte) {
    if (!match(line, /[^\t\r -~]/)) return ""
    byte = substr(line, RSTART, 1)
    if (line ~ /\302\240/ || line ~ /\240/ && line !~ /[\300-\377]/) return "a hard blank in it: put a blank in its place"
    if (line ~ /\342\210\222/ || line ~ /\342\200[\220-\225]/) return "a typographic minus or dash in it: put a `-` in its place"
    if (line ~ /\342\200[\230-\237]/) return "a typographic quotation mark in it"
    return "the byte " sprintf("%02X", byte == "\001" ? 0 : code_of[byte]) " in it, which is no plain ASCII"
}

# Whether a whole number, without a sign and without zeros in front, is 2^120 or more.
function is_wide(digits) {
    return length(digits) > 37 || length(digits) == 37 && ("x" digits) >= ("x" limit)
}

function without_zeros(digits) {
    sub(/^0+/, "", digits)
    return digits == "" ? "0" : digits
}

function divisor(a, b,    rest) {
    while (b > 0) { rest = a % b; a = b; b = rest }
    return a
}

# The fraction of two short whole numbers in lowest terms.
function fraction(sign, above, below,    by) {
    by = divisor(above + 0, below + 0)
    if (below / by == 1) return sign (above / by)
    return sign (above / by) "/" (below / by)
}

# What is wrong with the word of a text whose numbers are canonical, or nothing.
function number_fault(word,    sign, parts, count, body) {
    if (word == "") return "a number is wanting here"
    sign = word ~ /^-/ ? "-" : ""
    body = substr(word, length(sign) + 1)
    if (word ~ /\r$/) return shown(word) ": the line ends with a carriage return; here lines end with a line feed alone (tr -d '\\r' takes it off)"
    if (odd_byte(word) != "") return shown(word) " has " odd_byte(word)
    if (word ~ /\t/) return shown(word) " has a tab: words stand with one blank between them"
    if (word ~ /^\+/) return shown(word) ": a number has no `+`"
    if (body ~ /^[0-9]*\.[0-9]*$/ && body ~ /[0-9]/) {
        split(body, parts, ".")
        if (length(parts[1] parts[2]) <= 15)
            return shown(word) ": decimals are written as fractions, here `" fraction(sign, parts[1] parts[2], 10 ^ length(parts[2])) "`"
        return shown(word) ": decimals are written as fractions"
    }
    if (body ~ /^[0-9.]+[eE][-+]?[0-9]+$/) return shown(word) ": a number has no exponent here"
    if (body ~ /^[0-9]+,[0-9]+$/) return shown(word) ": a comma stands in no number; decimals are written as fractions"
    if (body !~ /^[0-9]+(\/[0-9]+)?$/) return shown(word) " is no number: whole, or a fraction in lowest terms, as `-1/2`"
    count = split(body, parts, "/")
    if (sign != "" && parts[1] ~ /^0+$/) return shown(word) ": a zero has no sign"
    if (parts[1] ~ /^0[0-9]/ || parts[2] ~ /^0[0-9]/) return shown(word) ": a number has no zero in front"
    if (count == 1) return is_wide(parts[1]) ? shown(word) ": it is 2^120 or more" : ""
    if (parts[2] == "0") return shown(word) ": the denominator is 0"
    if (parts[2] == "1") return shown(word) ": a whole number is written without a denominator, here `" sign parts[1] "`"
    if (is_wide(parts[1]) || is_wide(parts[2])) return shown(word) ": its numerator or denominator is 2^120 or more"
    if (parts[1] == "0") return shown(word) ": this is `0`"
    if (length(parts[1]) <= 15 && length(parts[2]) <= 15 && divisor(parts[1] + 0, parts[2] + 0) > 1)
        return shown(word) ": it is not in lowest terms, here `" fraction(sign, parts[1], parts[2]) "`"
    return ""
}

# What is wrong with the blanks of a line whose words have one blank between them, or nothing.
function blank_fault(line) {
    if (line == "") return "the line is empty, and no line may be"
    if (line ~ /\r/) return shown(line) ": the line ends with a carriage return; here lines end with a line feed alone (tr -d '\\r' takes it off)"
    if (odd_byte(line) != "") return shown(line) " has " odd_byte(line)
    if (line ~ /\t/) return shown(line) " has a tab: words stand with one blank between them"
    if (line ~ /^ /) return shown(line) " begins with a blank"
    if (line ~ / $/) return shown(line) " ends with a blank"
    if (line ~ /  /) return shown(line) " has two blanks together: words stand with one between them"
    return ""
}

function plural(count, word) {
    return count " " word (count == 1 ? "" : "s")
}

# What the sides of a problem with these numbers (wanted, with blanks between them) say, in their order.

function side(what, sign, bound) {
    if (++count in is_wanted) out = out ", " what " " sign " " bound
}

function sides_of(what, place) {
    if (type[place] ~ /^[lsd]$/) side(what, ">=", low[place])
    if (type[place] ~ /^[us]$/) side(what, "<=", low[place])
    if (type[place] == "d") side(what, "<=", high[place])
}

BEGIN {
    split(wanted, list, " ")
    for (i in list) is_wanted[list[i] + 0] = 1
}
{ sub(/\r$/, "") }
$1 == "p" { rows = $4; columns = $5 }
$1 == "i" || $1 == "j" { place = $1 " " $2 + 0; type[place] = $3; low[place] = $4; high[place] = $5 }
$1 == "e" { exit }
END {
    for (i = 1; i <= rows; i++) sides_of("row " i, "i " i)
    for (i = 1; i <= columns; i++) sides_of("column " i, "j " i)
    print substr(out, 3)
}

# shellcheck shell=bash disable=SC2154,SC2016
# Part of the launcher, which reads it at its start: why a run ended as it did, in words. It goes by the status, the fault line,
# the command, the words that were given and their kinds.

# Says a sentence about a line of a file.
say_of() {
    say "$1:$2: $3"
}

# The texts of a problem and of a representation, up to the line of their fault: what a program in tools/why says of it. A file
# that cannot be read twice, as a pipe, gets the name of its fault alone.
read_again() {
    local program=$1 file=$2
    shift 2
    LC_ALL=C tr '\0' '\001' <"$file" 2>/dev/null |
        LC_ALL=C awk "$@" -f "$top/tools/why/text.awk" -f "$top/tools/why/$program.awk" 2>/dev/null || true
}

# Whether the last line of a file has its line feed.
is_closed() {
    [ -z "$(tail -c 1 -- "$1" 2>/dev/null | tr -d '\n' | tr '\0' '?')" ]
}

why_problem() {
    local file=$1 line=$2 kind=$3 sentence=''
    [ ! -f "$file" ] || sentence=$(read_again problem "$file" -v "at=$line" -v "kind=$kind")
    say_of "$file" "$line" "${sentence:-$kind, as docs/FORMATS.md says under \"First faults of a problem\"}"
}

why_representation() {
    local file=$1 line=$2 kind=$3 sentence='' closed=0
    if [ -f "$file" ]; then
        ! is_closed "$file" || closed=1
        sentence=$(read_again representation "$file" -v "at=$line" -v "kind=$kind" -v "command=$command" -v "closed=$closed")
    fi
    say_of "$file" "$line" "${sentence:-$kind, as docs/FORMATS.md says under \"First faults of a representation\"}"
}

# A line of a log, which may be long.
line_of_log() {
    tail -n "+$2" -- "$1" 2>/dev/null | head -n 1 || true
}

# The front of a line, for a sentence.
front_of() {
    local text
    text=$(line_of_log "$1" "$2" | head -c 61 | LC_ALL=C tr -c ' -~\n' '?')
    [ "${#text}" -le 60 ] || text="${text:0:60} .."
    printf '%s' "\`$text\`"
}

why_text_of_log() {
    local file=$1 line=$2 kind=$3 sentence='' closed=1 ended=0 conv=0
    [ "$command" != reconv ] || conv=1
    if [ -f "$file" ]; then
        if ! is_closed "$file" && [ "$(wc -l <"$file")" -lt "$line" ]; then closed=0; fi
        if [ "$line" -gt 1 ] && [[ $(line_of_log "$file" "$((line - 1))" | head -c 20 | tr '\0' '?') =~ ^end( [a-z]+)?$ ]]; then ended=1; fi
        sentence=$(line_of_log "$file" "$line" | read_again log /dev/stdin -v "at=$line" -v "kind=$kind" -v "closed=$closed" -v "ended=$ended" -v "conv=$conv")
    fi
    say_of "$file" "$line" "${sentence:-$kind, as docs/FORMATS.md says under \"First faults of a log\"}"
}

# What a rule of the check wants of an entry.
rule_says() {
    case $1 in
        Version) printf 'the version is 1%s' "$([ "$command" = reconv ] || printf ' or 2')" ;;
        Order)
            if [ "$command" = reconv ]; then
                printf 'the lines stand in this order: one `conv`, then `line`, one `start`, `add` and `end`'
            else
                printf 'an entry stands where its kind may: first the one `version`, then `duality`, and `add`, `point`, `ray` and `facet` after the `start`'
            fi
            ;;
        Length) printf 'its lists have as many entries as the file asks for' ;;
        Index) printf 'what it names by its number is there, and not named too often' ;;
        Scaled) printf 'its vectors are scaled as told: the duality vector ends with 1, and each cut has the product 1 with it; a line begins with 1' ;;
        Interior) printf 'the duality vector is interior to the ordering cone' ;;
        Sign) printf 'multipliers are positive' ;;
        Balance) printf 'the combination of the sides is the weighted sum of the objectives in each column' ;;
        Cone) printf 'what is to lie in the ordering cone, or its dual, does' ;;
        Bound) printf 'the combination of the bounds is the bound that is told' ;;
        Side) printf 'a pre-image meets each side of the file' ;;
        Corner) printf 'the first generators lie as they must on the first rows' ;;
        Pairs) printf 'the pairs are exactly those of opposite generators that no third one covers' ;;
        Facet) printf 'it is a facet, and named once' ;;
        Missing)
            if [ "$command" = reconv ]; then
                printf 'each row is in use at the end'
            else
                printf 'nothing is wanting at the end: each generator has its pre-image, and each row in use its facet'
            fi
            ;;
        Hint) printf 'each hint is a generator that covers its pair' ;;
        *) printf 'the entry keeps the rule' ;;
    esac
}

why_entry() {
    local file=$1 entry=$2 rule=$3 other=
    case $rule in
        Balance | Bound | Side | Length | Scaled | Index) other="; so it is too where the log is of another file than \`${given[0]}\`" ;;
    esac
    say_of "$file" "$entry" "$(front_of "$file" "$entry"): entry $entry is no proof: it is not so that $(rule_says "$rule") (rule $rule)$other"
}

# A vector of a fault line, from its place on, which is a count and as many numbers.
vector_at() {
    local at=$1 list
    printf -v list ', %s' "${told[@]:at+1:told[at]}"
    printf '(%s)' "${list:2}"
}

# The multipliers of a fault line, from its place on, as a sum.
combination_at() {
    local at=$1 i sum=
    for ((i = 0; i < told[at]; i++)); do
        sum+=" + ${told[at + 2 + 2 * i]} times vector ${told[at + 1 + 2 * i]}"
    done
    printf '%s' "${sum:3}"
}

why_cone() {
    local name=${told[2]} sums=
    local rest=$((4 + told[3]))
    [ "${told[rest]}" = 0 ] || sums=", as $(combination_at "$rest") shows"
    case $name in
        NotSolid) say "status 4: the ordering cone of \`${given[0]}\` is flat: all of it is orthogonal to $(vector_at 3)$sums; it needs an interior: give another vector" ;;
        HasLine) say "status 4: the ordering cone of \`${given[0]}\` contains the line along $(vector_at 3)$sums: take a vector out, or correct its signs" ;;
        NotInterior) say "status 4: the duality vector of \`${given[0]}\` (its lines \`k i 0\`) is not interior to the ordering cone: its product with $(vector_at 3) of the dual cone is not positive; take another, or leave it out" ;;
        *) say "status 4: the last entry of the duality vector is positive in no vector that \`${given[0]}\` allows: put another objective last, or give another vector (lines \`k i 0\`)" ;;
    esac
}

# The name of an operation of a fault line.
operation() {
    case $1 in
        add) printf 'the sum of' ;;
        sub) printf 'the difference of' ;;
        mul) printf 'the product of' ;;
        div) printf 'the quotient of' ;;
    esac
}

# What may help where a number left the range.
try_shorter() {
    local file=${given[0]} try
    case $command in
        sample) try="take another N" ;;
        check | relog | reconv) try="no check within this range goes through this log; let it be made anew from shorter numbers in \`$file\`" ;;
        solve) try="shorter numbers in \`$file\` (fewer digits, small whole units), \`dual\` in place of \`solve\`, or another duality vector (lines \`k i 0\`)" ;;
        dual) try="shorter numbers in \`$file\` (fewer digits, small whole units), \`solve\` in place of \`dual\`, or another duality vector (lines \`k i 0\`)" ;;
        weights | weigh) try="shorter numbers in \`$file\` (fewer digits, small whole units), or another duality vector (lines \`k i 0\`)" ;;
        *) try="shorter numbers in \`$file\` (fewer digits, small whole units)" ;;
    esac
    printf '%s' "what may help: $try (docs/USING.md, \"A number left the range\")"
}

why_left() {
    local where at
    case ${told[2]} in
        pivot) where="in a pivot of the simplex method at row ${told[3]}, column ${told[4]}" at=6 ;;
        elim) where="in an elimination at row ${told[3]}, column ${told[4]}" at=6 ;;
        pair)
            case ${told[3]} in
                image) where="rows of the image" ;;
                exchanged) where="exchanged points and directions" ;;
                cone) where="vectors of the cone" ;;
                *) where="rows of the representation" ;;
            esac
            if [ "${told[5]}" = 0 ]; then
                where="where double description over the $where takes the value of generator ${told[4]}" at=7
            else
                where="where double description over the $where joins the generators ${told[4]} and ${told[5]}" at=7
            fi
            ;;
        exchange) where="in an exchanged row" at=4 ;;
        scale) where="where entry ${told[3]} of a vector is normed" at=4 ;;
        *)
            where="in step ${told[4]} of entry ${told[3]} of the log" at=5
            case $command in
                check | relog | reconv) where+=" $(front_of "${given[1]}" "${told[3]}")" ;;
            esac
            ;;
    esac
    say "status 5: a number left the range of 120 bits: $where $(operation "${told[at]}") ${told[at + 1]} and ${told[at + 2]} is no fraction of numbers below 2^120; $(try_shorter)"
}

why_long() {
    local file=${given[0]} limit=16,777,216
    if [ "${told[2]}" = log ]; then
        file=${given[1]}
        [ "${kinds[1]}" != log ] || limit=402,653,184
    fi
    say "status 10: \`$file\` is longer than its limit of $limit bytes: ${told[3]} were read"
}

why_empty() {
    local file=${given[0]} i places='' names=''
    [ "${told[2]}" = first ] || file=${given[1]}
    for ((i = 0; i < told[3]; i++)); do
        places+=" ${told[4 + 2 * i]}"
    done
    [ ! -f "$file" ] || names=$(read_again sides "$file" -v "wanted=$places")
    say "status 14: \`$file\` has no feasible vector: its sides$places contradict each other${names:+ ($names)}"
}

why_sizes() {
    if [ "$command" = map ]; then
        say "status 15: \`${given[0]}\` has ${told[2]} objectives, and 19 at most can be described"
    elif [ "${told[2]}" = "${told[3]}" ]; then
        say "status 15: \`${given[0]}\` and \`${given[1]}\` have ${told[2]} columns, and 19 at most can be described"
    else
        say "status 15: \`${given[0]}\` has ${told[2]} columns and \`${given[1]}\` has ${told[3]}: both must have as many, 19 at most"
    fi
}

why_words() {
    local weights
    weights=$(place_of weights)
    if [ -n "$weights" ]; then
        say "status 2: \`${given[weights]}\` is no W: from 1 to 20 numbers in lowest terms, each below 2^120, with commas between them"
    else
        say "status 2: these are no words of $command"
    fi
    usage_of "$command" >&2
}

why_read() {
    local i names=
    for i in "${!given[@]}"; do
        case ${kinds[i]} in
            columns | number | weights | made) ;;
            *) names+=" or \`${given[i]}\`" ;;
        esac
    done
    say "status 7: ${names#" or "} could not be opened or read to its end; nothing was written"
}

why_write() {
    local log
    log=$(place_of made)
    if [ "${broken-}" = output ] || [ -z "$log" ]; then
        say "status 8: standard output could not be written to its end: throw away what was written there"
    else
        say "status 8: the log \`${given[log]}\` could not be written to its end, and was not put in its place; the report is whole"
    fi
}

# What the answer to a problem with gaps may not be: warnings of its gaps.
warn_of_gaps() {
    local i gap
    for i in "${!given[@]}"; do
        case ${kinds[i]} in
            problem | second)
                [ -f "${given[i]}" ] || continue
                while IFS= read -r gap; do
                    say "warning: ${given[i]}: $gap"
                done < <(read_again unbound "${given[i]}")
                ;;
        esac
    done
}

# What a status says, by the table of them.
says_of() {
    awk -F '\t' -v code="$1" '$1 == code { print $3 }' "$top/tools/statuses.tsv"
}

explain() {
    local told=()
    read -r -a told <<<"$fault" || true
    # A fault line that did not come, or not whole, is not read.
    case $status in
        3 | 4 | 5 | 9 | 10 | 12 | 13 | 14 | 15 | 16 | 17 | 18)
            if [ "${told[1]-}" != "$status" ]; then
                say "status $status: $(says_of "$status"); docs/FORMATS.md, \"Statuses\", has more"
                return
            fi
            ;;
    esac
    case $status in
        0) warn_of_gaps ;;
        2) why_words ;;
        3) why_problem "${given[0]}" "${told[3]}" "${told[6]}" ;;
        4) why_cone ;;
        5) why_left ;;
        6) say "status 6: memory is wanting for $command ${given[*]}; nothing was written" ;;
        7) why_read ;;
        8) why_write ;;
        9)
            if [ "${told[2]}" = line ]; then
                why_text_of_log "${given[1]}" "${told[3]}" "${told[6]}"
            else
                why_entry "${given[1]}" "${told[3]}" "${told[6]}"
            fi
            ;;
        10) why_long ;;
        12) say "status 12: K is ${told[2]}, and \`${given[0]}\` has ${told[3]} columns" ;;
        13) why_problem "${given[1]}" "${told[3]}" "${told[6]}" ;;
        14) why_empty ;;
        15) why_sizes ;;
        16) why_representation "${given[0]}" "${told[3]}" "${told[6]}" ;;
        17) say "status 17: $(operation "${told[3]}") ${told[4]} and ${told[5]}, in the product of W with item ${told[2]} (lines, directions and points of the image in turn), is no fraction of numbers below 2^120: take weights with shorter numbers; a multiple of them serves as well" ;;
        18) say "status 18: W has ${told[2]} numbers, and \`${given[0]}\` has ${told[3]} objectives: give one for each" ;;
        129 | 13? | 14? | 15?) say "the program was ended by signal $((status - 128))$([ "$status" -ne 137 ] || printf ', as a system does where memory is wanting'); nothing that it wrote counts" ;;
    esac
}

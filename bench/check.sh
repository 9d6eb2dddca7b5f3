#!/usr/bin/env bash
# Times the check of solved logs of 16, 64 and 250 MiB, and takes the peak of its memory, by GNU time: logs of cuts with 50
# dual values each, which the checker keeps, of which the first 2,000 come into use; and logs of cuts with multipliers of
# the ordering cone, which it tests and does not keep. Then a line of 200 MiB without a line feed, and logs of 1,000, 4,000
# and 16,000 cuts that share one vector of 1,000 places.
set -euo pipefail
top=$(cd "$(dirname "${BASH_SOURCE[0]}")/.." && pwd)
program=${1:-$top/bensolve}
work=$(mktemp -d)
trap 'rm -rf "$work"' EXIT

# Two objectives with positive entries over columns of at least 0: the image is the orthant.
awk 'BEGIN {
    print "p vlp min 0 50 0 2 100"
    for (j = 1; j <= 50; j++) print "o 1 " j " " j
    for (j = 1; j <= 50; j++) print "o 2 " j " " 51 - j
    for (j = 1; j <= 50; j++) print "j " j " l 0"
    print "e"
}' >"$work/kept"

# One objective and one column of at least 0, and 64 times the same vector of the dual cone.
awk 'BEGIN {
    print "p vlp min 0 1 0 1 1 dualcone 64 64\no 1 1 1"
    for (k = 1; k <= 64; k++) print "k 1 " k " 1"
    print "j 1 l 0\ne"
}' >"$work/passing"

# One objective and one column, of which 1,000 rows say that it is at least 0.
awk 'BEGIN {
    print "p vlp min 1000 1 1000 1 1\no 1 1 1"
    for (i = 1; i <= 1000; i++) print "a " i " 1 1\ni " i " l 0"
    print "e"
}' >"$work/shared"

# A log of $1 cuts with one vector of multipliers.
log_shared() {
    awk -v count="$1" 'BEGIN {
        print "version 2\nduality 1 1 0 0 0"
        line = "share 1000"
        for (i = 1; i <= 1000; i++) line = line " " i " 1/1000"
        print line
        for (k = 1; k <= count; k++) print "cutof 1 1 0 1 0"
        print "start 1 1 1 0 1 1\npoint 1 0 0\nray 2 1 1 1 0\nfacet 1\nend solved"
    }'
}

# A log of $1 MiB: the two cuts that are facets, and then cuts that touch the vertex alone.
log_kept() {
    awk -v size=$(($1 * 1048576)) 'BEGIN {
        prime = 1000003
        print "version 1\nduality 2 1 1 0 0 0"
        for (row = 1; row <= 2; row++) {
            line = "cut 2 " (row == 1 ? "1 0" : "0 1") " 0 50"
            for (j = 1; j <= 50; j++) line = line " " j " " (row == 1 ? j : 51 - j)
            print line " 0"
        }
        print "start 2 1 2 2 0 0 4 1 0 0 1"
        for (k = 1; bytes < size; k++) {
            line = "cut 2 " k "/" prime " " prime - k "/" prime " 0 50"
            for (j = 1; j <= 50; j++) line = line " " j " " k * j + (prime - k) * (51 - j) "/" prime
            print line " 0"
            if (k <= 2000) print "add " k + 2 " 0"
            bytes += length(line) + 3
        }
        print "point 1 0 0\nray 2 0 0\nray 3 0 0\nfacet 1\nfacet 2\nend solved"
    }'
}

# A log of $1 MiB: the same cut again and again, by 64 multipliers of over 60 digits that sum to 1, two and two to 1/32.
log_passing() {
    awk -v size=$(($1 * 1048576)) 'BEGIN {
        half = "19807040628566084398385987584"
        whole = "1267650600228229401496703205376"
        front = substr(half, 1, length(half) - 5)
        back = substr(half, length(half) - 4) + 0
        line = "cut 1 1 0 1 1 1 64"
        for (k = 1; k <= 64; k++) {
            odd = (k % 2 == 1) ? k : 1 - k
            line = line " " k " " front sprintf("%05d", back + odd) "/" whole
        }
        print "version 1\nduality 1 1 0 0 0"
        for (bytes = 0; bytes < size; bytes += length(line) + 1) print line
        print "start 1 1 1 0 1 1\npoint 1 0 0\nray 2 0 0\nfacet 1\nend solved"
    }'
}

# Runs `check` on the problem and the log that were written, and prints the time, the speed and the peak.
measure() {
    local bytes cuts start end peak
    bytes=$(stat -c %s "$work/log")
    cuts=$(grep -c '^cut' "$work/log" || true)
    start=$(date +%s%N)
    /usr/bin/time -v -o "$work/time" "$program" check "$work/$1" "$work/log" >"$work/out" || true
    end=$(date +%s%N)
    peak=$(sed -n 's/.*Maximum resident set size (kbytes): //p' "$work/time")
    printf '%-7s %9d bytes, %6d cuts: %6d ms, %5d KB/s, peak %7d KB; %s\n' "$1" "$bytes" "$cuts" \
        $(((end - start) / 1000000)) $((bytes * 1000 / ((end - start) / 1000000 + 1) / 1024)) "$peak" "$(head -n 2 "$work/out" | tail -n 1)"
}

"$program" >/dev/null 2>&1 || true
for mib in 16 64 250; do
    log_kept "$mib" >"$work/log"
    measure kept
    log_passing "$mib" >"$work/log"
    measure passing
done
head -c 209715200 /dev/zero | tr '\0' 1 >"$work/log"
measure kept
for count in 1000 4000 16000; do
    log_shared "$count" >"$work/log"
    measure shared
done

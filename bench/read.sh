#!/usr/bin/env bash
# Times the reading of problems of 1, 4 and 16 MiB, with 6,250 entries for each MiB. The log that is
# checked with them has no farkas entry, so nearly all of the time is that of reading.
set -euo pipefail
top=$(cd "$(dirname "${BASH_SOURCE[0]}")/.." && pwd)
program=${1:-$top/bensolve}
work=$(mktemp -d)
trap 'rm -rf "$work"' EXIT
printf 'version 1\nend infeasible\n' >"$work/log"

# A problem of $1 MiB: entries of 100 rows and 1,000 columns, each line filled up with blanks.
problem() {
    awk -v mib="$1" 'BEGIN {
        count = 6250 * mib
        printf "p vlp min 100 1000 %d 1 0\n", count
        for (n = 0; n < count; n++) {
            printf "%-166s\n", "a " int(n / 1000) + 1 " " n % 1000 + 1 " " n - 50000 "." n "e-" n % 7
        }
        print "e"
    }' >"$work/$1.vlp"
}

"$program" >/dev/null 2>&1 || true
for mib in 1 4 16; do
    problem "$mib"
    start=$(date +%s%N)
    "$program" check "$work/$mib.vlp" "$work/log" >"$work/out" || true
    end=$(date +%s%N)
    printf '%2d MiB, %6d entries: %5d ms; %s\n' "$mib" $((6250 * mib)) $(((end - start) / 1000000)) "$(head -1 "$work/out")"
done

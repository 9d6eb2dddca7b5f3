#!/usr/bin/env bash
# Refuses each allocation of a run in turn, and looks how the run ends: with status 6 (want of memory) and nothing
# written, or as without the refusal, to the byte. Otherwise it says where, and ends with status 1.
#
#   oracle/refuse_memory.sh [PROGRAM]    every allocation, of the built program (by default crates/bensolve/out/bensolve)
#   oracle/refuse_memory.sh --try N..    the allocations of these numbers, of the program as `rt try --fail-alloc N` runs
#                                       it from its sources, which compiles it anew each time
#
# The runs are `solve` with a log, of a problem with vertices, one without, and one with a cone by generators, `check`
# of the logs of all three, `relog` of these and of a log of version 1, `sample 1`, a projection with its log, an
# associated problem, a sum, a join, an image and weights of these problems, `vertices` and `facets` of the alloy of
# the examples, with logs, `reconv` of both logs, and `facets` of two texts of long numbers. The allocations are the
# calls of malloc, calloc and realloc of the whole process, from 1 up to the first number that no run reaches.
set -euo pipefail
top=$(cd "$(dirname "${BASH_SOURCE[0]}")/.." && pwd)
work=$(mktemp -d)
trap 'rm -rf "$work"' EXIT
mkdir "$work/problems" "$work/logs" "$work/now"

cp "$top/crates/bensolve/data/plane.vlp" "$work/problems/vertices"
cat >"$work/problems/line" <<'END'
p vlp min 0 2 0 2 2
o 1 1 1
o 2 2 1
j 1 f
j 2 l 0
e
END
cat >"$work/problems/generators" <<'END'
p vlp min 0 2 0 2 2 cone 2 6
o 1 1 1
o 2 2 1
k 1 1 2
k 2 1 1
k 1 2 1
k 2 2 2
k 1 0 1
k 2 0 1
j 1 l 0
j 2 l 0
e
END

# The words of a run, in which LOG stands for the log that it writes.
runs() {
    local problem
    for problem in vertices line generators; do
        echo "solve $work/problems/$problem LOG"
    done
    for problem in vertices line generators; do
        echo "check $work/problems/$problem $work/logs/$problem"
    done
    for problem in vertices line generators; do
        echo "relog $work/problems/$problem $work/logs/$problem"
    done
    echo "relog $work/problems/vertices $top/crates/bensolve/data/plane.log"
    echo "sample 1"
    echo "project $work/problems/vertices 1 LOG"
    echo "associate $work/problems/vertices 1"
    echo "sum $work/problems/vertices $work/problems/line"
    echo "join $work/problems/vertices $work/problems/line"
    echo "map $work/problems/vertices"
    echo "weights $work/problems/vertices"
    echo "weigh $work/problems/line 1,1"
    echo "vertices $top/examples/alloy.sides LOG"
    echo "facets $top/examples/alloy.gens LOG"
    for problem in 11-drawn-points-to-999-in-5 12-drawn-points-to-99-in-6; do
        echo "facets $top/crates/cases/data/conversions/$problem.gens"
    done
    for problem in alloy.sides alloy.gens; do
        echo "reconv $top/examples/$problem $work/logs/$problem"
    done
}

# A library in front of that of C, which refuses the allocation of the number REFUSE, and then writes a byte to the
# descriptor 9.
library() {
    cat >"$work/refuse.c" <<'END'
#define _GNU_SOURCE
#include <dlfcn.h>
#include <errno.h>
#include <stdlib.h>
#include <unistd.h>
void *__libc_malloc(size_t size);
void *__libc_calloc(size_t count, size_t size);
void *__libc_realloc(void *old, size_t size);
static long number, refused = -1;
static int refuses(void) {
    if (refused < 0) {
        const char *word = getenv("REFUSE");
        refused = word ? atol(word) : 0;
    }
    if (++number != refused)
        return 0;
    if (write(9, "r", 1) != 1)
        _exit(99);
    errno = ENOMEM;
    return 1;
}
void *malloc(size_t size) { return refuses() ? NULL : __libc_malloc(size); }
void *calloc(size_t count, size_t size) { return refuses() ? NULL : __libc_calloc(count, size); }
void *realloc(void *old, size_t size) { return refuses() ? NULL : __libc_realloc(old, size); }
END
    cc -O2 -shared -fPIC -o "$work/refuse.so" "$work/refuse.c"
}

# Runs PROGRAM with the allocation of number $1 refused, and the words after it: its status, report and log, and
# whether it came to that allocation, stand in the folder `now`.
run_built() {
    local number=$1 status=0
    shift
    : >"$work/now/log"
    REFUSE=$number LD_PRELOAD=$work/refuse.so "$program" "$@" >"$work/now/report" 9>"$work/now/refused" || status=$?
    echo "$status" >"$work/now/status"
}

is_same() {
    cmp -s "$work/now/status" "$work/plain/status" && cmp -s "$work/now/report" "$work/plain/report" &&
        cmp -s "$work/now/log" "$work/plain/log"
}

is_refused() {
    [ "$(cat "$work/now/status")" = 6 ] && [ ! -s "$work/now/report" ] && [ ! -s "$work/now/log" ]
}

# Goes through the allocations of one run.
sweep() {
    local words=("${@/#LOG/$work/now/log}") number=1 ended=0 same=0 other=0
    run_built 0 "${words[@]}"
    rm -rf "$work/plain"
    cp -r "$work/now" "$work/plain"
    case $1 in
        solve | vertices | facets) cp "$work/now/log" "$work/logs/$(basename "$2")" ;;
    esac
    while run_built "$number" "${words[@]}" && [ -s "$work/now/refused" ]; do
        if is_refused; then
            ended=$((ended + 1))
        elif is_same; then
            same=$((same + 1))
        else
            other=$((other + 1))
            echo "  allocation $number: status $(cat "$work/now/status")"
        fi
        number=$((number + 1))
    done
    echo "$1 $(basename "$2"), status $(cat "$work/plain/status"): of $((number - 1)) refusals $ended end with status 6," \
        "$same as without the refusal, $other otherwise"
    total=$((total + number - 1))
    failed=$((failed + other))
}

# The allocations of the given numbers, by `rt try`.
try_numbers() {
    local number problem said
    for problem in vertices line generators; do
        for number in "$@"; do
            (cd "$top/crates/bensolve" && exec rt try --fail-alloc "$number" --data "problem=$work/problems/$problem" \
                -- solve problem log) >"$work/now/report" 2>"$work/now/said" || true
            said=$(sed -n '$s/^run=ended status=\([0-9]*\) .*/\1/p' "$work/now/said")
            echo "solve $problem, allocation $number: status ${said:-none}"
            case ${said:-none} in
                6) [ ! -s "$work/now/report" ] || failed=$((failed + 1)) ;;
                0) ;;
                *) failed=$((failed + 1)) ;;
            esac
            total=$((total + 1))
        done
    done
}

total=0
failed=0
if [ "${1-}" = --try ]; then
    shift
    try_numbers "$@"
else
    program=${1:-$top/crates/bensolve/out/bensolve}
    if [ ! -x "$program" ]; then
        echo "$program is not there: ./bensolve sample 1 builds it" >&2
        exit 2
    fi
    library
    while read -r -a words; do
        sweep "${words[@]}"
    done < <(runs)
fi
echo "$total refusals, of which $failed end otherwise"
[ "$failed" = 0 ]

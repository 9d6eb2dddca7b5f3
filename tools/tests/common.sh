# shellcheck shell=bash disable=SC2034
# What the tests share: where the repository is, its program if there is one, how a copy of it is set up, and how rows of a table
# are run.
set -uo pipefail

top=$(cd "$(dirname "${BASH_SOURCE[0]}")/../.." && pwd)
tests=$top/tools/tests
work=$(mktemp -d)
trap 'rm -rf "$work"' EXIT
begun=0
active=0

# Whether the program of this repository is of its sources, as the launcher's own functions tell: by the sum beside it, and
# without one by the times of all.
is_of_sources() {
    bash -c '
        . "$1"
        mapfile -t crates < <(crates_of_program)
        cd "$top"
        if [ -f "$program.sum" ]; then ! is_old; else [ -z "$(find_sources -newer "$program" -print -quit)" ]; fi
    ' - "$top/bensolve"
}

# The built program: the one that BENSOLVE names, or that of this repository where it is of its sources.
built_program() {
    local program=${BENSOLVE-}
    if [ -z "$program" ]; then
        program=$top/crates/bensolve/out/bensolve
        [ -x "$program" ] && is_of_sources || return 1
    fi
    [ -f "$program" ] && [ -x "$program" ] && realpath "$program"
}

# Makes a folder an installed launcher with this program.
install_copy() {
    mkdir -p "$1"
    cp -r "$top/bensolve" "$top/tools" "$1/"
    cp "$2" "$1/program"
}

# Runs a function that tests one thing, and says what fails or else nothing.
run_one() {
    begun=$((begun + 1))
    "$@" >"$work/said.$begun"
}

# The same, up to twelve at a time.
run_beside() {
    if [ "$active" -ge 12 ]; then
        wait -n
        active=$((active - 1))
    fi
    begun=$((begun + 1))
    "$@" >"$work/said.$begun" &
    active=$((active + 1))
}

# Tells what failed, and as the last line how much passed.
end_of_test() {
    local i failed=0
    wait
    for ((i = 1; i <= begun; i++)); do
        [ -s "$work/said.$i" ] || continue
        failed=$((failed + 1))
        printf 'FAILED %s\n' "$(cat "$work/said.$i")"
    done
    printf '%s: %d passed, %d failed\n' "$1" "$((begun - failed))" "$failed"
    [ "$failed" -eq 0 ] && [ "$begun" -gt 0 ]
    exit
}

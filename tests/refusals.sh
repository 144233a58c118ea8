#!/usr/bin/env bash
# Runs the scripts of tests/refusals.cases, each of which has to be refused, one by one. Each stands behind a line
# `=== <Name> at line <N>`, which says what has to be printed of it.
# usage: tests/refusals.sh PROGRAM
set -u
program=$(realpath -- "$1") || exit 70
cases=$(cd -- "$(dirname -- "${BASH_SOURCE[0]}")" && pwd)/refusals.cases
work=$(mktemp -d) || exit 70
trap 'rm -rf -- "$work"' EXIT
cd -- "$work" || exit 70

# A file for each script, and a list of what has to come of each.
awk '/^=== / { if (n) close(n ".test"); n++; print n, $2, $5 >"list"; next } n { print >(n ".test") }' "$cases"
refused=0 wrong=0
while read -r number name line; do
    want="REFUSED $number.test:$line $name"
    got=$("$program" promqltest "$number.test")
    status=$?
    if [ "$status" = 6 ] && [ "$got" = "$want" ]; then
        refused=$((refused + 1))
    else
        wrong=$((wrong + 1))
        printf 'wanted %s, got %s with status %s of\n' "$want" "$got" "$status"
        sed 's/^/    /' "$number.test"
    fi
done <list
echo "refusals: $refused refused, $wrong wrong"
[ "$wrong" = 0 ]

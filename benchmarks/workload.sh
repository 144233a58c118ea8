#!/usr/bin/env bash
# Builds the program, runs its workload over 100, 500, 2,000 and 20,000 series, and prints a table of the seconds by the
# clock and the peak memory of each run. Ends with 0 where each run passed. Run it by hand: benchmarks/workload.sh
set -u
export LC_ALL=C
top=$(dirname -- "$(dirname -- "$(readlink -f -- "${BASH_SOURCE[0]}")")")
failed=0

# The first call builds the program, which is no part of what is measured.
"$top/bin/workload" 1 >/dev/null || exit

# Runs the workload of so many series, and sets `seconds` and `peak`, in MB. The kernel keeps a process's peak, which is
# read until the process has ended.
measure() {
    local start=$EPOCHREALTIME now
    "$top/bin/workload" "$1" >"$report" &
    while now=$(awk '/^VmHWM:/ { print int($2 / 1000) }' "/proc/$!/status" 2>/dev/null) && [ -n "$now" ]; do
        peak=$now
        sleep 0.02
    done
    wait $! || failed=1
    seconds=$(awk -v from="$start" -v to="$EPOCHREALTIME" 'BEGIN { printf "%.2f", to - from }')
}

report=$(mktemp) && trap 'rm -f -- "$report"' EXIT
printf '%8s %9s %9s %6s  %s\n' series samples seconds MB report
for series in 100 500 2000 20000; do
    measure "$series"
    printf '%8d %9d %9s %6d  %s\n' "$series" $((61 * series)) "$seconds" "$peak" "$(tail -n 1 "$report")"
    [ "$(tail -n 1 "$report")" = "passed 3 failed 0" ] || failed=1
done
exit "$failed"

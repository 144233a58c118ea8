#!/usr/bin/env bash
# Runs the program over declared engines: scripts, queries and workloads have to print what they print without them, words that declare none
# are no command, and a series of no engine is refused.
# usage: tests/engines.sh PROGRAM
set -u
program=$(realpath -- "$1") || exit 70
scripts=$(realpath -- "$(dirname -- "${BASH_SOURCE[0]}")/scripts") || exit 70
work=$(mktemp -d) || exit 70
trap 'rm -rf -- "$work"' EXIT
cd -- "$work" || exit 70
right=0 wrong=0
usage='usage: promqltest [options] FILE.. or query [options] FILE EXPR'

# judge STATUS TEXT WORDS..: runs the words, and judges the status and all that is printed.
judge() {
    local wanted="$1 $2" told
    shift 2
    told=$("$program" "$@" >told; echo "$? $(cat told)")
    if [ "$told" = "$wanted" ]; then
        right=$((right + 1))
    else
        wrong=$((wrong + 1))
        echo "of $*: wanted $wanted, got $told"
    fi
}

# runs WORDS..: what the program prints, and its status, for words that name scripts of tests/scripts.
runs() {
    (cd -- "$scripts" && "$program" "$@")
    echo "status $?"
}

# over ENGINES COMMAND WORDS..: judges the words over these engines, in small, middle and large batches and without rewrites, by what is
# printed without engines.
over() {
    local engines=$1 command=$2 choice
    shift 2
    runs "$command" "$@" >wanted
    for choice in --batch={1,3,64} --opts=none; do
        runs "$command" "--engines=$engines" "$choice" "$@" >got
        if cmp -s wanted got; then
            right=$((right + 1))
        else
            wrong=$((wrong + 1))
            echo "of $command --engines=$engines $choice $*:"
            diff wanted got | sed -n 's/^< /    wanted: /p; s/^> /    printed: /p' | head -n 4
        fi
    done
}

printf 'load 1m\nx{region="eu"} 1\n\neval instant at 0 x\nx{region="eu"} 1\n' >eu.test
printf 'load 1m\nx 1\n' >p.test

# Without engines and over four, in batches of three sizes.
workload=$'series 2000 samples 122000\nPASS workload:2003\nPASS workload:2006\nPASS workload:2012\npassed 3 failed 0'
judge 0 "$workload" workload 2000
for batch in 1 3 64; do
    judge 0 "$workload" workload 2000 --batch "$batch" --engines 'g=0;g=1;g=2;g=3'
done
judge 0 "$workload" workload 2000 --opts none --engines 'g=0;g=1;g=2;g=3'

# Scripts whose series all have a label of few values, by as many engines, in this order and in others; two files, each from empty engines.
over 'i=1;i=2;i=3' promqltest moving_windows.test
over 'i=1;i=2' promqltest nested.test
over 'i=2;i=1' promqltest nested_walks.test
over 'i=1;i=2;i=3;i=4;i=5;i=6' promqltest optimised_postings.test
over 'i=2;i=1' promqltest quantile_notes.test
over 'i=4;i=3;i=2;i=1' promqltest sorting.test
over 'job=web;job=api' promqltest failing.test
over 'region=us;region=eu' promqltest engines_walks.test engines_walks.test
over 'g=3;g=2;g=1;g=0' workload 100
for expr in up 'sum(up)' 'up ==' 'up * 1e30 * 1e30' 'topk(1, up)' 'rate(up[5m])'; do
    over 'job=web;job=api' query --at 1m failing.test "$expr"
    over 'job=api;job=web' query --from 0 --to 2m --step 1m failing.test "$expr"
done

# The script of one engine, and series that no engine has.
judge 0 $'PASS eu.test:4\npassed 1 failed 0' promqltest --engines region=eu eu.test
judge 0 $'PASS eu.test:4\npassed 1 failed 0' promqltest '--engines=region=us;region=eu' eu.test
judge 6 'REFUSED p.test:2 Unplaced' promqltest --engines region=eu p.test
judge 6 'REFUSED p.test:2 Unplaced' query --engines 'region=eu;region=us' p.test x
judge 6 $'PASS eu.test:4\nREFUSED p.test:2 Unplaced' promqltest --engines region=eu eu.test p.test eu.test
judge 6 $'series 5 samples 305\nREFUSED workload:2 Unplaced' workload 5 --engines region=eu

# Eight engines at most, and lists that declare none.
judge 0 $'PASS eu.test:4\npassed 1 failed 0' promqltest --engines 'region=eu;region=2;region=3;region=4;region=5;region=6;region=7;region=8' eu.test
for list in '' ';' 'region=eu;' ';region=eu' 'region=eu,' ',region=eu' region region= =eu region=eu,region=us 'region=eu;region=eu' 'region=eu;zone=a' 'region=eu;region=us,zone=a' __name__=x 'region=eu,__name__=x' \
    'region=1;region=2;region=3;region=4;region=5;region=6;region=7;region=8;region=9'; do
    judge 2 "$usage" promqltest "--engines=$list" eu.test
    judge 2 "$usage" query "--engines=$list" eu.test x
    judge 2 "$usage" workload 5 "--engines=$list"
done
judge 2 "$usage" promqltest --engines region=eu --engines region=us eu.test
judge 2 "$usage" promqltest eu.test --engines

echo "engines: $right right, $wrong wrong"
[ "$wrong" = 0 ]

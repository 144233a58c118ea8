#!/usr/bin/env bash
# Makes scripts of the size of the limits, and one that is no text, and runs each: some pass, some are refused.
# usage: tests/limits.sh PROGRAM
set -u
program=$(realpath -- "$1") || exit 70
work=$(mktemp -d) || exit 70
trap 'rm -rf -- "$work"' EXIT
cd -- "$work" || exit 70
right=0 wrong=0

# judge WANTED: runs the script that comes on standard input, and judges the status and the last line.
judge() {
    local told
    cat >large.test
    told=$("$program" promqltest large.test >told; echo "$? $(tail -n 1 told)")
    if [ "$told" = "$1" ]; then
        right=$((right + 1))
    else
        wrong=$((wrong + 1))
        echo "wanted $1, got $told"
    fi
}

# A script of so many series, and one that asks for a label value of so many bytes, in a query of seven more.
series() { echo 'load 1m' && seq -f 'x%.0f 0' "$1"; }
query() { printf 'eval instant at 0 x{a="%s"}\n' "$(head -c "$1" /dev/zero | tr '\0' b)"; }

judge '0 passed 0 failed 0' < <(yes '' | head -c 4194304)
judge '6 REFUSED large.test:0 TooLarge' < <(yes '' | head -c 4194305)
judge '6 REFUSED large.test:3 NotUtf8' < <(printf 'load 1m\nx 1\n# \xff\n')
judge '0 passed 0 failed 0' < <(series 100000)
judge '6 REFUSED large.test:100002 TooManySeries' < <(series 100001)
judge '0 passed 1 failed 0' < <(query 65529)
judge '1 passed 0 failed 1' < <(query 65530)
judge '0 passed 1 failed 0' < <(query 65530 && echo 'expect fail msg: TooLong at 0')
echo "limits: $right right, $wrong wrong"
[ "$wrong" = 0 ]

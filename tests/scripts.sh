#!/usr/bin/env bash
# Judges each script below tests/scripts/, whose README.md says which must pass and which must fail, and runs it in batches of
# other sizes and with fewer rewrites of plans too, which must print the same bytes: those named optimised*.test with each choice
# of rewrites. It prints a line for each script that does otherwise, and last how many scripts passed and failed. It runs
# tests/refusals.sh, tests/texts.sh, tests/limits.sh and tests/engines.sh too. It ends with 0 where all passed.
#   tests/scripts.sh                   by bin/promqltest; it fails where the release isn't of the sources that stand here
#   tests/scripts.sh --program FILE    by this program, whatever the release is
set -u
word=${0##*/}
top=$(cd -- "$(dirname -- "${BASH_SOURCE[0]}")/.." && pwd)
. "$top/bin/lib/find.sh"
cd -- "$top/tests/scripts" || exit 1
room=$(mktemp -d) && trap 'rm -rf -- "$room"' EXIT
failed=0

fails() {
    failed=$((failed + 1))
    printf 'FAILED %s\n' "$1"
}

# Judges scripts that must pass, all in one call. One that is refused ends its call, and the scripts behind it have another.
judge_all() {
    local code refused line
    while [ $# -gt 0 ]; do
        "${start[@]}" "$@" >"$room/told"
        code=$?
        while read -r line; do fails "$line"; done < <(
            awk '/^FAIL / { name = $2; sub(/:[0-9]+$/, "", name); if (!(name in told)) print substr($0, 6); told[name] }' "$room/told")
        prints_so_otherwise "$@"
        [ "$code" -gt 1 ] || return
        refused=$(tail -n 1 "$room/told")
        if [ "$code" -ne 3 ] && [ "$code" -ne 6 ]; then
            fails "$* ended with status $code"
            return
        fi
        fails "$refused"
        refused=${refused#* }
        [ "$code" -eq 3 ] && refused=${refused#read } || refused=${refused%:*}
        while [ $# -gt 0 ] && [ "$1" != "$refused" ]; do shift; done
        shift
    done
}

# Runs words that printed what stands in `told` by the other choices, which change no answer: they must print the same bytes.
prints_so_otherwise() {
    local choice
    for choice in "${choices[@]}"; do
        "${program[@]}" promqltest "$choice" "$@" >"$room/otherwise"
        cmp -s "$room/told" "$room/otherwise" ||
            fails "by $choice $(diff "$room/told" "$room/otherwise" | sed -n 's/^< /lacks: /p; s/^> /prints: /p' | head -n 2 | paste -sd' ')"
    done
}

# Each choice among five rewrites.
all_rewrites() {
    local number rest name names
    for number in {0..31}; do
        rest=$number names=
        for name in sort propagate merge trim avg; do
            [ $((rest % 2)) = 0 ] || names+=,$name
            rest=$((rest / 2))
        done
        names=${names#,}
        echo "--opts=${names:-none}"
    done
}

# Judges a script that has files beside it, in a call of its own. The program is started itself: the launcher reads all sources
# at each start.
judge_one() {
    local name=${1%.test} code wanted=0 words=() told
    [ ! -e "$name.words" ] || read -ra words <"$name.words"
    [ ! -e "$name.expected" ] || wanted=1
    [ ! -e "$name.status" ] || read -r wanted <"$name.status"
    "${program[@]}" promqltest "${words[@]}" "$1" >"$room/told"
    code=$?
    if [ -e "$name.expected" ] && ! cmp -s "$name.expected" "$room/told"; then
        told=$(diff "$name.expected" "$room/told" | sed -n 's/^< /wanted: /p; s/^> /printed: /p' | head -n 2 | paste -sd' ')
        fails "$1 $told"
    elif [ "$code" != "$wanted" ]; then
        fails "$1 ended with status $code, not $wanted: $(grep -v '^PASS' "$room/told" | head -n 1)"
    fi
    prints_so_otherwise "${words[@]}" "$1"
}

if [ "${1-}" = --program ]; then
    program=("$(readlink -f -- "$2")")
    start=("${program[@]}" promqltest)
else
    read_sources
    if ! find_release; then
        fails "the release isn't of the sources that stand here: bin/build --gate --release makes it"
        exit 1
    fi
    start=("$top/bin/promqltest")
    # Where the exec bit was lost on the way, a copy has it.
    if [ ! -x "$top/release/promql" ]; then
        cp -- "$top/release/promql" "$room/program" && chmod 755 "$room/program"
        program=("$room/program")
    fi
fi
mapfile -t files < <(find . -type f | sed 's,^\./,,' | sort)
together=() alone=() optimised=()
for file in "${files[@]}"; do
    name=${file%.*}
    case $file in
        README.md) ;;
        optimised*.test) optimised+=("$file") ;;
        *.test) [ -e "$name.expected" ] || [ -e "$name.words" ] && alone+=("$file") || together+=("$file") ;;
        *.expected | *.status | *.words) [ -e "$name.test" ] || fails "$file stands beside no script" ;;
        *) fails "$file is no script" ;;
    esac
done
choices=(--batch={1,2,3,64,1024} --opts={none,propagate,merge,trim,avg})
judge_all "${together[@]}"
for file in "${alone[@]}"; do judge_one "$file"; done
mapfile -t choices < <(all_rewrites)
judge_all "${optimised[@]}"
for more in refusals texts limits engines; do
    [ ! -e "$top/tests/$more.sh" ] || "$top/tests/$more.sh" "${program[0]}" || failed=$((failed + 1))
done
echo "scripts: ${#together[@]} that pass as they stand, ${#optimised[@]} by each choice of rewrites, ${#alone[@]} with files beside them, $failed failed"
[ "$failed" -eq 0 ]

#!/usr/bin/env bash
# Runs the texts of tests/texts.cases and compares what is printed of each. A line `=== <words>` says by which words the texts
# behind it are run; each text stands in a line of its own, behind `> `, and the lines below it are what has to be printed. The
# status has to be 2 for a usage line, 1 for a refusal, and else 0.
# usage: tests/texts.sh PROGRAM
set -u
program=$(realpath -- "$1") || exit 70
cases=$(cd -- "$(dirname -- "${BASH_SOURCE[0]}")" && pwd)/texts.cases
room=$(mktemp -d) || exit 70
trap 'rm -rf -- "$room"' EXIT
right=0 wrong=0 words=() text='' wanted=''

# Runs the text before its wanted lines, if there are any.
judge() {
    local status want=0
    [ -n "$wanted" ] || return
    case $wanted in
        usage:*) want=2 ;;
        REFUSED*) want=1 ;;
    esac
    printf '%s' "$wanted" >"$room/wanted"
    "$program" "${words[@]}" -- "$text" >"$room/got"
    status=$?
    if [ "$status" = "$want" ] && cmp -s "$room/wanted" "$room/got"; then
        right=$((right + 1))
    else
        wrong=$((wrong + 1))
        printf 'of %s, with status %s:\n' "${words[*]} -- $text" "$status"
        diff "$room/wanted" "$room/got" | sed -n 's/^< /    wanted: /p; s/^> /    printed: /p'
    fi
    wanted=''
}

while IFS= read -r line; do
    case $line in
        '=== '*)
            judge
            read -ra words <<<"${line#=== }"
            ;;
        '> '*)
            judge
            text=${line#> }
            ;;
        '' | '#'*) ;;
        *) wanted+=$line$'\n' ;;
    esac
done <"$cases"
judge
echo "texts: $right right, $wrong wrong"
[ "$wrong" = 0 ]

#!/usr/bin/env bash
# Tries bin/promqltest over a small checkout with a stand-in for the toolchain's rt, whose builds take a second. Run it by
# hand: tests/launcher.sh. It takes about a minute, prints a line for each part, and ends with 0 where all passed.
set -u
export LC_ALL=C
here=$(cd -- "$(dirname -- "${BASH_SOURCE[0]}")" && pwd)
launchers=$here/../bin
room=$(mktemp -d) && chmod 755 "$room"
[ -n "${KEEP:-}" ] || trap 'chmod -R u+w "$room"; rm -rf "$room"' EXIT
export HOME=$room/home XDG_CACHE_HOME=
unset TMPDIR
mkdir "$HOME"
failed=0

part() { echo "== $1"; }

# wanted WHAT IS: says where two texts differ.
wanted() {
    [ "$2" = "$3" ] && return
    failed=1
    printf 'FAILED %s: wanted %q, got %q\n' "$1" "$2" "$3"
}

# The stand-in: it counts what it is asked for, and builds a program that is written in two pieces.
mkdir "$room/kit" "$room/kit/bin" && cat >"$room/kit/bin/rt" <<'RT'
#!/usr/bin/env bash
tool=$(dirname -- "$(readlink -f -- "$0")")/..
if [ "$1" = version ]; then cat "$tool/version"; exit; fi
[ "$1" != ci ] || { cd crates/promql && "$0" run; [ $? -eq 2 ]; exit; }
echo "$1 $(basename -- "$PWD")" >>"${RT_LOG:-/dev/null}"
mode=$(cat "$tool/mode")
sleep 0.1
[ "$1" = run ] || exit 0
[ "$mode" != slow ] || sleep 2
mkdir -p out
if [ "$mode" = half ]; then
    echo '#!/usr/bin/env bash' >out/promql
    chmod +x out/promql
    exit 2
fi
{
    echo '#!/usr/bin/env bash'
    echo "told='$(grep -o 'answer [0-9]*' src/main.rt)'"
    seq 30000 | sed 's/^/# /'
    sleep 0.3
    echo '[ $# -eq 2 ] && [ "${2#--}" = "$2" ] && [ "$2" != -h ] || { echo "usage: promqltest [options] FILE.."; exit 2; }'
    echo '[ ! -p "$2" ] || read -r _ <"$2"; echo "$1 $2 $told"; exit ${STATUS:-0}'
} >out/promql
chmod +x out/promql
./out/promql
RT
chmod -R a+rX "$room/kit"
chmod +x "$room/kit/bin/rt"
export PATH=$room/kit/bin:$PATH RT_LOG=$room/log
echo 'stand-in 1' >"$room/kit/version"
echo good >"$room/kit/mode"

# A fresh checkout of three crates, of which the program stands on two.
checkout() {
    rm -rf -- "$1"
    mkdir -p -- "$1/bin" "$1/docs" "$1/tests/scripts" "$1"/crates/{low,side,promql}/src
    cp -R -- "$launchers"/{promqltest,query,workload,format,explain,build,lib} "$1/bin/"
    cp -- "$here"/{run,scripts.sh} "$1/tests/"
    printf '# crates\nlow: kit_crate\nside: low\npromql: low # the program\n' >"$1/crates.txt"
    echo 'Handles allowed: none.' >"$1/HANDLES"
    printf 'pub mod part;\n\n#[cfg(test)]\nmod tests;\n' | tee "$1/crates/low/src/lib.rt" >"$1/crates/side/src/lib.rt"
    echo '// a part' >"$1/crates/low/src/part.rt"
    echo '// a test' >"$1/crates/low/src/tests.rt"
    echo '// answer 1' >"$1/crates/promql/src/main.rt"
    : >"$1/tests/scripts/README.md"
    : >"$RT_LOG"
    echo good >"$room/kit/mode"
}

# How often the program was built.
builds() { grep -c '^run promql$' "$RT_LOG"; }

# report CHECKOUT: what a call prints on standard output, and its status.
report() { "$1/bin/promqltest" a.test 2>"$room/said"; echo "status $?"; }

good='promqltest a.test answer 1
status 0'
at=$room/checkout

part 'forty calls at once on a fresh checkout'
checkout "$at"
for i in $(seq 40); do report "$at" >"$room/out$i" 2>&1 & done
wait
for i in $(seq 40); do wanted "call $i" "$good" "$(cat "$room/out$i")"; done
wanted 'builds' 1 "$(builds)"
wanted 'what stays in the folder' 'lock promql toolchain' "$(ls -A "$at/bin/.cache" | sed 's/-.*//' | xargs)"

part 'what is printed while it builds'
checkout "$at"
wanted 'the report' "$good" "$(report "$at")"
wanted 'the lines' 'promqltest: the 2 crates are proved first, once
promqltest: proved low, 1 of 2, after 0 minutes
promqltest: proved promql, 2 of 2, after 0 minutes' "$(sed 's/once: .*/once/; s/[0-9]\.[0-9] minutes/0 minutes/g' "$room/said")"
wanted 'the second report' "$good" "$(report "$at")"
wanted 'its lines' '' "$(cat "$room/said")"
wanted 'builds' 1 "$(builds)"
wanted 'another status' 3 "$(STATUS=3 "$at/bin/promqltest" a.test >/dev/null; echo $?)"
wanted 'no words' 2 "$("$at/bin/promqltest" >/dev/null 2>&1; echo $?)"

part 'what builds again'
echo '// another test' >"$at/crates/low/src/tests.rt"
echo '# a document' >"$at/docs/new.md"
echo '// a crate that the program does not stand on' >"$at/crates/side/src/lib.rt"
touch "$at"/crates/*/src/*.rt
report "$at" >/dev/null
wanted 'after a test and a document' 1 "$(builds)"
echo '// an older part' >"$at/crates/low/src/part.rt"
touch -d '2001-01-01' "$at/crates/low/src/part.rt"
report "$at" >/dev/null
wanted 'after a source with an old date' 2 "$(builds)"
echo 'stand-in 2' >"$room/kit/version"
touch -d '2001-01-01' "$room/kit/bin/rt"
report "$at" >/dev/null
wanted 'after a change of the toolchain' 3 "$(builds)"
echo '// answer 2' >"$at/crates/promql/src/main.rt"
wanted 'after a change of the program' 'promqltest a.test answer 2
status 0' "$(report "$at")"

part 'a rebuild while an older run goes on'
checkout "$at"
report "$at" >/dev/null
mkfifo "$room/pipe"
"$at/bin/promqltest" "$room/pipe" >"$room/older" &
older=$!
sleep 0.3
echo '// answer 2' >"$at/crates/promql/src/main.rt"
wanted 'the newer run' 'promqltest a.test answer 2
status 0' "$(report "$at")"
timeout 5 bash -c "echo >'$room/pipe'"
wait "$older"
wanted 'the older run' "0 promqltest $room/pipe answer 1" "$? $(cat "$room/older")"

part 'a source that changes while it builds'
checkout "$at"
echo slow >"$room/kit/mode"
report "$at" >"$room/out" &
sleep 1.5
echo '// another part' >"$at/crates/low/src/part.rt"
wait
wanted 'the report' "$good" "$(cat "$room/out")"
wanted 'builds' 2 "$(builds)"

part 'a killed build, alone and with calls that wait'
for waiting in 0 5; do
    checkout "$at"
    echo slow >"$room/kit/mode"
    setsid "$at/bin/promqltest" a.test >/dev/null 2>&1 &
    killed=$!
    sleep 1
    for i in $(seq "$waiting"); do report "$at" >"$room/out$i" & done
    sleep 0.5
    kill -9 -- "-$killed"
    wait 2>/dev/null
    for i in $(seq "$waiting"); do wanted "call $i" "$good" "$(cat "$room/out$i")"; done
    wanted 'the next call' "$good" "$(report "$at")"
    sleep 2
    wanted 'the call after it' "$good" "$(report "$at")"
done 2>/dev/null

part 'an interrupted build'
checkout "$at"
echo slow >"$room/kit/mode"
setsid "$at/bin/promqltest" a.test >/dev/null 2>&1 &
sleep 1
kill -TERM -- "-$!"
wait 2>/dev/null
flock "$at/bin/.cache/lock" true
wanted 'what stays in the folder' 'lock toolchain' "$(ls -A "$at/bin/.cache" | xargs)"
wanted 'the next call' "$good" "$(report "$at")"

part 'a program that was built by half, and an empty one'
checkout "$at"
echo half >"$room/kit/mode"
wanted 'the report' 'status 70' "$(report "$at")"
wanted 'the last line' 'promqltest: the program is not built' "$(tail -n 1 "$room/said")"
wanted 'usage lines' 0 "$(grep -c '^usage:' "$room/said")"
echo good >"$room/kit/mode"
wanted 'the next call' "$good" "$(report "$at")"
: >"$(echo "$at"/bin/.cache/promql-*)"
wanted 'the call after it was emptied' "$good" "$(report "$at")"

part 'a full disk'
checkout "$at"
wanted 'the report' 'status 70' "$(ulimit -f 30; report "$at" 2>/dev/null)"
wanted 'programs' 0 "$(ls "$at/bin/.cache" | grep -c '^promql')"
wanted 'the next call' "$good" "$(report "$at")"
checkout "$at"
if unshare -m true 2>/dev/null; then
    mkdir "$at/bin/.cache"
    wanted 'the report on a full file system' 'status 70' "$(
        export at room RT_LOG
        unshare -m bash -c 'mount -t tmpfs -o size=64k none "$at/bin/.cache" && "$at/bin/promqltest" a.test 2>"$room/said"; echo "status $?"')"
    wanted 'the last line' 'promqltest: the program is not built' "$(tail -n 1 "$room/said")"
fi

part 'a checkout that is only to be read'
checkout "$at"
chmod -R a-w "$at"
chmod a+w "$RT_LOG" "$room/said" "$HOME"
run=()
[ "$(id -u)" -ne 0 ] || run=(setpriv --reuid=65534 --regid=65534 --clear-groups)
wanted 'the report' 'promqltest a.test answer 1' "$("${run[@]}" "$at/bin/promqltest" a.test 2>"$room/said")"
wanted 'the second report' 'promqltest a.test answer 1' "$("${run[@]}" "$at/bin/promqltest" a.test 2>"$room/said")"
wanted 'its lines' '' "$(cat "$room/said")"
wanted 'builds' 1 "$(builds)"
wanted 'no folder to write' 70 "$(HOME=/proc/none "${run[@]}" "$at/bin/promqltest" a.test >/dev/null 2>"$room/said"; echo $?)"
wanted 'its lines' 1 "$(grep -c 'no folder for it can be written' "$room/said")"
chmod -R u+w "$at"

part 'the other first words'
checkout "$at"
wanted 'a query' 'query a.test answer 1' "$("$at/bin/query" a.test 2>"$room/said")"
wanted 'who says so' query "$(sed 's/:.*//' "$room/said" | sort -u)"
wanted 'a workload' 'workload 7 answer 1' "$(cd "$at/bin" && ./workload 7 2>&1)"
wanted 'a query by PATH' 'query b.test answer 1' "$(cd / && PATH=$at/bin:$PATH && query b.test 2>&1)"
wanted 'builds' 1 "$(builds)"

part 'a path with blanks, and links'
blank="$room/a  path with 'blanks'"
checkout "$blank"
wanted 'the report' "$good" "$(report "$blank")"
mkdir "$room/links"
ln -s "$blank/bin/promqltest" "$room/links/first"
ln -s "$blank/bin/query" "$room/links/query"
ln -s first "$room/links/second"
wanted 'a link' 'query a b.test answer 1' "$(cd / && "$room/links/query" 'a b.test' 2>&1)"
wanted 'a link to a link' 'second a b.test answer 1' "$(cd / && "$room/links/second" 'a b.test' 2>&1)"
wanted 'the first word by PATH' 'first a.test answer 1' "$(cd / && PATH=$room/links:$PATH && first a.test 2>&1)"
wanted 'builds' 1 "$(builds)"

part 'no toolchain'
checkout "$at"
less=$room/less
mkdir "$less" && chmod 755 "$less"
for tool in bash awk cat cut find grep readlink sed seq sha256sum sort tr xargs; do ln -s "$(command -v "$tool")" "$less/$tool"; done
wanted 'the report' 'status 70' "$(PATH=$less report "$at")"
wanted 'its lines' 1 "$(grep -c "the toolchain's command rt is not there" "$room/said")"
report "$at" >/dev/null
wanted 'the report once it is built' "$good" "$(PATH=$less report "$at")"

# A clone of a checkout in which a release was made.
clone=$room/clone
release() {
    checkout "$at"
    "$at/bin/build" --gate --release >"$room/told" 2>"$room/said"
    wanted 'what is said of the release' "0 the release is this program, byte for byte" "$? $(tail -n 1 "$room/told")"
    printf '.cache\nout\n' >"$at/.gitignore"
    git -C "$at" init -q && git -C "$at" add . && git -C "$at" -c user.name=a -c user.email=a@b.example commit -qm 1
    chmod -R u+w "$clone" 2>/dev/null
    rm -rf -- "$clone" && git clone -q "$at" "$clone"
    : >"$RT_LOG"
}

# All that stands in a clone and at home, with times.
listed() { find "$clone" "$HOME" -printf '%p %s %C@\n' | sort | sha256sum; }

# The line of standard error that says why the release isn't started.
why() { grep -c 'release/promql is not started' "$room/said"; }

part 'forty calls at once on a fresh clone with a release, without the toolchain'
release
before=$(listed)
for i in $(seq 40); do (PATH=$less "$clone/bin/promqltest" a.test >"$room/out$i" 2>&1; echo "status $?" >>"$room/out$i") & done
wait
for i in $(seq 40); do wanted "call $i" "$good" "$(cat "$room/out$i")"; done
wanted 'what is written' "$before" "$(listed)"
wanted 'with the toolchain' "$good" "$(report "$clone")"
wanted 'what is written then' "$before" "$(listed)"
chmod -R a-w "$clone"
wanted 'another user' 'query a.test answer 1' "$(PATH=$less "${run[@]/setpriv/$(command -v setpriv)}" "$clone/bin/query" a.test 2>&1)"
wanted 'builds' 0 "$(builds)"

part 'a release that is cut off, changed, of another system, or not to be executed'
for damage in 'truncate -s 0' 'truncate -s 100000' flip another 'chmod a-x'; do
    release
    file=$clone/release/promql
    case $damage in
        flip) printf '%b' "\\0$(printf %o $(($(od -An -tu1 -j50000 -N1 "$file") ^ 1)))" | dd of="$file" bs=1 seek=50000 conv=notrunc 2>/dev/null ;;
        another)
            { printf '\xcf\xfa\xed\xfe\x0c\0\0\x01' && head -c 100000 /dev/zero; } >"$file"
            sed -i "s/^sha256 .*/sha256 $(sha256sum <"$file" | cut -c1-64)/" "$clone/release/RELEASE"
            ;;
        *) $damage "$file" ;;
    esac
    wanted "$damage, without the toolchain" 'status 70' "$(PATH=$less report "$clone")"
    wanted 'what is said' 1 "$(why)"
    wanted "$damage" "$good" "$(report "$clone")"
    wanted 'what is said' 1 "$(why)"
    wanted 'the second report' "$good" "$(report "$clone")"
    wanted 'its lines' '' "$(cat "$room/said")"
    wanted 'builds' 1 "$(builds)"
done

part 'a release of other sources, and one that stands beside a program that was built here'
release
echo '// answer 2' >"$clone/crates/promql/src/main.rt"
wanted 'without the toolchain' 'status 70' "$(PATH=$less report "$clone")"
wanted 'the report' 'promqltest a.test answer 2
status 0' "$(report "$clone")"
wanted 'why' 0 "$(why)"
wanted 'builds' 1 "$(builds)"
echo '// answer 1' >"$clone/crates/promql/src/main.rt"
wanted 'the sources of the release again' "$good" "$(PATH=$less report "$clone")"
release
"$clone/bin/build" >"$room/told" 2>&1
wanted 'it is built' '0 the release is this program, byte for byte' "$? $(tail -n 1 "$room/told")"
echo '# more' >>"$clone/release/promql"
wanted 'the report' "$good" "$(report "$clone")"
wanted 'its lines' '' "$(cat "$room/said")"
"$clone/bin/build" >"$room/told" 2>&1
wanted 'it is built anew' '1 the release is NOT this program, though it names these sources and this toolchain' "$? $(tail -n 1 "$room/told")"
echo '// other' >"$clone/crates/low/src/part.rt"
"$clone/bin/build" >"$room/told" 2>&1
wanted 'it is built of others' '0 the release is another program, of other sources' "$? $(tail -n 1 "$room/told")"
wanted 'an option' 2 "$("$clone/bin/build" --other 2>/dev/null; echo $?)"
rm "$clone/release/RELEASE"
wanted 'no release' 'there is no release' "$("$clone/bin/build" 2>/dev/null | tail -n 1)"

part 'the help, and which program is started'
release
for asked in '' --help -h; do
    wanted "of $asked" 'usage: promqltest [options] FILE..
2' "$(PATH=$less "$clone/bin/promqltest" $asked 2>"$room/said"; echo $?)"
    wanted 'what is said' 1 "$(grep -c '^  workload ' "$room/said")"
done 2>/dev/null
PATH=$less "$clone/bin/promqltest" --version >/dev/null 2>"$room/said"
wanted 'the release' "promqltest: the release, from the sources $(sed -n 's/^sources //p' "$clone/release/RELEASE"), by the toolchain $(cat "$room/kit/version")" "$(cat "$room/said")"
"$clone/bin/build" >/dev/null 2>&1
"$clone/bin/promqltest" --version >/dev/null 2>"$room/said"
wanted 'built here' 1 "$(grep -c '^promqltest: built here, from' "$room/said")"

part 'the gate'
release
wanted 'it passes' 0 "$("$clone/tests/run" >"$room/told" 2>&1; echo $?)"
echo '# more' >>"$clone/release/promql"
sed -i "s/^sha256 .*/sha256 $(sha256sum <"$clone/release/promql" | cut -c1-64)/" "$clone/release/RELEASE"
wanted 'another program' 1 "$("$clone/tests/run" >"$room/told" 2>&1; echo $?)"
wanted 'what is said' 1 "$(grep -c 'is not the program that rt ci has built' "$room/told")"
echo '// other' >"$clone/crates/low/src/part.rt"
wanted 'other sources' 1 "$("$clone/tests/scripts.sh" >"$room/told" 2>&1; echo $?)"
wanted 'what is said' 1 "$(grep -c "the release isn't of the sources" "$room/told")"

# The release of this checkout, where it is of its sources: without its exec bit the system's loader starts it.
if (word=launcher.sh top=$(cd "$here/.." && pwd) && . "$launchers/lib/find.sh" && read_sources && find_release); then
    part 'the release that stands here, without its exec bit'
    rm -rf -- "$at" && mkdir "$at"
    (cd "$here/.." && tar -c --exclude=out --exclude=must-fail --exclude=.cache bin crates crates.txt release) | tar -x -C "$at"
    chmod a-x "$at/release/promql"
    wanted 'a script' 'passed 1 failed 0' "$(PATH=$less "$at/bin/promqltest" "$here/../examples/first.test" 2>&1 | tail -n 1)"
fi

[ "$failed" = 0 ] && echo 'all passed'
exit "$failed"

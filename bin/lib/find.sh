# Finds the program that belongs to the sources that stand here. bin/promqltest, bin/build and tests/scripts.sh read this
# in, with `word` as the name of the called file and `top` as the checkout. Nothing here is written but the note of the
# toolchain's version, beside programs that were built here.
#
# A program that was built here has the checksums of its sources and of the toolchain's version in its name. The release
# stands beside a text that names the checksum of its sources and its own.
export LC_ALL=C
shopt -s nullglob

say() { printf '%s: %s\n' "$word" "$1" >&2; }

stop() {
    say "$1"
    exit 70
}

# Where programs are kept: in the checkout, or where that can't be written in a folder of the user's own.
places() {
    local own=${XDG_CACHE_HOME:-${HOME:+$HOME/.cache}} sum
    sum=$(printf '%s %s' "$EUID" "$top" | sha256sum)
    own=${own:-${TMPDIR:-/tmp}}/zelmuca-${sum:0:16}
    printf '%s\n' "$top/bin/.cache"
    [ -e "$own" ] && [ ! -O "$own" ] || printf '%s\n' "$own"
}

# The program's crates, each behind those that it stands on, with these behind a colon.
crates_below() {
    awk '
        { sub(/#.*/, "") }
        /:/ { at = index($0, ":"); split(substr($0, 1, at - 1), head, " "); below[head[1]] = substr($0, at + 1) }
        function visit(name, list, count, i) {
            if (!(name in below) || (name in seen)) return
            seen[name]
            count = split(below[name], list, " ")
            for (i = 1; i <= count; i++) visit(list[i])
            print name ":" below[name]
        }
        END { visit("promql") }' "$top/crates.txt"
}

# The checksum of the sources, by what they hold. Tests are no part of the program.
checksum() {
    local names=() crate
    for crate in "${crates[@]}"; do names+=("crates/${crate%%:*}"); done
    (
        set -o pipefail
        cd -- "$top" || exit 1
        {
            printf '%s\n' "${crates[@]}"
            {
                awk 'FNR == 1 { split(FILENAME, part, "/") }
                    is_test && /^mod [a-z0-9_]+;/ { sub(/;/, "", $2); print part[2] "/" $2 }
                    { is_test = /^#\[cfg\(test\)\]/ }' crates/*/src/lib.rt crates/*/src/main.rt </dev/null
                echo
                find "${names[@]}" \( -name out -o -name must-fail -o -name data \) -prune -o \
                    -type f \( -name '*.rt' -o -name '*.antt' \) -print | sort
            } | awk '
                /^$/ { is_list = 1; next }
                !is_list { tests[$0]; next }
                { split($0, part, "/"); module = part[4]; sub(/\.rt$/, "", module) }
                !((part[2] "/" module) in tests) { print }' | tr '\n' '\0' | xargs -0 sha256sum
        } | sha256sum | cut -c1-64
    )
}

# Reads what stands here: where programs are kept, the program's crates, and the checksum of their sources.
read_sources() {
    mapfile -t stores < <(places)
    mapfile -t crates < <(crates_below)
    [ "${#crates[@]}" -gt 0 ] || stop "the program is not built: crates.txt doesn't name it"
    sources=$(checksum) || stop "the program is not built: its sources can't be read"
}

# Makes a folder, for its owner alone, and answers whether files can be made in it.
keep_folder() {
    (umask 077 && mkdir -p -- "$1") 2>/dev/null && [ -O "$1" ] && [ -w "$1" ]
}

# What the version of the toolchain is. It is asked for again where the command rt is another file than the last time.
toolchain() {
    local rt kit file known=() now
    for place in "${stores[@]}"; do
        [ -r "$place/toolchain" ] && mapfile -t known <"$place/toolchain" && break
    done
    if ! rt=$(command -v rt); then
        printf '%s\n' "${known[1]:-}"
        return
    fi
    rt=$(readlink -f -- "$rt")
    kit=$(dirname -- "$(dirname -- "$rt")")
    file=$(stat -c '%n %i %s %Y' -- "$rt" "$kit/KIT-ID" 2>/dev/null | tr '\n' ' ')
    if [ "${known[0]:-}" != "$file" ]; then
        now=$(rt version </dev/null 2>/dev/null) || now=
        known=("$file" "$now")
        for place in "${stores[@]}"; do
            [ -n "$now" ] && keep_folder "$place" && printf '%s\n' "${known[@]}" >"$place/.toolchain-$$" &&
                mv -f -- "$place/.toolchain-$$" "$place/toolchain" && break
        done 2>/dev/null
    fi
    printf '%s\n' "${known[1]}"
}

# The name of a program of these sources by the toolchain's `version`.
name_program() {
    name=$(printf '%s' "$version" | sha256sum)
    name=promql-${sources:0:40}-${name:0:16}
}

# The program that was built here. The toolchain isn't asked for where none was built from these sources.
find_built() {
    local place kept=()
    for place in "${stores[@]}"; do kept+=("$place/promql-${sources:0:40}-"*); done
    [ "${#kept[@]}" -gt 0 ] || return
    version=$(toolchain)
    name_program
    for place in "${stores[@]}"; do
        program=("$place/$name")
        [ -f "${program[0]}" ] && [ -s "${program[0]}" ] && [ -x "${program[0]}" ] && made='built here' && return
    done
    return 1
}

# Whether a command is the whole program and runs on this system: without further words it prints its usage, and ends
# with status 2.
answers() {
    local said
    said=$("$@" promqltest </dev/null 2>/dev/null)
    [ $? -eq 2 ] && [ "${said#usage: promqltest}" != "$said" ]
}

# What release/RELEASE says: the checksum of its `sources`, the version of its `toolchain`, and the `sha256` of release/promql.
read_release() {
    local key said
    declare -gA released=([sources]= [toolchain]= [sha256]=)
    [ -r "$top/release/RELEASE" ] || return
    while read -r key said; do released[${key:-none}]=$said; done <"$top/release/RELEASE"
}

# The release, where it is of these sources, whole, and runs here. Where its exec bit was lost on the way, in an archive
# say, the system's loader starts it.
find_release() {
    local sum
    read_release
    [ "${released[sources]}" = "$sources" ] || return
    program=("$top/release/promql")
    sum=$({ sha256sum <"${program[0]}"; } 2>/dev/null)
    if [ "${sum%% *}" != "${released[sha256]}" ]; then
        say "release/promql is not started: it isn't the file that release/RELEASE names"
        return 1
    fi
    [ -x "${program[0]}" ] || program=(/lib64/ld-linux-x86-64.so.2 "${program[0]}")
    if ! answers "${program[@]}"; then
        say "release/promql is not started: it doesn't run on this system, or may not"
        return 1
    fi
    version=${released[toolchain]}
    made='the release'
}

# The words that start the program, in `program`, with what it was `made` as and the toolchain's `version`.
find_program() { find_built || find_release; }

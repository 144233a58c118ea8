# Proves the crates and builds the program. bin/promqltest and bin/build read this in, behind find.sh.
#
# A program comes to its name by one move, and only once it was built to its end and answered as the program does. One
# call builds, and the others wait for it.

# What a build from nothing takes, for who waits.
takes='about 100 minutes of processor time, up to an hour on four processors, and 10 GB of disk'

# Ends what is still at work, and takes away what was begun.
clean() {
    local job
    for job in $(jobs -p); do kill -- "-$job" 2>/dev/null; done
    rm -rf -- "$room"
}

# The tree to build in: this one, or where that can't be written a copy of its sources.
choose_tree() {
    local crate folder
    tree=$top
    for crate in "${crates[@]}"; do
        mkdir -p -- "$top/crates/${crate%%:*}/out" 2>/dev/null && [ -w "$top/crates/${crate%%:*}/out" ] || tree=$store/tree
    done
    [ "$tree" = "$top" ] && return
    for crate in "${crates[@]}"; do
        folder=crates/${crate%%:*}
        mkdir -p -- "$tree/$folder" && rm -rf -- "$tree/$folder"/{src,specs,proofs} || return
        for part in src specs proofs; do
            [ ! -d "$top/$folder/$part" ] || cp -R --no-preserve=mode -- "$top/$folder/$part" "$tree/$folder/" || return
        done
    done
    cp -f --no-preserve=mode -- "$top/crates.txt" "$top/HANDLES" "$tree/"
}

# How many crates may be proved side by side: one a processor, as far as memory goes.
lanes() {
    local processors memory
    processors=$(nproc)
    memory=$(awk '/^MemAvailable:/ { print int($2 / 2500000) }' /proc/meminfo)
    [ "${memory:-1}" -lt "$processors" ] && processors=$memory
    [ "$processors" -gt 0 ] && echo "$processors" || echo 1
}

# Whether all that a crate stands on is proved.
is_ready() {
    local name
    for name in ${1#*:}; do
        [ -z "${state[$name]-}" ] || [ "${state[$name]}" = proved ] || return 1
    done
}

# Proves a crate and builds it. The toolchain builds a program by running it: without words it prints its usage.
prove() {
    local verb=lib
    [ "$1" = promql ] && verb=run && rm -f -- "$tree/crates/promql/out/promql"
    cd -- "$tree/crates/$1" && rt "$verb" </dev/null >"$room/$1.log" 2>&1
    echo $? >"$room/$1.code"
    mv -- "$room/$1.code" "$room/$1.ended"
}

# Whether a crate was proved and built, by its name and its end. The program that was built has ended with its usage.
is_good() {
    if [ "$1" = promql ]; then
        [ "$2" -eq 2 ] && [ -x "$tree/crates/promql/out/promql" ]
    else
        [ "$2" -eq 0 ]
    fi
}

# Minutes from a moment on, in seconds of this shell, with one decimal.
minutes_since() {
    local tenths=$(((SECONDS - $1) / 6))
    printf '%d.%d minutes' $((tenths / 10)) $((tenths % 10))
}

# Proves all crates, each as soon as those below it are proved.
prove_all() {
    local most running=0 proved=0 crate name code first=$SECONDS
    declare -A state=()
    most=$(lanes)
    for crate in "${crates[@]}"; do state[${crate%%:*}]=waits; done
    while :; do
        for crate in "${crates[@]}"; do
            name=${crate%%:*}
            if [ "${state[$name]}" = waits ] && [ "$running" -lt "$most" ] && is_ready "$crate"; then
                state[$name]=runs
                running=$((running + 1))
                (prove "$name") 9>&- &
            fi
        done
        [ "$running" -gt 0 ] || return 1
        wait -n
        for crate in "${crates[@]}"; do
            name=${crate%%:*}
            [ "${state[$name]}" = runs ] && [ -e "$room/$name.ended" ] || continue
            running=$((running - 1))
            proved=$((proved + 1))
            code=$(cat "$room/$name.ended")
            if is_good "$name" "$code"; then
                state[$name]=proved
                say "proved $name, $proved of ${#crates[@]}, after $(minutes_since "$first")"
                [ "$name" = promql ] && return
                continue
            fi
            tail -n 12 -- "$room/$name.log" | grep -v '^usage:' >&2
            say "$name was not proved or not built"
            return 1
        done
    done
}

# Proves the crates, each for itself.
prove_here() {
    choose_tree || return
    say "the ${#crates[@]} crates are proved first, once: from nothing that takes $takes"
    prove_all
}

# Proves by the merge gate, which tries edits and tests too, and takes what it has proved on this machine of the same
# files, in whichever checkout. The program that it has proved and built stays where it built it.
prove_by_gate() {
    tree=$top
    (cd -- "$top" && rt ci </dev/null >&2) 9>&-
}

# Builds the program, by one of these two, and moves it to its name. Where a source changed meanwhile, nothing is kept.
build() {
    room=$store/room-$$
    rm -rf -- "$store"/room-*
    mkdir -p -- "$room" || return
    set -m
    trap clean EXIT
    trap 'exit 130' INT
    trap 'exit 143' TERM HUP
    "$1" || return
    cp -- "$tree/crates/promql/out/promql" "$room/promql" && chmod 755 "$room/promql" && sync -- "$room/promql" || return
    answers "$room/promql" || return
    [ "$(checksum)" = "$sources" ] || return 3
    find "$store" -maxdepth 1 -name 'promql-*' -mmin +60 -delete
    mv -f -- "$room/promql" "$store/$name"
}

# Builds the program. With `unless` another call has built it meanwhile, or has just failed to.
build_alone() {
    local store code
    version=$(toolchain)
    [ -n "$version" ] || stop "the program is not built: the toolchain's command rt is not there, or doesn't answer"
    for store in "${stores[@]}"; do keep_folder "$store" && break; store=; done
    [ -n "$store" ] || stop "the program is not built: no folder for it can be written (${stores[*]})"
    command -v rt >/dev/null || stop "the program is not built: the toolchain's command rt is not there"
    name_program
    (
        exec 9>"$store/lock" || exit 1
        if ! flock -n 9; then
            say "another call is building the program; this one waits for it"
            flock 9
            [ ! -e "$store/failed-$name" ] || exit 1
        fi
        [ "${2-}" != unless ] || ! find_built || exit 0
        rm -f -- "$store"/failed-*
        build "$1"
        code=$?
        [ "$code" -ne 1 ] || : >"$store/failed-$name"
        exit "$code"
    )
}

# Builds the program until no source changes meanwhile.
build_settled() {
    local code
    for _ in 1 2 3; do
        build_alone "$@"
        code=$?
        [ "$code" -eq 0 ] && return
        [ "$code" -eq 3 ] || stop "the program is not built"
        say "a source changed meanwhile; the program is built again"
        read_sources
    done
    stop "the program is not built: its sources keep changing"
}

# Proves the crates that a program is built on, and builds it. Crates that do not wait for each
# other are proved side by side. What is proved is kept in crates/*/out. build.sh reads this.

. "$parts/trial.sh"

# How long the first build takes, from a fresh clone.
build_time=${build_time:-"an hour by the clock on four processors"}

# Of each crate: how many crates wait for it one after another; when it was begun; its processes'
# group and jobs while it is under way; how far it is; and whether it is proved.
declare -gA height=() begun=() group=() jobs=() far=() proved=()
in_place='' told=0

build() {
    local sums crate
    command -v rt > /dev/null \
        || fail "the program has to be built, and the toolchain's command rt is not there"
    say "the program is proved while it is built: about $build_time the first time"
    say "what is proved is kept: interrupted and begun again, the build goes on where it was"
    for crate in "${built_on[@]}"; do bring_home "$crate"; done
    sums=$(sums_of "${sources[@]}")
    prove_all
    begin_note
    note_build "$sums"$'\n'"$(sums_of "$binary")"
    # With no time the next check looks at the sums, and builds what was changed under way.
    [ "$(sums_of "${sources[@]}")" = "$sums" ] || rm -f "$built/time"
}

# Has the crates proved, each as soon as those below it are. Each tells by a line how far it is.
prove_all() {
    local event part='' events
    set_limits
    exec {events}<> <(:)
    trap 'stop_all; fail "the build was interrupted: the next one goes on from here"' INT TERM HUP
    while [ "${#proved[@]}" -lt "${#built_on[@]}" ]; do
        begin_crates
        tell_all
        # Where the second is over within a line, the rest of that comes with what is read next.
        if IFS= read -r -t 1 -u "$events" event; then
            # shellcheck disable=SC2086
            take_event $part$event
            part=''
        else
            part+=$event
        fi
    done
    trap - INT TERM HUP
    exec {events}>&-
}

# Takes what the processes of a crate tell. $1: the crate; $2: what; $3: how far, or the status.
take_event() {
    case $2 in
        far) far[$1]="${3/\// of } functions" ;;
        ended) end_crate "$1" "$3" ;;
    esac
}

# Tells how many processors there are for jobs, and how many crates are proved at once: a check
# takes up to 5 GB of memory, and SNL_JOBS names another number. And puts the crates in turn, those
# first for which most others wait.
set_limits() {
    local kilobytes i crate library
    processors=$(nproc)
    [ "$processors" -le 4 ] || processors=4
    read -r _ kilobytes _ < /proc/meminfo
    most=$((kilobytes / 5000000))
    most=${SNL_JOBS:-$((most < 1 ? 1 : most < processors ? most : processors))}
    for ((i = ${#built_on[@]} - 1; i >= 0; i--)); do
        crate=${built_on[i]}
        for library in ${below[$crate]}; do
            [ "${height[$library]:-0}" -gt "${height[$crate]:-0}" ] \
                || height[$library]=$((${height[$crate]:-0} + 1))
        done
    done
    mapfile -t in_turn < <(
        for crate in "${built_on[@]}"; do echo "${height[$crate]:-0} $crate"; done \
            | sort -srn -k 1,1 | cut -d ' ' -f 2
    )
}

# Begins crates that nothing is missing for. The first gets the processors that are left, but for
# one for each of the others.
begin_crates() {
    local crate ready=() free=$processors count
    [ "${#group[@]}" -lt "$most" ] || return
    for crate in "${!jobs[@]}"; do free=$((free - jobs[$crate])); done
    for crate in "${in_turn[@]}"; do can_begin "$crate" && ready+=("$crate"); done
    ready=("${ready[@]:0:most - ${#group[@]}}")
    for crate in "${ready[@]}"; do
        count=$((free - ${#ready[@]} + 1))
        begin_crate "$crate" $((count < 1 ? 1 : count)) || return
        free=0
    done
}

can_begin() {
    local library
    [ -z "${begun[$1]-}" ] || return
    for library in ${below[$1]}; do
        [ -z "${below[$library]+known}" ] || [ -n "${proved[$library]-}" ] || return
    done
}

# rt lets nothing else work in a crate's folder, and in those below, while it is there. So one crate
# is proved in its folder, and those beside it each in a copy of the repository. Where no copy can
# be made, they are proved one after another.
begin_crate() {
    local folder=$root
    if [ -z "$in_place" ]; then
        in_place=$1
    else
        folder=$root/crates/$1/out/apart
        make_copy "$1" "$folder" || { most=1 && bring_home "$1" && return 1; }
    fi
    begun[$1]=$SECONDS far[$1]=begins jobs[$1]=$2
    # A group of processes for itself, so that all of it can be stopped.
    set -m
    prove "$1" "$2" "$folder" < /dev/null &
    group[$1]=$!
    set +m
}

# Proves a crate, and makes the library or the program of it; what rt prints goes to its log.
prove() {
    local crate=$1 log=$root/crates/$1/build.log line
    work "$1" "$2" "$3" 2>&1 | while IFS= read -r line; do
        printf '%s\n' "$line" >&3
        [[ $line =~ ^checked\ $crate::.*,\ ([0-9]+)\ of\ ([0-9]+)$ ]] || continue
        echo "$crate far ${BASH_REMATCH[1]}/${BASH_REMATCH[2]}" >&"$events"
    done 3> "$log"
    echo "$crate ended ${PIPESTATUS[0]}" >&"$events"
}

work() {
    cd "$3/crates/$1" || return
    if [ "$1" = "$target" ]; then
        # rt runs the program that it has built: all went well where that ends with status 0.
        trial | rt run --jobs "$2" ${trial_words:+-- "${trial_words[@]}"}
    else
        rt check --jobs "$2" && rt lib --jobs "$2"
    fi
}

end_crate() {
    bring_home "$1"
    [ "$in_place" != "$1" ] || in_place=
    unset "group[$1]" "jobs[$1]"
    if [ "$2" != 0 ]; then
        stop_all
        fail "$1 cannot be built: see $root/crates/$1/build.log"
    fi
    proved[$1]=1
    say "$1 (${#proved[@]} of ${#built_on[@]}): proved, $((SECONDS - begun[$1])) s"
}

# Stops what is under way. What was proved apart is taken home by the next build.
stop_all() {
    local crate
    trap '' INT TERM HUP
    for crate in "${!group[@]}"; do kill -TERM -- "-${group[$crate]}" 2> /dev/null; done
    wait
}

# Makes a copy of the repository, of links: a crate, what is kept of it, and the libraries below it.
make_copy() {
    local built_on=() library from to part
    mkdir -p "$2/crates" && find_built_on "$1"
    for library in "${built_on[@]}"; do
        from=$root/crates/$library to=$2/crates/$library
        printf '%s\n' "${line_of[$library]}" >> "$2/crates.txt"
        mkdir -p "$to/out" || return
        for part in "$from"/*; do
            [[ $part = */out || $part = */build.log ]] || cp -al "$part" "$to/" || return
        done
        [ "$library" = "$1" ] || cp -al "$from/out/rlib" "$to/out/" || return
    done
    move_kept "$root/crates/$1/out" "$2/crates/$1/out"
} 2> /dev/null

# Takes what was proved in a copy into the crate's own folder, and removes the copy.
bring_home() {
    local out=$root/crates/$1/out
    [ -d "$out/apart" ] || return 0
    move_kept "$out/apart/crates/$1/out" "$out"
    rm -rf "$out/apart"
}

move_kept() {
    local part
    for part in "$1"/*; do
        [[ $part != */apart ]] || continue
        rm -rf "${2:?}/${part##*/}" && mv "$part" "$2/" || return
    done
}

# Tells how far the build is: on a terminal in one line, else once in a while.
tell_all() {
    local crate line="${#proved[@]} of ${#built_on[@]} crates proved"
    [ -t 2 ] || [ "$SECONDS" -ge "$told" ] || return
    for crate in "${in_turn[@]}"; do
        [ -n "${group[$crate]-}" ] || continue
        line+="; $crate ${far[$crate]}, $((SECONDS - begun[$crate])) s"
    done
    if [ -t 2 ]; then
        printf '\r\033[K%s: %s' "$self" "${line:0:72}" >&2
    else
        echo "$self: $line" >&2
        told=$((SECONDS + 30))
    fi
}

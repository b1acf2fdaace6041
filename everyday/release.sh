# Takes a program from the release. ./check and ./lsp read this in a clone in which no build was
# asked for; they name the program's crate (target). The programs are unpacked into release/out, in
# a folder named by the archive's checksum. Beside them it has what is noted when the sources are
# compared with those of the release: which paths are to be looked at from then on, a time from
# before that, and whether it was said that the sources differ.

build_it="./$self --build proves and builds it, where the toolchain is"

# Finds the program, and unpacks the release where that was not done yet.
take_release() {
    local programs
    find_release
    programs=$folder/lib/snl-check
    place=$root/release/out/${sum:0:12}
    [ -x "$place/$programs/$target" ] || unpack
    program=$place/$programs/$target
    is_told || compare_sources
}

# Finds the archive, its checksum and the folder that is packed in it.
find_release() {
    [[ $root = /* ]] || root=$PWD/$root
    { read -r sum archive < "$root/release/SHA256SUMS"; } 2> /dev/null \
        || fail "release/SHA256SUMS is not there; $build_it"
    folder=${archive%.tar.xz}
    is_for_this_machine
}

# The variables are bash's own; where it was started by a tcsh, they can be that one's.
is_for_this_machine() {
    local machine=$HOSTTYPE
    [ "$machine" = x86_64 ] || machine=$(uname -m)
    [ "$machine" = x86_64 ] && [[ $OSTYPE = linux* ]] \
        || fail "the release is for Linux on x86-64, and this machine is another" \
            "(${OSTYPE%-*} on $machine): run it on one of that kind"
}

# Unpacks the programs apart, and puts them in their place at once: two calls may do so side by
# side. Where the clone cannot be written, that is a temporary folder, which goes at the end.
unpack() {
    local is_kept=1
    has_target || fail "release $(version_of "$folder") has no $target; $build_it"
    trap 'rm -rf "${room:-}" "${apart:-}"' EXIT
    apart=$place.$$
    mkdir -p "$apart" 2> /dev/null || { apart=$(mktemp -d) && is_kept=; } || exit 2
    unpack_into "$apart" "$programs"
    . "$parts/trial.sh"
    trial | "$apart/$programs/$target" "${trial_words[@]}" > /dev/null 2>&1 \
        || fail "the program of the release does not run here"
    [ -z "$is_kept" ] && place=$apart || put_in_place
}

# Whether the release has the program: the first one has none for reports.
has_target() {
    [ ! -e "$root/release/built_of" ] \
        || [[ $(< "$root/release/built_of")$'\n' = *"lib/snl-check/$target"$'\n'* ]]
}

# Unpacks the archive, or the named parts of it, into the folder $1.
unpack_into() {
    local why open
    [ -r "$root/release/$archive" ] \
        || fail "release/$archive is not there: git checkout release brings it back; $build_it"
    [ "$(sha256sum < "$root/release/$archive")" = "$sum  -" ] \
        || fail "release/$archive is damaged: git checkout release mends that; $build_it"
    choose_opener
    why=$({ "${open[@]}" "$root/release/$archive" | tar -xf - -C "$@"; } 2>&1) \
        || fail "release/$archive cannot be unpacked: ${why%%$'\n'*}"
}

# The version in the name of the packed folder.
version_of() {
    local rest=${1#snl-}
    echo "${rest%%-*}"
}

# Finds a program that reads the archive.
choose_opener() {
    local of_python='import lzma, sys; sys.stdout.buffer.write(lzma.open(sys.argv[1]).read())' words
    for words in 'xz -dc' xzcat 'busybox xzcat' 'python3 -c'; do
        read -ra open <<< "$words"
        command -v "${open[0]}" > /dev/null && break
        open=()
    done
    [ "${#open[@]}" -gt 0 ] || fail "to unpack the release, xz is wanted, or busybox or python3"
    [ "${open[0]}" != python3 ] || open+=("$of_python")
}

# Where another call was first, its folder stays, if nothing is gone of it. What was unpacked of
# earlier releases goes.
put_in_place() {
    local old
    [ -x "$place/$programs/$target" ] || [ ! -e "$place" ] || rm -rf "$place"
    [ -e "$place" ] || mv "$apart" "$place" 2> /dev/null
    rm -rf "$apart" "$place/${apart##*/}"
    apart=
    # What root has unpacked is for whom the clone belongs to.
    [ "$EUID" != 0 ] || chown -R --reference="$root/release" "${place%/*}" 2> /dev/null
    for old in "${place%/*}"/*; do
        [ "$old" = "$place" ] || [[ ${old##*/} = *.* ]] || rm -rf "$old"
    done
}

# Whether it was said that the sources differ, or nothing was changed since they were compared.
is_told() {
    local paths changed
    [ ! -e "$place/said" ] || return 0
    { read -r paths < "$place/paths"; } 2> /dev/null && changed=$(find_newer) && [ -z "$changed" ]
}

# Not every find knows the time of a change, as that of busybox.
find_newer() {
    local newer
    cd "$root" || return
    for newer in -cnewer -newer; do
        # The paths are plain names, with blanks between.
        # shellcheck disable=SC2086
        find $paths "$newer" "$place/time" -print -quit && return
    done
} 2> /dev/null

# Compares the sources with those of the release, and says once where they differ.
compare_sources() {
    . "$parts/sources.sh"
    { : > "$place/time.$$"; } 2> /dev/null
    find_released
    if [ "${#folders[@]}" -gt 0 ] \
        && [ "$(sums_of "${folders[@]}")" = "$(< "$root/release/sources")" ]; then
        note_compared
    else
        rm -f "$place/time.$$"
        mkdir "$place/said" 2> /dev/null \
            && say "release $(version_of "$folder") is of earlier sources;" \
                "./$self --build proves and builds these"
    fi
    return 0
}

# Of proofs there are nearly twice as many files as of all else, and no program is another by them:
# they are compared again where git has brought something.
note_compared() {
    local paths=(crates.txt release/sources)
    [ ! -e "$root/.git/logs/HEAD" ] || paths+=(.git/logs/HEAD)
    find_folders src specs
    paths+=("${folders[@]}")
    echo "${paths[*]}" > "$place/paths.$$" && mv "$place/paths.$$" "$place/paths" \
        && mv "$place/time.$$" "$place/time"
} 2> /dev/null

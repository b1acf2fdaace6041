# Brings a program up to date. ./check reads this where something was changed since it was noted
# what the program was built of, and ./lsp --build always. They name the program's crate (target),
# the program, and the folder (built) in crates/$target/out that has what was noted: the paths, the
# checksums of their files, and a time that is from before these were made.

. "$parts/sources.sh"
binary=crates/$target/out/$target

bring_up_to_date() {
    read_crates
    built_on=()
    find_built_on "$target"
    # Proofs are no part of this: whatever becomes of them, a program that was proved stays proved.
    find_folders src specs
    sources=(crates.txt "${folders[@]}")
    is_same && return
    take_lock
    is_same || { . "$parts/crates.sh" && build; }
}

# Whether program and sources have the bytes that they had when it was built, as after a copy of
# all. Of a build that rt alone has made only times are known.
is_same() {
    local sums
    [ -x "$program" ] || return
    begin_note
    sums=$(sums_of "${sources[@]}")$'\n'$(sums_of "$binary")
    if [ -e "$built/sums" ]; then
        [ "$sums" = "$(< "$built/sums")" ]
    else
        [ -z "$(cd "$root" && find "${sources[@]}" -newer "$binary" -print -quit)" ]
    fi || { rm -f "$built/time.$$" && return 1; }
    note_build "$sums"
}

# Notes what the program was built of, if this folder can be written. The time is from before the
# files were read, so that no change is missed.
begin_note() {
    mkdir -p "$built" && : > "$built/time.$$"
} 2> /dev/null

note_build() {
    note sums "$1" && note folders "${sources[*]} $binary" && mv "$built/time.$$" "$built/time"
    return 0
} 2> /dev/null

note() {
    printf '%s\n' "$2" > "$built/$1.$$" && mv "$built/$1.$$" "$built/$1"
}

# Waits while another build is under way, of whichever program, unless that was done before.
take_lock() {
    [ -z "${lock-}" ] || return 0
    mkdir -p "$root/crates/snl_cli/out" && exec {lock}> "$root/crates/snl_cli/out/lock" || exit 2
    command -v flock > /dev/null || return 0
    flock -n "$lock" && return
    say "another build is under way, and this one waits for it"
    flock "$lock"
}

leave_lock() {
    [ -z "${lock-}" ] || exec {lock}>&-
}

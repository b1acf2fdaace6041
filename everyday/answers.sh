# Answers words that ask for something else than a check; ./check reads this where there is one.

answer() {
    case $1 in
        --help) tell_help ;;
        --version) tell_version ;;
        --build) build_programs "$@" ;;
        --explain) explain "${@:2}" ;;
        --explain=*) explain "${1#*=}" "${@:2}" ;;
    esac
    exit
}

tell_help() {
    local text
    text=$(< "$parts/help.txt")
    echo "${text//.\/check/$command}"
}

# A program is told from others by its checksum, as far as one compares it by eye. Nothing is built
# for that.
tell_version() {
    local version found sum
    read -r version < "$parts/version"
    if [ -n "${SNL_CLI-}" ] || [ ! -e "$root/crates.txt" ]; then
        program=${SNL_CLI:-$root/snl_cli}
    else
        program=$root/crates/$target/out/$target
        [ -e "$program" ] || { . "$parts/release.sh" && take_release; }
    fi
    found=$(command -v "$program") || fail "there is no program $program"
    sum=$(sha256sum < "$found")
    echo "snl-check $version, with the program ${sum:0:12}"
}

# Proves and builds the programs of a clone, one after the other.
build_programs() {
    [ $# = 1 ] && [ "${#words[@]}" = 0 ] || fail "--build goes alone; $usage"
    [ -e "$root/crates.txt" ] || fail "there are no sources here to build: --build is for a clone"
    for target in snl_cli snl_reporter; do
        built=$root/crates/$target/out/built
        program=$root/crates/$target/out/$target
        . "$parts/build.sh" && bring_up_to_date
        say "built: $program"
        build_time="ten minutes, with the other program built,"
    done
}

# Prints what the tables of docs/LANGUAGE.md say of codes.
explain() {
    local code
    [ $# -gt 0 ] && [ "${#words[@]}" = 0 ] || fail "--explain wants codes after it, as E16; $usage"
    for code in "$@"; do
        awk -v "code=${code^^}" -f "$parts/explain.awk" "$root/docs/LANGUAGE.md" \
            || fail "there is no code $code"
    done
}

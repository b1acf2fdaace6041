# Which crates a program is built on, and the checksums of files. What builds a program, takes one
# from the release or makes a release reads this.

# Reads crates.txt: what each crate of the repository is built on.
declare -gA below=() line_of=()
read_crates() {
    local line name
    while IFS= read -r line; do
        line=${line%%#*}
        name=${line%%[ :]*}
        [ -z "$name" ] || below[$name]=${line#*:} line_of[$name]=$line
    done < "$root/crates.txt"
}

# Puts the crates that a crate is built on into built_on, lowest first, and then the crate.
built_on=()
find_built_on() {
    local library
    case " ${built_on[*]-} " in *" $1 "*) return ;; esac
    for library in ${below[$1]}; do
        [ -z "${below[$library]+known}" ] || find_built_on "$library"
    done
    built_on+=("$1")
}

# Puts the named folders of the crates in built_on into folders.
find_folders() {
    local crate part
    folders=()
    for crate in "${built_on[@]}"; do
        for part in "$@"; do
            [ ! -d "$root/crates/$crate/$part" ] || folders+=("crates/$crate/$part")
        done
    done
}

# The checksums of files, and of all files in folders, in the order of their names.
sums_of() {
    cd "$root" && find "$@" -type f -print0 | LC_ALL=C sort -z | xargs -0r sha256sum
}

# Puts what a release is made of into folders: the sources and proofs of its programs.
find_released() {
    read_crates
    built_on=()
    find_built_on snl_cli
    find_built_on snl_reporter
    find_built_on snl_lsp
    find_folders src specs proofs
}

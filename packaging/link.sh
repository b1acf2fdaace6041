# Links a proved program for the release. make_release and tests/release_cases read this.

# Links an object statically, with the C code of the kit. The same object gives the same bytes, by
# the same linker and C library.
# $1: the object; $2: the program to be made.
link_static() {
    local kit
    kit=$(rt doc) && kit=${kit%/*} || return
    gcc -static -s -Wl,--gc-sections -Wl,--build-id=none -o "$2" "$1" \
        "$kit/c/libos_c.a" "$kit/c/liblibc_c.a"
}

# Tells which linker and which C library that takes: packages with their versions, one a line.
tell_linker() {
    local word file
    for word in "$(command -v gcc)" "$(gcc -print-prog-name=ld)" \
        "$(gcc -print-file-name=libc.a)" "$(gcc -print-file-name=libgcc.a)"; do
        [[ $word = /* ]] || word=$(command -v "$word")
        file=$(realpath "$word") && package_of "$file"
    done
}

# The package of a file, with its version; where there are none, its checksum.
package_of() {
    local package
    if package=$(dpkg-query -S "$1" 2> /dev/null); then
        # shellcheck disable=SC2016
        dpkg-query -W -f '${Package} ${Version}\n' "${package%%: *}"
    else
        sha256sum "$1"
    fi
}

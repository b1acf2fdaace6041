#!/usr/bin/env bash
# The language server of SNL, for editors: it speaks on standard input and output.
# ./lsp starts it at once: the one that was installed, or in a clone the one that is built there,
# and else that of the release. Editors give a server seconds to answer, so it never builds unasked:
# ./lsp --build proves and builds the server of a clone.
set -u

# What lines on standard error begin with, and the crate of the program.
self=lsp
target=snl_lsp

# Says something in a line of its own, also where a terminal's line tells how far the build is.
say() {
    [ ! -t 2 ] || printf '\r\033[K' >&2
    echo "$self: $*" >&2
}

fail() {
    say "$@"
    exit 2
}

tell_help() {
    echo "Serves an editor by the Language Server Protocol, on standard input and output.
$command             what an editor starts; --stdio after it is taken, and changes nothing
$command --build     proves and builds the server of a clone, where the toolchain is
$command --version   tells the version, and the checksum of the program
editors/README.md says how an editor is told of it."
}

# A program is told from others by its checksum, as far as one compares it by eye.
tell_version() {
    local version sum
    read -r version < "$parts/version"
    sum=$(sha256sum < "$program")
    echo "snl-lsp $version, with the program ${sum:0:12}"
}

here=${BASH_SOURCE[0]}
[ ! -L "$here" ] || here=$(readlink -f "$here")
root=${here%/*}
[ "$root" != "$here" ] || root=.
parts=$root/everyday
program=$root/snl_lsp
command=snl-lsp
if [ -e "$root/crates.txt" ]; then
    command=./lsp
    program=$root/crates/$target/out/$target
    built=$root/crates/$target/out/built
fi

usage="usage: $command [--stdio | --build | --help | --version]"
[ $# -le 1 ] || fail "$usage"
case ${1-} in
    '' | --stdio | --version | --build) ;;
    --help) tell_help && exit ;;
    *) fail "$usage" ;;
esac
if [ "${1-}" = --build ]; then
    [ -e "$root/crates.txt" ] || fail "there are no sources here to build: --build is for a clone"
    build_time="two hours by the clock on four processors, or one where ./check is built,"
    . "$parts/build.sh" && bring_up_to_date
    say "built: $(realpath "$here") is the command for an editor"
    exit
fi
if [ ! -x "$program" ]; then
    [ -e "$root/crates.txt" ] || fail "there is no program $program"
    . "$parts/release.sh" && take_release
fi
if [ "${1-}" = --version ]; then
    tell_version
    exit
fi
# In large pages memory is touched and read faster, where the system has them. Without lists of
# small freed blocks they are joined when they are freed, not all at once while a key waits.
# All memory is in one piece, of which up to 32 MiB that are freed at its end stay: keys in
# comments of a long text were slower without that (docs/PERF.md).
tunables=glibc.malloc.hugetlb=1:glibc.malloc.mxfast=0
tunables+=:glibc.malloc.mmap_threshold=33554432:glibc.malloc.trim_threshold=33554432
export GLIBC_TUNABLES=${GLIBC_TUNABLES-$tunables}
# What was unpacked into a temporary folder goes when the server has ended.
[ -n "${apart-}" ] || exec "$program"
"$program"
exit

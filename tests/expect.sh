# What the tests of ./check share: they read this first. Each works in a folder of its own,
# $here/in, and ends with finish.
# shellcheck shell=bash

root=$(cd "$(dirname "${BASH_SOURCE[0]}")/.." && pwd) || exit 2
here=$(mktemp -d) || exit 2
trap 'rm -rf "$here"' EXIT
mkdir "$here/in"
cd "$here/in" || exit 2
check=$root/check
passed=0
failed=0

pass() { passed=$((passed + 1)); }

fail() {
    failed=$((failed + 1))
    echo "$*"
}

# Runs a command. $1: what is tried; $2: the status that is wanted; $3: the lines that are, those on
# standard output first.
expect() {
    local name=$1 status=$2 wanted=$3 got
    shift 3
    "$@" > "$here/printed" 2> "$here/stderr"
    got=$?
    cat "$here/stderr" >> "$here/printed"
    printf '%s' "${wanted:+$wanted$'\n'}" > "$here/wanted"
    if [ "$got" != "$status" ]; then
        fail "$name: status $got, not $status: $(head -n 6 "$here/printed")"
    elif ! diff -a "$here/wanted" "$here/printed" > "$here/differ"; then
        fail "$name: $(head -n 8 "$here/differ")"
    else
        pass
    fi
}

# Runs a command on a terminal; its lines end with LF here.
terminal() {
    script -qec "$(printf '%q ' "$@")" /dev/null < /dev/null | tr -d '\r'
    return "${PIPESTATUS[0]}"
}

# Whether a program is there; what cannot be tried without it is told.
have() {
    command -v "$1" > /dev/null && return
    echo "not installed: $1"
    return 1
}

# Adds the numbers of the last line of a test, and shows the others.
count_of() {
    local last
    last=$("$@" 2>&1 | tee "$here/told" | tail -n 1)
    head -n -1 "$here/told"
    if [[ $last =~ ^([0-9]+)\ passed,\ ([0-9]+)\ failed$ ]]; then
        passed=$((passed + BASH_REMATCH[1])) failed=$((failed + BASH_REMATCH[2]))
    else
        fail "$1: $last"
    fi
}

finish() {
    echo "$passed passed, $failed failed"
    [ "$failed" = 0 ]
}

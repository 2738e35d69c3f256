# What tests of what is linked, installed and read share: a folder to work in, counting what is tried, the version, and where the kit is. Sourced by
# tests/library, tests/install and tests/pages.
# shellcheck shell=sh disable=SC2034
set -u
top=$(dirname "$(dirname "$(readlink -f "$0")")")
name=$(basename "$0")
machine=$(uname -m)
kit=$(dirname "$(dirname "$(readlink -f "$(command -v rt)")")")
tools=$kit/toolchain
version=$(sed -n 's/^#define KUAMBYTE_VERSION "\(.*\)"/\1/p' "$top/include/kuambyte.h")
work=$(mktemp -d)
trap 'rm -rf "$work"' EXIT
tried=0
failed=0

# right NAME COMMAND..: the command ends with status 0; what it says is shown where it does not.
right() {
    what=$1
    shift
    tried=$((tried + 1))
    "$@" >"$work/said" 2>&1 && return
    echo "$name: $what: not so:"
    tail -n 20 "$work/said"
    failed=$((failed + 1))
}

# same NAME WANT GOT
same() {
    tried=$((tried + 1))
    [ "$2" = "$3" ] && return
    echo "$name: $1: '$3', and '$2' is expected"
    failed=$((failed + 1))
}

skipped() { echo "$name: skipped, since $1 is not there: $2"; }

# emulated PROGRAM WORDS..: runs a program that the kit compiled.
emulated() {
    if [ "$machine" = x86_64 ]; then
        "$@"
    else
        elsewhere=$kit/on/$machine/toolchain
        "$elsewhere/bin/qemu-x86_64" "$elsewhere/lib/ld-linux-x86-64.so.2" --library-path "$elsewhere/lib" "$@"
    fi
}

# The verdict of a test.
ended() {
    echo "$name: $tried tried, $failed failed"
    [ "$failed" = 0 ]
}

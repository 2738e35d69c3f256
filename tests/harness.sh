# What the tests of the desk share: a folder to work in, running the program, and what is expected of a run. Sourced by tests/desk and tests/shelves.
set -u
top=$(dirname "$(dirname "$(readlink -f "$0")")")
desk=$top/kuambyte
second=$top/target/second/release/second
[ -x "$second" ] || { echo "desk: the second implementation is not built; .ci/run builds it" >&2; exit 1; }
# What the build says is no part of what is tried.
"$desk" help >/dev/null || exit 1
work=$(mktemp -d)
trap 'rm -rf "$work"' EXIT
cd "$work" || exit 1
tried=0
failed=0

# ok NAME STATUS: the last command ended with this status and wrote the files `out` and `err` as in `out.want` and `err.want`.
ok() {
    tried=$((tried + 1))
    if [ "$got" != "$2" ]; then
        echo "desk: $1: status $got, and $2 is expected"
    elif ! cmp -s out out.want; then
        echo "desk: $1: standard output is not as expected:"
        head -c 400 out
    elif ! cmp -s err err.want; then
        echo "desk: $1: standard error is not as expected:"
        diff err err.want
    else
        return
    fi
    failed=$((failed + 1))
}

# fault WORDS..: what is wrong besides.
fault() {
    echo "desk: $*"
    failed=$((failed + 1))
}

# try INPUT WORDS..: runs the program.
try() {
    input=$1
    shift
    "$desk" "$@" <"$input" >out 2>err
    got=$?
}

# done NAME: status 0, nothing said, and `out.want` written.
done_as() {
    : >err.want
    ok "$1" 0
}

# refused NAME NUMBER LINE: nothing written, one line said.
refused() {
    : >out.want
    printf '%s\n' "$3" >err.want
    ok "$1" "$2"
}

# says NAME STATUS: nothing written; standard error has the lines that follow.
says() {
    : >out.want
    cat >err.want
    ok "$1" "$2"
}

# Octets from hexadecimal, to hexadecimal, and of the characters 0 and 1.
octets() { for pair in $1; do printf "\\$(printf '%03o' "0x$pair")"; done; }
hex() { od -An -v -tx1 "$1" | tr -d ' \n'; }
# bits HEX COUNT: the first so many bits of packed octets, as characters.
bits() {
    awk -v hex="$1" -v n="$2" 'BEGIN {
        for (i = 1; i <= length(hex); i++) {
            v = index("0123456789abcdef", substr(hex, i, 1)) - 1
            for (k = 8; k >= 1; k /= 2) if (n-- > 0) printf "%d", int(v / k) % 2
        }
    }'
}
spread() { sed -e 's/./\\00&/g' "$1" | tr -d '\n' | { read -r all; printf "$all"; }; }

# The verdict of a test.
ended() {
    echo "$1: $tried tried, $failed failed"
    [ "$failed" = 0 ]
}

# What the commands of the bench share: where things are, which tools there are, how instructions are counted, and what comes before a table. Read by them, not run.
set -eu
here=$(dirname "$(readlink -f "$0")")
top=$(dirname "$here")
work=$top/target/bench
shelves=$top/shelves
machine=$(uname -m)

say() { echo "bench: $*" >&2; }

fail() {
    say "$*"
    exit 1
}

rt=$(command -v rt) || fail "the command rt of the Rattle kit is not there; README.md says which kit is needed"
kit=$(dirname "$(dirname "$(readlink -f "$rt")")")
own=$kit
clang=$own/toolchain/bin/clang
[ -x "$clang" ] || fail "the kit has no compiler for this machine ($machine)"

# The compiler and the lister of symbols for x86-64.
case $machine in
x86_64) cross= ;;
*) cross=x86_64-linux-gnu- ;;
esac

# Says which Debian packages are missing for counting x86-64 instructions; says nothing where none is.
missing() {
    command -v qemu-x86_64 >/dev/null || echo qemu-user
    [ -z "$cross" ] || command -v "${cross}gcc" >/dev/null || echo gcc-x86-64-linux-gnu
    [ -z "$cross" ] || [ -d /usr/x86_64-linux-gnu/include ] || echo libc6-dev-amd64-cross
}

can_count() { [ -z "$(missing)" ]; }

not_counted() { echo "x86-64 instructions are not counted; Debian packages that are needed: $(missing | tr '\n' ' ')"; }

need_counting() { can_count || fail "$(not_counted)"; }

# counted MARKS PROGRAM WORDS..: runs an x86-64 program and writes the counts to MARKS. The processor is an old one: on others
# memset uses `rep stosb`, of which each octet counts as an instruction.
counted() {
    marks=$1
    shift
    qemu-x86_64 -cpu Nehalem -plugin "$work/libmarks.so" -d plugin -D "$marks" "$@"
}

# counts [JOB]: the table of instructions.
counts() {
    counted "$work/x86/marks" "$work/x86/driver" "$shelves" count ${1:+"$1"} >"$work/x86/jobs"
    awk -f "$here/counts.awk" "$work/x86/marks" "$work/x86/jobs"
}

# places PROGRAM MARKS: the counted instructions by function.
places() {
    "${cross}nm" -n "$1" >"$2.symbols"
    awk -f "$here/places.awk" "$2.symbols" "$2" | sort -rn
}

# What heads every table.
machine_and_compilers() {
    processor=$(sed -n 's/^model name[^:]*: //p' /proc/cpuinfo | head -n 1)
    echo "machine    $machine, ${processor:-processor without a name}, $(nproc) of them, load $(cut -d ' ' -f 1 /proc/loadavg)"
    echo "product    commit $(git -C "$top" rev-parse --short HEAD 2>/dev/null || echo unknown), $(rt version), $("$clang" --version | head -n 1)"
    echo "baselines  $(rustc --version), LLVM $(rustc -vV | sed -n 's/^LLVM version: //p'); for instructions the kit's clang"
    echo "date       $(date +%Y-%m-%d)"
}

# Nothing is measured where the sides answer differently, on any job or on a broken one. What was compared is kept in `same`.
assert_same() {
    if ! "$work/native/driver" "$shelves" same 100000 >"$work/same"; then
        cat "$work/same" >&2
        fail "the sides do not answer the same, so nothing is measured"
    fi
}

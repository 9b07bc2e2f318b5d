# shellcheck shell=sh
# What the scripts here share; read by '.'. It sets: top, work (a folder that goes at the end), compiler (for x86-64), counting
# (a command that runs a program and counts its instructions), running (a command that runs one), native (1 where times mean anything).
top=$(cd "$(dirname "$0")/.." && pwd)
script=bench/$(basename "$0")
work=$(mktemp -d)
trap 'rm -rf "$work"' EXIT

# Nothing can be measured without it.
need() {
    command -v "$1" >/dev/null 2>&1 && return
    echo "$script: $1 is missing, so nothing was measured ($2)" >&2
    exit 2
}

# How many instructions a program executes; what it prints goes to $work/out.
count() {
    # shellcheck disable=SC2086
    $counting "$@" >"$work/out" 2>"$work/err" || { cat "$work/err" >&2; echo "$script: failed: $*" >&2; exit 1; }
    sed -n 's/.*Collected : *\([0-9]*\).*/\1/p' "$work/err"
}

# a/b with three places
ratio() { awk "BEGIN { printf \"%.3f\", $1 / $2 }"; }

# Whether a is at most the share m of b.
within() { awk "BEGIN { exit !($1 <= $2 * $3) }"; } # A M B

need rt 'the Rattle kit'
case $(uname -m) in
x86_64)
    compiler=cc
    need valgrind 'Debian: valgrind'
    counting='valgrind --tool=callgrind --callgrind-out-file=/dev/null'
    running=
    native=1
    ;;
*)
    # the library is for x86-64: counted under an emulator, and not timed
    compiler=x86_64-linux-gnu-gcc
    need cc 'Debian: gcc'
    need qemu-x86_64 'Debian: qemu-user'
    cc -O2 -shared -fPIC -o "$work/instructions.so" "$top/bench/instructions.c"
    counting="qemu-x86_64 -cpu max -plugin $work/instructions.so -d plugin"
    running='qemu-x86_64 -cpu max'
    native=0
    ;;
esac
need "$compiler" 'a C compiler for x86-64'

# Has a program proved and built: crates/CRATE/out/CRATE.
prove() { # CRATE
    echo "$script: proving the program first where it has changed; that can take some minutes" >&2
    (cd "$top/crates/$1" && rt run </dev/null >"$work/log" 2>&1) || { tail -n 5 "$work/log" >&2; exit 1; }
}

# libpouchkettle.a, proved
library() {
    echo "$script: proving the library first where it has changed; that can take some minutes" >&2
    "$top/gateway/archive" >"$work/log" 2>&1 || { tail -n 5 "$work/log" >&2; exit 1; }
    archive=$top/target/staticlib/libpouchkettle.a
}

# Whether the compiler finds a library of that name.
has_library() {
    printf 'int main(void) { return 0; }\n' | "$compiler" -x c - -o "$work/found" "-l$1" 2>/dev/null
}

version_of() {
    printf '#include <%s>\n%s\n' "$1" "$2" | "$compiler" -E - 2>/dev/null | tail -n 1 | tr -d '"'
}

#!/bin/sh
# Sees what tools/stack.py refuses, in objects for x86-64 and aarch64, and that it adds up what a path takes.
set -eu
cd "$(dirname "$0")/.."
tools/installed.sh cc:gcc aarch64-linux-gnu-gcc:gcc-aarch64-linux-gnu python3
folder=$(mktemp -d)
trap 'rm -rf "$folder"' EXIT
fail() {
    cat "$folder/told" >&2
    echo "$1" >&2
    exit 1
}
# Compiles an export, and looks what is said of it.
says() {
    words=$1
    printf '%s\n' "$2" > "$folder/export.c"
    for compiler in cc aarch64-linux-gnu-gcc; do
        "$compiler" -std=c11 -w -fno-builtin -O1 -ffunction-sections -fomit-frame-pointer -c "$folder/export.c" -o "$folder/export.o"
        tools/stack.py "$folder/export.o" 1000 2000 > "$folder/told" 2>&1 || true
        grep -q "$words" "$folder/told" || fail "it doesn't say: $words"
    done
    echo "said of an object: $words"
}
deep='volatile char deep[1000]; deep[0] = n;'
says 'p2p_session_call calls itself$' "int p2p_session_call(int n) { $deep return n ? p2p_session_call(n - 1) + deep[0] : 0; }"
says 'calls itself by way of another function' "int p2p_session_other(int n);
    int p2p_session_call(int n) { $deep return p2p_session_other(n) + deep[0]; }
    int p2p_session_other(int n) { $deep return n ? p2p_session_call(n - 1) + deep[0] : 0; }"
says 'p2p_session_call calls by a pointer' "int p2p_session_call(int (*f)(void)) { return f() + 1; }"
says 'p2p_session_call moves the stack pointer otherwise' "int p2p_session_call(int n) { volatile char at[n]; at[0] = 1; return at[0]; }"
says 'p2p_session_call takes the address of ' "int malloc(int (*)(int)); int p2p_session_call(int n) { return malloc(p2p_session_call) + n; }"
says 'has an address of ' "int p2p_session_call(int n) { return n; } int (*table[])(int) = {p2p_session_call};"
says 'the archive calls puts, and has no such function' "int puts(const char *); int p2p_session_call(int n) { return puts(0) + n; }"
says 'p2p_session_call takes more than 2000 bytes' "static __attribute__((noinline)) int below(int n) { $deep return deep[0]; }
    int p2p_session_call(int n) { $deep return below(n) + deep[0]; }"
says '10[0-9][0-9] p2p_session_call' "int p2p_session_call(int n) { $deep return deep[0]; }"

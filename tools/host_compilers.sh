#!/bin/sh
# Compiles examples/session.c without a warning in each standard of C since C99 and of C++ since C++11, by gcc and by clang,
# and runs it: it has to print the same each time. Then it does so with sanitizers, static, static and position-independent,
# optimised at link time, with other linkers, and with musl. A line says what isn't tried, where something isn't installed.
#
# usage: tools/host_compilers.sh [FOLDER], which tools/host_c.sh explains
set -eu
cd "$(dirname "$0")/.."
archives=${1:-rust/p2p-directory-sys/prebuilt/x86_64-unknown-linux-gnu}
tools/installed.sh gcc g++
folder=$(mktemp -d)
trap 'rm -rf "$folder"' EXIT
export LC_ALL=C

strict='-Wall -Wextra -pedantic -Werror -Wcast-qual -Wconversion -Wshadow'
in_c="-x c $strict -Wstrict-prototypes -I include examples/session.c -x none"
in_cpp="-x c++ $strict -I include examples/session.c -x none"
linked="-L $archives -lp2p_session"

is_there() {
    command -v "$1" > /dev/null && return
    echo "not tried: there is no $1"
    return 1
}
# Compiles with these words, runs the program, and compares what it prints with what the first one printed.
try() {
    # shellcheck disable=SC2086 # a list of words
    "$@" $linked -o "$folder/host"
    "$folder/host" > "$folder/told"
    [ -f "$folder/lines" ] || cp "$folder/told" "$folder/lines"
    cmp "$folder/lines" "$folder/told" || { echo "other lines: $*" >&2; exit 1; }
}

# shellcheck disable=SC2086 # lists of words
for compiler in gcc clang; do
    is_there $compiler || continue
    for standard in c99 c11 c17 c2x; do
        try $compiler -std=$standard $in_c
    done
    echo "examples/session.c by $compiler: C99, C11, C17, C2x"
    # Some distributions have what clang links for them in a package of its own.
    if echo 'int main(void) { return 0; }' | $compiler -x c -fsanitize=address,undefined - -o "$folder/host" 2> /dev/null; then
        try $compiler -std=c99 -g -fsanitize=address,undefined -fno-sanitize-recover=all $in_c
        echo "examples/session.c by $compiler: with sanitizers"
    else
        echo "not tried: $compiler has no sanitizers"
    fi
done
# shellcheck disable=SC2086 # lists of words
for compiler in g++ clang++; do
    is_there $compiler || continue
    for standard in c++11 c++14 c++17 c++20 c++2b; do
        try $compiler -std=$standard $in_cpp
    done
    echo "examples/session.c by $compiler: C++11, C++14, C++17, C++20, C++2b"
done

# shellcheck disable=SC2086 # lists of words
{
    try gcc -std=c99 -static $in_c
    try gcc -std=c99 -static-pie $in_c
    try gcc -std=c99 -O2 -flto $in_c
    echo 'examples/session.c: static, static and position-independent, optimised at link time'
    for linker in gold lld; do
        is_there ld.$linker || continue
        try gcc -std=c99 -fuse-ld=$linker $in_c
        echo "examples/session.c: linked by $linker"
    done
    ! is_there clang || ! is_there ld.lld || try clang -std=c99 -O2 -flto -fuse-ld=lld $in_c
    # Another C library: the archive calls nothing of it but the functions of memory.
    if is_there musl-gcc; then
        try musl-gcc -std=c99 -static $in_c
        echo 'examples/session.c: with musl'
    fi
}

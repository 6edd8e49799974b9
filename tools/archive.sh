#!/bin/sh
# Builds the archive of the library for each target: crates/p2p_session_c/out/TARGET/libp2p_session.a, of which the heap of
# tools/heap.c is a part, and beside it PROVED, what was proved of it. The libraries are proved once, and p2p_session_c once
# for each target. By hand it proves what `rt check` has not proved yet, which may take an hour. With --after-ci it takes the
# libraries that `rt ci` left, so that p2p_session_c alone is proved again.
#
# usage: tools/archive.sh [--after-ci LOG] [TARGET..], what `rt ci` printed, and by default the targets of tools/targets,
# which has the processor of each
set -eu
cd "$(dirname "$0")/.."
kit=$(dirname "$(rt doc)")
folder=crates/p2p_session_c
below='p2p_discovery p2p_tracker p2p_directory p2p_session'
kept=$(mktemp -d)
trap 'rm -rf "$kept"' EXIT

# Runs a command in a folder, and keeps what it prints in a log.
logged() {
    log=$1 place=$2
    shift 2
    { (cd "$place" && "$@") 2>&1 && echo 0 > "$kept/status" || echo $? > "$kept/status"; } | tee "$log"
    status=$(cat "$kept/status")
    [ "$status" -eq 0 ] || exit "$status"
}

if [ "${1:-}" = --after-ci ]; then
    cp "$2" "$kept/libraries"
    shift 2
else
    logged "$kept/libraries" crates/p2p_session rt lib
fi
for name in $below; do
    library=crates/$name/out/rlib/$name.rlib
    [ -d "$library" ] || { echo "there is no $library: run rt ci first" >&2; exit 1; }
done

# Proves p2p_session_c, and compiles it for a target and a processor.
build() {
    set -- --target "$1" --cpu "$2" --crate-name p2p_session_c src/lib.rt --crate-type staticlib
    set -- "$@" --extern "std=$kit/rlibs/std.rlib" -L "dependency=$kit/rlibs"
    for name in $below; do
        set -- "$@" -L "dependency=../$name/out/rlib"
    done
    for name in p2p_discovery p2p_session; do
        set -- "$@" --extern "$name=../$name/out/rlib/$name.rlib"
    done
    set -- "$@" --links p2p_session_c=
    set -- "$@" --antt-project "$kit/rattle/logic/antt-project.json" --logic-built "$kit/logic_built"
    set -- "$@" --jobs "${RT_JOBS:-$(nproc)}" --toolchain "$kit/toolchain" --backend llvm
    logged "$kept/$target.log" "$folder" "$kit/bin/rattle" build "$@" -o "out/$target/libp2p_session_c.a"
}

# Puts the library and the heap into one archive.
pack() {
    out=$PWD/$folder/out/$1
    mkdir "$kept/$1"
    "$kit/toolchain/bin/clang" --target="$1" -std=c99 -O2 -ffreestanding -fPIC -Wall -Wextra -Werror -c tools/heap.c \
        -o "$kept/$1/heap.o"
    (
        cd "$kept/$1"
        "$kit/toolchain/bin/llvm-ar" x "$out/libp2p_session_c.a" p2p_session_c.o
        "$kit/toolchain/bin/llvm-ar" rcsD libp2p_session.a p2p_session_c.o heap.o
        cp libp2p_session.a "$out/"
    )
}

# shellcheck disable=SC2046 # a list of words
[ $# -gt 0 ] || set -- $(cut -d ' ' -f 1 tools/targets)
for target in "$@"; do
    processor=$(sed -n "s/^$target //p" tools/targets)
    [ -n "$processor" ] || { echo "tools/targets has no $target" >&2; exit 1; }
    mkdir -p "$folder/out/$target"
    build "$target" "$processor"
    pack "$target"
    tools/proved.sh "$target" "$kept/libraries" "$kept/$target.log" > "$folder/out/$target/PROVED"
    echo "built $folder/out/$target/libp2p_session.a"
done

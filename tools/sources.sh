#!/bin/sh
# Prints what the archives of the library are made from: the hash of each source of its five crates and of the heap in C, the
# lines of the crates in crates.txt, and the toolchain. Proofs and specs don't count, for they change no code. PROVED has the
# hash of this text.
#
# usage: tools/sources.sh [TOOLCHAIN], by default what `rt version` prints
set -eu
cd "$(dirname "$0")/.."
toolchain=${1:-$(rt version)}
crates='p2p_discovery p2p_tracker p2p_directory p2p_session p2p_session_c'
for name in $crates; do
    find "crates/$name/src" -type f
done | LC_ALL=C sort | xargs sha256sum
sha256sum tools/heap.c
for name in $crates; do
    grep -E "^${name}[ :]" crates.txt
done
echo "$toolchain"

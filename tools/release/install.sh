#!/bin/sh
# Puts the library for a processor, its headers, its files for pkg-config and CMake, and its licences below PREFIX.
#
# usage: install.sh PREFIX [PROCESSOR], which is a folder of lib/, by default this machine's
set -eu
[ $# -eq 1 ] || [ $# -eq 2 ] || { sed -n 's/^# usage: /usage: /p' "$0" >&2; exit 2; }
from=$(cd "$(dirname "$0")" && pwd)
processor=${2:-$(uname -m)}
[ -d "$from/lib/$processor" ] || { echo "there is no library for $processor, only for" "$(ls "$from/lib")" >&2; exit 1; }
put() {
    mkdir -p "$(dirname "$2")"
    cp "$from/$1" "$2"
    chmod 644 "$2"
}
for header in "$from"/include/*.h; do
    put "include/${header##*/}" "$1/include/${header##*/}"
done
for file in libp2p_session.a pkgconfig/p2p_session.pc cmake/p2p_session/p2p_session-config.cmake \
    cmake/p2p_session/p2p_session-config-version.cmake; do
    put "lib/$processor/$file" "$1/lib/$file"
done
for file in LICENSE LICENSE-MIT LICENSE-APACHE LICENSE-bytes LICENSE-thiserror PROVED; do
    put "$file" "$1/share/doc/p2p_session/$file"
done
echo "installed below $1"

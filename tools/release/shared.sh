#!/bin/sh
# Makes libp2p_session.so of the static library, for languages that link at run time. It exports the names that begin with
# p2p_session_ and no others.
#
# usage: shared.sh FOLDER [ARCHIVE ..], by default of the library for this machine in lib/ beside this script
set -eu
[ $# -ge 1 ] || { sed -n 's/^# usage: /usage: /p' "$0" >&2; exit 2; }
folder=$1
shift
[ $# -ge 1 ] || set -- "$(dirname "$0")/lib/$(uname -m)/libp2p_session.a"
mkdir -p "$folder"
exports=$(mktemp)
trap 'rm -f "$exports"' EXIT
echo '{ global: p2p_session_*; local: *; };' > "$exports"
cc -shared -Wl,-soname,libp2p_session.so -Wl,--version-script="$exports" -Wl,--no-undefined \
    -Wl,--whole-archive "$@" -Wl,--no-whole-archive -o "$folder/libp2p_session.so"

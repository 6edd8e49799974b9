#!/bin/sh
# Looks whether docs/LICENCES.md lists all code of an archive: as many functions of each library as the archive has, and no
# other library.
#
# usage: tools/licences.sh ARCHIVE PROCESSOR, the column of the table
set -eu
cd "$(dirname "$0")/.."
folder=$(mktemp -d)
trap 'rm -rf "$folder"' EXIT
export LC_ALL=C
nm -C "$1" | sed -n -E 's/^[0-9a-f]+ [tT] <?(p2p_)?([a-z][a-z0-9_]*).*/\1\2/p' |
    sed -E -e 's/^p2p_.*/ours/' -e 's/^rattle_(alloc|realloc|dealloc)$/heap/' | sort | uniq -c | awk '{ print $2, $1 }' \
    > "$folder/has"
awk -F '|' -v processor="$2" '
    /^\| Names begin with/ { for (i = 1; i <= NF; i++) if (index($i, "`" processor "`")) column = i; next }
    column && /^\| `/ {
        match($2, /`[a-z0-9_]*`/)
        name = substr($2, RSTART + 1, RLENGTH - 2)
        print (name ~ /^p2p_/ ? "ours" : name ~ /^rattle_/ ? "heap" : name), $column + 0
    }
' docs/LICENCES.md | sort > "$folder/told"
diff "$folder/has" "$folder/told" >&2 || { echo "docs/LICENCES.md lists other code than $1 has" >&2; exit 1; }
echo "docs/LICENCES.md lists all code of the archive for $2"

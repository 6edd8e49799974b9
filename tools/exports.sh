#!/bin/sh
# Writes what tools/exports/session.table says: crates/p2p_session_c with its proofs, the headers in include/, the table of
# calls in docs/C.md, and what the Rust crates have of pairs of sizes. What an earlier run wrote and this one doesn't is
# deleted.
# With --check it writes them in a folder of its own and says whether they are the same, and whether the refusals of
# p2p_session, of its specs and of docs/C.md are those of the table.
set -eu
cd "$(dirname "$0")/.."
root=$PWD
if [ "${1:-}" = --check ]; then
    root=$(mktemp -d)
    trap 'rm -rf "$root"' EXIT
    mkdir -p "$root/crates"
    echo 'p2p_session_c staticlib:' > "$root/crates.txt"
    cp HANDLES "$root/"
fi
python3 tools/exports/exports.py tools/exports/session.table "$root"
(cd "$root/crates/p2p_session_c" && rt fmt > /dev/null)
if [ "${1:-}" = --check ]; then
    tools/exports/refusals.py
    rm "$root/crates.txt" "$root/HANDLES"
    for folder in crates/p2p_session_c/src crates/p2p_session_c/proofs crates/p2p_session_c/specs include; do
        diff -r "$folder" "$root/$folder"
    done
    (cd "$root" && find . -type f) | while read -r file; do
        diff "$file" "$root/$file"
    done
fi

#!/bin/sh
# Proves the libraries of the archives in a new folder, without their wrong bodies, and builds the archives there. They
# stand one on the other; lines, for which tests and programs wait, is proved there, too. What passed is kept for any
# other `rt ci` on this machine, by the checksums of what was read: one of the checkout that runs at the same time waits
# for each proof and takes it, and spends its own processors on what stands beside.
#
# `rt ci` gives a proof the processors that no other proof waits for, if there is memory. It counts proofs of tests,
# also where a crate has none, and these wait for memory that the proof before has. So that p2p_directory, which takes
# longest, has two processors, there are two runs: the first proves two crates, the second takes these and goes on. An
# empty crate in the second makes it take p2p_tracker with the memory of one processor.
#
# Two jobs take an eighth more of processors for a proof than one. On two processors none would be idle, so there each
# proof is by one job.
#
# usage: tools/proved_ahead.sh FOLDER
set -eu
cd "$(dirname "$0")/.."
first=$1.first
[ "$(nproc)" -gt 2 ] || export RT_JOBS=1
copy() {
    mkdir -p "$1/crates/$2"
    for part in src specs proofs; do
        [ ! -d "crates/$2/$part" ] || cp -r "crates/$2/$part" "$1/crates/$2"
    done
    grep -E "^$2[ :]" crates.txt >> "$1/crates.txt"
}
prove() {
    cp -r HANDLES tools "$1"
    (cd "$1" && rt ci > proved.log 2>&1) || { cat "$1/proved.log" >&2; return 1; }
}
for name in p2p_discovery p2p_tracker; do
    copy "$first" "$name"
done
for name in p2p_discovery p2p_tracker p2p_directory p2p_session; do
    copy "$1" "$name"
done
cp "$1/crates.txt" "$1/archive.txt"
copy "$1" lines
empty=$1/crates/empty
mkdir -p "$empty/src"
printf '//! Nothing.\n#![tactic(auto)]\n' > "$empty/src/lib.rt"
echo 'empty: p2p_discovery' >> "$1/crates.txt"
prove "$first" &
proved=$!
sleep 5
prove "$1"
wait "$proved"
rm -r "$empty" "$1/crates/lines"
mv "$1/archive.txt" "$1/crates.txt"
# This one is proved as it is built, and gives way. It is by one job unless the others were all kept, for then little else
# is proved.
jobs=1
! grep -q 'done in this run: 0 of' "$1/proved.log" || jobs=$(nproc)
copy "$1" p2p_session_c
cd "$1"
cat "$first/proved.log" proved.log > both.log
RT_JOBS=$jobs nice tools/archive.sh --after-ci both.log

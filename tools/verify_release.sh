#!/bin/sh
# For who has the toolchain and a release, and trusts nobody who made it: makes the release anew from the commit that its PROVED
# names, of which this clone has to know, with the archives proved anew, and compares all that is in it byte for byte, with
# modes and times. Ends with the verdicts. Proving takes an hour or so; with --without-proof the committed archives are taken.
#
# usage: tools/verify_release.sh [--without-proof] FILE
set -eu
proves=1
if [ "${1:-}" = --without-proof ]; then
    proves=
    shift
fi
[ $# -eq 1 ] || { sed -n 's/^# usage: /usage: /p' "$0" >&2; exit 2; }
file=$(realpath "$1")
cd "$(dirname "$0")/.."
folder=$(mktemp -d)
trap 'rm -rf "$folder"' EXIT
refuse() {
    echo "$1" >&2
    exit 1
}

mkdir "$folder/given" "$folder/made"
tar -x -z -C "$folder/given" -f "$file"
proved=$(find "$folder/given" -mindepth 2 -maxdepth 2 -name PROVED)
[ -f "$proved" ] || refuse "$file has no PROVED, so it is no release"
commit=$(sed -n 's/^commit \([0-9a-f]*\)$/\1/p' "$proved")
toolchain=$(head -n 1 "$proved")
git cat-file -e "$commit^{commit}" 2> /dev/null || refuse "this clone has no commit $commit, of which the release says to be"
if [ -n "$proves" ]; then
    here=$(rt version) || refuse 'rt is not on the path: with --without-proof all but the proof is looked at'
    [ "$here" = "$toolchain" ] || refuse "the release was proved by $toolchain, and rt here is $here, which proves and compiles otherwise"
fi

git clone --quiet . "$folder/clone"
git -C "$folder/clone" checkout --quiet --detach "$commit"
cd "$folder/clone"
if [ -n "$proves" ]; then
    tools/archive.sh
    tools/prebuilt.sh --check
fi
tools/release.sh > /dev/null
tar -x -z -C "$folder/made" -f dist/*.tar.gz
tar -t -v -z -f "$file" > "$folder/given.list"
tar -t -v -z -f dist/*.tar.gz > "$folder/made.list"
cd "$folder"
diff -r --no-dereference --brief given made || refuse "$file is not what commit $commit gives"
diff given.list made.list || refuse "$file has other modes or times than what commit $commit gives"
if [ -n "$proves" ]; then
    cat clone/crates/p2p_session_c/out/*/PROVED
    echo "$file is what commit $commit gives, proved anew"
else
    cat "$proved"
    echo "$file is what commit $commit gives; the archives were not proved anew"
fi

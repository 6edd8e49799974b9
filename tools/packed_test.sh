#!/bin/sh
# Packs the two Rust crates as for a registry, and tests the packed pair in a folder with nothing else, with neither the
# repository nor rt on the path. It packs what is committed.
set -eu
cd "$(dirname "$0")/.."
tools/installed.sh cargo cc:gcc
folder=$(mktemp -d)
trap 'rm -rf "$folder"' EXIT
tools/clone.sh "$folder/clone"
path=$(dirname "$(command -v cargo)"):/usr/bin:/bin
alone() {
    env -i PATH="$path" HOME="$HOME" RUSTUP_HOME="${RUSTUP_HOME:-$HOME/.rustup}" CARGO_HOME="$folder/cargo" \
        CARGO_NET_OFFLINE=true CARGO_PROFILE_DEV_DEBUG=0 "$@"
}
! alone sh -c 'command -v rt' || { echo "rt is on the path $path" >&2; exit 1; }

(cd "$folder/clone/rust" && cargo package --workspace --offline --quiet)
mkdir "$folder/packed"
for name in "$folder"/clone/rust/target/package/*.crate; do
    tar -x -z -C "$folder/packed" -f "$name"
done
rm -rf "$folder/clone"
cd "$folder/packed"
sys=$(echo "$PWD"/p2p-directory-sys-*)
tested() {
    cd "$1"
    shift
    alone cargo test "$@" > "$folder/told" 2>&1 || { cat "$folder/told" >&2; exit 1; }
    echo "${PWD##*/}, packed: $(grep -c '^test .* ok$' "$folder/told") tests passed"
    cd ..
}
tested "$sys"
tested "$(echo "$PWD"/p2p-directory-[0-9]*)" --features testing --config "patch.crates-io.p2p-directory-sys.path=\"$sys\""
# Two of scripts, and four of the corpus with keys of 32 bytes and four with keys of 33.
[ "$(grep -c 'is left out: it reads files of the repository' "$folder/told")" = 10 ]
echo 'ten tests say that they are left out'

#!/bin/sh
# Puts the archives that tools/archive.sh left where the Rust crates carry them, rust/p2p-directory-sys/prebuilt/TARGET, with
# PROVED beside each, to which its hash is added. With --check it says whether those that
# are there are the same. It proves nothing.
#
# usage: tools/prebuilt.sh [--check] [FOLDER], with TARGET/libp2p_session.a and TARGET/PROVED for each target of tools/targets
set -eu
cd "$(dirname "$0")/.."
checks=
if [ "${1:-}" = --check ]; then
    checks=1
    shift
fi
from=$(realpath "${1:-crates/p2p_session_c/out}")
made=$(mktemp -d)
trap 'rm -rf "$made"' EXIT

# What a folder of prebuilt/ has to hold.
make() {
    [ -f "$from/$1/PROVED" ] || {
        echo "there is no $from/$1/PROVED: tools/proved.sh $1 LOG prints it, of what the prover printed" >&2
        exit 1
    }
    if [ -z "$checks" ] && grep ': no verdict$' "$from/$1/PROVED" >&2; then
        echo "$from/$1/PROVED lacks these: a proof from nothing tells them all, by .ci/run --anew, or by tools/archive.sh" \
            "where there is no crates/*/out; tools/proved.sh reads them from logs" >&2
        exit 1
    fi
    mkdir "$made/$1"
    cp "$from/$1/libp2p_session.a" "$made/$1/"
    { cat "$from/$1/PROVED" && (cd "$made/$1" && sha256sum libp2p_session.a); } > "$made/$1/PROVED"
}

put() {
    mkdir -p "$prebuilt/$1"
    cp "$made/$1/libp2p_session.a" "$made/$1/PROVED" "$prebuilt/$1/"
    echo "$prebuilt/$1: $(wc -c < "$prebuilt/$1/libp2p_session.a") bytes"
}

# A kit of another name may make the same bytes: then the archive is that of the sources all the same.
check() {
    said=$(head -n 1 "$prebuilt/$1/PROVED")
    sources=$(tools/sources.sh "$said" | sha256sum | sed 's/-$/sources/')
    if ! cmp "$made/$1/libp2p_session.a" "$prebuilt/$1/libp2p_session.a" ||
        [ "$(tail -n 1 "$made/$1/PROVED")" != "$(tail -n 1 "$prebuilt/$1/PROVED")" ] ||
        ! grep -q -x "$sources" "$prebuilt/$1/PROVED" || ! grep -q -x "target $1" "$prebuilt/$1/PROVED"; then
        echo "$prebuilt/$1 is not what the sources give: run tools/release.sh --prebuilt and commit what it writes" >&2
        exit 1
    fi
    [ "$(head -n 1 "$made/$1/PROVED")" = "$said" ] ||
        echo "$prebuilt/$1 was made by $said; $(head -n 1 "$made/$1/PROVED") makes the same bytes"
}

prebuilt=rust/p2p-directory-sys/prebuilt
while read -r target _; do
    make "$target"
done < tools/targets
while read -r target _; do
    if [ -n "$checks" ]; then check "$target"; else put "$target"; fi
done < tools/targets

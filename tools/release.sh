#!/bin/sh
# Writes the release of the commit that it runs on, dist/p2p-directory-VERSION-linux.tar.gz, and its .sha256: the same bytes
# each time. It proves nothing: it takes the archives that the Rust crates carry, and is refused where one isn't of the sources
# as they stand, or where something isn't committed.
#
# With --prebuilt it renews these archives from what tools/archive.sh left, or from a FOLDER, by tools/prebuilt.sh. With --shared
# it makes libp2p_session.so for this machine in dist/, or in another FOLDER: a release has tools/release/shared.sh for it.
#
# usage: tools/release.sh [--prebuilt [FOLDER] | --shared [FOLDER]]
set -eu
cd "$(dirname "$0")/.."
prebuilt=rust/p2p-directory-sys/prebuilt
case ${1:-} in
--prebuilt)
    shift
    exec tools/prebuilt.sh "$@"
    ;;
--shared)
    exec tools/release/shared.sh "${2:-dist}" "$prebuilt/$(uname -m)-unknown-linux-gnu/libp2p_session.a"
    ;;
?*)
    sed -n 's/^# usage: /usage: /p' "$0" >&2
    exit 2
    ;;
esac

refuse() {
    echo "$1" >&2
    exit 1
}
[ -z "$(git status --porcelain)" ] || refuse 'there is something that is not committed: commit it, or put it aside'
targets=$(cut -d ' ' -f 1 tools/targets)
for target in $targets; do
    sources=$(tools/sources.sh "$(head -n 1 "$prebuilt/$target/PROVED")" | sha256sum | sed 's/-$/sources/')
    grep -q -x "$sources" "$prebuilt/$target/PROVED" || refuse \
        "$prebuilt/$target is of other sources: run tools/archive.sh and tools/release.sh --prebuilt, and commit what it writes"
    (cd "$prebuilt/$target" && grep ' libp2p_session.a$' PROVED | sha256sum --check --quiet) ||
        refuse "$prebuilt/$target/libp2p_session.a is not the one that PROVED tells of"
done

version=$(sed -n 's/^version = "\(.*\)"$/\1/p' rust/Cargo.toml)
name=p2p-directory-$version-linux
folder=$(mktemp -d)
trap 'rm -rf "$folder"' EXIT
release=$folder/$name
mkdir -p "$release"
git archive HEAD rust include examples LICENSE LICENSE-MIT LICENSE-APACHE CHANGELOG.md SECURITY.md docs bench |
    tar -x -C "$release"
(cd "$release/docs" && rm ARCHITECTURE.md DECISIONS.md BUILDING.md)
fill() {
    sed -e "s/@VERSION@/$version/g" -e "s/@PROCESSOR@/${processor:-}/g" "tools/release/$1" > "$release/$2"
}
fill README.md README.md
cp tools/release/install.sh tools/release/shared.sh "$release/"
tools/release/links.py "$release"
for target in $targets; do
    processor=${target%%-*}
    lib=lib/$processor
    mkdir -p "$release/$lib/pkgconfig" "$release/$lib/cmake/p2p_session"
    fill p2p_session.pc.in "$lib/pkgconfig/p2p_session.pc"
    fill p2p_session-config.cmake "$lib/cmake/p2p_session/p2p_session-config.cmake"
    fill p2p_session-config-version.cmake.in "$lib/cmake/p2p_session/p2p_session-config-version.cmake"
    cp "$prebuilt/$target/libp2p_session.a" "$release/$lib/"
    cp "$prebuilt/$target/LICENSE-bytes" "$prebuilt/$target/LICENSE-thiserror" "$release/"
    cat "$prebuilt/$target/PROVED" >> "$release/PROVED"
done
echo "commit $(git rev-parse HEAD)" >> "$release/PROVED"

mkdir -p dist
tar -c -C "$folder" --format=ustar --sort=name --mode=u=rwX,go=rX --owner=0 --group=0 --numeric-owner \
    --mtime="@$(git log -1 --format=%ct)" "$name" | gzip -9n > "dist/$name.tar.gz"
(cd dist && sha256sum "$name.tar.gz" > "$name.tar.gz.sha256")
echo "dist/$name.tar.gz: $(wc -c < "dist/$name.tar.gz") bytes"

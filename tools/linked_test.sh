#!/bin/sh
# Tests which archive the Rust crates link, as rust/p2p-directory-sys/build says, in a copy: each archive gets a member of
# its own, by whose name it is found in what cargo built. The prover is played by a script that proves nothing.
set -eu
cd "$(dirname "$0")/.."
tools/installed.sh cargo cc:gcc ar:binutils pkg-config:pkgconf
copy=$(mktemp -d)
trap 'rm -rf "$copy"' EXIT
export CARGO_TARGET_DIR="$copy/target" PKG_CONFIG_PATH="$copy/pkg_config"
unset P2P_SESSION_LIB P2P_SESSION_PROVE P2P_SESSION_PKG_CONFIG DOCS_RS PKG_CONFIG PKG_CONFIG_LIBDIR
target=x86_64-unknown-linux-gnu
package=$copy/rust/p2p-directory-sys
packaged=$package/prebuilt/$target

mkdir -p "$copy/rust" "$copy/crates/p2p_session_c" "$copy/tools"
cp -r rust/p2p-directory rust/p2p-directory-sys rust/Cargo.toml rust/Cargo.lock "$copy/rust/"
for name in p2p_discovery p2p_tracker p2p_directory p2p_session p2p_session_c; do
    mkdir -p "$copy/crates/$name"
    cp -r "crates/$name/src" "$copy/crates/$name/"
done
cp crates.txt "$copy/"
cp tools/sources.sh tools/heap.c "$copy/tools/"

# Makes an archive in a folder, with a member that tells its name.
marked() {
    mkdir -p "$1"
    cp "rust/p2p-directory-sys/prebuilt/$target/libp2p_session.a" "$1/"
    echo "int linked_from_$2 = 1;" | cc -x c -c - -o "$copy/$2.o"
    ar rsD "$1/libp2p_session.a" "$copy/$2.o"
}

# Makes PROVED say that the archive within the package is of the sources as they stand.
agree() {
    {
        echo 'kit of a test'
        "$copy/tools/sources.sh" 'kit of a test' | sha256sum | sed 's/-$/sources/'
        (cd "$packaged" && sha256sum libp2p_session.a)
    } > "$packaged/PROVED"
}

build() {
    (cd "$copy/rust" && env "$@" cargo build --offline --package p2p-directory-sys) > "$copy/told" 2>&1
}

fail() {
    cat "$copy/told" >&2
    echo "$1" >&2
    exit 1
}

# Builds in an environment, and looks from which archive.
links() {
    name=$1
    shift
    build "$@" || fail "$name: it doesn't build"
    found=$(nm "$CARGO_TARGET_DIR"/debug/libp2p_directory_sys.rlib 2> /dev/null | sed -n 's/.* linked_from_//p' | sort -u)
    [ "$found" = "$name" ] || fail "$name: linked from ${found:-nowhere}"
    echo "$name is linked where it is asked for"
}

# Builds in an environment in which that is refused, in these words.
refuses() {
    words=$1
    shift
    ! build "$@" || fail "not refused: $words"
    grep -q "$words" "$copy/told" || fail "refused in other words than: $words"
    echo "refused: $words"
}

warns() {
    grep -q 'sources of the archive have changed' "$copy/told"
}

marked "$copy/folder" folder
marked "$copy/pkg_config" pkg_config
marked "$copy/prover" prover
marked "$packaged" package
agree
printf 'libdir=${pcfiledir}\nName: p2p_session\nDescription: of a test\nVersion: 0.1.0\nLibs: -L${libdir} -lp2p_session\n' \
    > "$copy/pkg_config/p2p_session.pc"
cat > "$copy/tools/archive.sh" << END
#!/bin/sh
echo >> $copy/proofs
out=$copy/crates/p2p_session_c/out/\$1
mkdir -p \$out
cp $copy/prover/libp2p_session.a \$out/
END
chmod +x "$copy/tools/archive.sh"

prove=P2P_SESSION_PROVE=1
asked=P2P_SESSION_PKG_CONFIG=1
links folder "P2P_SESSION_LIB=$copy/folder" "$prove" "$asked"
links prover "$prove" "$asked"
links prover "$prove" "$asked"
[ "$(wc -l < "$copy/proofs")" = 1 ] || fail 'it proves again what has not changed'
links pkg_config "$asked"
links package
! warns || fail 'it warns of sources that have not changed'
links package P2P_SESSION_PROVE=0 P2P_SESSION_PKG_CONFIG=0

# What is linked is tracked.
cp "$copy/pkg_config/libp2p_session.a" "$copy/folder/"
links pkg_config "P2P_SESSION_LIB=$copy/folder"
links package
echo '// changed' >> "$copy/crates/p2p_session/src/lib.rt"
links package
warns || fail 'it warns of no source that has changed'
echo 'changed sources are warned of'
agree
links package
! warns || fail 'it warns of sources that have not changed'
sed -i 's/^p2p_session:/& bytes/' "$copy/crates.txt"
links package
warns || fail 'it does not warn of a line of crates.txt that has changed'
agree
echo '// changed' >> "$copy/tools/heap.c"
links package
warns || fail 'it does not warn of a heap that has changed'
agree

refuses 'has no libp2p_session.a' "P2P_SESSION_LIB=$copy/nowhere"
refuses 'pkg-config finds no p2p_session' "$asked" PKG_CONFIG_PATH=/nowhere
printf '#!/bin/sh\nexit 1\n' > "$copy/tools/archive.sh"
touch "$copy/crates.txt"
refuses 'tools/archive.sh failed' "$prove"
# Of the targets whose standard library isn't installed the build script runs first.
other="CARGO_BUILD_TARGET=riscv64gc-unknown-linux-gnu"
targets=$(cut -d ' ' -f 1 tools/targets | LC_ALL=C sort | paste -s -d , | sed 's/,/, /g')
refuses "no archive for riscv64gc-unknown-linux-gnu in this package, only for $targets" "$other"
links_for() {
    rm -rf "${CARGO_TARGET_DIR:?}/$1" "$CARGO_TARGET_DIR"/debug/build/p2p-directory-sys-*
    build "CARGO_BUILD_TARGET=$1" || grep -q "can't find crate for" "$copy/told" || fail "$1 is refused"
    cat "$CARGO_TARGET_DIR/$1"/debug/build/p2p-directory-sys-*/output \
        "$CARGO_TARGET_DIR"/debug/build/p2p-directory-sys-*/output 2> /dev/null > "$copy/told" || true
    grep -q "rustc-link-search=native=.*prebuilt/$2\$" "$copy/told" || fail "$1 links nothing"
    echo "$1 links the archive of $2"
}
for processor in $(sed 's/-.*//' tools/targets); do
    links_for "$processor-unknown-linux-gnu" "$processor-unknown-linux-gnu"
    links_for "$processor-unknown-linux-musl" "$processor-unknown-linux-gnu"
done
! build "$other" "P2P_SESSION_LIB=$copy/folder" || fail 'another target is built'
! grep -q 'no archive for' "$copy/told" || fail 'another target is refused where an archive is named'
! build "$other" DOCS_RS=1 || fail 'another target is built'
! grep -q 'no archive for' "$copy/told" || fail 'another target is refused where only the documentation is built'
printf x >> "$packaged/libp2p_session.a"
refuses 'is not the archive that PROVED beside it tells of'
rm -r "$packaged"
(cd "$copy/rust" && DOCS_RS=1 cargo doc --offline --no-deps) > "$copy/told" 2>&1 || fail 'the documentation wants an archive'
echo 'the documentation is built where nothing can be linked'

#!/bin/sh
# Tests the release of the commit that is checked out, in a clone whose PROVED is made to fit the sources where they have
# changed since: what it refuses, that it is the same bytes twice, and that with what it holds alone, and no rt on the path, a
# C compiler and cargo build and pass all. For other processors than this machine's it builds a host, which qemu runs.
set -eu
cd "$(dirname "$0")/.."
tools/installed.sh cargo cc:gcc g++ ar:binutils nm:binutils cmake pkg-config:pkgconf python3 qemu-aarch64:qemu-user \
    aarch64-linux-gnu-gcc:gcc-aarch64-linux-gnu
folder=$(mktemp -d)
trap 'rm -rf "$folder"' EXIT
tools/clone.sh "$folder/clone"
targets=$(cut -d ' ' -f 1 tools/targets)
carried=rust/p2p-directory-sys/prebuilt
prebuilt=$carried/x86_64-unknown-linux-gnu
# What a machine has that never heard of Rattle.
path=$(dirname "$(command -v cargo)"):/usr/bin:/bin
alone() {
    env -i PATH="$path" HOME="$HOME" RUSTUP_HOME="${RUSTUP_HOME:-$HOME/.rustup}" CARGO_HOME="$folder/cargo" \
        CARGO_NET_OFFLINE=true CARGO_PROFILE_DEV_DEBUG=0 "$@"
}
! alone sh -c 'command -v rt' || { echo "rt is on the path $path" >&2; exit 1; }

commit() {
    git -C "$folder/clone" -c user.name=test -c user.email=test@example.invalid commit --quiet --all --message "$1"
}
refuses() {
    ! (cd "$folder/clone" && tools/release.sh) > "$folder/told" 2>&1 || { echo "not refused: $1" >&2; exit 1; }
    grep -q "$1" "$folder/told" || { cat "$folder/told" >&2; echo "refused in other words than: $1" >&2; exit 1; }
    echo "refused: $1"
}

refusals() {
    echo >> "$folder/clone/README.md"
    refuses 'not committed'
    git -C "$folder/clone" checkout --quiet README.md
    echo '// changed' >> "$folder/clone/crates/p2p_session/src/lib.rt"
    commit 'change a source'
    refuses 'is of other sources'
    git -C "$folder/clone" reset --quiet --hard HEAD^
    fit
    for target in $targets; do
        echo >> "$folder/clone/$carried/$target/libp2p_session.a"
        commit 'spoil the archive'
        refuses "$target/libp2p_session.a is not the one that PROVED tells of"
        git -C "$folder/clone" reset --quiet --hard HEAD^
    done
}

# Renews the carried archives from a copy, and compares them with others.
renewed() {
    (
        cd "$folder/clone"
        for target in $targets; do
            mkdir -p "$folder/built/$target"
            head -n -1 "$carried/$target/PROVED" > "$folder/built/$target/PROVED"
            cp "$carried/$target/libp2p_session.a" "$folder/built/$target/"
            rm "$carried/$target/libp2p_session.a" "$carried/$target/PROVED"
        done
        tools/release.sh --prebuilt "$folder/built"
        git diff --exit-code --stat
        tools/prebuilt.sh --check "$folder/built"
        for target in $targets; do
            cp "$folder/built/$target/libp2p_session.a" "$folder/kept.a"
            printf x >> "$folder/built/$target/libp2p_session.a"
            tools/prebuilt.sh --check "$folder/built" > "$folder/told" 2>&1 && exit 1
            grep -q "$target is not what the sources give: run tools/release.sh --prebuilt and commit" "$folder/told"
            mv "$folder/kept.a" "$folder/built/$target/libp2p_session.a"
        done
        git diff --exit-code --stat
    )
    echo 'the carried archives are renewed, and another one is seen'
}

# Makes PROVED fit the sources.
fit() {
    (
        cd "$folder/clone"
        for target in $targets; do
            line=$(tools/sources.sh "$(head -n 1 "$carried/$target/PROVED")" | sha256sum | sed 's/-$/sources/')
            sed -i "s/^[0-9a-f]*  sources\$/$line/" "$carried/$target/PROVED"
        done
    )
    git -C "$folder/clone" diff --quiet || commit 'fit'
}

twice() {
    (cd "$folder/clone" && tools/release.sh)
    mv "$folder/clone/dist" "$folder/first"
    (umask 077 && cd "$folder/clone" && TZ=Asia/Tokyo LC_ALL=C tools/release.sh > /dev/null)
    diff -r "$folder/first" "$folder/clone/dist"
    (cd "$folder/first" && sha256sum --check --quiet ./*.sha256)
    tar -x -z -C "$folder" -f "$folder"/first/*.tar.gz
    mv "$folder"/p2p-directory-*-linux "$folder/release"
    echo 'the same bytes twice'
    # No document has a link to what the release lacks: there is nothing to take out.
    cp -r "$folder/release" "$folder/linked"
    tools/release/links.py "$folder/linked"
    diff -r "$folder/release" "$folder/linked"
    rm -r "$folder/linked"
}

# Runs the example that was built, and looks whether it says what it says from the clone.
runs() {
    "$folder/$1" > "$folder/$1.out" 2> "$folder/$1.err"
    diff "$folder/expected.out" "$folder/$1.out"
    echo "examples/session.c runs: $1"
}

c_hosts() {
    (
        cd "$folder/release"
        strict='-Wall -Wextra -pedantic -Werror'
        # shellcheck disable=SC2086 # a list of words
        {
            cc -std=c11 $strict examples/session.c -Iinclude "-Llib/$(uname -m)" -lp2p_session -o "$folder/c11"
            g++ -std=c++17 $strict -x c++ examples/session.c -x none -Iinclude "-Llib/$(uname -m)" -lp2p_session -o "$folder/c++17"
            cc -std=c11 $strict examples/session.c "$1/tools/host_heap.c" -Iinclude "-Llib/$(uname -m)" -lp2p_session -o "$folder/own_heap"
        }
    )
    (cd "$folder/clone" && cc examples/session.c -Iinclude $prebuilt/libp2p_session.a -o "$folder/expected")
    "$folder/expected" > "$folder/expected.out"
    runs c11
    runs c++17
    runs own_heap
    grep "requests met by the host's own heap" "$folder/own_heap.err"
}

# The example for each other processor, with what is below a prefix.
other_processors() {
    for target in $targets; do
        processor=${target%%-*}
        [ "$processor" != "$(uname -m)" ] || continue
        "$folder/release/install.sh" "$folder/$processor" "$processor" > /dev/null
        project
        host -DCMAKE_PREFIX_PATH="$folder/$processor" > "$folder/told" 2>&1 &&
            { echo "CMake takes the library for $processor on this machine" >&2; exit 1; }
        rm -r "$folder/project/build"
        # shellcheck disable=SC2046 # a list of words
        PKG_CONFIG_PATH="$folder/$processor/lib/pkgconfig" "$processor-linux-gnu-gcc" "$folder/project/session.c" -static \
            $(PKG_CONFIG_PATH="$folder/$processor/lib/pkgconfig" pkg-config --cflags --libs p2p_session) -o "$folder/project/host"
        "qemu-$processor" "$folder/project/host" | diff "$folder/expected.out" -
        host -DCMAKE_SYSTEM_NAME=Linux -DCMAKE_SYSTEM_PROCESSOR="$processor" -DCMAKE_C_FLAGS=-static \
            -DCMAKE_C_COMPILER="$processor-linux-gnu-gcc" -DCMAKE_PREFIX_PATH="$folder/$processor" > "$folder/told"
        "qemu-$processor" "$folder/project/build/by_cmake" | diff "$folder/expected.out" -
        rm -r "$folder/project"
        echo "examples/session.c for $processor, by pkg-config and by CMake, which refuses it for this machine"
    done
    ! "$folder/release/install.sh" "$folder/riscv64" riscv64 2> "$folder/told" || exit 1
    grep 'there is no library for riscv64' "$folder/told"
}

# By a shared library, which is made of what the release holds.
python_host() {
    (
        cd "$folder/release"
        ./shared.sh "$folder/shared"
        python3 examples/session.py "$folder/shared/libp2p_session.so"
    )
}

# A host that CMake builds, in the folder project.
project() {
    mkdir "$folder/project"
    cp examples/session.c "$folder/project/"
    cat > "$folder/project/CMakeLists.txt" << 'END'
cmake_minimum_required(VERSION 3.18)
project(host C)
find_package(p2p_session 0.1.0 EXACT REQUIRED CONFIG)
add_executable(by_cmake session.c)
target_link_libraries(by_cmake PRIVATE p2p_session::p2p_session)
END
}
host() {
    cmake -S "$folder/project" -B "$folder/project/build" "$@" && cmake --build "$folder/project/build"
}

# By pkg-config and by CMake, from a prefix that was moved.
installed() {
    "$folder/release/install.sh" "$folder/before" > /dev/null
    mv "$folder/before" "$folder/prefix"
    export PKG_CONFIG_PATH="$folder/prefix/lib/pkgconfig"
    # shellcheck disable=SC2046 # a list of words
    cc examples/session.c $(pkg-config --cflags --libs p2p_session) -o "$folder/by_pkg_config"
    runs by_pkg_config
    project
    host -DCMAKE_PREFIX_PATH="$folder/prefix" > "$folder/told"
    cp "$folder/project/build/by_cmake" "$folder/"
    rm -r "$folder/project"
    runs by_cmake
    (
        cd "$folder/release/rust"
        alone PKG_CONFIG_PATH="$PKG_CONFIG_PATH" P2P_SESSION_PKG_CONFIG=1 CARGO_TARGET_DIR="$folder/by_pkg" \
            cargo run --quiet --example two_nodes > "$folder/two_nodes"
    )
    grep -q "$folder/prefix/lib/.*/libp2p_session.a" "$folder"/by_pkg/debug/build/p2p-directory-sys-*/output
    echo 'two_nodes runs by pkg-config'
}

# The two commands of README, in a folder with only what the release holds; the first in a fresh clone, too, whose tests
# are those of the checkout.
runs_two_nodes() {
    (
        cd "$folder/$1/rust"
        begun=$(date +%s)
        alone cargo run --example two_nodes > "$folder/two_nodes" 2> "$folder/told" || { cat "$folder/told" >&2; exit 1; }
        ! grep '^warning' "$folder/told" || exit 1
        [ "$(grep -c 'knows the infos of 4 of 5 peers' "$folder/two_nodes")" = 2 ]
        echo "cargo run --example two_nodes in the $1: $(($(date +%s) - begun)) seconds"
    )
}
passes_tests() {
    (
        cd "$folder/$1/rust"
        begun=$(date +%s)
        alone cargo test > "$folder/told" 2>&1 || { cat "$folder/told" >&2; exit 1; }
        echo "cargo test in the $1: $(($(date +%s) - begun)) seconds, $(grep -c '^test .* ok$' "$folder/told") tests"
    )
}

# Verifies a copy of the release in which a file was changed: it has to be named.
sees() {
    mkdir "$folder/spoilt"
    tar -x -z -C "$folder/spoilt" -f "$folder"/first/*.tar.gz
    changed=$(echo "$folder"/spoilt/*/"$1")
    echo >> "$changed"
    tar -c -z -C "$folder/spoilt" -f "$folder/spoilt.tar.gz" "$(ls "$folder/spoilt")"
    (cd "$folder/clone" && LC_ALL=C tools/verify_release.sh --without-proof "$folder/spoilt.tar.gz") > "$folder/told" 2>&1 &&
        exit 1
    grep -q "^Files .*/$1 and .* differ" "$folder/told" || { cat "$folder/told" >&2; exit 1; }
    rm -r "$folder/spoilt"
    echo "seen by tools/verify_release.sh: $1"
}

verified() {
    (cd "$folder/clone" && tools/verify_release.sh --without-proof "$folder"/first/*.tar.gz) | tail -n 1
    for target in $targets; do
        sees "lib/${target%%-*}/libp2p_session.a"
        sees "$carried/$target/libp2p_session.a"
    done
    sees include/p2p_session.h
    sees include/p2p_session_common.h
    sees rust/p2p-directory-sys/src/exports.rs
    sees rust/p2p-directory-sys/build/main.rs
    mkdir "$folder/unknown"
    tar -x -z -C "$folder/unknown" -f "$folder"/first/*.tar.gz
    sed -i 's/^commit .*/commit 0123456789012345678901234567890123456789/' "$folder"/unknown/*/PROVED
    tar -c -z -C "$folder/unknown" -f "$folder/unknown/unknown.tar.gz" "$(cd "$folder/unknown" && echo p2p-*)"
    tools/verify_release.sh --without-proof "$folder"/unknown/*.tar.gz > "$folder/told" 2>&1 && exit 1
    grep -q 'this clone has no commit' "$folder/told" || { cat "$folder/told" >&2; exit 1; }
    echo 'a commit that the clone does not have is refused'
    mkdir "$folder/other"
    printf '#!/bin/sh\necho another kit\n' > "$folder/other/rt"
    chmod +x "$folder/other/rt"
    (cd "$folder/clone" && PATH="$folder/other:$PATH" tools/verify_release.sh "$folder"/first/*.tar.gz) 2> "$folder/told" &&
        exit 1
    grep -q 'rt here is another kit' "$folder/told" || { cat "$folder/told" >&2; exit 1; }
    echo 'another toolchain is refused'
}

refusals
renewed
twice
verified
c_hosts "$PWD"
python_host
installed
other_processors
runs_two_nodes release
passes_tests release
runs_two_nodes clone

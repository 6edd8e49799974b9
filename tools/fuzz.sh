#!/bin/sh
# Lets libFuzzer look for a frame that the library and the Rust crate read otherwise, and for calls that a node and the
# model answer otherwise. Edges are counted in the crate, in what compares and in the model: the archive has no counters.
# Each target begins with its folder of rust/p2p-directory/tests/corpus and with seeds; the fewest files that reach the edges which
# that corpus doesn't are added to it. Where something is found it fails, and names the file.
#
# usage: tools/fuzz.sh [MINUTES [TARGET]], of each target so many, by default one; the targets are frame and calls,
# and frame33_64 and calls33_64 with keys of 33 bytes
set -eu
cd "$(dirname "$0")/../rust/p2p-directory"
minutes=${1:-1}
targets=${2:-frame calls frame33_64 calls33_64}
[ "$minutes" -gt 0 ] || {
    echo 'usage: tools/fuzz.sh [MINUTES [TARGET]]' >&2
    exit 1
}
../../tools/installed.sh cargo g++
fuzzer=
for found in /usr/lib/llvm-*/lib/clang/*/lib/linux/libclang_rt.fuzzer-x86_64.a; do
    [ ! -f "$found" ] || fuzzer=$found
done
[ -n "$fuzzer" ] || {
    echo "libFuzzer is not installed (Debian's package libclang-rt-14-dev, or of a later version): install it" >&2
    exit 1
}
folder=$(mktemp -d)
trap 'rm -rf "$folder"' EXIT
mkdir -p target

platform=x86_64-unknown-linux-gnu
counted="-C passes=sancov-module -C llvm-args=-sanitizer-coverage-level=4 \
-C llvm-args=-sanitizer-coverage-inline-8bit-counters -C llvm-args=-sanitizer-coverage-pc-table \
-C llvm-args=-sanitizer-coverage-trace-compares -C codegen-units=1 -C debug-assertions=on -C panic=abort"
# Where a platform is named, these flags are not those of the build script.
RUSTFLAGS=$counted cargo build --offline --quiet --release --lib --features testing --target $platform --target-dir "$folder"
for target in $targets; do
    # shellcheck disable=SC2086 # a list of words
    rustc --edition 2024 -C opt-level=3 $counted --target $platform \
        --extern "p2p_directory=$folder/$platform/release/libp2p_directory.rlib" \
        -L "dependency=$folder/$platform/release/deps" \
        -C "link-arg=$fuzzer" -C link-arg=-lstdc++ -o "$folder/$target" "fuzz/$target.rs"
done

# Runs a command whose lines go into the log. Where it fails they are shown, but for those on what is covered meanwhile.
logged() {
    "$@" > "$folder/log" 2>&1 && return
    grep -v '^#[0-9]' "$folder/log" >&2
    return 1
}

FUZZ_SEEDS="$folder/seeds" logged cargo test --offline --test corpus -- --ignored writes_seeds
for target in $targets; do
    corpus=tests/corpus/$target
    mkdir -p "$corpus" "$folder/seen/$target"
    logged "$folder/$target" -max_total_time=$((60 * minutes)) -max_len=1024 -timeout=60 -print_final_stats=1 \
        -artifact_prefix="$PWD/target/fuzz-$target-" "$folder/seen/$target" "$corpus" "$folder/seeds/$target" || {
        echo "$target: $(sed -n 's/.*Test unit written to /found, see /p' "$folder/log")" >&2
        exit 1
    }
    echo "$target: $(grep DONE "$folder/log")"
    logged "$folder/$target" -set_cover_merge=1 -use_counters=0 -max_len=1024 "$corpus" "$folder/seen/$target" \
        "$folder/seeds/$target"
    echo "$target: $(find "$corpus" -type f | wc -l) files in the corpus"
done

#!/bin/sh
# Tests, over the archive that they carry, which archive the Rust crates link, the example in C and C++, and the Rust
# crates, with and without the recorder: tests, lints, layout and documents.
set -eu
cd "$(dirname "$0")/.."
tools/linked_test.sh
tools/host_c.sh
cd rust
cargo test --offline
cargo test --offline -p p2p-directory --features record,testing --test 'record*'
cargo test --offline -p p2p-directory --features record,testing --doc record
cargo clippy --offline --all-targets -- -D warnings
cargo clippy --offline --all-targets --features p2p-directory/record,p2p-directory/testing -- -D warnings
cargo fmt --check
RUSTDOCFLAGS='-D warnings' cargo doc --offline --no-deps
RUSTDOCFLAGS='-D warnings' cargo doc --offline --no-deps --features p2p-directory/record

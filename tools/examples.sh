#!/bin/sh
# Copies the scripts of examples/ to where the stored run of play reads them; with --check it says
# whether they are the same.
set -eu
cd "$(dirname "$0")/.."
if [ "${1:-}" = --check ]; then
    exec diff -r --exclude='*.c' --exclude='*.py' examples crates/play/data/examples
fi
mkdir -p crates/play/data/examples
cp examples/*.txt crates/play/data/examples/

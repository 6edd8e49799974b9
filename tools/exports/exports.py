#!/usr/bin/env python3
"""Writes what the table of the calls says: a static library with the proofs of its exports, and what C and Rust declare.

    exports.py TABLE ROOT

table.py says what a table has. Under ROOT rattle.py writes the crate of the library, headers.py include/ and the table of
docs/C.md, and rust.py what the Rust crates have of pairs of sizes. What an earlier run wrote and this one doesn't is
deleted.
"""
import os
import sys

import headers
import rattle
import rust
import table


def main():
    path, root = sys.argv[1:]
    read = table.read_table(path)
    written = set()

    def put(path, text):
        written.add(path)
        path = os.path.join(root, path)
        os.makedirs(os.path.dirname(path), exist_ok=True)
        open(path, 'w').write(text)

    for part in (rattle, headers, rust):
        part.write(put, read)
        for folder in part.folders(read):
            delete_others(root, folder, written)


def delete_others(root, folder, written):
    """Deletes each file of a folder that wasn't written."""
    for place, _, files in os.walk(os.path.join(root, folder)):
        for file in files:
            path = os.path.join(place, file)
            if os.path.relpath(path, root) not in written:
                os.remove(path)


main()

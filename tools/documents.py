#!/usr/bin/env python3
"""Writes the numbers and excerpts of documents from the sources; with --check it says what of the documents is wrong.

usage: tools/documents.py [--check] [FOLDER], by default this repository

--check prints a line FILE:LINE: FAULT for each fault, and ends with status 1 where there is one:
- broken link, broken anchor: a relative link, or its anchor as GitHub makes it, leads nowhere.
- unknown file: nothing in the repository has the name that stands in backquotes, with a slash or a suffix of its files.
  A name may be the end of a path; *, NAME, CRATE, FILE, FOLDER and VERSION stand for any.
- unknown identifier: what stands in backquotes as `Type::name`, `name()` or `CamelCase` is nowhere in crates/, rust/,
  include/ and tools/.
- private word: tools/documents/private.py has the field's word, which is to be used outside code and block quotes.
- wrong number, unknown count: between <!-- count:NAME --> and <!-- /count --> stands another number than the sources
  have. tools/documents/marks.py has the names.
- changed excerpt: the code block after <!-- excerpt: FILE FROM..TO --> has other lines than the file.
- no row, row of nothing: the table after <!-- folders --> lacks a folder at the top, of rust/ or of crates, or has
  another; the table after <!-- crates --> likewise.

Without --check numbers are written, and excerpts: one whose lines moved gets its new place, another its new lines.
"""

import sys
from pathlib import Path

sys.dont_write_bytecode = True
ROOT = Path(__file__).resolve().parent.parent
sys.path.insert(0, str(ROOT / "tools/documents"))

import folders  # noqa: E402
import links  # noqa: E402
import markdown  # noqa: E402
import marks  # noqa: E402
import names  # noqa: E402
import private  # noqa: E402


def faults(root, document, known, anchors):
    """Returns what is wrong with a document, each with its line."""
    text = document.read_text(encoding="utf-8")
    blocks = markdown.blocks(text)
    yield from links.check(root, document, blocks, anchors)
    yield from names.check(known, blocks)
    yield from private.check(blocks)
    yield from marks.check(root, text)
    yield from folders.check(root, text)


def check(root):
    known, anchors, count, documents = names.Names(root), {}, 0, markdown.documents(root)
    for document in documents:
        for line, fault in sorted(faults(root, document, known, anchors)):
            print(f"{document.relative_to(root)}:{line}: {fault}")
            count += 1
    print(f"{len(documents)} documents, {count} faults")
    return 1 if count or not documents else 0


def write(root):
    for document in markdown.documents(root):
        text = document.read_text(encoding="utf-8")
        written = marks.written(root, text)
        if written != text:
            document.write_text(written, encoding="utf-8")
            print(f"written: {document.relative_to(root)}")
    return 0


def main():
    words = sys.argv[1:]
    if "--help" in words:
        print(__doc__.strip())
        return 0
    folders = [Path(word).resolve() for word in words if not word.startswith("-")]
    root = folders[0] if folders else ROOT
    return check(root) if "--check" in words else write(root)


if __name__ == "__main__":
    sys.exit(main())

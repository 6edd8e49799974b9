#!/usr/bin/env python3
"""Counts words and sentences of each document, and its sentences above 40 words.

usage: tools/words.py [--long] [FILE ..], by default all documents of the repository

Code blocks, tables, headings and comments are left out. A code span counts as one word, and an item of a list is a
sentence of its own, or several. With --long each sentence above 40 words is printed, too, with its file and line.
"""

import re
import sys
from pathlib import Path

sys.dont_write_bytecode = True
ROOT = Path(__file__).resolve().parent.parent
sys.path.insert(0, str(ROOT / "tools/documents"))

import markdown  # noqa: E402

LONGEST = 40
END = re.compile(r"(?<!e\.g\.)(?<!i\.e\.)(?<=[.!?])[\"')\]]*\s+(?=[\"'(\[]*[A-Z0-9`])")


def words(text):
    """Returns the words of a text: what has a letter or a digit between blanks."""
    return [word for word in text.split() if any(map(str.isalnum, word))]


def sentences(block):
    """Returns the sentences of a block, each with its line."""
    text, found, at = markdown.plain(block), [], 0
    for end in [*(match.end() for match in END.finditer(text)), len(text)]:
        found.append((block.line + text.count("\n", 0, at), " ".join(text[at:end].split())))
        at = end
    return [(line, sentence) for line, sentence in found if words(sentence)]


def counted(path):
    """Returns how many words a document has, and its sentences."""
    prose = [block for block in markdown.read(path) if block.kind in ("text", "item", "quote")]
    found = [sentence for block in prose for sentence in sentences(block)]
    return sum(len(words(sentence)) for _, sentence in found), found


def row(name, *numbers):
    print(f"{name:<36}" + "".join(f"{number:>10}" for number in numbers))


def main():
    arguments = sys.argv[1:]
    if "--help" in arguments:
        print(__doc__.strip())
        return 0
    files = [Path(word).resolve() for word in arguments if word != "--long"] or markdown.documents(ROOT)
    total, long = [0, 0, 0], []
    row("document", "words", "sentences", f"above {LONGEST}")
    for path in files:
        name = path.relative_to(ROOT) if path.is_relative_to(ROOT) else path
        count, found = counted(path)
        above = [(line, sentence) for line, sentence in found if len(words(sentence)) > LONGEST]
        numbers = [count, len(found), len(above)]
        row(str(name), *numbers)
        total = [one + other for one, other in zip(total, numbers)]
        for line, sentence in above:
            long.append(f"{name}:{line}: {len(words(sentence))} words: {sentence.replace(markdown.GAP, ' ')}")
    row("total", *total)
    if "--long" in arguments:
        print("\n".join(["", *long]))
    return 0


if __name__ == "__main__":
    sys.exit(main())

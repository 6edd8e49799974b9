#!/usr/bin/env python3
"""Takes links out of the documents of a release that lead to files that only the repository has: their text stays, with
the path behind it where the text isn't its end.

usage: tools/release/links.py FOLDER
"""

import re
import sys
from pathlib import Path

LINK = re.compile(r"\[([^\]\[]*)\]\(([^()\s]+)\)")


def without(document, folder):
    """The text of a document, without links to files that aren't in the folder."""

    def kept(link):
        text, target = link.group(1), link.group(2)
        path = target.partition("#")[0]
        if "://" in target or not path or (document.parent / path).exists():
            return link.group(0)
        named = (document.parent / path).resolve().relative_to(folder)
        return text if str(named).endswith(text.strip("`")) else f"{text} (`{named}` of the repository)"

    return LINK.sub(kept, document.read_text(encoding="utf-8"))


def main(folder):
    for document in sorted(folder.rglob("*.md")):
        document.write_text(without(document, folder), encoding="utf-8")


if __name__ == "__main__":
    if len(sys.argv) != 2:
        sys.exit(__doc__)
    main(Path(sys.argv[1]).resolve())

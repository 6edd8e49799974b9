"""Reads Markdown as far as the checks of documents need it: which lines are prose, code, tables and quotes."""

import re
from dataclasses import dataclass
from pathlib import Path

PATTERNS = (
    "README.md",
    "CHANGELOG.md",
    "CONTRIBUTING.md",
    "SECURITY.md",
    "docs/*.md",
    "rust/**/README.md",
    "rust/TESTS.md",
    "mutants/README.md",
    "tools/**/README.md",
)
# Folders of what is built.
BUILT = {"target", "out", "dist", "__pycache__", ".git"}

GAP = "\u2423"
SPAN = re.compile(r"(?<!`)(`+)(?!`)(.+?)(?<!`)\1(?!`)", re.S)
COMMENT = re.compile(r"<!--.*?-->", re.S)
ITEM = re.compile(r"\s*(?:[-*+]|\d+[.)])\s+")
# An item that may stand directly after a line of text.
FIRST_ITEM = re.compile(r"\s*(?:[-*+]|1[.)])\s+")
FENCE = re.compile(r"\s*(?:```+|~~~+)")


@dataclass
class Block:
    """Lines that belong together. The kind is text, item, heading, table, quote or code; a row of a table is a block
    of its own, and so is an item of a list."""

    kind: str
    line: int
    text: str


def is_built(path):
    return bool(BUILT.intersection(path.parts))


def documents(root):
    """Returns the paths of all documents below the root, in order."""
    found = {path for pattern in PATTERNS for path in root.glob(pattern)}
    return sorted(path for path in found if not is_built(path.relative_to(root)))


def kind_of(line):
    if line.startswith("#"):
        return "heading"
    if line.startswith("|"):
        return "table"
    if line.startswith(">"):
        return "quote"
    return "item" if ITEM.match(line) else "text"


def blank(match):
    return "\n" * match[0].count("\n")


def outside_code(text):
    """Returns the lines of the text with their numbers, and whether each is in a fenced block or its fence."""
    fence = None
    for number, line in enumerate(text.splitlines(), 1):
        mark = FENCE.match(line)
        if fence is None and mark:
            fence = mark[0].strip()
            yield number, line, True
        elif fence is not None:
            if mark and line.strip().startswith(fence):
                fence = None
            yield number, line, True
        else:
            yield number, line, False


def without_comments(text):
    """Returns the text without its comments, with as many lines. Comments in code stay."""
    code = {number for number, _, is_code in outside_code(text) if is_code}

    def removed(match):
        line = text.count("\n", 0, match.start()) + 1
        return match[0] if line in code else blank(match)

    return COMMENT.sub(removed, text)


def blocks(text):
    """Returns the blocks of a document in order, without blank lines and comments."""
    found, last = [], None
    for number, line, is_code in outside_code(without_comments(text)):
        kind = "code" if is_code else kind_of(line)
        if not is_code and not line.strip():
            last = None
            continue
        if kind == "item" and last and last.kind == "text" and not FIRST_ITEM.match(line):
            kind = "text"
        continues = last and (
            kind == last.kind and kind in ("code", "quote", "text") or kind == "text" and last.kind in ("item", "quote")
        )
        if continues:
            last.text += "\n" + line
        else:
            last = Block(kind, number, line)
            found.append(last)
    return found


def read(path):
    return blocks(Path(path).read_text(encoding="utf-8"))


def spans(block):
    """Returns the code spans of a block, each with its line."""
    for match in SPAN.finditer(block.text):
        yield block.line + block.text.count("\n", 0, match.start()), " ".join(match[2].split())


def without_spans(text):
    """Returns the text with a mark in place of each code span, and as many lines."""
    return SPAN.sub(lambda match: "`" + blank(match) + "`", text)


def plain(block):
    """Returns the text of a block with neither its marks, nor link targets, nor emphasis, and as many lines. Blanks in
    code spans are GAPs, so each is one word."""
    text = ITEM.sub("", block.text, count=1) if block.kind == "item" else block.text
    text = re.sub(r"^\s*> ?", "", text, flags=re.M) if block.kind == "quote" else text
    text = SPAN.sub(lambda match: "`" + GAP.join(match[2].split()) + "`" + blank(match), text)
    text = re.sub(r"!?\[([^\]]*)\]\([^)]*\)", r"\1", text)
    return re.sub(r"\*+", "", text)

"""Links of documents: each relative one leads to a file, a folder, a heading or a line of this repository."""

import re
from urllib.parse import unquote

import markdown

LINK = re.compile(r"!?\[(?:[^\[\]]|\[[^\]]*\])*\]\(\s*<?([^\s)>]+)>?(?:\s+\"[^\"]*\")?\s*\)")
REFERENCE = re.compile(r"^\s{0,3}\[[^\]]+\]:\s*<?(\S+?)>?(?:\s+\"[^\"]*\")?\s*$", re.M)
NAMED = re.compile(r"<a\s+(?:id|name)=\"([^\"]+)\"")
# A document whose links are those of another folder: the release has it at its root.
BASES = {"tools/release/README.md": "."}
LINES = re.compile(r"L(\d+)(?:-L(\d+))?$")


def slug(heading):
    """Returns what GitHub calls a heading in links."""
    text = re.sub(r"\[([^\]]*)\]\([^)]*\)", r"\1", heading)
    text = re.sub(r"(?<!\w)_+|_+(?!\w)", "", text.replace("`", "").replace("*", ""))
    return re.sub(r"[^\w\- ]", "", text.strip().lower()).replace(" ", "-")


def anchors(path):
    """Returns the anchors of a document: those of its headings, of which equal ones are numbered, and named ones."""
    found, seen = set(), {}
    for block in markdown.read(path):
        if block.kind == "heading":
            name = slug(block.text.lstrip("#").rstrip("# "))
            count = seen.get(name, 0)
            seen[name] = count + 1
            found.add(f"{name}-{count}" if count else name)
        elif block.kind != "code":
            found.update(NAMED.findall(block.text))
    return found


def links(block):
    """Returns the targets of the links of a block, each with its line."""
    text = markdown.without_spans(block.text)
    for pattern in (LINK, REFERENCE):
        for match in pattern.finditer(text):
            yield block.line + text.count("\n", 0, match.start(1)), match[1]


def leads_to(path, anchor, known):
    if path.suffix == ".md":
        if path not in known:
            known[path] = anchors(path)
        return anchor in known[path]
    lines = LINES.match(anchor)
    if not lines or path.is_dir():
        return False
    return int(lines[2] or lines[1]) <= len(path.read_text(encoding="utf-8").splitlines())


def base(root, document):
    """Returns the folder that relative links of a document begin at."""
    other = BASES.get(document.relative_to(root).as_posix())
    return root / other if other else document.parent


def fault(root, document, target, known):
    """Returns what is wrong with a link of a document, or None."""
    if re.match(r"[a-z][a-z0-9+.-]*:", target):
        return None
    name, _, anchor = target.partition("#")
    name = unquote(name)
    path = (base(root, document) / name).resolve() if name else document
    if not path.exists() or not path.is_relative_to(root):
        return f"broken link: {target}: there is no {name}"
    if anchor and not leads_to(path, unquote(anchor), known):
        return f"broken anchor: {target}: there is no such heading or line"
    return None


def check(root, document, blocks, known):
    """Returns the faults of the links of a document, each with its line. Anchors that were read are kept in `known`."""
    for block in blocks:
        if block.kind == "code":
            continue
        for line, target in links(block):
            found = fault(root, document, target, known)
            if found:
                yield line, found

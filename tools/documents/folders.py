"""Tables of folders: that below <!-- folders --> has a row for each folder at the top, of rust/ and of crates, and that
below <!-- crates --> one for each crate."""

import re

import markdown

ROW = re.compile(r"\|\s*`([^`]+)`\s*\|")


def folders(root):
    """Returns the folders at the top and of rust/, and those of crates, with NAME for the crate."""
    tops = {path for path in root.iterdir() if path.is_dir()} | set((root / "rust").iterdir())
    found = {f"{path.relative_to(root)}/" for path in tops if path.is_dir() and path.name not in markdown.BUILT}
    for path in (root / "crates").glob("*/*"):
        if path.is_dir() and path.name not in markdown.BUILT:
            found.add(f"crates/NAME/{path.name}/")
    return found


def crates(root):
    return {path.name for path in (root / "crates").iterdir() if path.is_dir()}


TABLES = {"folders": folders, "crates": crates}


def check(root, text):
    """Returns what a marked table lacks or has too much, at the line of its mark."""
    for mark in re.finditer(r"(?m)^<!-- (folders|crates) -->\n((?:\|.*\n)*)", text):
        line = text.count("\n", 0, mark.start()) + 1
        wanted, rows = TABLES[mark[1]](root), set(ROW.findall(mark[2]))
        for name in sorted(wanted - rows):
            yield line, f"no row: {name}"
        for name in sorted(rows - wanted):
            yield line, f"row of nothing: {name}"

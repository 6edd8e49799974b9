#!/usr/bin/env python3
"""Says whether each wrong body of crates/*/must-fail/ and mutants/ applies to the sources as they stand: each `old:`
text stands exactly once in its file, and the name begins with the first function that is changed, or with the name of the
file of a constant. Nothing is proved."""

import re
import sys
from pathlib import Path

ROOT = Path(__file__).resolve().parent.parent


def crate_of(edit):
    """Returns the name of the crate that an edit is of."""
    return edit.parent.name if edit.parent.name != "must-fail" else edit.parent.parent.name


def pairs_of(edit):
    """Returns the pairs of texts of an edit that applies, each with its file, the old text and the new one."""
    path, old = None, None
    for line in Path(edit).read_text(encoding="utf-8").splitlines():
        if line.startswith("file: "):
            path = line[len("file: ") :].strip()
        elif line.startswith("old: "):
            old = line[len("old: ") :]
        elif line.startswith("new:"):
            yield path, old, line[len("new:") :].removeprefix(" ")


def applied(edit, crate):
    """Returns the texts of the files that the edit changes, by their paths in the crate, and why it can't be applied, or
    None."""
    path, old, texts = None, None, {}
    for line in Path(edit).read_text(encoding="utf-8").splitlines():
        if line.startswith("file: "):
            path = Path(crate) / line[len("file: ") :].strip()
            if not path.is_file():
                return texts, f"there is no {path}"
            texts.setdefault(path, path.read_text(encoding="utf-8"))
        elif line.startswith("old: "):
            old = line[len("old: ") :]
        elif line.startswith("new:"):
            if path is None or old is None:
                return texts, "a 'new:' stands before its 'file:' and 'old:'"
            count = texts[path].count(old)
            if count != 1:
                return texts, f"its 'old:' stands {count} times in {path}: {old.strip()}"
            texts[path] = texts[path].replace(old, line[len("new:") :].removeprefix(" "))
            old = None
    return texts, None if texts else "it has no pair of 'old:' and 'new:'"


def misnamed(edit, crate):
    """Returns what the name of an edit that applies should begin with, or None if it does."""
    lines = Path(edit).read_text(encoding="utf-8").splitlines()
    file, old = (next(line[len(key) :] for line in lines if line.startswith(key)) for key in ("file: ", "old: "))
    text = (crate / file.strip()).read_text(encoding="utf-8")
    functions = re.findall(r"\bfn (\w+)", text[: text.index(old) + len(old)])
    wanted = functions[-1] if functions else Path(file.strip()).stem
    return None if edit.name.startswith(f"{wanted}-") else wanted


def main():
    edits = sorted([*ROOT.glob("crates/*/must-fail/*.edit"), *ROOT.glob("mutants/*/*.edit")])
    faults = 0
    for edit in edits:
        crate = ROOT / "crates" / crate_of(edit)
        _, fault = applied(edit, crate)
        if not fault and (wanted := misnamed(edit, crate)):
            fault = f"its name has to begin with {wanted}-"
        if fault:
            faults += 1
            print(f"{edit.relative_to(ROOT)}: {fault}")
    print(f"{len(edits) - faults} of {len(edits)} wrong bodies apply")
    return 1 if faults or not edits else 0


if __name__ == "__main__":
    sys.exit(main())

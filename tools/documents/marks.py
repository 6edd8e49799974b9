"""Numbers and excerpts of documents that are written from the sources.

A number stands between `<!-- count:NAME -->` and `<!-- /count -->`. A code block with `<!-- excerpt: FILE FROM..TO -->`
in the line before it has these lines of the file, without what all of them are indented by. The excerpts of
docs/GUIDE.md have no marks: rust/p2p-directory/tests/guide.rs compares them.
"""

import re
import subprocess
import sys
from functools import lru_cache

COUNT = re.compile(r"<!-- count:(\S+) -->(.*?)<!-- /count -->", re.S)
OPENED = re.compile(r"<!-- count:")
EXCERPT = re.compile(r"<!-- excerpt: (\S+) (\d+)\.\.(\d+) -->\n(```+)(\w*)\n(.*?)\n?^\4$", re.S | re.M)
EXCERPT_MARK = re.compile(r"<!-- excerpt:")


def lines_of(root, pattern, wanted=r".*\n"):
    texts = (path.read_text(encoding="utf-8") for path in root.glob(pattern) if "target" not in path.parts)
    return sum(len(re.findall(wanted, text, re.M)) for text in texts)


def files(root, pattern):
    return len(list(root.glob(pattern)))


def played(root, place):
    """Returns the sum of a number of the lines of play's stored run: replies, and those that are as expected."""
    text = (root / "crates/play/stdout").read_text(encoding="utf-8")
    found = re.findall(r"(\d+) replies, (\d+) as expected", text)
    return sum(int(numbers[place]) for numbers in found)


def table(root, wanted):
    """Returns how many lines of the table of calls read so from their beginning."""
    text = (root / "tools/exports/session.table").read_text(encoding="utf-8")
    return len(re.findall(rf"^{wanted}", text, re.M))


def worked(root):
    text = (root / "crates/rows/src/tests.rt").read_text(encoding="utf-8")
    return int(re.search(r"static ROWS: .*; (\d+)\]", text)[1])


@lru_cache
def reached(root, function):
    """Returns how many lines the contract of a function reaches, and of how many definitions."""
    command = [sys.executable, str(root / "tools/reached.py"), function]
    told = subprocess.run(command, capture_output=True, text=True, check=True).stdout
    return re.findall(r"\d+", told)


def reached_number(root, function, place):
    return int(reached(root, function)[place])


COUNTS = {
    "calls": lambda root: table(root, r"\d+ \w+\("),
    "worked-examples": worked,
    "replies": lambda root: played(root, 1),
    "all-replies": lambda root: played(root, 0),
    "must-fail": lambda root: files(root, "crates/*/must-fail/*.edit"),
    "other-mutants": lambda root: files(root, "mutants/*/*.edit"),
    "mutants": lambda root: files(root, "crates/*/must-fail/*.edit") + files(root, "mutants/*/*.edit"),
    "rust-tests": lambda root: lines_of(root, "rust/**/*.rs", r"^ *#\[test\]$"),
    "rattle-tests": lambda root: lines_of(root, "crates/*/src/**/*.rt", r"^ *#\[test\]$"),
    "spec-lines": lambda root: lines_of(root, "crates/*/specs/**/*.antt"),
    "proof-lines": lambda root: lines_of(root, "crates/*/proofs/**/*.antt"),
    "lines-run": lambda root: reached_number(root, "run", 0),
    "definitions-run": lambda root: reached_number(root, "run", 1),
    "lines-network": lambda root: reached_number(root, "run_network", 0),
    "definitions-network": lambda root: reached_number(root, "run_network", 1),
    "code-lines": lambda root: lines_of(root, "crates/*/src/**/*.rt"),
}


def outdented(lines):
    indent = min((len(line) - len(line.lstrip()) for line in lines if line.strip()), default=0)
    return [line[indent:].rstrip() for line in lines]


def excerpt(root, name, first, last):
    """Returns the lines of an excerpt, or None where the file has no such lines."""
    path = root / name
    lines = path.read_text(encoding="utf-8").splitlines() if path.is_file() else []
    return outdented(lines[first - 1 : last]) if 0 < first <= last <= len(lines) else None


def places(root, name, wanted):
    """Returns the first lines of all places of a file that read as wanted."""
    count = len((root / name).read_text(encoding="utf-8").splitlines())
    firsts = range(1, count - len(wanted) + 2)
    return [first for first in firsts if excerpt(root, name, first, first + len(wanted) - 1) == wanted]


def line_of(text, at):
    return text.count("\n", 0, at) + 1


def count_faults(root, text):
    """Returns the numbers that are not those of the sources, each with its line."""
    found = list(COUNT.finditer(text))
    if len(found) != len(OPENED.findall(text)):
        yield 1, "a mark of a number has no end, or is not `<!-- count:NAME -->`"
    for match in found:
        name, said = match[1], match[2].strip()
        if name not in COUNTS:
            yield line_of(text, match.start()), f"unknown count: {name} is none of {', '.join(COUNTS)}"
        elif said.replace(",", "") != str(COUNTS[name](root)):
            yield line_of(text, match.start()), f"wrong number: {name} is {COUNTS[name](root):,}, not {said}"


def excerpt_faults(root, text):
    """Returns the excerpts that are not the lines of their files, each with its line."""
    found = list(EXCERPT.finditer(text))
    if len(found) != len(EXCERPT_MARK.findall(text)):
        yield 1, "an excerpt's mark is not `<!-- excerpt: FILE FROM..TO -->` with a code block in the next line"
    for match in found:
        name, first, last = match[1], int(match[2]), int(match[3])
        lines, said = excerpt(root, name, first, last), match[6].splitlines()
        if lines is None:
            yield line_of(text, match.start()), f"changed excerpt: {name} has no lines {first}..{last}"
        elif lines != said:
            at = [f"{first}..{first + len(said) - 1}" for first in places(root, name, said)]
            moved = f"; the lines stand at {' and '.join(at)}" if at else ""
            yield line_of(text, match.start()), f"changed excerpt: not lines {first}..{last} of {name}{moved}"


def check(root, text):
    yield from count_faults(root, text)
    yield from excerpt_faults(root, text)


def written_count(root, match):
    if match[1] not in COUNTS:
        return match[0]
    return f"<!-- count:{match[1]} -->{COUNTS[match[1]](root):,}<!-- /count -->"


def written_excerpt(root, match):
    """An excerpt whose lines stand at one other place gets that place; another gets the lines of its place."""
    name, first, last = match[1], int(match[2]), int(match[3])
    lines, said = excerpt(root, name, first, last), match[6].splitlines()
    found = places(root, name, said) if (root / name).is_file() else []
    if lines != said and len(found) == 1:
        first, last, lines = found[0], found[0] + len(said) - 1, said
    if lines is None:
        return match[0]
    fence, language = match[4], match[5]
    return "\n".join([f"<!-- excerpt: {name} {first}..{last} -->", fence + language, *lines, fence])


def written(root, text):
    """Returns the text with the numbers and excerpts of the sources."""
    text = COUNT.sub(lambda match: written_count(root, match), text)
    return EXCERPT.sub(lambda match: written_excerpt(root, match), text)

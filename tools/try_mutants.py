#!/usr/bin/env python3
"""Tries mutants function by function: applies each to a copy of its crate, and has the prover check the functions that it
changes, with those that these call, over the libraries below the crate. `rt ci` and `rt must-fail` have the whole crate
proved once more for the first mutant of each crate. Prints what refused each: a clause, an invariant or a condition, and
whether the prover has no proof of it, or the one that is written fits no more. Fails where one is not refused, does not
apply or compile, or is refused by none of these: where only lemmas, or answers that name what it took away, don't fit. As
a control, the same functions of each crate are checked first as they are: if they are not proved, no mutant of that crate
counts.

usage: tools/try_mutants.py [--jobs N] [--until END] [--keep FOLDER] [FILE..], by default those of crates/*/must-fail/, as
many crates at a time as there are processors. The libraries are those that `rt ci` or `rt check` left in crates/*/out/rlib.
With --until they are waited for, if `rt ci` is proving them, until there is a file END. With --keep a refusal is kept in
FOLDER, and not tried again while the kit, the mutant, and what the crate and those below it have are the same.
"""

import argparse
import hashlib
import os
import re
import shutil
import subprocess
import sys
import tempfile
import time
from concurrent.futures import ThreadPoolExecutor
from pathlib import Path

sys.dont_write_bytecode = True
ROOT = Path(__file__).resolve().parent.parent
sys.path.insert(0, str(ROOT / "tools"))

from wrong_bodies import applied, crate_of, pairs_of  # noqa: E402

# An error at a place of a file, with the goal that it is of, if it is of one.
ERROR = re.compile(r"(?:\./)?(\S+?):\d+:\d+: error: (?:(`[^`]*`): )?(.*)")
# What the prover says of a text that it can't read.
UNREAD = re.compile(r"is not in scope|has no field|is no name|operand is missing|expected the end|cannot continue")
# What it says of a file of proofs that names what a mutant took away, or what rests on such a name.
MOVED = re.compile(r"has no field|is not in scope|has no `|can be named|is no name|was not admitted|were? not checked")
# A goal that it has no proof of, by the note on it, which mostly ends with its name.
NOTE = re.compile(r"note: src/\S+: (?:.*\(`([^`]+)`\)|.*not proved)")
# What the goals of a function are of, by their names, the first that fits: of a clause of it, of an invariant of a type or a
# loop, or of a condition, of a call or of an operation such as a sum.
KINDS = (("a clause", re.compile(r"returns\b")), ("an invariant", re.compile(r"invariant_of\b|loop\b")), ("a condition", re.compile("")))
REFUSED = re.compile(r"refused by (%s)" % "|".join(kind for kind, _ in KINDS))


def functions_of(edit, crate):
    """Returns the functions that an edit changes, each by as much of its path as tells it from others: its type or trait,
    with their module where another file has a type of that name, or its module. Of a constant it returns the module, and of another item nothing: then the whole crate is checked."""
    found = []
    for file, old, _ in pairs_of(edit):
        text = (crate / file).read_text(encoding="utf-8")
        before = text[: text.index(old)]
        names = re.findall(r"\bfn (\w+)", before + old)
        if names and not (before[before.rfind("\n") + 1 :] + old).startswith(" "):
            continue
        module = "::".join(it for it in Path(file).with_suffix("").parts[1:] if it not in ("lib", "main"))
        of = block(before)
        if of and any(of.startswith(it) for it in types_of(crate / file) & types_elsewhere(crate, crate / file)):
            of = f"{module}::{of}"
        path = "::".join(it for it in (of or module, *names[-1:]) if it)
        # Else the crate's name would be taken for that of its module.
        path = f"{crate.name}::{path}" if path.startswith(f"{crate.name}::") else path
        if path not in found:
            found.append(path)
    return found


def block(before):
    """Returns the type or trait in whose block a text ends, a type with the trait that it implements there, if any."""
    found = None
    for line in before.splitlines():
        if line.startswith("}"):
            found = None
        elif head := re.match(r"impl(?:<.*?>(?= ))? (?:(\w+).* for )?(\w+)|(?:pub )?trait (\w+)", line):
            name = head[3] or head[2] + (head[1] or "")
            found = name[0].upper() + name[1:]
    return found


def types_of(file):
    """Returns the names of the types that a file declares."""
    return set(re.findall(r"(?m)^(?:pub )?(?:struct|enum) (\w+)", file.read_text(encoding="utf-8")))


def types_elsewhere(crate, file):
    """Returns the names of the types that the other files of a crate declare."""
    return {it for other in crate.glob("src/**/*.rt") if other != file for it in types_of(other)}


def libraries():
    """Returns the libraries that each crate names in crates.txt, in their order."""
    lines = (line.partition(":") for line in (ROOT / "crates.txt").read_text(encoding="utf-8").splitlines())
    return {name.split()[0]: below.split() for name, _, below in lines if name.strip() and not name.startswith("#")}


def below(crate, named):
    """Returns all libraries of the repository that stand below a crate."""
    own = [name for name in named[crate] if name in named]
    return {*own, *(it for name in own for it in below(name, named))}


def command(crate, functions, work, named, kit):
    """Returns the command that checks these functions of a crate over the work of earlier checks."""
    root = "src/main.rt" if (crate / "src/main.rt").is_file() else "src/lib.rt"
    words = ["--crate-name", crate.name, root, "-L", f"dependency={kit}/rlibs", "--extern", f"std={kit}/rlibs/std.rlib"]
    for name in named[crate.name]:
        folder = ROOT / "crates" / name / "out/rlib" if name in named else kit / "rlibs"
        words += ["--extern", f"{name}={folder}/{name}.rlib"]
    for name in sorted(below(crate.name, named)):
        words += ["-L", f"dependency={ROOT}/crates/{name}/out/rlib"]
    words += ["--antt-project", f"{kit}/rattle/logic/antt-project.json", "--logic-built", f"{kit}/logic_built"]
    words += ["--incremental", work, "--jobs", "1", "--links", f"{crate.name}="]
    if re.search(rf"^{crate.name} staticlib", (ROOT / "crates.txt").read_text(encoding="utf-8"), re.M):
        words += ["--crate-type", "staticlib"]
    return [f"{kit}/bin/rattle", "check", *words, *(word for it in functions for word in ("--only", it))]


def checked(functions, crate, texts, work, named, kit):
    """Checks these functions in a copy of the crate that has these texts in place of its own."""
    with tempfile.TemporaryDirectory() as copy:
        for part in ("src", "specs", "proofs"):
            if (crate / part).is_dir():
                shutil.copytree(crate / part, f"{copy}/{part}")
        for path, text in texts.items():
            Path(copy, path.relative_to(crate)).write_text(text, encoding="utf-8")
        words = command(crate, functions, work, named, kit)
        ran = subprocess.run(words, cwd=copy, stdout=subprocess.PIPE, stderr=subprocess.STDOUT, text=True, errors="replace")
        return ran.returncode, ran.stdout.rstrip("\n").split("\n")


def control(edits, crate, work, named, kit):
    """Checks the functions that these edits change as they are, and returns why they are not proved, or None."""
    of_each = [functions_of(edit, crate) for edit in edits if not applied(edit, crate)[1]]
    functions = list(dict.fromkeys(it for of_one in of_each for it in of_one)) if all(of_each) else []
    status, lines = checked(functions, crate, {}, work, named, kit)
    counts = re.fullmatch(r"only=(\d+) proved=(\d+)", lines[-1])
    if status == 0 and (counts[1] == counts[2] if counts else lines[-1].startswith("logic=proved")):
        return None
    return "\n".join([f"{crate.name}, unchanged, is not proved:", *(told_of(lines) or lines[-6:])])


def is_unread(line):
    """Whether a line says that a text of the code or of the specification can't be read."""
    error = ERROR.match(line)
    if not error or not error[1].startswith(("src/", "specs/")):
        return False
    return not error[2] or bool(UNREAD.search(re.sub(r"`[^`]*`", "", error[3])))


def told_of(lines):
    """Returns the lines of a check that name a goal or an error, each with its place."""
    return [line for line in lines if line.startswith("note: src/") or ERROR.match(line)]


def goal_of(line, crate):
    """Returns the goal of a function that a line of a check is of, and whether an answer to it is written, or None. Lemmas
    aren't goals, nor is a goal refused whose answer only names what isn't there any more."""
    if note := NOTE.match(line):
        return note[1] or "", False
    error = ERROR.match(line)
    if not error or not error[2]:
        return None
    goal, file = error[2].strip("`"), error[1]
    if file.startswith("src/"):
        return goal, False
    answers = crate / file
    if answers.name != "Answers.antt" or MOVED.search(error[3]) or not answers.is_file():
        return None
    is_goal = re.search(rf"(?m)^pub {re.escape(goal)} : goal\.", answers.read_text(encoding="utf-8"))
    return (goal, True) if is_goal else None


def refusal(status, lines, crate):
    """Returns what of a function refused it, with the line that says so, and why it isn't refused, of which one is None."""
    if status == 0:
        return None, "it is proved"
    unread = next((line for line in lines if is_unread(line)), None)
    if unread:
        return None, f"the prover can't read it: {unread}"
    counts = re.fullmatch(r"only=(\d+) proved=(\d+)", lines[-1])
    is_judged = int(counts[2]) < int(counts[1]) if counts else lines[-1].startswith("logic=not-proved")
    if status != 1 or not is_judged:
        return None, "\n".join(["the prover didn't judge it:", *lines[-6:]])
    found = []
    for line in told_of(lines):
        if goal := goal_of(line, crate):
            kind = next(at for at, (_, names) in enumerate(KINDS) if names.match(goal[0]))
            # First what has no proof, by the kinds in their order.
            found.append((goal[1], kind, len(found), line))
    if not found:
        return None, "\n".join(["only files of proofs don't fit it:", *(told_of(lines) or lines[-6:])])
    fits_no_more, kind, _, text = min(found)
    by = KINDS[kind][0] + (", whose written proof fits no more" if fits_no_more else ", of which there is no proof")
    return f"{by}: {text}", None


def tried(edit, work, named, kit):
    """Returns whether the prover refuses a mutant, and what to say of it."""
    crate = ROOT / "crates" / crate_of(edit)
    texts, fault = applied(edit, crate)
    by = None
    if not fault:
        by, fault = refusal(*checked(functions_of(edit, crate), crate, texts, work, named, kit), crate)
    return not fault, f"{crate.name}/{edit.stem}: {f'NOT REFUSED: {fault}' if fault else f'refused by {by[:250]}'}"


def tried_in_turn(edits, places, named, kit):
    """Tries the mutants of a crate in turn, each over what the checks before it left, the first of which is the control.
    Keeps each refusal at its place, if there are any, and returns what is said of those that were refused."""
    refused = []
    with tempfile.TemporaryDirectory() as work:
        fault = control(edits, ROOT / "crates" / crate_of(edits[0]), work, named, kit)
        if fault:
            print(fault, flush=True)
            return []
        for edit in edits:
            well, text = tried(edit, work, named, kit)
            print(text, flush=True)
            refused += [text] * well
            if well and places:
                places[edit].parent.mkdir(parents=True, exist_ok=True)
                places[edit].write_text(text, encoding="utf-8")
    return refused


def place_of(edit, folder, named, version):
    """Returns the file in which the refusal of a mutant is kept, named by the hash of all that it rests on."""
    said = hashlib.sha256(version.encode())
    for file in (edit, ROOT / "crates.txt", Path(__file__)):
        said.update(hashlib.sha256(file.read_bytes()).digest())
    for name in sorted({crate_of(edit), *below(crate_of(edit), named)}):
        parts = (ROOT / "crates" / name / part for part in ("src", "specs", "proofs"))
        for file in sorted(it for part in parts for it in part.rglob("*") if it.is_file()):
            said.update(f"{file.relative_to(ROOT)}\n".encode() + hashlib.sha256(file.read_bytes()).digest())
    return folder / said.hexdigest()


def size(name):
    """Returns how many files a library has, and their bytes, or None if it isn't there."""
    folder = ROOT / "crates" / name / f"out/rlib/{name}.rlib"
    try:
        sizes = [it.stat().st_size for it in folder.rglob("*") if it.is_file()]
    except OSError:
        return None
    return (len(sizes), sum(sizes)) if (folder / "format").is_file() else None


def wait_for(names, end):
    """Waits until these libraries are there and no longer written, or the file `end` is."""
    before = None
    while not end.exists():
        sizes = [size(name) for name in sorted(names)]
        if None not in sizes and sizes == before:
            return
        before = sizes
        time.sleep(10)


def printed(word):
    """Returns what `rt` prints for a word."""
    return subprocess.run(["rt", word], check=True, capture_output=True, text=True).stdout.strip()


def main():
    parser = argparse.ArgumentParser()
    parser.add_argument("--jobs", type=int, default=len(os.sched_getaffinity(0)))
    parser.add_argument("--until", type=Path)
    parser.add_argument("--keep", type=Path)
    parser.add_argument("files", nargs="*", type=Path)
    given = parser.parse_args()
    named, kit, tries = libraries(), Path(printed("doc")).parent, []
    edits = [it.resolve() for it in given.files] or sorted(ROOT.glob("crates/*/must-fail/*.edit"))
    places = {it: place_of(it, given.keep, named, printed("version")) for it in edits} if given.keep else {}
    left = [it for it in edits if not (places and places[it].is_file())]
    refused = [places[it].read_text(encoding="utf-8") for it in edits if it not in left]
    for text in refused:
        print(f"{text} (kept)")
    with ThreadPoolExecutor(given.jobs) as pool:
        for name in (it for it in named if it in map(crate_of, left)):
            if given.until:
                wait_for(below(name, named), given.until)
            of_crate = [it for it in left if crate_of(it) == name]
            tries.append(pool.submit(tried_in_turn, of_crate, places, named, kit))
        refused += [text for it in tries for text in it.result()]
    kinds = [REFUSED.search(text)[1] for text in refused]
    of_each = ", ".join(f"{kinds.count(kind)} by {kind}" for kind, _ in KINDS)
    print(f"{len(refused)} of {len(edits)} mutants refused: {of_each}")
    return 0 if edits and len(refused) == len(edits) else 1


if __name__ == "__main__":
    sys.exit(main())

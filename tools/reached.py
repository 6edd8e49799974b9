#!/usr/bin/env python3
"""Counts the definitions that a contract reaches: tools/reached.py [-v | --text] run run_pair ..

A word is the name of a public function of p2p_directory. From the words of its clauses, each definition in a specs/ of
this repository that one of them names is reached, and from its text further ones. What is counted is the lines of
these definitions, without comments and blank lines; types of the code and definitions of std are not counted. With -v
each definition is printed, too. With --text they are printed as one page: the contract, the definitions that its clauses
name, those that these name, and so on, each once. Each has its comment, with the one before that it goes on from if it
begins with two dots, and above that where it stands, and in which modules, whose parameters it has.
"""
import collections
import pathlib
import re
import sys

CRATES = pathlib.Path(__file__).resolve().parent.parent / "crates"
USE = re.compile(r"use (Rattle[\w.]*?)(?:\.\{([^}]*)\}| as (\w+))?\s*;?\s*$", re.M)
HEAD = re.compile(r"\s*(?:(?:abbrev|unfoldable) )?(?:pub )?(?:(?:record|data) )?(\S+)")
IS_HEAD = re.compile(r"\s*(abbrev|unfoldable|pub)\s")
WORD = re.compile(r"[^\W\d][\w-]*(?:\.[^\W\d][\w-]*)?")


def imports(text):
    """What the names of a text stand for: definitions, and modules."""
    names, modules = {}, {}
    for path, listed, other in USE.findall(text):
        if not listed:
            modules[other or path.rsplit(".", 1)[1]] = path
        for name in filter(None, listed.split(",")):
            name, _, renamed = name.strip().partition(" as ")
            names[renamed or name] = f"{path}.{name}"
    return names, modules


class Definition:
    """A definition: its file with its line there, the modules that it is in, the comments above it, and its lines."""

    def __init__(self, file, number, modules, comments, known):
        self.file, self.number, self.modules, self.comments, self.known = file, number, modules, comments, known
        self.lines, self.text = [], []

    def page(self):
        """Where it stands, its comments, and its text with the comments in it, at the left margin."""
        margin = len(self.lines[0]) - len(self.lines[0].lstrip())
        at = f"-- [{self.file.relative_to(CRATES.parent)}:{self.number}]"
        above = [at, *(f"-- in {module}" for module in self.modules), *self.comments]
        return "\n".join([*above, *(line[margin:] for line in self.text)])


def definitions():
    """Each definition by its whole name, with the module of its file."""
    found = {}
    for file in sorted(CRATES.glob("*/specs/**/*.antt")):
        module = ".".join(("Rattle", *file.relative_to(CRATES).with_suffix("").parts))
        for name, definition in definitions_of(file):
            found[f"{module}.{name}"] = (definition, module)
    return found


def definitions_of(file):
    """Each definition of a file, with its name there."""
    text = file.read_text()
    known, of, depth, start = imports(text), None, 0, 0
    modules, heads, comments, chain = [], [], [], []
    for number, line in enumerate(text.splitlines(), 1):
        bare, indent = line.strip(), len(line) - len(line.lstrip())
        if heads or bare.startswith("module "):
            # A head of a module may have more than one line.
            start = start if heads else indent
            heads.append(bare)
            if bare.endswith(" where"):
                modules = [*(it for it in modules if it[0] < start), (start, " ".join(heads))]
                heads = []
            continue
        if not bare:
            of, comments = None, []
        elif bare.startswith("--"):
            comments.append(line)
        elif not bare.startswith(("use ", "pub use ", "pub mod ", "mod ")):
            if IS_HEAD.match(line) and (of is None or indent <= depth):
                own, depth = [it.strip() for it in comments], indent
                chain = chain + own if own and own[0].startswith("-- ..") else own or chain
                around = [head for at, head in modules if at < indent]
                of = Definition(file, number, around, chain if own else [], known)
                comments = []
                yield HEAD.match(line)[1], of
            if of:
                of.text += [*comments, line]
                of.lines.append(line)
            comments = []


def contract(function):
    """The clauses of a function, and the imports of its file."""
    for file in sorted((CRATES / "p2p_directory/src").rglob("*.rt")):
        text = file.read_text()
        at = re.search(rf"^pub fn {function}\b", text, re.M)
        if at:
            return text[at.start() : text.index("\n{\n", at.start())], imports(text)
    sys.exit(f"p2p_directory has no public function {function}")


def reached(function):
    """Each definition that the contract of a function reaches, by its whole name, in the order of reaching."""
    known, seen = definitions(), {}
    todo = collections.deque([(*contract(function), "")])
    while todo:
        text, (names, modules), module = todo.popleft()
        for word in WORD.findall(text):
            first, _, second = word.partition(".")
            of_module = f"{modules[first]}.{second}" if first in modules else None
            for whole in (f"{module}.{word}", f"{module}.{first}", names.get(word), names.get(first), of_module):
                if whole in known and whole not in seen:
                    definition, home = known[whole]
                    seen[whole] = definition
                    todo.append(("\n".join(definition.lines), definition.known, home))
    return seen


def counted(function, definitions):
    """How many lines and definitions the contract of a function reaches, in words."""
    return f"{function}: {sum(len(it.lines) for it in definitions)} lines of {len(definitions)} definitions"


def main():
    words = sys.argv[1:]
    for function in (it for it in words if it not in ("-v", "--text")):
        found = reached(function)
        if "--text" in words:
            print(f"-- {counted(function, found.values())}\n\n{contract(function)[0]}\n")
            print("\n\n".join(it.page() for it in found.values()))
            continue
        if "-v" in words:
            for name, definition in sorted(found.items()):
                print(f"{len(definition.lines):5} {name}")
        print(counted(function, found.values()))


if __name__ == "__main__":
    main()

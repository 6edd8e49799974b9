"""Names in backquotes: files and folders of this repository, and identifiers of its sources."""

import re
from fnmatch import fnmatchcase

import foreign
import markdown

SUFFIXES = (".rt", ".rs", ".antt", ".md", ".sh", ".py", ".txt", ".h", ".toml", ".edit")
# What a document writes without the suffix that the file has.
LEFT_OUT = (".antt", ".rt", ".edit", ".rs")
SOURCES = ("crates", "rust", "include", "tools")
# What documents and their checks say of names is none of their sources.
NO_SOURCE = "tools/documents"
# Parts of a path that stand for any.
ANY = re.compile(r"\b(?:NAME|CRATE|FILE|FOLDER|VERSION)\b")
PATH = re.compile(r"[\w.*{},/@+-]+$")
TYPE_NAME = re.compile(r"((?:[A-Za-z_]\w*::)+[A-Za-z_]\w*)(?:\(.*\))?$")
CALL = re.compile(r"([A-Za-z_]\w*)\(\)$")
CAMEL = re.compile(r"([A-Z][A-Za-z0-9]*[a-z][A-Za-z0-9]*)$")
WORD = re.compile(r"[A-Za-z_]\w*")
CALLED = re.compile(r"([A-Za-z_]\w*)[(<!]")


class Names:
    """The paths of the repository, and for each word of its sources the files that have it."""

    def __init__(self, root):
        self.paths, self.words, self.called = set(), {}, set()
        for path in root.rglob("*"):
            inside = path.relative_to(root)
            if markdown.is_built(inside):
                continue
            self.paths.add("/" + inside.as_posix())
            if path.is_file() and inside.parts[0] in SOURCES and path.suffix != ".md":
                if not inside.as_posix().startswith(NO_SOURCE):
                    self.read(path, inside)
        self.ends = {end for path in self.paths for end in self.ends_of(path)}

    def read(self, path, inside):
        text = path.read_bytes()
        if b"\0" not in text[:1024]:
            text = text.decode("utf-8", "replace")
            self.called.update(CALLED.findall(text))
            for word in set(WORD.findall(text)):
                self.words.setdefault(word, set()).add(inside)

    @staticmethod
    def ends_of(path):
        """Returns all that may stand for a path: its ends from any folder on, and without a suffix."""
        parts = path.strip("/").split("/")
        for start in range(len(parts)):
            end = "/".join(parts[start:])
            yield end
            for suffix in LEFT_OUT:
                if end.endswith(suffix):
                    yield end.removesuffix(suffix)

    def has_path(self, name):
        name = name.removeprefix("./").rstrip("/")
        if name in self.ends:
            return True
        wanted = ANY.sub("*", name)
        choices = re.search(r"\{([^{}]*)\}", wanted)
        if choices:
            return all(self.has_path(wanted.replace(choices[0], choice, 1)) for choice in choices[1].split(","))
        return "*" in wanted and any(fnmatchcase(end, wanted) for end in self.ends)

    def has(self, name):
        """Whether the sources have the identifier that stands in backquotes; of what is no identifier it is true."""
        call = CALL.match(name)
        if call:
            return call[1] in self.called
        match = TYPE_NAME.match(name) or CAMEL.match(name)
        return not match or match[1] in foreign.NAMES or self.has_path_of_words(match[1])

    def has_path_of_words(self, path):
        """Whether some file of the sources has the last two words of a path, or has the last and is called so."""
        *_, last = parts = path.split("::")
        files = self.words.get(last, set())
        if len(parts) == 1:
            return bool(files)
        known = self.words.get(parts[-2], set())
        return any(file in known or parts[-2] in file.with_suffix("").parts for file in files)


def is_path(name):
    """Whether what stands in backquotes names a file or a folder."""
    if not PATH.match(name) or name.startswith(("/", "-", ".", "*")) and not name.startswith((".ci/", "./")):
        return False
    return name.endswith(SUFFIXES) or "/" in name and not re.fullmatch(r"[\d/.]+", name)


def check(names, blocks):
    """Returns the names of a document that nothing has, each with its line."""
    for block in blocks:
        if block.kind == "code":
            continue
        for line, name in markdown.spans(block):
            if is_path(name):
                if not foreign.has_path(name) and not names.has_path(name):
                    yield line, f"unknown file: {name}"
            elif not names.has(name):
                yield line, f"unknown identifier: {name}"

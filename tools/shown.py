#!/usr/bin/env python3
"""Shows that a user would see each wrong body that has a name: applies it to a copy, tries what mutants/shown.txt names
without a proof, and fails where that still passes.

usage: tools/shown.py [NAME ..], by default all of them
"""

import re
import shutil
import subprocess
import sys
import tempfile
from concurrent.futures import ThreadPoolExecutor
from pathlib import Path

ROOT = Path(__file__).resolve().parent.parent
sys.path[:0] = [str(ROOT / "tools"), str(ROOT / "tools/play")]

import large  # noqa: E402
import wrong_bodies  # noqa: E402


def tried(folder, *words, lines=None):
    """Returns what `rt try` wrote in a crate's folder."""
    command = ["rt", "try", *words]
    ended = subprocess.run(command, cwd=folder, input=lines, capture_output=True, text=True, check=False)
    return ended.stdout, ended.stderr


def otherwise(out, err):
    """Returns how many replies were not as expected, by the last line of `play --check`."""
    found = re.findall(r"(\d+) otherwise", out)
    if not found:
        raise RuntimeError(f"play was not tried: {out[-300:]}{err[-600:]}")
    return sum(map(int, found))


def failed_tests(folder):
    out, err = tried(folder, "--test")
    failed = set(re.findall(r"^test (\S+) \.\.\. FAILED", out, re.M))
    if "test result:" not in out:
        raise RuntimeError(f"the tests were not tried: {out[-300:]}{err[-600:]}")
    return failed


def is_seen(copy, kind, names):
    """Returns whether what is tried in the copy fails as it doesn't here."""
    if kind == "play":
        return otherwise(*tried(copy / "crates/play", "--", "--check", f"data/{names[0]}")) > 0
    if kind == "large":
        lines = "\n".join([*getattr(large, names[0])(*map(int, names[1:])).lines, ""])
        return otherwise(*tried(copy / "crates/play", "--", "--check", lines=lines)) > 0
    crate = f"crates/{names[0] if names else kind}"
    return bool(failed_tests(copy / crate) - failed_tests(ROOT / crate))


def show(row):
    crate, name, kind, *names = row
    with tempfile.TemporaryDirectory() as folder:
        copy = Path(folder)
        shutil.copytree(ROOT / "crates", copy / "crates", ignore=shutil.ignore_patterns("out"))
        for file in ("crates.txt", "HANDLES"):
            shutil.copy(ROOT / file, copy)
        places = (ROOT / f"crates/{crate}/must-fail/{name}.edit", ROOT / f"mutants/{crate}/{name}.edit")
        edit = next((it for it in places if it.is_file()), places[0])
        texts, fault = wrong_bodies.applied(edit, copy / "crates" / crate)
        if fault:
            raise RuntimeError(f"{edit}: {fault}")
        for path, text in texts.items():
            path.write_text(text, encoding="utf-8")
        seen = is_seen(copy, kind, names)
    print(f"{name}: {'shown by' if seen else 'NOT SHOWN by'} {' '.join([kind, *names])}", flush=True)
    return seen


def main():
    wanted = set(sys.argv[1:])
    lines = (ROOT / "mutants/shown.txt").read_text(encoding="utf-8").splitlines()
    rows = [line.split() for line in lines if line and not line.startswith("#")]
    rows = [row for row in rows if not wanted or row[1] in wanted]
    with ThreadPoolExecutor(2) as pool:
        seen = list(pool.map(show, rows))
    print(f"{sum(seen)} of {len(rows)} wrong bodies shown")
    return 0 if rows and all(seen) else 1


if __name__ == "__main__":
    sys.exit(main())

#!/usr/bin/env python3
"""Plays what no script of crates/play/data says: replies that are not as expected, a line that is too
long, an output that takes nothing, large sizes, and frames with each byte spoilt.

usage: tools/play/check.py [PROGRAM], by default the one that `rt run` or `rt ci` built
"""

import subprocess
import sys
from pathlib import Path

import large
import spoilt

ROOT = Path(__file__).resolve().parents[2]
PLAY = Path(sys.argv[1] if len(sys.argv) > 1 else ROOT / 'crates/play/out/play').resolve()

WRONG = b"""= ready
tracked
= 0
= 1 # two

  # nothing
alll
= error: line 7: unknown command, expected all or another of --help
alll
tracked
"""

TOLD = b"""line 1: expected ready, was nothing
line 4: expected 1, was 0
error: line 9: unknown command, expected all or another of --help
4 replies, 2 as expected, 2 otherwise
"""

# A line may have 1,048,576 bytes.
LONG = b' ' * (1 << 20) + b'\ntracked\n' + b' ' * ((1 << 20) + 1) + b'\n\xff\ntracked'

PASSED_OVER = b"""0
error: line 3: line too long, expected at most 1048576 bytes
error: line 4: bytes that are no text, expected UTF-8
0
"""


def play(lines, *words):
    ended = subprocess.run([PLAY, *words], input=lines, stdout=subprocess.PIPE, check=False)
    return ended.returncode, ended.stdout


def assert_played(name, wanted, lines, *words):
    found = play(lines, *words)
    assert found == wanted, f'{name}: {found}, wanted {wanted}'


def assert_not_written():
    with open('/dev/full', 'wb') as full:
        ended = subprocess.run([PLAY], input=b'listen 1 100\ntracked\n', stdout=full, check=False)
    assert ended.returncode == 1, f'an output that takes nothing: status {ended.returncode}, wanted 1'


def played(lines):
    """The replies to the lines, one for each."""
    status, replies = play('\n'.join([*lines, '']).encode())
    replies = replies.decode().splitlines()
    assert status == 0 and len(replies) == len(lines), f'status {status}, {len(replies)} replies'
    return replies


def assert_large():
    info = '0004010203041f40e80700000000000000010000000000000000'
    greeting = played(['frame greeting 10@1000'])[0]
    scripts = large.all_of(greeting, info)
    for name, script in scripts.items():
        count = len(script.lines) // 2
        told = f'{count} replies, {count} as expected, 0 otherwise\n'.encode()
        assert_played(name, (0, told), '\n'.join([*script.lines, '']).encode(), '--check')
    return len(scripts)


def main():
    assert_played('replies that are not as expected', (1, TOLD), WRONG, '--check')
    assert_played('a line that is too long', (1, PASSED_OVER), LONG)
    assert_not_written()
    print(f'play: {assert_large()} scripts of large sizes, {spoilt.assert_refused(played)} spoilt frames')


main()

#!/usr/bin/env python3
"""Makes the calls of forms.txt, each of the table at least once, and says where an answer isn't the one that stands there.

usage: tools/exports/forms.py LIBRARY, the libp2p_session.so that `tools/release.sh --shared` makes
"""
import os
import re
import sys

sys.dont_write_bytecode = True
HERE = os.path.dirname(os.path.abspath(__file__))
sys.path.insert(0, os.path.join(HERE, '../../examples'))

import session
import table

ROOM = 512


def read_bytes(text, named):
    """The bytes that are written so."""
    read = b''
    for word in text.split():
        byte, _, times = word.partition('*')
        read += named[word] if word in named else bytes.fromhex(byte) * int(times or 1)
    return read


def made(made_on, call, numbers, slices):
    """What a call returns, and the bytes that it writes."""
    slices += [b''] * (3 - len(slices))
    room = ROOM if call.out() else 0
    answer, out = made_on.call(call.number, *numbers, first=slices[0], second=slices[1], third=slices[2], room=room)
    return answer, out[:answer] if answer <= room else b''


def main(library):
    read = table.read_table(os.path.join(HERE, 'session.table'))
    calls = {call.name: call for call in read.calls}
    refusals = {name: 2**64 - place for place, name in enumerate(read.refusals, 1)}
    first, *lines = open(os.path.join(HERE, 'forms.txt')).read().splitlines()
    if first != f"forms: {read.names['forms']}":
        sys.exit(f"forms.txt has {first}, and session.table forms: {read.names['forms']}")
    on, named, seen = session.Session(library), {}, set()
    for line in lines:
        if line.startswith('let '):
            _, name, text = line.split(' ', 2)
            named[name] = read_bytes(text, named)
        elif line and not line.startswith('#'):
            given, wanted = line.split('=')
            head, *slices = given.split('|')
            name, *numbers = head.split()
            number, _, text = wanted.strip().partition(' ')
            expected = refusals.get(number) or int(number), read_bytes(text, named)
            answer = made(on, calls[name], map(int, numbers), [read_bytes(one, named) for one in slices])
            if answer != expected:
                sys.exit(f'forms.txt: {line}\nanswered: {answer[0]} {answer[1].hex()}')
            seen.add(name)
    on.free()
    if seen != set(calls):
        sys.exit(f"forms.txt has no {', '.join(sorted(set(calls) - seen))}")
    print(f'the answers of all {len(seen)} calls have the forms of forms.txt')


if __name__ == '__main__':
    if len(sys.argv) != 2:
        sys.exit(__doc__)
    main(sys.argv[1])

#!/usr/bin/env python3
"""What is done with files of logs, one log after the other, as tools/replay/recorder.c writes them.

usage: logs.py longest FILE FOLDER   writes the longest log of each pair of sizes to a file of its own
       logs.py spoil FILE OTHER      writes the logs to another file, with one byte more in the answer of the call in the middle
"""
import struct
import sys
import zlib

HEAD, WHOLE = 41, 255


def records(file, at):
    """The places of the records of the log that begins here, the last one among them."""
    at += HEAD
    while True:
        (length,) = struct.unpack_from('>I', file, at)
        yield at, length
        if file[at + 4] == WHOLE:
            return
        at += 4 + length


def logs(file):
    """Of each log where it begins, and its records."""
    at = 0
    while at < len(file):
        found = list(records(file, at))
        yield at, found
        at = found[-1][0] + 4 + found[-1][1]


def longest(file, folder):
    kept = {}
    for at, found in logs(file):
        sizes = struct.unpack_from('>HH', file, at + 5)
        if sizes not in kept or len(found) > kept[sizes][0]:
            kept[sizes] = len(found), file[at:found[-1][0] + 4 + found[-1][1]]
    for (key, signature), (_, log) in kept.items():
        with open(f'{folder}/{key}_{signature}.log', 'wb') as to:
            to.write(log)


def spoil(file, other):
    """The answer of a call is its last byte, or what it wrote is."""
    file = bytearray(file)
    every = list(logs(file))
    at, found = max(every[len(every) // 2:], key=lambda log: len(log[1]))
    last = found[-1][0]
    place, length = found[len(found) // 2]
    file[place + 4 + length - 1] = (file[place + 4 + length - 1] + 1) % 256
    struct.pack_into('>I', file, last + 13, zlib.crc32(file[at:last]))
    with open(other, 'wb') as to:
        to.write(file)


if __name__ == '__main__':
    if len(sys.argv) != 4 or sys.argv[1] not in ('longest', 'spoil'):
        sys.exit(__doc__)
    with open(sys.argv[2], 'rb') as read:
        {'longest': longest, 'spoil': spoil}[sys.argv[1]](read.read(), sys.argv[3])

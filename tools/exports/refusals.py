#!/usr/bin/env python3
"""Says where the refusals of p2p_session, of its specs or of docs/C.md differ from those of tools/exports/session.table.

    refusals.py

Each has to have all of them, in their order, with the same numbers. Run at the top of the repository.
"""
import re
import sys

TABLE = re.findall(r'(?m)^refusal (\w+): ', open('tools/exports/session.table').read())


def words(camel):
    """A name in capitals, as the table has it: NoRoom is NO_ROOM. In Rattle None would read as that of an Option."""
    return re.sub(r'(?<!^)(?=[A-Z])', '_', 'None' if camel == 'Absent' else camel).upper()


def documented():
    """The names and numbers of the rows of docs/C.md, of which some have two."""
    table = re.search(r'(?ms)^\| Refusal \|.*?\n\n', open('docs/C.md').read()).group()
    for names, numbers in re.findall(r'(?m)^\| (`.*?`) \| 2\^64 (.*?) \|', table):
        yield from zip(re.findall(r'`(\w+)`', names), re.findall(r'- (\d+)', numbers))


def main():
    source = open('crates/p2p_session/src/refusal.rt').read()
    specs = open('crates/p2p_session/specs/Refusals.antt').read()
    wanted = list(enumerate(TABLE))
    found = {
        'crates/p2p_session/src/refusal.rt': [
            (int(number or 0), words(name)) for name, number in re.findall(r'Refusal::(\w+) => u64::MAX(?: - (\d+))?,', source)],
        'crates/p2p_session/specs/Refusals.antt': [
            (int(number) - 1, words(name)) for name, number in re.findall(r'(?m)^number_of (\w+) = 2 \^ 64 - (\d+)$', specs)],
        'docs/C.md': [(int(number) - 1, name) for name, number in documented()],
    }
    for place, numbers in found.items():
        if numbers != wanted:
            sys.exit(f'{place}: refusals are {numbers}, and in tools/exports/session.table {wanted}')


main()

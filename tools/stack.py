#!/usr/bin/env python3
"""Computes from an archive of the library how many bytes of stack each of its exports takes at most while no list and no map has
more than ENTRIES entries, without what functions of other libraries take. Prints them, and the functions on the deepest path:
the bytes of each, and how often it stands there.

It adds up all by which a function moves the stack pointer, whatever path is taken, and the functions that it calls, the deepest
of them. So it is an upper bound, if each call is one that it sees. A few functions of the toolchain's library call themselves;
how often is said below, by its sources. It fails if there is another recursion, a call by a pointer, an address of a function
that is used otherwise than to call it, or an instruction that moves the stack pointer in another way; and if an export takes
more than MOST bytes.

usage: tools/stack.py ARCHIVE ENTRIES [MOST]
"""
import re
import subprocess
import sys

EXPORT = re.compile(r'p2p_session_[a-z0-9_]+')

# What the archive calls of the C library, whose stack isn't added.
OTHERS = {'malloc', 'realloc', 'free', 'memcpy', 'memmove', 'memset'}


def levels_of_tree(entries):
    """A node of a map has 7 entries or more, and 8 children if it is no leaf. The root may have one entry."""
    levels = 1
    while 2 * 8 ** levels - 1 <= entries:
        levels += 1
    return levels


def levels_of_quicksort(entries):
    """A list is sorted by heaps after so many parts. The logarithm is rounded down."""
    return 2 * (entries.bit_length() - 1) + 1


def levels_of_medians(entries):
    """Each time an eighth is left, until fewer than 8 are."""
    levels = 1
    while entries >= 8 ** (levels + 1):
        levels += 1
    return levels


# What calls itself. Where one of these calls another one with the same end of its name, which stands for the types of the tree,
# it is for a level below, too, so that both together are called as often as there are levels.
LEVELS = [
    (re.compile(r'std_collections::btree::node::Node::\w+::'), levels_of_tree),
    (re.compile(r'core::slice::sort::unstable::quicksort::'), levels_of_quicksort),
    (re.compile(r'core::slice::sort::pivot::median_of_medians::'), levels_of_medians),
]


class X86:
    """The instructions of x86-64 that matter, as objdump prints them."""
    objdump = 'objdump'
    call, jump = re.compile(r'call'), re.compile(r'j\w+')
    # A call pushes the address to return to.
    pushed_by_call = 8
    # What a function that calls nothing may use below its stack pointer.
    below = 128
    by_pointer = re.compile(r'call\s+\*')
    grows = [(re.compile(r'push\b'), 8), (re.compile(r'sub\s+\$(0x[0-9a-f]+),%rsp'), 1)]
    keeps = re.compile(r'(pop\b|add\s+\$0x[0-7]?[0-9a-f]{1,7},%rsp|ret|(cmp|test)\b)')
    moves = re.compile(r'.*(,%[er]sp$|\b(pop|leave|enter)\b|xchg.*%rsp)')
    # From where a target is counted.
    start = '-0x4'


class Aarch64:
    """Those of aarch64."""
    objdump = 'aarch64-linux-gnu-objdump'
    call, jump = re.compile(r'bl\b'), re.compile(r'(b(\.\w+)?|cbn?z|tbn?z)\b')
    pushed_by_call = 0
    below = 0
    by_pointer = re.compile(r'blr')
    grows = [(re.compile(r'st[rp]\s.*\[sp, #-(\d+)\]!'), 1), (re.compile(r'st[rp]\s.*\[sp\], #-(\d+)'), 1),
             (re.compile(r'sub\s+sp, sp, #(0x[0-9a-f]+)$'), 1),
             (re.compile(r'sub\s+sp, sp, #(0x[0-9a-f]+), lsl #12'), 4096)]
    keeps = re.compile(r'((ld|st)[rp]\s.*\[sp\], #\d+|add\s+sp, sp, #0x[0-9a-f]+(, lsl #12)?$|cmp\b)')
    moves = re.compile(r'(.*\[sp(\], #|.*\]!)|\w+\s+sp,)')
    start = ''


class Function:
    def __init__(self):
        self.moved = 0
        self.calls, self.jumps = set(), set()
        self.jumps_by_pointer = False


def fail(why):
    sys.exit(f'tools/stack.py: {why}')


def run(*words):
    return subprocess.run(words, capture_output=True, text=True, check=True).stdout


def named(target, start):
    """The function that a relocation names, by itself or by its section."""
    name = target.removesuffix(start) if start else target
    if re.search(r'[+-]0x[0-9a-f]+$', name):
        fail(f'{target} is no start of a function')
    return re.sub(r'^\.text\.(unlikely\.|hot\.)?', '', name)


def instructions(listing):
    """Of each function its instructions, with what the linker puts into each, if it puts something there."""
    function, instruction, relocation = None, None, None
    for line in [*listing.splitlines(), '']:
        begun = re.fullmatch(r'[0-9a-f]+ <(.*)>:', line)
        said = re.fullmatch(r'\s+[0-9a-f]+:\t(\S.*)', line)
        put = re.fullmatch(r'\s+[0-9a-f]+: (R_\w+)\s+(.*)', line)
        if put:
            relocation = put.groups()
            continue
        if instruction:
            yield function, instruction, relocation
        # What stands behind an instruction is a comment.
        instruction, relocation = said and re.split(r'\s+(?:# |// )', said.group(1))[0].strip(), None
        if begun:
            function = begun.group(1)


def read(archive, machine):
    """The functions of the archive."""
    functions, addresses = {}, []
    for name, instruction, relocation in instructions(run(machine.objdump, '-dr', '--no-show-raw-insn', archive)):
        function = functions.setdefault(name, Function())
        if machine.by_pointer.match(instruction):
            fail(f'{name} calls by a pointer: {instruction}')
        function.moved += moved_by(name, instruction, machine)
        target = relocation and relocation[1]
        local = re.search(r'<(.*)>$', instruction)
        if machine.call.match(instruction):
            function.calls.add(named(target, machine.start) if target else named(local.group(1), ''))
        elif machine.jump.match(instruction) and target:
            function.jumps.add(named(target, machine.start))
        elif target:
            addresses.append((name, target))
    for name, target in addresses:
        if re.sub(r'[+-]0x[0-9a-f]+$', '', target).startswith('.text') or target.split('+')[0].split('-')[0] in functions:
            fail(f'{name} takes the address of {target}')
    return functions


def moved_by(name, instruction, machine):
    """The bytes by which an instruction lets the stack grow."""
    for form, unit in machine.grows:
        grown = form.match(instruction)
        if grown:
            by = int(grown.group(1), 0) if grown.groups() else 1
            # Some add 128 by taking -128 away.
            return by * unit if by < 1 << 31 else 0
    if machine.moves.match(instruction) and not machine.keeps.match(instruction):
        fail(f'{name} moves the stack pointer otherwise: {instruction}')
    return 0


def check_tables(archive, functions, machine):
    """Looks that data has no address of a function, other than those of a function's own table of jumps."""
    section = ''
    for line in run(machine.objdump, '-r', archive).splitlines():
        begun = re.fullmatch(r'RELOCATION RECORDS FOR \[(.*)\]:', line)
        put = re.match(r'[0-9a-f]+ R_\S+\s+(.*)', line)
        section = begun.group(1) if begun else section
        if put is None or section.startswith(('.text', '.eh_frame', '.debug')):
            continue
        of = re.sub(r'[+-]0x[0-9a-f]+$', '', put.group(1))
        function = re.sub(r'^\.text\.(unlikely\.|hot\.)?', '', of)
        if (function in functions or of == '.text') and section != f'.rodata.{function}':
            fail(f'{section} has an address of {of}')


class Depths:
    def __init__(self, functions, machine, entries):
        self.functions, self.machine, self.entries = functions, machine, entries
        self.known, self.open = {}, set()

    def levels(self, name):
        """How often a function stands on a path, which is once if it doesn't call itself."""
        if not self.calls_itself(name):
            return 1
        for form, levels in LEVELS:
            if form.match(name):
                return levels(self.entries)
        return fail(f'{name} calls itself')

    def calls_itself(self, name):
        return name in self.functions and name in self.functions[name].calls

    def together(self, name):
        """The functions that share the levels of this one, itself among them."""
        if not self.calls_itself(name):
            return {name}
        types = name.rpartition('::')[2]
        return {name} | {called for called in self.functions[name].calls
                         if self.calls_itself(called) and called.rpartition('::')[2] == types}

    def of(self, name):
        """The most bytes that a function and those that it calls take, and the functions on that path."""
        if name in OTHERS:
            return 0, []
        if name not in self.functions:
            fail(f'the archive calls {name}, and has no such function')
        if name in self.open:
            fail(f'{name} calls itself by way of another function')
        if name not in self.known:
            self.open.add(name)
            names, levels, pushed = self.together(name), self.levels(name), self.machine.pushed_by_call
            members = [self.functions[member] for member in names]
            calls = set().union(*(member.calls for member in members))
            below = [(0 if calls else self.machine.below, [])]
            for called in calls - names:
                depth, path = self.of(called)
                below.append((pushed + depth, path))
            below += [self.of(next_) for next_ in set().union(*(member.jumps for member in members)) - names]
            depth, path = max(below)
            moved = max(member.moved for member in members)
            self.known[name] = levels * moved + (levels - 1) * pushed + depth, [(name, moved, levels), *path]
            self.open.remove(name)
        return self.known[name]


def main(archive, entries, most=None):
    format_ = run('objdump', '-f', archive)
    machine = X86 if 'elf64-x86-64' in format_ else Aarch64
    functions = read(archive, machine)
    check_tables(archive, functions, machine)
    depths = Depths(functions, machine, int(entries))
    exports = sorted(((*depths.of(name), name) for name in functions if EXPORT.fullmatch(name)), reverse=True)
    if not exports:
        fail(f'{archive} has no export')
    for depth, _, name in exports:
        print(f'{depth + machine.pushed_by_call:7} {name}')
    print('the deepest path:')
    for name, moved, levels in exports[0][1]:
        print(f'{moved:7} {name}' + (f', {levels} times' if levels > 1 else ''))
    if most and exports[0][0] + machine.pushed_by_call > int(most):
        fail(f'{exports[0][2]} takes more than {most} bytes')


if __name__ == '__main__':
    if len(sys.argv) not in (3, 4):
        sys.exit(__doc__)
    sys.setrecursionlimit(10000)
    main(*sys.argv[1:])

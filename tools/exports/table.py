"""The table of the calls of a session, tools/exports/session.table: what it says of pairs of sizes, refusals and calls.

It has lines NAME: VALUE for crate, lib, prefix and forms; a line `pair KEY SIGNATURE: SCHEMES.` for each pair
of sizes of keys and signatures, with `first BYTE` before the colon for each first byte of a key, rising, where not all are
allowed; a line `refusal NAME: WHEN` for each number that is no answer, from UINT64_MAX downwards; and then a line for each
call, below lines with /// that say what it answers:

    7 connect(&mut self, peer: &[u8], dialer: bool)

Its number comes first. Parameters are u64, u32 and bool, which a call takes in one list of numbers, at most three &[u8],
and at most one &mut [u8], to which the answer is written. With &self nothing changes that a caller sees.

A line that begins with fn is of a function that needs no session, and its word has the module:

    fn is_global(address: &[u8]) -> u64 = Addresses.TellsGlobal
"""
import dataclasses
import hashlib
import os
import re
import sys

HERE = os.path.dirname(os.path.abspath(__file__))
NUMBERS = ('u64', 'u32', 'bool')

# What every call takes, by its number.
CALL = ['number: u64', 'numbers: &[u64]', 'first: &[u8]', 'second: &[u8]', 'third: &[u8]', 'out: &mut [u8]']
# What a call takes, in registers, that takes bytes in one place at most and writes no answer.
CALL_PEER = ['number: u64', 'numbers: &[u64]', 'peer: &[u8]']


@dataclasses.dataclass
class Call:
    """A call of a session."""
    number: int
    name: str
    changes: bool
    # Names and types.
    params: list
    doc: str

    def numbers(self):
        return [name for name, type_ in self.params if type_ in NUMBERS]

    def slices(self):
        return [name for name, type_ in self.params if type_ == '&[u8]']

    def out(self):
        """What the answer is written to, or None."""
        return next((name for name, type_ in self.params if type_ == '&mut [u8]'), None)

    def is_short(self):
        """Whether it takes bytes in one place at most, and writes no answer. Then it is made by call_peer."""
        return len(self.slices()) <= 1 and not self.out()


@dataclasses.dataclass
class Function:
    """A function that needs no session."""
    name: str
    params: list
    word: str
    doc: str


@dataclasses.dataclass
class Pair:
    """A pair of sizes."""
    key: str
    signature: str
    # The first bytes of a key, if not all are allowed.
    firsts: list
    schemes: str
    # What its exports begin with, and what its keys are called.
    prefix: str
    keys: str


@dataclasses.dataclass
class Table:
    names: dict
    pairs: list
    refusals: dict
    calls: list
    functions: list
    # The name of the export that another interface hasn't.
    interface: str


def wrapped(text, before, width=100):
    """The text in lines of at most this width that begin so."""
    lines, line = [], before
    for word in text.split():
        if len(line) + 1 + len(word) > width and line != before:
            lines.append(line.rstrip())
            line = before
        line += (' ' if line and not line.endswith(' ') else '') + word
    return '\n'.join(lines + [line.rstrip()])


def parameters(text):
    return [tuple(one.split(': ')) for one in text.split(', ')] if text else []


def read_table(path):
    names, pairs, refusals, calls, functions, doc = {}, [], {}, [], [], []
    for line in open(path):
        line = line.strip()
        if not line or line.startswith('#'):
            continue
        call = re.fullmatch(r'(\d+) (\w+)\(&(mut )?self(?:, (.*))?\)', line)
        function = re.fullmatch(r'fn (\w+)\((.*)\) -> u64 = ([\w.]+)', line)
        refusal = re.fullmatch(r'refusal (\w+): (.*)', line)
        pair = re.fullmatch(r'pair (\d+) (\d+)((?: first \d+)*): (.*)', line)
        named = re.fullmatch(r'(crate|lib|prefix|forms): (\w+)', line)
        if line.startswith('///'):
            doc.append(line[3:].strip())
        elif pair:
            pairs.append(read_pair(line, names['prefix'], not pairs, *pair.groups()))
        elif refusal:
            refusals[refusal.group(1)] = refusal.group(2)
        elif call:
            number, name, changes, params = call.groups()
            calls.append(checked(line, len(calls) + 1, Call(int(number), name, bool(changes), parameters(params), ' '.join(doc))))
            doc = []
        elif function:
            name, params, word = function.groups()
            functions.append(Function(name, parameters(params), word, ' '.join(doc)))
            doc = []
        elif named:
            names[named.group(1)] = named.group(2)
        else:
            sys.exit(f'{line}: this is no line of a table, as table.py says them')
    check_pairs(names, pairs)
    return Table(names, pairs, refusals, calls, functions, interface_of(names, pairs, refusals, calls, functions))


def checked(line, place, call):
    """The call, if its number is that of its place and it takes what calls take."""
    if call.number != place:
        sys.exit(f'{line}: the number of this call is {place}.')
    types = [type_ for _, type_ in call.params]
    if set(types) - {*NUMBERS, '&[u8]', '&mut [u8]'} or types.count('&[u8]') > 3 or types.count('&mut [u8]') > 1:
        sys.exit(f'{line}: a call takes u64, u32, bool, at most three &[u8] and one &mut [u8].')
    return call


def read_pair(line, prefix, is_first, key, signature, firsts, said):
    """A pair of sizes. The calls of the first have no sizes in their names."""
    key, signature, *firsts = (str(int(number)) for number in [key, signature, *firsts.replace('first', '').split()])
    if not (4 <= int(key) <= 65535 and 4 <= int(signature) <= 65535):
        sys.exit(f'{line}: keys and signatures have 4 to 65,535 bytes.')
    if any(int(first) > 255 for first in firsts):
        sys.exit(f'{line}: a first byte is at most 255.')
    if any(int(a) >= int(b) for a, b in zip(firsts, firsts[1:])):
        sys.exit(f'{line}: each first byte is above the one before.')
    return Pair(key, signature, firsts, said, prefix if is_first else f'{prefix}_{key}_{signature}', f'keys{key}_{signature}')


def check_pairs(names, pairs):
    """Refuses pairs that have the same names, and a first one that isn't that of the library, whose keys it has."""
    if not pairs:
        sys.exit('There is no pair of sizes.')
    sizes = [(pair.key, pair.signature) for pair in pairs]
    for key, signature in sizes:
        if sizes.count((key, signature)) > 1:
            sys.exit(f'pair {key} {signature}: it stands there twice.')
    source = f"crates/{names['lib']}/src/key.rt"
    text = open(os.path.join(HERE, '../..', source)).read()
    own = tuple(re.search(rf'(?m)^pub const {name}: usize = (\d+);$', text).group(1) for name in ('KEY_SIZE', 'SIGNATURE_SIZE'))
    if sizes[0] != own:
        sys.exit(f"pair {' '.join(sizes[0])}: the first pair is that of {source}, {' '.join(own)}.")
    if pairs[0].firsts:
        sys.exit(f"pair {' '.join(sizes[0])}: the first pair has no first bytes, since {source} takes any.")


def interface_of(names, pairs, refusals, calls, functions):
    """A name that another interface hasn't: a hash of what the exports take, of the calls with their numbers, of the
    refusals in their order, of the pairs of sizes, and of the number of the forms of answers."""
    written = lambda params: ', '.join(f'{name}: {type_}' for name, type_ in params)
    said = [f"call({', '.join(CALL)}) -> u64", f"call_peer({', '.join(CALL_PEER)}) -> u64"]
    said += [f'{call.number} {call.name}({written(call.params)})' for call in calls]
    said += [f'fn {function.name}({written(function.params)})' for function in functions]
    said += [names['prefix'], *refusals, *(' '.join([pair.key, pair.signature, *pair.firsts]) for pair in pairs), f"forms {names['forms']}"]
    return f"{names['prefix']}_interface_" + hashlib.sha256('\n'.join(said).encode()).hexdigest()[:16]

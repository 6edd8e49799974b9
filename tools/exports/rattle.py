"""Writes the static library, with the proofs of its exports: for each pair of sizes `new`, `size`, `free`, `call` and
`call_peer`."""
import os
import re

from table import HERE, wrapped

HOST = """Obligations of the host, which nothing checks. The memory of a session has size bytes and begins at a multiple of 16. It is
neither read, written nor moved while a session is in it. new comes before each other call, and free once, after the
last. One call at a time is made on a session, on whatever thread. A slice is its first item and how many it has, points
to that many initialised ones, and overlaps neither another slice that is written nor the memory of the session."""


def folders(table):
    """The folders of which everything is written here."""
    return [f"crates/{table.names['crate']}/{part}" for part in ('src', 'proofs', 'specs')]


def write(put, table):
    crate = f"crates/{table.names['crate']}"
    words = [f"ghost use Rattle.{table.names['lib']}.specs.{function.word.replace('.', '.{')}}};\n" for function in table.functions]
    parts = {'HOST': wrapped(HOST, '//! '), 'WORDS': ''.join(words), 'MODULES': ''.join(f'mod {pair.keys};\n' for pair in table.pairs),
             'FUNCTIONS': ''.join(function_text(table.names, function) for function in table.functions)}
    put(f'{crate}/src/lib.rt', filler({'interface': table.interface})(with_parts(template('lib.rt.in'), parts)))
    for pair in table.pairs:
        write_pair(put, table, pair)
    put(f'{crate}/specs/Lib.antt', ''.join(f'pub mod Keys{pair.key}_{pair.signature}\n' for pair in table.pairs[1:]))


def template(path):
    return open(os.path.join(HERE, 'template', path)).read()


def filler(names):
    """What puts names in the places of a template that have them: @NAME@."""
    return lambda text: re.sub(r'@([A-Z]+)@', lambda found: names[found.group(1).lower()], text)


def with_parts(text, parts):
    """A template with longer parts in their places: #NAME#."""
    return re.sub(r'#([A-Z]+)#', lambda found: parts[found.group(1)], text)


def write_pair(put, table, pair):
    """The session with keys of one pair of sizes, and its exports with their proofs. The first pair's keys are the library's."""
    crate, lib, is_first = table.names['crate'], table.names['lib'], pair is table.pairs[0]
    fill = filler({'crate': crate, 'lib': lib, 'prefix': pair.prefix, 'keys': pair.keys, 'key': pair.key,
                   'less': str(int(pair.key) - 1), 'signature': pair.signature, 'firsts': ' or '.join(pair.firsts),
                   'keysplace': f'{lib}.specs.Keys' if is_first else f'{crate}.specs.Keys{pair.key}_{pair.signature}',
                   'keyplace': lib if is_first else f'crate::{pair.keys}::key'})
    for export in ('new', 'free', 'call', 'call_peer'):
        proof = template(f'proofs/X_{export}/Proof.antt.in')
        put(f'crates/{crate}/proofs/{pair.keys}/{pair.prefix}_{export}/Proof.antt', fill(proof))
    text = with_parts(template('pair.rt.in'), {'MODULES': '' if is_first else '\npub mod key;\n'})
    put(f'crates/{crate}/src/{pair.keys}.rt', fill(text))
    if not is_first:
        write_key(put, f'crates/{crate}', fill, pair)


def function_text(names, function):
    """A function that needs no session."""
    said = [f'{name}.now' if type_ == '&[u8]' else name for name, type_ in function.params]
    params = ', '.join(f'{name}: {type_}' for name, type_ in function.params)
    return f"""
{wrapped(function.doc, '/// ')}
#[unsafe(no_mangle)]
pub extern "C" fn {names['prefix']}_{function.name}({params}) -> u64
    ensures {{ {' '.join([function.word.split('.')[1], *said, 'result'])} }}
{{
    {names['lib']}::{function.name}({', '.join(name for name, _ in function.params)})
}}
"""


def write_key(put, crate, fill, pair):
    """The keys and signatures of one pair of sizes, and what contracts see of them."""
    parts = {'LISTED': ' ∷ '.join(pair.firsts), 'OTHERS': ' && '.join(f'bytes[0] != {first}' for first in pair.firsts)}
    put(f'{crate}/src/{pair.keys}/key.rt', fill(with_parts(template('first_key.rt.in' if pair.firsts else 'key.rt.in'), parts)))
    parts = {'FIRST': '', 'USE': 'use Rattle.@CRATE@.specs.declared.@KEYS@.key.Key.{Key}', 'KEY': 'Key'}
    if pair.firsts:
        parts = {'FIRST': ' A key begins with @FIRSTS@.', 'USE': 'use Rattle.std.specs.Prelude.{ℕ, List}', 'KEY': '(List ℕ)'}
    put(f'{crate}/specs/Keys{pair.key}_{pair.signature}.antt', fill(with_parts(template('keys.antt.in'), parts)))

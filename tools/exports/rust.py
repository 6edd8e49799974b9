"""Writes what the Rust crates have of each pair of sizes: src/exports.rs of p2p-directory-sys, and in p2p-directory the
module of each pair but the first."""
import re
import textwrap

from table import CALL, CALL_PEER, wrapped

WRITTEN = 'Written by tools/exports.sh from tools/exports/session.table.'

EXPORTS = """//! {written}
//!
//! What the library exports: a session for each pair of sizes, and what needs no session. This file
//! and `library.rs` have `unsafe`, and no others.

use crate::library::{{Exported, Exports, Handle, Library}};

{refusals}
unsafe extern "C" {{
    // Only an archive with the same calls, refusals and pairs of sizes has this name.
    #[link_name = "{interface}"]
    pub(crate) safe fn interface() -> u64;
}}

{functions}
{pairs}"""

FUNCTION = """{doc}
pub fn {name}({taken}) -> u64 {{
    unsafe extern "C" {{
        fn {prefix}_{name}(
{declared}        ) -> u64;
    }}
    // SAFETY: slices are valid.
    unsafe {{ {prefix}_{name}({passed}) }}
}}
"""

PAIR = """/// Keys of {key} bytes and signatures of {signature}.
pub struct Keys{key}_{signature};

/// How many bytes a key has.
pub const KEY_SIZE: usize = {key};
/// How many bytes a signature has.
pub const SIGNATURE_SIZE: usize = {signature};
{firsts}
/// A session with keys and signatures of these sizes.
pub type Session = crate::sized::Session<Library<Keys{key}_{signature}>>;

impl Exported for Keys{key}_{signature} {{
    const EXPORTS: Exports = Exports {{
        size: {prefix}_size,
        new: {prefix}_new,
        free: {prefix}_free,
        call: {prefix}_call,
        call_peer: {prefix}_call_peer,
    }};
}}

unsafe extern "C" {{
    safe fn {prefix}_size() -> usize;

    fn {prefix}_new(at: *mut Handle);

    fn {prefix}_free(at: *mut Handle);

    fn {prefix}_call(
{call}    ) -> u64;

    fn {prefix}_call_peer(
{call_peer}    ) -> u64;
}}
"""

FIRSTS = """/// The first byte of a key is one of these.
pub const FIRST_BYTES: [u8; {count}] = [{firsts}];
"""

MODULE = """
{doc}
pub mod {module} {{
    use crate::library::{{Exported, Exports, Handle, Library}};

{pair}}}
"""

TYPED_PAIRS = """//! The pairs of sizes but that of the root.
// {written}

{modules}"""

TYPED_PAIR = """{doc}
//!
//! Each name stands for what it does at the root of the crate, with these sizes. Types that don't
//! depend on them are the same. Examples are those of the root, with keys of 32 bytes.
// {written}

use p2p_directory_sys::{module} as exports;

pub use crate::shared::*;

crate::keys::{macro}!({module}, {key}, exports);
crate::keys::signature!({module}, {signature});
crate::keys::pair!({module}, Keys{key}_{signature}, exports);
"""


def folders(table):
    """The folders of which everything is written here."""
    return ['rust/p2p-directory/src/pairs']


def write(put, table):
    put('rust/p2p-directory-sys/src/exports.rs', exports(table))
    sources = 'rust/p2p-directory/src'
    others = sorted(table.pairs[1:], key=lambda pair: (int(pair.key), int(pair.signature)))
    modules = ''.join(f'pub mod {pair.keys};\n' for pair in others)
    put(f'{sources}/pairs.rs', TYPED_PAIRS.format(written=WRITTEN, modules=modules))
    for pair in others:
        put(f'{sources}/pairs/{pair.keys}.rs', typed_pair(pair))


def exports(table):
    """The refusals, what needs no session, and the exports of each pair of sizes."""
    refusals = ''.join(f"/// {said}\npub const {name}: u64 = u64::MAX{f' - {place}' if place else ''};\n"
                       for place, (name, said) in enumerate(table.refusals.items()))
    pairs = pair_text(table.pairs[0])
    for pair in table.pairs[1:]:
        doc = f'The calls of a session with keys of {pair.key} bytes and signatures of {pair.signature}: {pair.schemes}'
        pairs += MODULE.format(doc=wrapped(doc, '/// '), module=pair.keys, pair=indented(pair_text(pair)))
    functions = '\n'.join(function_text(table.names['prefix'], function) for function in table.functions)
    return EXPORTS.format(written=WRITTEN, refusals=refusals, interface=table.interface, functions=functions, pairs=pairs)


def declared(params):
    """The parameters of an export, one below the other. A slice is a pointer and a length."""
    taken = []
    for name, type_ in params:
        item = re.fullmatch(r'&(mut )?\[(\w+)\]', type_)
        if item:
            taken += [f"{name}: *{item.group(1) or 'const '}{item.group(2)}", f'{name}_length: usize']
        else:
            taken.append(f'{name}: {type_}')
    return ''.join(f'        {one},\n' for one in taken)


def function_text(prefix, function):
    """A function that needs no session, behind a safe one."""
    passed = ', '.join(f'{name}.as_ptr(), {name}.len()' if type_ == '&[u8]' else name for name, type_ in function.params)
    return FUNCTION.format(doc=wrapped(function.doc, '/// '), name=function.name, prefix=prefix, passed=passed,
                           taken=', '.join(f'{name}: {type_}' for name, type_ in function.params),
                           declared=indented(declared(function.params)))


def pair_text(pair):
    """The sizes, the session and the exports of one pair."""
    firsts = FIRSTS.format(count=len(pair.firsts), firsts=', '.join(pair.firsts)) if pair.firsts else ''
    call, call_peer = (declared([('at', '*mut Handle'), *(one.split(': ') for one in taken)]) for taken in (CALL, CALL_PEER))
    return PAIR.format(key=pair.key, signature=pair.signature, prefix=pair.prefix, firsts=firsts, call=call, call_peer=call_peer)


def indented(text):
    return textwrap.indent(text, '    ')


def typed_pair(pair):
    """The module of the typed crate for a pair of sizes other than the first."""
    firsts = f" A key begins with {' or '.join(pair.firsts)}." if pair.firsts else ''
    doc = wrapped(f'Keys of {pair.key} bytes and signatures of {pair.signature}: {pair.schemes}{firsts}', '//! ')
    return TYPED_PAIR.format(doc=doc, written=WRITTEN, module=pair.keys, key=pair.key, signature=pair.signature,
                             macro='first_key' if firsts else 'plain_key')

"""Writes the headers for C and C++, and the table of docs/C.md with the calls by their numbers.

The header of each pair of sizes has a function for each call, which makes it by the one call of the library, or by the
shorter one. What all pairs have in common stands in a header that they include.
"""
import os
import re
import textwrap

from table import HERE, wrapped

ROOT = os.path.join(HERE, '../..')
TYPES = {'u64': 'uint64_t', 'u32': 'uint32_t', 'bool': 'bool'}
# A name of the table that is a word of C++, and what the headers say in its place.
NAMES = {'namespace': 'signing_namespace'}
WIDTH = 100


def folders(table):
    """The folders of which everything is written here."""
    return ['include']


def write(put, table):
    put(f"include/{table.names['prefix']}_common.h", common(table))
    for pair in table.pairs:
        put(f'include/{pair.prefix}.h', pair_header(table, pair))
    put('docs/C.md', document(table))


def template(name, filled):
    """A template with what stands in it for its words in capitals."""
    text = open(os.path.join(HERE, 'template', name)).read()
    return re.sub(r'@([A-Z]+)@', lambda found: str(filled[found.group(1)]), text)


def in_lines(start, items, end):
    """A list of items in lines of at most WIDTH, of which the others begin 4 columns behind the first. No item is parted."""
    indent = ' ' * (len(start) - len(start.lstrip()) + 4)
    text = ', '.join(item.replace(' ', '~') for item in items) + end
    lines = textwrap.fill(text, WIDTH, initial_indent=start, subsequent_indent=indent, break_long_words=False)
    return lines.replace('~', ' ')


def declared(params):
    """How C declares these parameters: a slice is a pointer and a length."""
    for name, type_ in params:
        name = NAMES.get(name, name)
        if type_ in TYPES:
            yield f'{TYPES[type_]} {name}'
        else:
            yield f"{'' if 'mut' in type_ else 'const '}uint8_t *{name}, size_t {name}_length"


def common(table):
    """What all pairs have in common."""
    upper = table.names['prefix'].upper()
    version = re.search(r'(?m)^version = "(.*)"$', open(os.path.join(ROOT, 'rust/Cargo.toml')).read()).group(1)
    major, minor, patch = re.match(r'(\d+)\.(\d+)\.(\d+)', version).groups()
    longest = max(len(pair.prefix) for pair in table.pairs)
    return template('common.h.in', {
        'HEADERS': '\n'.join(f"//   {f'{pair.prefix}.h':<{longest + 2}}  {sizes(pair)}" for pair in table.pairs),
        'VERSION': version, 'MAJOR': major, 'MINOR': minor, 'PATCH': patch,
        'REFUSALS': refusals(table), 'LAST': f'{upper}_{[*table.refusals][-1]}',
        'TEXTS': '\n'.join(f'        "{short(said)}",' for said in table.refusals.values()),
        'INTERFACE': table.interface,
        'FUNCTIONS': '\n'.join(function(table.names['prefix'], one) for one in table.functions),
    })


def sizes(pair):
    return f'keys of {pair.key} bytes, signatures of {pair.signature}: {pair.schemes}'


def in_c(said):
    """A sentence of the table, with the words of C."""
    return re.sub(r'u(\d+)::MAX', r'UINT\1_MAX', said).replace('`', '')


def short(said):
    """What a refusal says, without what explains it."""
    return re.match(r'[^.:]*', in_c(said)).group()


def refusals(table):
    """The numbers that are no answers, each below what it says."""
    upper = table.names['prefix'].upper()
    return ''.join(f"{wrapped(in_c(said), '// ')}\n#define {upper}_{name} (UINT64_MAX{f' - {place}' if place else ''})\n"
                   for place, (name, said) in enumerate(table.refusals.items()))


def function(prefix, one):
    """A function that needs no session. Its export has the same name, and takes no null pointer."""
    name, listed = f'{prefix}_{one.name}', list(declared(one.params))
    passed = [given if type_ in TYPES else f'{given}_length == 0 ? &none : {given}, {given}_length'
              for given, type_ in one.params]
    return '\n'.join([
        in_lines(f'uint64_t {name}_export(', listed, f') __asm__("{name}");'),
        in_lines(f'static inline uint64_t {name}(', listed, f') __asm__("{name}_inline");'),
        wrapped(one.doc, '// '),
        in_lines(f'static inline uint64_t {name}(', listed, ')'),
        '{', '    const uint8_t none = 0;', in_lines(f'    return {name}_export(', passed, ');'), '}', ''])


def pair_header(table, pair):
    """The header of a pair of sizes."""
    firsts = f" A key begins with {' or '.join(pair.firsts)}; bytes that begin otherwise are no key." if pair.firsts else ''
    head = f"The calls of a session with {sizes(pair)}{firsts} For C since C99 and C++ since C++11. " \
           f"Link with -l{table.names['prefix']}."
    more = f"{table.names['prefix']}_common.h has the obligations of the host, and the numbers that are no answers. " \
           'docs/C.md says how arguments are encoded, and what the calls return.'
    return template('pair.h.in', {
        'HEAD': f"{wrapped(head, '// ')}\n//\n{wrapped(more, '// ')}",
        'NAME': pair.prefix.upper(), 'PREFIX': pair.prefix, 'KEY': pair.key, 'SIGNATURE': pair.signature,
        'ROOM': 1 + max(int(pair.key), 8),
        'CALLS': '\n'.join(call(pair.prefix, one, table.interface) for one in table.calls),
    })


def call(prefix, one, interface):
    """The function of a call. The one that creates the node refers to the name that another interface hasn't."""
    at = f"{'' if one.changes else 'const '}struct {prefix} *at"
    numbers = [NAMES.get(name, name) for name in one.numbers()]
    slices = [NAMES.get(name, name) for name in one.slices()]
    slices += [None] * (1 - len(slices)) if one.is_short() else [None] * (3 - len(slices)) + [one.out()]
    passed = [f'at, {one.number}', f'numbers, {len(numbers)}' if numbers else 'NULL, 0']
    passed += [f'{name}, {name}_length' if name else 'NULL, 0' for name in slices]
    head = in_lines(f'static inline uint64_t {prefix}_{one.name}(', [at, *declared(one.params)], ')')
    lines = [wrapped(one.doc, '// '), head, '{']
    if one.name == 'init':
        lines.append(f'    (void){interface}();')
    if numbers:
        lines.append(in_lines('    const uint64_t numbers[] = {', numbers, '};'))
    made_by = 'short_request' if one.is_short() else 'request'
    return '\n'.join([*lines, in_lines(f'    return {prefix}_{made_by}(', passed, ');'), '}', ''])


def document(table):
    """docs/C.md with the calls by their numbers, between its marks."""
    text = open(os.path.join(ROOT, 'docs/C.md')).read()
    head = '| Number | Call | `numbers` | `first` | `second` | `third` | `out` |\n|---|---|---|---|---|---|---|\n'
    return re.sub(r'(?s)(<!-- calls -->\n).*(<!-- /calls -->\n)',
                  lambda marks: marks.group(1) + head + ''.join(map(row, table.calls)) + marks.group(2), text)


def row(one):
    """What a call takes, in a row of a table."""
    types = dict(one.params)
    numbers = ', '.join(name if types[name] == 'u64' else f'{name}: {types[name]}' for name in one.numbers())
    cells = [numbers, *one.slices(), *[''] * (3 - len(one.slices())), one.out() or '']
    return f'| {one.number} | `{one.name}` |' + ''.join(f' `{cell}` |' if cell else ' |' for cell in cells) + '\n'

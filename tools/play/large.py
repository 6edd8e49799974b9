"""Scripts of many lines, or of long ones: no size alone makes a call want memory, or another answer."""


def numbers(values):
    return ','.join(map(str, values)) or '-'


def keys(values):
    return '[' + ', '.join(map(str, values)) + ']'


def bits(index, truths):
    return f'BitVec({index}, ' + (''.join('1' if truth else '0' for truth in truths) or '-') + ')'


def told(key, timestamp, port):
    return f'Info({key}, {timestamp}, 1.2.3.4:{port})'


class Script:
    """Lines, and what each has to be replied."""

    def __init__(self, settings=''):
        self.lines = []
        self.node('a', settings)

    def node(self, name, settings=''):
        self.add(f'node {name} {settings}'.strip(), 'ready')

    def add(self, line, reply):
        self.lines += [line, f'= {reply}']

    def update(self, values, timestamp, port):
        """Infos of all these keys; a line holds 40,000."""
        values = list(values)
        for first in range(0, len(values), 40_000):
            part = values[first:first + 40_000]
            self.add('update ' + ','.join(f'{key}@{timestamp}:{port}' for key in part), 'done')


def records():
    script = Script()
    many = range(10, 120_010)
    script.add(f'track 0 {numbers(many)}', 'Some([])')
    script.add('tracked', 120_000)
    script.add('bits 0', bits(0, [False] * 120_000))
    script.update(many, 0, 8000)
    script.add('bits 0', bits(0, [True] * 120_000))
    script.add('track 1 -', 'Some([])')
    script.add('tracked', 0)
    return script


def blocks(count=120_000):
    script = Script()
    many = range(10, 10 + count)
    for key in many:
        script.add(f'block {key} 100', 'true')
    script.add('blocked_peers 100', keys(many))
    return script


def dialable():
    script = Script()
    many = range(10, 12_010)
    script.add(f'track 0 {numbers(many)}', 'Some([])')
    script.update(many, 0, 8000)
    script.add('dialable 100', keys(many) + ' None')
    return script


def dialled():
    script = Script()
    many = range(10, 3_010)
    script.add(f'track 0 {numbers(many)}', 'Some([])')
    script.update(many, 1000, 8000)
    script.add('dialable 100', keys(many) + ' None')
    for key in reversed(many):
        script.add(f'dial {key} 100 {key}', 'granted')
    script.add('dialable 100', '[] None')
    for key in many:
        script.add(f'release {key}', 'done')
    script.add('dialable 100', '[] Some(120.000000000)')
    script.add('dialable 120', keys(many) + ' None')
    return script


def held():
    script = Script()
    many = range(10, 12_010)
    script.add(f'track 0 {numbers(many)}', 'Some([])')
    for key in reversed(many):
        script.add(f'listen {key} 100', 'granted')
    for key in many:
        script.add(f'status {key}', 'Reserved')
        script.add(f'release {key}', 'done')
        script.add(f'status {key}', 'Inert')
    return script


def sets():
    script = Script('max_sets=3')
    for index in range(6):
        first = index * 1_000
        primary = numbers(range(first, first + 3_000))
        script.add(f'track {index} {primary} / {numbers(range(first, first + 4_000))}', 'Some([])')
    script.add('latest_set_index', 'Some(5)')
    for key, status in [(2_999, 'None'), (3_000, 'Inert'), (8_999, 'Inert'), (9_000, 'None')]:
        script.add(f'status {key}', status)
    return script


def roles():
    script = Script('max_sets=2')
    script.add(f'track 0 {numbers(range(100, 2_100))} / {numbers(range(1_100, 4_100))}', 'Some([])')
    script.add(f'track 1 {numbers(range(2_100, 3_100))} / {numbers(range(100, 4_100))}', 'Some([])')
    every = keys(range(100, 3_100)) + ' / ' + keys(range(3_100, 4_100))
    others = [*range(100, 2_100), *range(3_100, 4_100)]
    script.add('all', every)
    script.add('latest_update', f'Some(1, {keys(range(2_100, 3_100))} / {keys(others)}, {every})')
    return script


def small_set_goes_and_large_one():
    """Of three peers beside two hundred records one stays, who is in both sets; then all go."""
    script = Script('max_sets=2')
    script.add('track 0 1,2,3', 'Some([])')
    script.add(f'track 1 {numbers(range(100, 300))} / 2,350', 'Some([])')
    for index, key, peers in [(2, 3, '101 / 5'), (3, 150, '6')]:
        script.add(f'listen {key} 100', 'granted')
        script.add(f'track {index} {peers}', f'Some([{key}])')
        script.add(f'status {key}', 'Reserved')
        script.add(f'release {key}', 'done')
        script.add(f'status {key}', 'None')
        if index == 2:
            script.add('status 1', 'None')
            script.add('status 2', 'Inert')
    for key, status in [(2, 'None'), (100, 'None'), (101, 'Inert'), (299, 'None'), (350, 'None')]:
        script.add(f'status {key}', status)
    return script


def blocks_that_end_in_turn():
    """The block of the last peer ends first."""
    script = Script()
    many = range(100, 3_100)
    for place, key in enumerate(many):
        script.add(f'block {key} {3_000 - place}', 'true')
    script.add('blocked_peers 0', keys(many))
    script.add('next_unblock', 'Some(61.000000000)')
    script.add('unblock_expired 3059', 'true')
    script.add('next_unblock', 'Some(3060.000000000)')
    script.add('blocked_peers 0', '[100]')
    return script


def blocks_that_end_together():
    """A thousand blocks, ten of them at each of a hundred seconds, end in five steps."""
    script = Script()
    begins = {100 + place: place * 37 % 100 for place in range(1_000)}
    for key, begin in begins.items():
        script.add(f'block {key} {begin}', 'true')
    script.add('next_unblock', 'Some(60.000000000)')
    for until, after, left in [(79, 80, 800), (99, 100, 600), (110, 111, 490), (158, 159, 10), (159, None, 0)]:
        still = [key for key, begin in begins.items() if begin + 60 > until]
        assert len(still) == left
        script.add(f'unblock_expired {until}', 'true')
        script.add('next_unblock', f'Some({after}.000000000)' if after else 'None')
        script.add('blocked_peers 0', keys(still))
        script.add(f'unblock_expired {until}', 'false')
    return script


def blocks_of_nobody():
    script = Script()
    many = range(10, 10_010)
    for key in many:
        script.add(f'block {key} 100', 'true')
    for line, reply in [('tracked', 0), ('blocked_peers 100', keys(many)), ('unblock_expired 159', 'false'),
                        ('blocked_peers 159', keys(many)), ('unblock_expired 160', 'true'),
                        ('unblock_expired 160', 'false'), ('next_unblock', 'None'), ('blocked_peers 100', '[]')]:
        script.add(line, reply)
    return script


def infos_of_nobody():
    """Infos of strangers change no answer."""
    script = Script()
    script.add('track 0 1', 'Some([])')
    script.add('block 2 100', 'true')
    questions = [('tracked', 1), ('bits 0', bits(0, [False])), ('status 1', 'Inert'), ('status 10', 'None'),
                 ('all', '[1] / []'), ('latest_update', 'Some(0, [1] / [], [1] / [])'), ('get_peer_set 0', 'Some([1] / [])'),
                 ('latest_set_index', 'Some(0)'), ('info 10', 'None'), ('infos 0 0 100', 'Some([])'),
                 ('eligible 10 100', 'false'), ('acceptable 1 100', 'true'), ('dialable 100', '[] None'),
                 ('blocked_peers 100', '[2]'), ('next_unblock', 'Some(160.000000000)'), ('ask 0', '02000100')]
    for line, reply in questions:
        script.add(line, reply)
    script.update(range(10, 10_010), 1000, 8000)
    for line, reply in [*questions, ('track 1 10', 'Some([])'), ('bits 0', bits(1, [False]))]:
        script.add(line, reply)
    return script


def cooldowns():
    """Each of many peers is tracked alone, granted once, and gone with the next set."""
    script = Script()
    for index in range(10_000):
        script.add(f'track {index} {index + 10}', 'Some([])')
        script.add(f'listen {index + 10} 100', 'granted')
        script.add(f'release {index + 10}', 'done')
    for line, reply in [('track 10000 -', 'Some([])'), ('tracked', 0), ('forget_cooled 109.999999999', 0),
                        ('track 10001 77', 'Some([])'), ('listen 77 109.999999999', 'refused'),
                        ('forget_cooled 110', 10_000), ('forget_cooled 110', 0), ('listen 77 100', 'granted')]:
        script.add(line, reply)
    return script


def rounds():
    script = Script()
    for index in range(2_000):
        key = 10 + index % 7
        for line, reply in [(f'track {index} {key}', 'Some([])'), (f'listen {key} {100 * index}', 'granted'),
                            (f'status {key}', 'Reserved'), (f'release {key}', 'done'),
                            ('latest_set_index', f'Some({index})')]:
            script.add(line, reply)
    return script


def rounds_of_blocks():
    script = Script()
    script.add('track 0 1', 'Some([])')
    script.add('update 1@1000', 'done')
    for start in range(100, 200_100, 100):
        for line, reply in [(f'block 1 {start}', 'true'), (f'dialable {start}', f'[] Some({start + 60}.000000000)'),
                            (f'dial 1 {start + 59}', 'refused'), (f'dial 1 {start + 60}', 'granted'),
                            ('release 1', 'done')]:
            script.add(line, reply)
    return script


def greeting(frame):
    """A node of no peers takes a greeting, and one of many."""
    script = Script()
    script.add(f'receive {frame} 100', 'Greeted')
    script.add('tracked', 0)
    script.add(f'track 0 {numbers(range(10, 12_010))}', 'Some([])')
    script.add(f'receive {frame} 100', 'Greeted')
    script.add('bits 0', bits(0, [True] + [False] * 11_999))
    return script


def exchange():
    """The right node knows all and is connected with all; then the left one asks it, twice."""
    limits = 'max_bit_vec=25000 max_peers=25000 gossip=25000'
    script = Script(limits)
    script.node('b', f'own=8 own_at=1.2.3.4:8008 {limits}')
    many = range(10, 25_010)
    for name in 'ab':
        script.add(f'{name}: track 0 {numbers(many)}', 'Some([])')
    script.add('b: update ' + ','.join(f'{key}@{key}' for key in many), 'done')
    for key in many:
        script.add(f'b: listen {key} 100', 'granted')
        script.add(f'b: connect {key} false', 'done')
    infos = ', '.join(told(key, key, 8000 + key) for key in many)
    script.add('a: exchange b 0 100 100', f'Applied([{infos}])')
    script.add('a: exchange b 0 100 100', 'Applied([])')
    script.add('a: bits 0', bits(0, [True] * 25_000))
    return script


def network():
    """Two hundred nodes, each of which asks the next three, and knows of nobody else."""
    count = 200
    script = Script()
    for key in range(count):
        script.node(f'n{key}', f'own={key} own_at=1.2.3.4:{8000 + key} '
                               f'max_bit_vec={count} max_peers={count} gossip={count}')
        script.add(f'track 0 {numbers(range(count))}', 'Some([])')
    for key in range(count):
        for ahead in (1, 2, 3):
            other = (key + ahead) % count
            script.add(f'n{key}: exchange n{other} 0 100 100', f'Applied([{told(other, 0, 8000 + other)}])')
    for key in range(count):
        script.add(f'n{key}: bits 0', bits(0, [(other - key) % count <= 3 for other in range(count)]))
    return script


def few_wanted():
    """All peers but one are known to who asks, so each that is wanted is searched."""
    script = Script()
    many = range(10, 12_010)
    script.add(f'track 0 {numbers(many)}', 'Some([])')
    script.update(many, 1000, 8000)
    for key in many:
        script.add(f'listen {key} 100', 'granted')
        script.add(f'connect {key} false', 'done')
    known = ''.join('0' if key == 5_000 else '1' for key in many)
    script.add(f'infos 0 {known} 100', f'Some([{told(5_000, 1000, 8000)}])')
    return script


def few_connections():
    """Sixty peers of six thousand are connected, and a node that is one of them is asked with bits of every kind."""
    own = 3_000
    many = range(10, 6_010)
    script = Script(f'own={own} own_at=1.2.3.4:9000')
    script.add(f'track 0 {numbers(many)}', 'Some([])')
    script.update((key for key in many if key != own), 1000, 8000)
    connected = [*range(100, 6_000, 100)]
    for key in connected:
        if key != own:
            script.add(f'listen {key} 100', 'granted')
            script.add(f'connect {key} false', 'done')
    for is_known in (lambda key: False, lambda key: key % 200 == 0, lambda key: key != 4_100, lambda key: key != own,
                     lambda key: True):
        known = ''.join('1' if is_known(key) else '0' for key in many)
        shared = [told(key, 0, 9000) if key == own else told(key, 1000, 8000) for key in connected if not is_known(key)]
        script.add(f'infos 0 {known} 100', f'Some([{", ".join(shared)}])')
    return script


def many_sets():
    """Sets at places and with indices of each size, up to more than a thousand of them."""
    script = Script('max_sets=2000')
    script.node('b', 'own=8 own_at=1.2.3.4:8008 max_sets=2000')
    for index in [0, 1, 2, 7, 8, 255, 256, *range(1_000, 2_500), 1 << 32, (1 << 32) + 1, (1 << 64) - 1]:
        for name in 'ab':
            script.add(f'{name}: track {index} 8,9', 'Some([])')
    script.add('latest_set_index', f'Some({(1 << 64) - 1})')
    # A node wants the info of the other, and knows its own.
    for place, index in [(1, 1), (4, 8), (17, 1_010), (1_200, 2_193), (1_508, (1 << 32) + 1), (1_509, (1 << 64) - 1)]:
        script.add(f'a: bits {place}', bits(index, [False, True]))
    script.add('a: ask 4', '02080202')
    script.add('a: exchange b 1509 100 100', f'Applied([{told(8, 0, 8008)}])')
    script.add('a: exchange b 4 100 100', 'Applied([])')
    script.add('a: bits 1200', bits(2_193, [True, True]))
    script.add('a: bits 1510', 'None')
    return script


def peers_of_sets():
    """A set with more secondary than primary peers goes; one of 2,000 peers is told of."""
    script = Script()
    script.add('track 0 1 / ' + numbers(range(10, 40)), 'Some([])')
    script.add('listen 10 100', 'granted')
    script.add(f'track 1 {numbers(range(100, 2_100))}', 'Some([10])')
    script.add('release 10', 'done')
    whole = keys(range(100, 2_100)) + ' / []'
    script.add('get_peer_set 1', f'Some({whole})')
    script.add('latest_update', f'Some(1, {whole}, {whole})')
    script.add('tracked', 2_000)
    return script


def bootstrappers():
    many = range(100, 140)
    script = Script('boot=' + ','.join(f'{key}@1.2.3.4:8000' for key in many))
    script.add('tracked', 40)
    script.add('dialable 100', keys(many) + ' None')
    script.add('dial 139 100 100000', 'granted')
    script.add('release 139', 'done')
    # The draw counts as the cooldown at most.
    script.add('dialable 119.999999999', keys(range(100, 139)) + ' Some(120.000000000)')
    script.add('dialable 120', keys(many) + ' None')
    return script


def long_name():
    name = '.'.join(['a' * 63, 'b' * 63, 'c' * 63, 'd' * 61])
    script = Script()
    script.add('track 0 1', 'Some([])')
    script.add(f'update 1@1000@~{name}:80', 'done')
    script.add('dialable 100', '[1] None')
    script.add('dial 1 100', 'granted')
    script.add('connect 1 true', 'done')
    script.add('info 1', f'Info(1, 1000, ~{name}:80)')
    script.add('infos 0 0 100', f'Some([Info(1, 1000, ~{name}:80)])')
    return script


def slots():
    script = Script()
    many = range(10, 100_010)
    script.add(f'track 0 {numbers(many)}', 'Some([])')
    for key in many:
        script.add(f'listen {key} 100', 'granted')
    script.add('track 1 -', f'Some({keys(many)})')
    script.add('tracked', 100_000)
    for key in many:
        script.add(f'release {key}', 'done')
    script.add('tracked', 0)
    return script


def nodes():
    """A thousand nodes, of which the last is called; one with no room for anything is asked."""
    script = Script('max_bit_vec=0 max_peers=0 max_data_length=0 gossip=0')
    for key in range(1_000):
        script.node(f'n{key}', f'own={key} own_at=1.2.3.4:8000')
    script.add('n999: track 0 1', 'Some([])')
    script.add('n999: tracked', 1)
    script.add('n998: tracked', 0)
    script.add('n999: exchange a 0 100 100', 'AskRefused(InvalidLength(1))')
    return script


def values(info):
    """Payloads of many bits, bytes and infos are read, and written as they were."""
    script = Script()
    for kind, hexed in [('bits 120000', '07c0a907' + 'ff' * 15_000),
                        ('payload 4294967295 0 0', '0207c0a907' + 'ff' * 15_000),
                        ('payload 0 0 4294967295', '0001a0c21e' + '07' * 500_000),
                        ('payload 0 4294967295 0', '03e05d' + info * 12_000)]:
        script.add(f'recode {kind} {hexed}', hexed)
    return script


def all_of(greets, info):
    """Each script by its name. A greeting is given as a frame, and an info as it is spelled."""
    without = [records, blocks, dialable, dialled, held, sets, roles, small_set_goes_and_large_one,
               blocks_that_end_in_turn, blocks_that_end_together, blocks_of_nobody, infos_of_nobody,
               cooldowns, rounds, rounds_of_blocks, exchange, network, few_wanted, few_connections, many_sets, peers_of_sets,
               bootstrappers, long_name, slots, nodes]
    scripts = {make.__name__: make() for make in without}
    scripts['greeting'] = greeting(greets)
    scripts['values'] = values(info)
    return scripts

"""Frames with each byte of them spoilt: a node refuses what its decoder refuses, by the same name."""

SIGNED = '0004010203041f41a08d060000000000000001759b133a2c037d75'
NAMED = '0103612e621f42e807000000000000000263c9c991234f1e21'

# Bits, a message, greetings from a socket and from a name, and infos.
FRAMES = ['02000200', '02000201', '020700', '02000100', '00010568656c6c6f',
          '010004010203041f41e8070000000000000001759b133a2c01f839', '01' + NAMED,
          '0300', '0301' + SIGNED, '0302' + SIGNED + NAMED]

QUESTIONS = ['all', 'latest_update', 'bits 0', 'ask 0', 'infos 0 00 1000', 'tracked', 'next_unblock', 'dialable 100',
             'blocked_peers 100', 'status 1', 'status 2', 'info 1', 'info 2', 'eligible 1 100', 'acceptable 2 100']


def spoilt(frame):
    """The frame cut off at each place, with each byte put in, changed and taken out."""
    for at in range(len(frame) + 1):
        front, back = frame[:at], frame[at:]
        yield front
        yield front + back[1:]
        for value in range(256):
            yield front + bytes([value]) + back
            yield front + bytes([value]) + back[1:]


def assert_refused(played):
    """Played lines are replied; the node is asked before and after what it refuses."""
    count = 0
    for spelled in FRAMES:
        frames = sorted({frame.hex() or '-' for frame in spoilt(bytes.fromhex(spelled))})
        read = played([f'decode payload 8 8 32 {frame}' for frame in frames])
        faults = {frame: fault for frame, fault in zip(frames, read) if '(' not in fault or is_fault(fault)}
        begin = ['node a own_at=1.2.3.4:8009', 'track 0 1,2']
        lines = begin + QUESTIONS + [f'receive {frame} 100' for frame in faults] + QUESTIONS
        replies = played(lines)[len(begin):]
        before, told, after = replies[:len(QUESTIONS)], replies[len(QUESTIONS):-len(QUESTIONS)], replies[-len(QUESTIONS):]
        assert before == after, f'{spelled}: {before} became {after}'
        for (frame, fault), reply in zip(faults.items(), told):
            assert reply == f'Codec({fault})', f'{frame}: {reply}, and its decoder says {fault}'
        count += len(faults)
    assert count > 20_000
    return count


def is_fault(reply):
    return reply.startswith(('InvalidLength(', 'InvalidVarint(', 'InvalidEnum(', 'Invalid(', 'ExtraData('))

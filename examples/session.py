#!/usr/bin/env python3
"""A node in Python, by the one call of the library: docs/C.md lists the calls by their numbers.

usage: examples/session.py LIBRARY, the libp2p_session.so that `tools/release.sh --shared` makes, or the shared.sh of a release
"""

import ctypes
import sys

KEY, SIGNATURE, ALIGNMENT = 32, 64, 16
INIT, TRACK, LISTEN, CONNECT, RELEASE, BLOCK, STATUS, ALL, TRACKED, ASK = 1, 2, 5, 7, 8, 10, 15, 19, 28, 29
NO_NODE, NOT_HELD, BAD_CALL = 2**64 - 2, 2**64 - 6, 2**64 - 14


class Session:
    """A session with keys of 32 bytes, in memory of its own."""

    def __init__(self, path):
        library = ctypes.CDLL(path)
        library.p2p_session_size.restype = ctypes.c_size_t
        library.p2p_session_new.argtypes = library.p2p_session_free.argtypes = [ctypes.c_void_p]
        library.p2p_session_call.restype = ctypes.c_uint64
        read = [ctypes.c_char_p, ctypes.c_size_t]
        library.p2p_session_call.argtypes = [
            ctypes.c_void_p, ctypes.c_uint64, ctypes.POINTER(ctypes.c_uint64), ctypes.c_size_t,
            *read, *read, *read, ctypes.c_void_p, ctypes.c_size_t]
        self.library = library
        self.memory = ctypes.create_string_buffer(library.p2p_session_size() + ALIGNMENT)
        self.at = (ctypes.addressof(self.memory) + ALIGNMENT - 1) // ALIGNMENT * ALIGNMENT
        library.p2p_session_new(self.at)

    def call(self, number, *numbers, first=b"", second=b"", third=b"", room=0):
        """Returns the answer of a call, and its buffer of this many bytes. No pointer is null."""
        given = (ctypes.c_uint64 * max(1, len(numbers)))(*numbers)
        out = ctypes.create_string_buffer(max(1, room))
        answer = self.library.p2p_session_call(
            self.at, number, given, len(numbers), first, len(first), second, len(second), third, len(third), out, room)
        return answer, out.raw[:room]

    def free(self):
        """Frees what the session holds. It takes no call any more."""
        self.library.p2p_session_free(self.at)


def expect(name, answer, expected):
    if answer != expected:
        sys.exit(f"{name}: {answer!r}, not {expected!r}")


def main(path):
    session = Session(path)
    one, two, local = (bytes([number]) * KEY for number in (1, 2, 9))
    info = bytes([0, 4, 1, 2, 3, 4, 0x1F, 0x40, 0]) + local + bytes(SIGNATURE)
    setup = [1, 1, 1, 1, 10, 0, 60, 0, 1024, 256, 4096, 256, 30, 0]
    expect("tracked without a node", session.call(TRACKED)[0], NO_NODE)
    expect("init with a bool of 2", session.call(INIT, 2, *setup[1:], first=b"net", third=info)[0], BAD_CALL)
    expect("init", session.call(INIT, *setup, first=b"net", third=info)[0], 1)
    expect("track", session.call(TRACK, 0, first=one + two)[0], 0)
    expect("track with a third slice", session.call(TRACK, 1, first=one, third=two)[0], BAD_CALL)
    expect("listen", session.call(LISTEN, 100, 0, 0, 0, first=one)[0], 1)
    expect("listen with three numbers", session.call(LISTEN, 100, 0, 0, first=one)[0], BAD_CALL)
    expect("connect", session.call(CONNECT, 0, first=one)[0], 1)
    expect("status", session.call(STATUS, first=one)[0], 2)
    length, peers = session.call(ALL, room=8 + 2 * KEY)
    expect("all", peers[:length], (2).to_bytes(8, "big") + one + two)
    length, frame = session.call(ASK, 0, room=16)
    expect("ask", frame[:length], bytes([2, 0, 2, 0]))
    expect("block", session.call(BLOCK, 100, 0, first=two)[0], 1)
    expect("release", session.call(RELEASE, first=one)[0], 1)
    expect("release again", session.call(RELEASE, first=one)[0], NOT_HELD)
    expect("no call", session.call(0)[0], BAD_CALL)
    session.free()
    print(f"a node in Python asks for the infos of two peers: {frame[:length].hex()}")


if __name__ == "__main__":
    if len(sys.argv) != 2:
        sys.exit(__doc__)
    main(sys.argv[1])

#!/usr/bin/env python3
"""Measures how each call grows with the number of peers, from Rust: nanoseconds a peer of the call, or a call.

tools/growth.py PROGRAM [PROCESSOR] prints bench/growth.csv. PROGRAM is the benchmark that `cargo bench --no-run` names.
The lowest median of some turns counts, each with few samples where they are large.
"""
import subprocess
import sys

PEERS = (1_000, 10_000, 100_000, 1_000_000)

# Scenario, and what of the call is counted: "peer" where it is one call of all peers, "call" where it is many calls.
SCENARIOS = (
    ("track", "track, a peer of the set", "peer"),
    ("listen", "listen and release", "call"),
    ("dial", "dial and release", "call"),
    ("connect", "listen, connect and release", "call"),
    ("update_1", "update_peers, lists of 1, an info", "peer"),
    ("update_100", "update_peers, lists of 100, an info", "peer"),
    ("block", "block", "call"),
    ("unblock_expired", "unblock_expired that ends all, a block", "peer"),
    ("unblock_idle", "unblock_expired that ends none", "call"),
    ("forget_cooled", "forget_cooled that forgets all, a cooldown", "peer"),
    ("blocked_peers", "blocked_peers, a block", "peer"),
    ("next_unblock", "next_unblock", "call"),
    ("status", "status", "call"),
    ("eligible", "eligible", "call"),
    ("acceptable", "acceptable", "call"),
    ("info", "info", "call"),
    ("infos", "infos, a peer of the set", "peer"),
    ("bits", "get_random_bit_vec, a peer of the set", "peer"),
    ("all", "all, a peer", "peer"),
    ("get_peer_set", "get_peer_set, a peer", "peer"),
    ("latest_update", "latest_update, a peer", "peer"),
    ("dialable", "dialable, a peer", "peer"),
    ("latest_set_index", "latest_set_index", "call"),
    ("tracked", "tracked", "call"),
)


def median(program, scenario, peers, samples, processor):
    words = ["taskset", "-c", processor, program, scenario, str(peers), str(samples), "32"]
    printed = subprocess.run(words, check=True, capture_output=True, text=True).stdout.split()
    return int(printed[1]), int(printed[2]) // samples


def nanoseconds(program, scenario, counted, peers, processor):
    samples, turns = (5, 2) if peers == 1_000_000 else (9, 3) if peers == 100_000 else (40, 5)
    best = None
    for _ in range(turns):
        time, done = median(program, scenario, peers, samples, processor)
        each = time / (peers if counted == "peer" else max(done, 1))
        best = each if best is None else min(best, each)
    return best


def main():
    program, processor = sys.argv[1], (sys.argv[2:] or ["0"])[0]
    print("call," + ",".join(str(peers) for peers in PEERS))
    for scenario, name, counted in SCENARIOS:
        cells = (nanoseconds(program, scenario, counted, peers, processor) for peers in PEERS)
        print('"' + name + '",' + ",".join((f"{cell:.3g}" if cell < 1000 else f"{cell:.0f}") for cell in cells), flush=True)


main()

#!/usr/bin/env python3
"""Measures what it costs that keys have several sizes, from Rust: the nanoseconds of each scenario with keys of 32 bytes, in
the commit before there were others and now, and now with those of 33.

tools/pairs.py BEFORE NOW [PROCESSOR] prints bench/pairs.csv. BEFORE and NOW are the benchmarks that `cargo bench --no-run`
names in a clone of each commit. They run by turns; of each the lowest median of 20 turns counts.
"""
import subprocess
import sys

TURNS = 20
PEERS = (100, 1_000, 10_000)
SCENARIOS = ("init", "track", "dial", "listen", "connect", "connect_dialer", "update_1", "update_100", "block", "unblock_expired",
    "forget_cooled", "blocked_peers", "status", "eligible", "acceptable", "info", "infos", "bits", "get_peer_set", "all",
    "latest_update", "dialable", "receive", "data")
# Those of one call have more samples, for each takes a tenth of a microsecond at most.
SHORT = ("status", "eligible", "acceptable", "info", "data", "bits")


def median(program, processor, words):
    printed = subprocess.run(["taskset", "-c", processor, program, *map(str, words)], check=True, capture_output=True, text=True)
    return int(printed.stdout.split()[1])


def main():
    before, now, processor = sys.argv[1], sys.argv[2], (sys.argv[3:] or ["0"])[0]
    print("scenario,peers,before_ns,now_ns,ratio,keys_of_33_ns,ratio_to_32")
    for scenario in SCENARIOS:
        for peers in PEERS:
            words = (scenario, peers, max(40, (30_000 if scenario in SHORT else 6_000) // (peers // 10)))
            runs = ((before, words), (now, words), (now, (*words, 33)))
            times = [min(column) for column in zip(*([median(program, processor, it) for program, it in runs] for _ in range(TURNS)))]
            print(f"{scenario},{peers},{times[0]},{times[1]},{times[1] / times[0]:.3f},{times[2]},{times[2] / times[1]:.3f}", flush=True)


main()

#!/usr/bin/env python3
"""Measures what a call of the table of ids and of the pool costs, in instructions and in nanoseconds.

A round of `made`, `client` and `front` is four searches and the making of two ids: the oldest id is found and leaves, and a
new one is found absent and comes. The table is full all the time. A round of `pool` is a `push_back`, an `unlink`, a
`to_back` and two calls of `first`; one of `ends` takes the first order of a queue out and puts one at its end; and one of `any` takes one out
wherever it is in a queue and puts one at the end of one. Instructions are counted by valgrind's callgrind, and are the same in each run: those of
100,000 rounds, and then of a million more, on what the first ones left. Nanoseconds are the least of five runs of a million
rounds. From each figure what no round takes is subtracted.

    (cd crates/container_bench && rt run)    proves and builds the program
    bench/containers.py [PROGRAM]            wants valgrind, a package of Debian
"""

import os
import re
import subprocess
import sys
import time

TOP = os.path.dirname(os.path.dirname(os.path.abspath(__file__)))
PROGRAM = os.path.join(TOP, "crates", "container_bench", "out", "container_bench")

WORKS = ["made", "client", "front", "pool", "ends", "any"]
LIVE = [1_000, 10_000, 100_000]
FEW = 100_000
MANY = 1_000_000
RUNS = 5


def run(words):
    """What a run of some words writes to standard error."""
    return subprocess.run(words, check=True, stdout=subprocess.DEVNULL, stderr=subprocess.PIPE, text=True).stderr


def instructions(program, work, live, rounds):
    told = run(["valgrind", "--tool=callgrind", "--callgrind-out-file=/dev/null", program, work, str(live), str(rounds)])
    return int(re.search(r"Collected : (\d+)", told).group(1))


def seconds(program, work, live, rounds):
    """The least time of some runs."""
    times = []
    for _ in range(RUNS):
        start = time.perf_counter()
        run([program, work, str(live), str(rounds)])
        times.append(time.perf_counter() - start)
    return min(times)


def main():
    program = sys.argv[1] if len(sys.argv) > 1 else PROGRAM
    print("work    live      instructions   of a million more   nanoseconds")
    for work in WORKS:
        for live in LIVE:
            none, few, more = (instructions(program, work, live, rounds) for rounds in (0, FEW, FEW + MANY))
            time_of = (seconds(program, work, live, MANY) - seconds(program, work, live, 0)) / MANY
            print(f"{work:7} {live:7,} {(few - none) / FEW:13.0f} {(more - few) / MANY:19.0f} {1e9 * time_of:13.0f}")


if __name__ == "__main__":
    main()

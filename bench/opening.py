#!/usr/bin/env python3
"""Measures what an indicative opening costs: orders at many prices that cross are collected over no journal, and the openings printed.

For each row it starts `globex opening` in a folder in memory with the orders in a file, and counts the processor time of the process, of
the middle of the rounds. The first row is one order, so it is mostly the start.

    ./run-example.sh                                       builds the program
    bench/opening.py [--globex PROGRAM] [--rounds N] [--orders N] [--folder FOLDER]
"""

import argparse
import os
import resource
import statistics
import subprocess
import tempfile

import streams

LOWEST = 1_000_000


def both_sides(orders, levels):
    """As many buys as sells, each side at half of the levels; every buy price is above every second sell price."""
    half = levels // 2
    found = []
    for k in range(orders // 2):
        price = LOWEST + 2 * (k % half)
        found += [streams.order("AAA", k, 1, 2, price + 1), streams.order("BBB", k, 2, 1, price)]
    return found


def measured(program, parent, orders, frames):
    with tempfile.TemporaryDirectory(dir=parent) as folder:
        streams.write_product(folder, f"max_orders = {orders}\njournal_limit = 268435456\n")
        with open(os.path.join(folder, "input"), "wb") as file:
            file.write(b"".join(frames))
        before = resource.getrusage(resource.RUSAGE_CHILDREN)
        with open(os.path.join(folder, "input"), "rb") as given, open(os.path.join(folder, "text"), "wb") as text:
            status = subprocess.run([program, "opening"], cwd=folder, stdin=given, stdout=text).returncode
        after = resource.getrusage(resource.RUSAGE_CHILDREN)
        if status:
            raise SystemExit(f"the opening ended with status {status}")
        lines = sum(1 for _ in open(os.path.join(folder, "text"), "rb"))
        return after.ru_utime + after.ru_stime - before.ru_utime - before.ru_stime, lines


def main():
    words = argparse.ArgumentParser(usage=__doc__)
    words.add_argument("--globex", default=streams.PROGRAM)
    words.add_argument("--rounds", type=int, default=5)
    words.add_argument("--orders", type=int, default=100_000)
    words.add_argument("--folder", default=streams.MEMORY_FOLDER)
    words = words.parse_args()
    program = os.path.abspath(words.globex)
    rows = {"one order": [streams.order("AAA", 0, 1, 1, LOWEST)]}
    for levels in (2, 1_000, words.orders // 2):
        rows[f"{words.orders:,} orders at {levels:,} prices"] = both_sides(words.orders, levels)
    for what, frames in rows.items():
        found = [measured(program, words.folder, words.orders, frames) for _ in range(words.rounds)]
        seconds = statistics.median(seconds for seconds, _ in found)
        print(f"{what:45} {seconds * 1_000:9.1f} ms  {found[0][1]:,} lines", flush=True)


if __name__ == "__main__":
    main()

#!/usr/bin/env python3
"""Measures whether room that is not used costs time: recovery of a journal with one live order, with room for few orders and for many.

The journal has 400,000 messages, of which each trades. In each round a run without input recovers it under a product with room for 2,000
orders, and under one with room for 100,000; and the same over an empty journal, which is the start alone and is taken off. Processor time,
the middle of the rounds, in nanoseconds a message.

    ./run-example.sh                     builds the program
    bench/room.py [--rounds N] [PROGRAM]
"""

import argparse
import os
import pathlib
import resource
import statistics
import subprocess
import tempfile

import streams

MESSAGES = 400_000
ROOMS = [2_000, 100_000]


def processor_time(program, folder, given):
    """Seconds of processor time of a run over the folder's journal."""
    before = resource.getrusage(resource.RUSAGE_CHILDREN)
    with open(given, "rb") as source:
        subprocess.run([program, "run"], cwd=folder, stdin=source, stdout=subprocess.DEVNULL, check=True)
    after = resource.getrusage(resource.RUSAGE_CHILDREN)
    return after.ru_utime + after.ru_stime - before.ru_utime - before.ru_stime


def filled(program, parent, room):
    """A folder whose journal has the messages, and one whose journal has none, with room for so many orders."""
    found = []
    for count in (MESSAGES, 0):
        folder = tempfile.mkdtemp(dir=parent)
        streams.write_product(folder, f"max_orders = {room}\njournal_limit = 268435456\n")
        given = os.path.join(folder, "input")
        pathlib.Path(given).write_bytes(b"".join(streams.trading(count)))
        processor_time(program, folder, given)
        found.append(folder)
    return found


def main():
    words = argparse.ArgumentParser(usage=__doc__)
    words.add_argument("--rounds", type=int, default=9)
    words.add_argument("program", nargs="?", default=streams.PROGRAM)
    words = words.parse_args()
    program = os.path.abspath(words.program)
    with tempfile.TemporaryDirectory(dir=streams.MEMORY_FOLDER) as parent:
        folders = {room: filled(program, parent, room) for room in ROOMS}
        rounds = [{room: [processor_time(program, f, os.devnull) for f in folders[room]] for room in ROOMS} for _ in range(words.rounds)]
    each = {room: statistics.median(r[room][0] - r[room][1] for r in rounds) / MESSAGES * 1e9 for room in ROOMS}
    for room in ROOMS:
        start = statistics.median(r[room][1] for r in rounds) * 1e3
        print(f"room for {room:,} orders: {each[room]:,.0f} ns a message, {start:.1f} ms the start")
    print(f"{each[ROOMS[1]] / each[ROOMS[0]]:.2f} times")


if __name__ == "__main__":
    main()

#!/usr/bin/env python3
"""Counts by valgrind's cachegrind how often a made message of `globex run` misses the caches of data: a first one of 48 KiB, and a last one
of 2 MiB.

Serves messages in a folder in memory, once so many and once 10,000 more, and divides what the others missed. The product has room for
100,000 live orders.

    ./run-example.sh             builds the program
    bench/caches.py [PROGRAM]    wants valgrind, a package of Debian
"""

import os
import re
import subprocess
import sys
import tempfile

import instructions
import streams

FIRST, LAST = "--D1=49152,12,64", "--LL=2097152,16,64"
WORDS = ["valgrind", "--tool=cachegrind", "--cache-sim=yes", FIRST, LAST, "--cachegrind-out-file=/dev/null"]
COUNTS = [instructions.MADE_COUNTS[0], instructions.MADE_COUNTS[-1]]


def misses(program, frames):
    """How often a run over these frames misses the first cache, and the last one."""
    with tempfile.TemporaryDirectory(dir=streams.MEMORY_FOLDER) as folder:
        streams.write_product(folder, instructions.KEYS)
        run = subprocess.run([*WORDS, program, "run"], cwd=folder, input=b"".join(frames), capture_output=True, check=True)
    told = run.stderr.decode()
    return [int(re.search(rf"{cache}\s+misses:\s+([\d,]+)", told)[1].replace(",", "")) for cache in ("D1", "LLd")]


def main():
    program = os.path.abspath(sys.argv[1] if len(sys.argv) > 1 else streams.PROGRAM)
    print("| live orders | first cache | last cache |\n|---|---|---|")
    for count in COUNTS:
        with tempfile.TemporaryDirectory(dir=streams.MEMORY_FOLDER) as folder:
            streams.write_product(folder, instructions.KEYS)
            first, _ = streams.made(program, folder, count)
            longer, live = streams.made(program, folder, count + instructions.MORE)
        more = [after - before for before, after in zip(misses(program, first), misses(program, longer))]
        print(f"| {live:,} | " + " | ".join(f"{number / instructions.MORE:.2f}" for number in more) + " |", flush=True)


if __name__ == "__main__":
    main()

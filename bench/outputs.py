#!/usr/bin/env python3
"""Compares what `globex run` sends over three streams with the sums that `bench/outputs.txt` keeps: the reports of 100,000 made
messages, of 100,000 orders of which each trades, and of 50,000 orders and 50,000 cancels and replaces. Ends with a status other
than 0 where a sum differs. With --write it writes the file anew.

    bench/outputs.py [--write] [PROGRAM]
"""

import hashlib
import os
import subprocess
import sys
import tempfile

import streams

COUNT = 100_000
LIVE = 50_000
KEYS = "max_orders = 100000\njournal_limit = 67108864\n"
SUMS = os.path.join(os.path.dirname(os.path.abspath(__file__)), "outputs.txt")


def output_of(program, folder, frames):
    """The sum and the length of what a run sends over a new journal."""
    journal = os.path.join(folder, streams.JOURNAL)
    if os.path.exists(journal):
        os.remove(journal)
    done = subprocess.run([program, "run"], check=True, cwd=folder, input=b"".join(frames), stdout=subprocess.PIPE)
    return f"{hashlib.sha256(done.stdout).hexdigest()} {len(done.stdout)}"


def main():
    words = [word for word in sys.argv[1:] if word != "--write"]
    program = os.path.abspath(words[0] if words else streams.PROGRAM)
    with tempfile.TemporaryDirectory(dir=streams.MEMORY_FOLDER) as folder:
        streams.write_product(folder, KEYS)
        made, _ = streams.made(program, folder, COUNT)
        rows = {"made": made, "trading": streams.trading(COUNT), "changing": streams.changing(LIVE, COUNT - LIVE)}
        text = "".join(f"{name} {output_of(program, folder, frames)}\n" for name, frames in rows.items())
    if "--write" in sys.argv[1:]:
        with open(SUMS, "w") as file:
            file.write(text)
        return
    with open(SUMS) as file:
        kept = file.read()
    print(text, end="")
    if text != kept:
        sys.exit(f"these are not the sums of {SUMS}")


if __name__ == "__main__":
    main()

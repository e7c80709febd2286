#!/usr/bin/env python3
"""Measures the memory that a command has resident at most: at the defaults, and at the greatest limits with a full book that uses every
side.

The default product has one instrument and room for 10,000 orders, and its book is filled with orders at 1,000 prices. The greatest one has
64 firms, 16 instruments and room for 100,000 orders, each at a price of its own, which stand on all 32 sides; a tenth of them are stops.
Then every other order is cancelled and comes again, at another price. `run` takes the messages; the other commands go over its journal.
What is resident counts, not the address space, of which all is taken at the start.

    ./run-example.sh                     builds the program
    bench/memory.py [PROGRAM]            wants time, a package of Debian
"""

import os
import pathlib
import subprocess
import sys
import tempfile

import streams

MIDDLE = 5_000_000
COMMANDS = ["run", "replay", "fills", "ledger", "book", "levels", "steps", "checkpoint"]
FIRMS = [f"F{k:02}" for k in range(64)]


def greatest_product():
    names = ", ".join(f'"{firm}"' for firm in FIRMS)
    instrument = '\n[[instrument]]\nname = "I{:02}"\ndecimals = 2\ntick = 1\nprotection = 2\nalgorithm = "F"\n'
    head = f'exchange = "GX"\nfirms = [{names}]\nmax_orders = 100000\njournal_limit = 268435456\n'
    return head + "".join(instrument.format(k) for k in range(16))


def message(kind, k, more):
    return streams.frame(f"35={kind}|49={FIRMS[k % 64]}|56=GX|34=1|52=20240102-09:30:00|{more}")


def came(k, name, price, sides):
    """Order k: buys below the middle and sells above it, and every tenth a stop that no trade reaches."""
    side, instrument = 1 + k % 2, k // 2 % (sides // 2)
    away = -price if side == 1 else price
    body = f"11={name}|55=I{instrument:02}|54={side}|38=10|"
    if k % 10 == 9:
        far = MIDDLE - 4 * away
        return message("D", k, f"{body}40=4|44={streams.price_text(far)}|99={streams.price_text(far)}|")
    return message("D", k, f"{body}40=2|44={streams.price_text(MIDDLE + away)}|")


def greatest_stream():
    for k in range(100_000):
        yield came(k, f"a{k}", 1 + k, 32)
    for k in range(0, 100_000, 2):
        yield message("F", k, f"11=x{k}|41=a{k}|")
        yield came(k, f"b{k}", 200_000 + k, 32)


def default_stream():
    for k in range(1, 10_001):
        side, away = 1 + k % 2, 1 + k % 500
        yield streams.order(streams.FIRMS[k % 4], k, side, 10, 10_000 + (away if side == 2 else -away))


def resident(program, command, folder, given):
    """MiB that the process had resident at most. A process begins with what its parent has, so the small program `time` starts it."""
    told = pathlib.Path(folder, "resident")
    with open(given, "rb") as source, open(os.devnull, "wb") as sink:
        words = ["/usr/bin/time", "--format", "%M", "--output", told, program, command]
        status = subprocess.run(words, cwd=folder, stdin=source, stdout=sink).returncode
    if status != 0:
        sys.exit(f"{command} ended with status {status}")
    return int(told.read_text()) / 1024


def measure(program, what, write_product, stream):
    with tempfile.TemporaryDirectory(dir=streams.MEMORY_FOLDER) as folder:
        write_product(folder)
        given = pathlib.Path(folder, "input")
        with open(given, "wb") as file:
            file.writelines(stream)
        numbers = [resident(program, command, folder, given if command == "run" else os.devnull) for command in COMMANDS]
    print(f"| {what} | " + " | ".join(f"{number:.1f}" for number in numbers) + " |", flush=True)


def main():
    program = os.path.abspath(sys.argv[1] if len(sys.argv) > 1 else streams.PROGRAM)
    print("| MiB resident | " + " | ".join(COMMANDS) + " |")
    print("|---" * (len(COMMANDS) + 1) + "|")
    measure(program, "defaults", streams.write_product, default_stream())
    greatest = lambda folder: pathlib.Path(folder, "product.toml").write_text(greatest_product())
    measure(program, "the greatest limits", greatest, greatest_stream())


if __name__ == "__main__":
    main()

#!/usr/bin/env python3
"""Measures how long one message takes that makes the engine work, over a full book.

For each row it starts `globex run` in a folder in memory with pipes, hands in the orders of the book, waits until all are reported, and
then hands in one message with a cancel of an order that is not there. The time is that until the report of this cancel has come,
of the middle of the rounds, and so includes two syncs of a file in memory and the reading of the reports. The first row is
such a cancel alone.

    ./run-example.sh                                       builds the program
    bench/longest.py [--globex PROGRAM] [--rounds N] [--orders N] [--folder FOLDER]
"""

import argparse
import os
import pathlib
import statistics
import subprocess
import tempfile
import threading
import time

import dearest
import streams

MIDDLE = 5_000_000
SIX_STEPS = 'algorithm = "K"\nsteps = ["TOP", "LMM", "SPLIT", "PRORATA", "LEVELING", "FIFO"]\nsplit = 10'
PIECE = 1_048_576


def entered(name, side, lots, price, more=""):
    """A limit order at a price in units, of which a hundred are one."""
    text = f"35=D|49=AAA|56=GX|34=1|52=20240102-09:30:00|11={name}|55=ESZ4|54={side}|38={lots}|40=2|44={streams.price_text(price)}|{more}"
    return streams.frame(text)


def stop(name, side, lots, trigger, price, more=""):
    terms = f"54={side}|38={lots}|40=4|44={streams.price_text(price)}|99={streams.price_text(trigger)}|{more}"
    return streams.frame(f"35=D|49=BBB|56=GX|34=1|52=20240102-09:30:00|11={name}|55=ESZ4|{terms}")


def cancelled(firm, name):
    return streams.frame(f"35=F|49={firm}|56=GX|34=1|52=20240102-09:30:00|11=x{name}|41={name}|")


def one_level(count):
    return [entered(f"s{k}", 2, 1, MIDDLE) for k in range(count)]


def levels(count):
    """As many sells, each at a price of its own, the best one last."""
    return [entered(f"s{k}", 2, 1, MIDDLE + count - k) for k in range(count)]


def days_behind_others(count):
    """The same, of which the better half is until cancelled."""
    return [entered(f"s{k}", 2, 1, MIDDLE + count - k, f"59={2 * k // count}|") for k in range(count)]


CLOSE = streams.frame("35=h|49=GX|56=GX|34=1|52=20240102-16:00:00|340=3|")


def stops_at(count, trigger):
    return [stop(f"w{k}", 1, 1, trigger, trigger) for k in range(count)]


def chain(count, step, more=""):
    """Sells at as many prices, and stops, each of which buys the next sell and so sets off the one after it. The stop that is set off
    first came first if `step` is 1, and last if it is -1."""
    sells = [entered(f"s{k}", 2, 1, MIDDLE + k) for k in range(count)]
    triggers = [MIDDLE + k for k in range(count)][::step]
    return sells + [stop(f"w{k}", 1, 1, trigger, MIDDLE + count, more) for k, trigger in enumerate(triggers)]


def stop_cases(orders):
    """The same for stops that set each other off."""
    half = orders // 2 - 10
    first = entered("n", 1, 1, MIDDLE)
    set_off = f"a trade that sets off {half:,} stops"
    return {
        f"{set_off}, each the one after it": (chain(half, 1), first),
        f"{set_off}, each the one before it": (chain(half, -1), first),
        f"{set_off}, each the one before it, by six steps": (chain(half, -1), first, SIX_STEPS),
        f"{set_off}, which are fill or kill and too large, {half:,} prices": (
            [entered(f"s{k}", 2, 1, MIDDLE + k) for k in range(half)]
            + [stop(f"w{k}", 1, orders, MIDDLE, MIDDLE + half, "59=4|") for k in range(half)],
            first,
        ),
    }


def cases(orders):
    """The orders of a book and one message, by what they are; if the instrument's letter is not F, the keys that say so."""
    most = orders - 10
    two = [entered("s", 2, 5, MIDDLE), entered("t", 2, 5, MIDDLE + 1)]
    far = [stop(f"w{k}", 1, 1, MIDDLE + 10, MIDDLE + 10) for k in range(most)]
    shown = [entered("s", 2, 999_999, MIDDLE, "210=1|")]
    ten = most // 10
    return {
        "a cancel of no order": ([], b""),
        f"a new order that rests, {most:,} orders at one price": (one_level(most), entered("n", 2, 1, MIDDLE)),
        f"a cancel of the first of {most:,} orders at one price": (one_level(most), cancelled("AAA", "s0")),
        f"a new order at the worst price, {ten:,} prices": (levels(ten), entered("n", 2, 1, MIDDLE + orders)),
        f"a new order at the worst price, {most:,} prices": (levels(most), entered("n", 2, 1, MIDDLE + orders)),
        f"a new order at the best price, {most:,} prices": (levels(most), entered("n", 2, 1, MIDDLE)),
        f"a cancel of the worst price, {most:,} prices": (levels(most), cancelled("AAA", "s0")),
        f"fill and kill with MinQty over {ten:,} prices, too few open": (
            levels(ten),
            entered("n", 1, 999_999, MIDDLE + orders, "59=3|110=999999|"),
        ),
        f"fill and kill with MinQty over {most:,} prices, too few open": (
            levels(most),
            entered("n", 1, 999_999, MIDDLE + orders, "59=3|110=999999|"),
        ),
        f"a buy that takes {most:,} orders at as many prices": (levels(most), entered("n", 1, most, MIDDLE + orders)),
        f"a trade in front of {most:,} stops that it does not reach": (two + far, entered("n", 1, 1, MIDDLE)),
        f"a cancel of the first of {most:,} stops": (two + far, cancelled("BBB", "w0")),
        f"a trade that reaches {most:,} stops, which rest": (
            [entered("s", 2, 1, MIDDLE), *stops_at(most, MIDDLE)],
            entered("n", 1, 1, MIDDLE),
        ),
        **stop_cases(orders),
        f"a close of {most:,} orders at one price": (one_level(most), CLOSE),
        f"a close of {most:,} orders at as many prices": (levels(most), CLOSE),
        f"a close of the worse half of {most:,} orders at as many prices": (days_behind_others(most), CLOSE),
        f"a close of {most:,} stops": (two + far, CLOSE),
        "999,999 lots that are shown one by one, all bought": (shown, entered("n", 1, 999_999, MIDDLE)),
    }


class Run:
    """A run that goes on, and the end of what it has sent."""

    def __init__(self, program, folder):
        self.probes = 0
        self.child = subprocess.Popen([program, "run"], cwd=folder, stdin=subprocess.PIPE, stdout=subprocess.PIPE)

    def hand_in(self, frames):
        """Seconds until the reports of some frames and of a cancel after them have come."""
        self.probes += 1
        name = f"probe{self.probes}"
        data = frames + cancelled("CCC", name)
        end = f"\x0111=x{name}\x01".encode()
        started = time.perf_counter()
        writer = threading.Thread(target=self.write, args=(data,))
        writer.start()
        tail = b""
        while end not in tail:
            part = os.read(self.child.stdout.fileno(), PIECE)
            if not part:
                raise SystemExit(f"the run ended with status {self.child.wait()}")
            tail = tail[-len(end) :] + part
        seconds = time.perf_counter() - started
        writer.join()
        return seconds

    def write(self, data):
        self.child.stdin.write(data)
        self.child.stdin.flush()

    def close(self):
        self.child.stdin.close()
        self.child.stdout.close()
        self.child.wait()


def measured(program, parent, orders, book, message, letter=""):
    with tempfile.TemporaryDirectory(dir=parent) as folder:
        pathlib.Path(folder, "product.toml").write_text(dearest.product_text(letter, orders))
        run = Run(program, folder)
        run.hand_in(b"".join(book))
        seconds = run.hand_in(message)
        run.close()
        return seconds


def main():
    words = argparse.ArgumentParser(usage=__doc__)
    words.add_argument("--globex", default=streams.PROGRAM)
    words.add_argument("--rounds", type=int, default=3)
    words.add_argument("--orders", type=int, default=100_000)
    words.add_argument("--folder", default=streams.MEMORY_FOLDER)
    words = words.parse_args()
    program = os.path.abspath(words.globex)
    for what, case in cases(words.orders).items():
        seconds = [measured(program, words.folder, words.orders, *case) for _ in range(words.rounds)]
        print(f"{what:75} {statistics.median(seconds) * 1_000:12.3f} ms", flush=True)


if __name__ == "__main__":
    main()

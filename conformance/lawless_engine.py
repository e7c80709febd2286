#!/usr/bin/env python3
"""An engine that breaks one law of docs/LAWS.md, to try whether laws.py finds it: lawless_engine.py PROGRAM VARIANT

It is no engine. It reads messages as `run` does, in a folder that has `product.toml`, and hands PROGRAM other messages or
another product, or changes what that sends.
"""

import subprocess
import sys
import tempfile
import tomllib
from dataclasses import dataclass
from decimal import Decimal
from pathlib import Path
from typing import Callable

from wrong_engine import change_bodies, leaves_without_fills, same, value, with_value

NO_ID = b"no such order"


class Rows:
    """What a variant remembers of the messages that it changed."""

    def __init__(self, product):
        tables = tomllib.loads(product.decode())["instrument"]
        self.ticks = {table["name"].encode(): Decimal(table["tick"]).scaleb(-table["decimals"]) for table in tables}
        self.names = [table["name"].encode() for table in tables]
        self.changed = {}       # by firm and id
        self.numbers = {}       # by the number of an order
        self.count = 0

    def moved(self, body, tag, sign):
        """A price moved by a tick, up for a buy if the sign is 1."""
        tick = self.ticks.get(value(body, 55))
        if tick is None or not value(body, tag):
            return body
        direction = sign if value(body, 54) == b"1" else -sign
        return with_value(body, tag, str(Decimal(value(body, tag).decode()) + direction * tick).encode())

    def note(self, body, true):
        self.changed[value(body, 49), value(body, 11)] = true

    def true_of(self, body):
        """What was noted of the order of a report; nothing if nothing was."""
        if value(body, 35) != b"8":
            return None
        number, noted = value(body, 37), self.changed.get((value(body, 56), value(body, 11)))
        if value(body, 150) == b"8":
            return noted
        if value(body, 150) == b"0" and noted is not None:
            self.numbers.setdefault(number, noted)
        return self.numbers.get(number)


# ---- messages and reports that are changed ----

def loose_limit(rows, body):
    return rows.moved(body, 44, 1) if value(body, 35) == b"D" and value(body, 59) in (b"3", b"4") else body


def own_limit(rows, body):
    return rows.moved(body, 44, -1) if value(body, 35) == b"8" and value(body, 59) in (b"3", b"4") else body


def late_sell(rows, body):
    """The sells of each third price are a tick above it: all orders at one price, so that their line stays."""
    if value(body, 54) != b"2" or value(body, 35) not in (b"D", b"G"):
        return body
    is_late = int(Decimal(value(body, 44).decode()) / rows.ticks[value(body, 55)]) % 3 == 0
    rows.note(body, b"late" if is_late else b"")
    return rows.moved(body, 44, -1) if is_late else body


def own_sell(rows, body):
    true = rows.true_of(body)
    if value(body, 150) == b"5":
        true = rows.numbers[value(body, 37)] = rows.changed.get((value(body, 56), value(body, 11)))
    return rows.moved(body, 44, 1) if true else body


def called_fifo(_, body):
    return with_value(body, 9001, b"FIFO")


def kill_without_fill(rows, body):
    """A fill or kill order is fill and kill."""
    if value(body, 35) != b"D" or value(body, 59) != b"4":
        return body
    rows.note(body, b"4")
    return with_value(with_value(body, 59, b"3"), 110, b"0")


def own_life(rows, body):
    return with_value(body, 59, rows.true_of(body) or value(body, 59))


def early_stop(rows, body):
    return rows.moved(body, 99, -1) if value(body, 35) in (b"D", b"G") else body


def own_stop(rows, body):
    return rows.moved(body, 99, 1)


def lost_cancel(rows, body):
    """Each third cancel names no order."""
    rows.count += 1
    if value(body, 35) != b"F" or rows.count % 3:
        return body
    rows.note(body, value(body, 41))
    return with_value(body, 41, NO_ID)


def own_cancel(rows, body):
    true = rows.changed.get((value(body, 56), value(body, 11)))
    return with_value(body, 41, true) if true and value(body, 41) == NO_ID else body


def first_symbol(rows, body):
    if value(body, 35) == b"D":
        rows.note(body, value(body, 55))
    return with_value(body, 55, rows.names[0])


def own_symbol(rows, body):
    return with_value(body, 55, rows.true_of(body) or value(body, 55))


def counted_together(rows, body):
    """34 counts the reports to all firms."""
    rows.count += 1
    return with_value(body, 34, b"%d" % rows.count)


def unchanged(_, body):
    return body


# ---- the variants ----

@dataclass(frozen=True)
class Variant:
    law: str
    letter: str     # of examples/; 2 is F with two instruments
    stream: str     # drill: limit orders, cancels and replaces; mixed: all kinds and lives, and closes
    product: Callable = same
    message: Callable = unchanged
    report: Callable = unchanged


def exchange(old, new):
    return lambda text: text.replace(old, new)


VARIANTS = {
    "limit-a-tick-off": Variant("limits", "F", "mixed", message=loose_limit, report=own_limit),
    "sells-a-tick-late": Variant("trade-through", "F", "drill", message=late_sell, report=own_sell),
    "pro-rata-for-fifo": Variant("line", "F", "drill", exchange(b'"F"', b'"C"'), report=called_fifo),
    "greater-least": Variant("shares", "C", "drill", exchange(b"least = 1", b"least = 5")),
    "greater-percent": Variant("shares", "T", "drill", exchange(b"percent = 40", b"percent = 60")),
    "greater-split": Variant("shares", "K", "drill", exchange(b"split = 40", b"split = 70")),
    "greater-top": Variant("shares", "O", "drill", exchange(b"top_max = 8", b"top_max = 80")),
    "kill-without-fill": Variant("minimum", "F", "mixed", message=kill_without_fill, report=own_life),
    "stop-a-tick-early": Variant("stops", "F", "mixed", message=early_stop, report=own_stop),
    "cancels-lost": Variant("out", "F", "drill", message=lost_cancel, report=own_cancel),
    "one-book-for-all": Variant("apart", "2", "drill", message=first_symbol, report=own_symbol),
    "replaced-leaves-without-fills": Variant("balance", "F", "mixed", report=lambda _, body: leaves_without_fills(body)),
    "lines-of-all-firms": Variant("counting", "F", "drill", report=counted_together),
}


def answer(program, product, messages):
    """What a program reports of messages, in a folder of its own."""
    with tempfile.TemporaryDirectory() as folder:
        (Path(folder) / "product.toml").write_bytes(product)
        return subprocess.run([*program, "run"], input=messages, stdout=subprocess.PIPE, cwd=folder).stdout


def lawless_answer(program, variant, product, messages):
    rows = Rows(product)
    given = change_bodies(messages, lambda body: variant.message(rows, body))
    reports = answer(program, variant.product(product), given)
    rows.count = 0
    return change_bodies(reports, lambda body: variant.report(rows, body))


def main():
    if len(sys.argv) < 3 or sys.argv[2] not in VARIANTS:
        raise SystemExit(f"lawless_engine.py PROGRAM VARIANT, where VARIANT is one of {', '.join(VARIANTS)}")
    program = [str(Path(sys.argv[1]).resolve())]
    product = Path("product.toml").read_bytes()
    sys.stdout.buffer.write(lawless_answer(program, VARIANTS[sys.argv[2]], product, sys.stdin.buffer.read()))


if __name__ == "__main__":
    main()

"""What the dearest messages cost, in instructions: messages that make the levels of a book, its lead market makers or its stops work.

A case is a product, the messages that fill its book, and messages of one kind. `instructions_of` serves the book alone, and then the book
with those messages, and divides what the others took by their number. Callgrind counts, so the numbers are the same in each run.
What a message costs as its book grows is counted by `growth.py`.
"""

import dataclasses
import os
import pathlib
import random
import re
import subprocess
import tempfile

import streams

MIDDLE = 5_000_000
MOST_ORDERS = 100_000
COLLECTED = re.compile(r"Collected : (\d+)")
MAKERS = ["BBB", "CCC", "DDD", "EEE", "FFF", "GGG", "HHH", "III"]


def product_text(letter="", orders=MOST_ORDERS):
    """The product of the stored run with nine firms and room for so many orders, and with other keys in place of the letter F."""
    text = streams.product_text(f"max_orders = {orders}\njournal_limit = 268435456\n", ["AAA", *MAKERS])
    return text.replace('algorithm = "F"', letter or 'algorithm = "F"')


@dataclasses.dataclass
class Case:
    name: str
    book: list
    messages: list
    product: str = dataclasses.field(default_factory=product_text)


def market_makers(percent):
    """Keys of an instrument whose lead market makers get so many percent each, before FIFO."""
    shares = ", ".join(f'{{ firm = "{firm}", percent = {percent} }}' for firm in MAKERS)
    return f'algorithm = "K"\nsteps = ["LMM", "FIFO"]\nlmm = [{shares}]'


def entered(name, side, lots, price, more="", firm="AAA"):
    """A limit order at a price in units, of which a hundred are one."""
    head = f"35=D|49={firm}|56=GX|34=1|52=20240102-09:30:00|11={name}|"
    return streams.frame(f"{head}55=ESZ4|54={side}|38={lots}|40=2|44={streams.price_text(price)}|{more}")


def stop(name, side, lots, trigger, price):
    """A stop limit order, which waits until a trade reaches its trigger."""
    terms = f"54={side}|38={lots}|40=4|44={streams.price_text(price)}|99={streams.price_text(trigger)}|"
    return streams.frame(f"35=D|49=AAA|56=GX|34=1|52=20240102-09:30:00|11={name}|55=ESZ4|{terms}")


def cancelled(name):
    return streams.frame(f"35=F|49=AAA|56=GX|34=1|52=20240102-09:30:00|11=x{name}|41={name}|")


def replaced(name, side, lots, price):
    head = f"35=G|49=AAA|56=GX|34=1|52=20240102-09:30:00|11=r{name}|41={name}|"
    return streams.frame(f"{head}55=ESZ4|54={side}|38={lots}|40=2|44={streams.price_text(price)}|")


def falling(count):
    """Sells, each at a better price than the one before."""
    return [entered(f"s{k}", 2, 1, MIDDLE + count - k) for k in range(count)]


def scattered(count, prices):
    """Orders of both sides, whose prices are drawn from so many a side and do not cross."""
    draw = random.Random(1)
    found = []
    for k in range(count):
        side = 1 + k % 2
        away = 1 + draw.randrange(prices)
        found.append(entered(f"d{k}", side, 1, MIDDLE + (away if side == 2 else -away)))
    return found


def at_one_price(count, firms):
    """Sells of one lot at one price, of so many firms in turn."""
    return [entered(f"s{k}", 2, 1, MIDDLE, firm=firms[k % len(firms)]) for k in range(count)]


def far_stops(count):
    """Stops that wait for a price far above."""
    return [stop(f"w{k}", 1, 1, 2 * MIDDLE, 2 * MIDDLE) for k in range(count)]


def stop_cases(scale):
    """The cases of stops, so many times smaller."""
    more, half = 1_000 // scale, 50_000 // scale
    yield Case(f"a stop that comes, {half:,} stops", far_stops(half), [stop(f"n{k}", 1, 1, 2 * MIDDLE, 2 * MIDDLE) for k in range(more)])
    yield Case(f"a cancel of a stop, {half:,} stops", far_stops(half), [cancelled(f"w{7 * k}") for k in range(more)])


def cases(scale):
    """The cases, all but the smallest so many times smaller."""
    yield from stop_cases(scale)
    most, more = 95_000 // scale, 1_000 // scale
    half = 50_000 // scale
    unfilled = [entered(f"f{k}", 1, 999_999, 2 * MIDDLE, "59=4|") for k in range(more)]
    yield Case(f"a cancel of the worst price, {most:,} levels", falling(most), [cancelled(f"s{k}") for k in range(more)])
    yield Case(
        f"a trade that closes the best of {most:,} levels",
        falling(most),
        [entered(f"b{k}", 1, 1, MIDDLE + 1 + k) for k in range(more)],
    )
    yield Case(
        f"a replace to the worst price, {most:,} levels",
        falling(most),
        [replaced(f"s{most - 1 - k}", 2, 1, MIDDLE + most + 1 + k) for k in range(more)],
    )
    drawn = scattered(60_000 // scale, 10_000 // scale)
    yield Case(f"a new order at one of {10_000 // scale:,} prices a side, drawn", drawn[: -10 * more], drawn[-10 * more :])
    for levels in (10_000 // scale, half):
        yield Case(f"fill or kill over {levels:,} levels, too few open", falling(levels), unfilled)
    yield Case(
        f"a buy of one lot, {half:,} orders at a price, 8 market makers without orders",
        at_one_price(half, ["AAA"]),
        [entered(f"b{k}", 1, 1, MIDDLE) for k in range(more)],
        product_text(market_makers(10)),
    )
    yield Case(
        f"a buy of {half // 2:,} lots, {half:,} orders at a price, 8 market makers without orders",
        at_one_price(half, ["AAA"]),
        [entered("b", 1, half // 2, MIDDLE)],
        product_text(market_makers(10)),
    )
    yield Case(
        f"a buy of {half // 2:,} lots, {half:,} orders at a price, 8 market makers with orders",
        at_one_price(half, MAKERS),
        [entered("b", 1, half // 2, MIDDLE)],
        product_text(market_makers(10)),
    )


def counted(program, product, frames):
    """The instructions of a run over a new journal."""
    with tempfile.TemporaryDirectory(dir=streams.MEMORY_FOLDER) as folder:
        pathlib.Path(folder, "product.toml").write_text(product)
        call = ["valgrind", "--tool=callgrind", f"--callgrind-out-file={os.devnull}", program, "run"]
        done = subprocess.run(call, check=True, cwd=folder, input=b"".join(frames), capture_output=True)
    return int(COLLECTED.search(done.stderr.decode())[1])


def instructions_of(program, case):
    """How many instructions each of the case's messages takes."""
    before, after = (counted(program, case.product, frames) for frames in (case.book, case.book + case.messages))
    return (after - before) / len(case.messages)


def print_instructions(program, scale):
    """Prints a row for each case."""
    for case in cases(scale):
        print(f"{case.name:85} {instructions_of(program, case):14,.0f} instructions", flush=True)

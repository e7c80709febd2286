"""Streams of FIX frames, always the same ones, and what the other scripts of this folder share."""

import os
import pathlib
import re
import subprocess

TOP = os.path.dirname(os.path.dirname(os.path.abspath(__file__)))
PROGRAM = os.path.join(TOP, "crates", "globex_cli", "out", "globex_cli")
PRODUCT = os.path.join(TOP, "crates", "globex_cli", "data", "product.toml")
MEMORY_FOLDER = "/dev/shm"
JOURNAL = "journal.gxj"

FIRMS = ["AAA", "BBB", "CCC", "DDD"]
INSTRUMENT = "ESZ4"
FRAME = re.compile(rb"8=.*?\x0110=\d{3}\x01")


def product_text(keys="", firms=FIRMS, instruments=(INSTRUMENT,)):
    """The product of the stored run for these firms and instruments, with more keys before its instruments."""
    head, instrument = pathlib.Path(PRODUCT).read_text().split("\n\n", 1)
    listed = ", ".join(f'"{firm}"' for firm in firms)
    head = re.sub(r"firms = .*", f"firms = [{listed}]", head)
    each = "\n".join(instrument.replace(INSTRUMENT, name) for name in instruments)
    return f"{head}\n{keys}\n{each}"


def write_product(folder, keys=""):
    """The product of the stored run in a folder, with more keys before its instruments."""
    pathlib.Path(folder, "product.toml").write_text(product_text(keys))


def payloads(journal):
    """The payloads of a journal's records of messages, in their order."""
    with open(journal, "rb") as file:
        image = file.read()
    at, found = 13 + int.from_bytes(image[9:13], "big"), []
    while image[at] == 1:
        length = int.from_bytes(image[at + 2 : at + 6], "big")
        if image[at + 1 : at + 2] == b"M":
            found.append(image[at + 6 : at + 6 + length])
        at += 6 + length
    return found


def frame(body):
    """The frame of a body, in which `|` stands for SOH."""
    front = f"8=FIX.4.2|9={len(body)}|{body}".replace("|", "\x01").encode("ascii")
    return front + b"10=%03d\x01" % (sum(front) % 256)


def head(kind, firm, number):
    return f"35={kind}|49={firm}|56=GX|34={number}|52=20240102-09:30:00|11=G{number}|"


def price_text(price):
    return f"{price // 100}.{price % 100:02d}"


def order(firm, number, side, lots, price, instrument=INSTRUMENT):
    return frame(head("D", firm, number) + f"55={instrument}|54={side}|38={lots}|40=2|44={price_text(price)}|59=0|")


def cancel(firm, number, old):
    return frame(head("F", firm, number) + f"41=G{old}|")


def replace(firm, number, old, side, lots, price):
    return frame(head("G", firm, number) + f"41=G{old}|55=ESZ4|54={side}|38={lots}|40=2|44={price_text(price)}|")


def draws(seed):
    """Numbers below 32,768 of a linear congruential generator."""
    state = seed
    while True:
        state = (state * 1_103_515_245 + 12_345) % 2**31
        yield state // 65_536


def mixed(seed, count, firms=FIRMS, instruments=(INSTRUMENT,)):
    """So many messages, eight orders to two cancels, at prices that cross now and then. The firms take turns by message, and the
    instruments by eight messages, of which four buy; all else is the same whatever these are."""
    draw = draws(seed)
    frames = []
    for number in range(1, count + 1):
        firm = firms[number % len(firms)]
        if next(draw) % 10 < 8:
            side = 1 + number // 4 % 2
            price = (9_900 if side == 1 else 9_990) + next(draw) % 110
            instrument = instruments[number // 8 % len(instruments)]
            frames.append(order(firm, number, side, next(draw) % 100 + 1, price, instrument))
        else:
            old = max(number - 4 * (1 + next(draw) % 100), 1)
            frames.append(cancel(firms[old % len(firms)], number, old))
    return frames


def trading(count):
    """Orders of which each fills the one that rests, and rests itself: three reports a message, and one live order."""
    return [order(FIRMS[number % 4], number, 1 + number % 2, 10 if number == 1 else 20, 10_000) for number in range(1, count + 1)]


def changing(live, count):
    """So many orders that rest over 1,000 prices, and then so many messages: replaces that lose their place, and cancels."""
    frames, resting = [], []
    for number in range(1, live + 1):
        side = 1 + number % 2
        price = 9_999 - number // 2 % 500 if side == 1 else 10_001 + number // 2 % 500
        frames.append(order(FIRMS[number % 4], number, side, 10, price))
        resting.append((number, FIRMS[number % 4], side, price))
    draw = draws(1)
    for number in range(live + 1, live + count + 1):
        place = (next(draw) * 32_768 + next(draw)) % len(resting)
        old, firm, side, price = resting[place]
        if number % 2 == 0:
            frames.append(replace(firm, number, old, side, 12, price))
            resting[place] = (number, firm, side, price)
        else:
            frames.append(cancel(firm, number, old))
            resting[place] = resting[-1]
            resting.pop()
    return frames


def made(program, folder, count):
    """The messages of a drill, and how many orders live after them. Leaves no journal."""
    words = [program, "drill", "--first", "1", "--count", str(count)]
    done = subprocess.run(words, check=True, cwd=folder, stdout=subprocess.PIPE)
    journal = os.path.join(folder, JOURNAL)
    frames = FRAME.findall(b"".join(payloads(journal)))
    os.remove(journal)
    return frames, int(done.stdout.split()[-1])

#!/usr/bin/env python3
"""Tries hostile inputs: many small ones, whose answers are held to each other, and great ones, which are timed.

The program `hostile_runs` makes the small ones from a seed, changed streams of frames, changed product texts and changed
journals, and runs them in memory. A case whose answers do not agree, or that should not come, ends it and this script.

The great ones are made here, each as large as the limits allow, and each beside a harmless one of the same size or with the same
messages: product texts, streams, journals and book images; and messages that make the book work. Each is given to `globex` in a
folder in memory, the hostile and the harmless one in turn, and the table has the middle of the rounds. What `replay` sends goes to
/dev/null. The memory is what a process had resident at most, where that is more than this script has itself.

The part `messages` counts by valgrind what one message takes that makes the levels of a book work (`dearest.py`).

    ./run-example.sh                         builds globex
    (cd crates/hostile_runs && rt run)       builds hostile_runs
    bench/hostile.py [--seed N] [--frames N] [--products N] [--journals N] [--runs PROGRAM]
                     [--globex PROGRAM] [--rounds N] [--folder FOLDER] [--scale N] [--only PART]..

PART is one of cases, products, streams, journals, images, books, messages. --scale N makes all but the products N times smaller.
"""

import argparse
import os
import pathlib
import shutil
import statistics
import subprocess
import sys
import tempfile
import time

import dearest
import streams

RUNS = os.path.join(streams.TOP, "crates", "hostile_runs", "out", "hostile_runs")
PARTS = ["cases", "products", "streams", "journals", "images", "books", "messages"]

LONGEST_TEXT = 65_536
LONGEST_BODY = 4_000
RECORD = 8_192
JOURNAL_LIMIT = 268_435_456
MOST_ORDERS = 100_000
DEPTH = 79
FRAMES = 20_000
BOOK_ORDERS = 50_000
CASCADE = 4_000
PRORATA = "pro rata over one price"
MAKERS = "market makers without orders, over one price"

SEED = 0x243F_6A88_85A3_08D3
MULTIPLIER = 0x9E37_79B9_7F4A_7C15
WORD = (1 << 64) - 1

INSTRUMENT = '\n[[instrument]]\nname = "ESZ4"\ndecimals = 2\ntick = 1\nprotection = 2\nalgorithm = "F"\n'


def filled_up(text, size=LONGEST_TEXT):
    """A product text with a comment after it that makes it so long."""
    return text + b"#" * (size - len(text))


def repeated(front, part, behind, size=LONGEST_TEXT):
    """As many parts between two texts as the size allows. `part` is a text, or makes one of a number."""
    parts, length, number = [], size - len(front) - len(behind), 0
    while True:
        piece = part(number) if callable(part) else part
        if length < len(piece):
            return filled_up(front + b"".join(parts) + behind, size)
        parts.append(piece)
        length -= len(piece)
        number += 1


def key_of(number):
    """A key of four letters, another one for each number, in no order."""
    letters = "abcdefghijklmnopqrstuvwxyz"
    mixed = number * 104_729 % 26**4
    return "".join(letters[mixed // 26**k % 26] for k in range(4)).encode()


def instruments(count, more=""):
    return "".join(INSTRUMENT.replace("ESZ4", f"{number:024}") + more for number in range(count)).encode()


def product_texts():
    """A harmless product text and hostile ones, all of the greatest size, by their names."""
    head = b'exchange = "GX"\nfirms = ["AAA"]\n'
    valid = head + INSTRUMENT.encode()
    name = lambda number: f'"{number:024}",'.encode()
    firms = b'exchange = "GX"\nfirms = [' + b"".join(name(number) for number in range(64)) + b"]\n"
    shares = ",".join(f'{{firm="{number:024}",percent=1}}' for number in range(8))
    steps = 'steps = ["TOP", "LMM", "SPLIT", "PRORATA", "LEVELING", "FIFO"]\nsplit = 1\n'
    dots = b".".join([b"a"] * DEPTH)
    return filled_up(valid), {
        "64 firms, 16 instruments": filled_up(
            firms + instruments(16, f"lmm = [{shares}]\n{steps}").replace(b'"F"', b'"K"')
        ),
        "thousands of firms": repeated(b'exchange = "GX"\nfirms = [', name, b"]\n" + INSTRUMENT.encode()),
        "one firm again and again": repeated(b'exchange = "GX"\nfirms = [', b'"A",', b"]\n" + INSTRUMENT.encode()),
        "thousands of instruments": repeated(head, b"[[instrument]]\n", b""),
        "deep arrays": repeated(valid, lambda n: key_of(n) + b"=" + b"[" * DEPTH + b"]" * DEPTH + b"\n", b""),
        "deep inline tables": repeated(valid, lambda n: key_of(n) + b"=" + b"{a=" * DEPTH + b"1" + b"}" * DEPTH + b"\n", b""),
        "deep dotted keys": repeated(valid, lambda n: key_of(n) + b"." + dots[2:] + b"=1\n", b""),
        "keys in a deep table": repeated(valid + b"[" + dots + b"]\n", lambda n: key_of(n) + b"=1\n", b""),
        "arrays too deep": repeated(head + b"x=", b"[", b""),
        "one long string": repeated(valid + b'x="', b"x", b'"\n'),
        "one long string of escapes": repeated(valid + b'x="', b"\\u0041", b'"\n'),
        "one long key": repeated(valid, b"x", b"=1\n"),
        "unknown keys": repeated(valid, lambda n: key_of(n) + b"=1\n", b""),
        "tables": repeated(valid, lambda n: b"[" + key_of(n) + b"]\n", b""),
        "an array of numbers": repeated(valid + b"x=[", b"1,", b"]\n"),
        "an array of tables": repeated(valid + b"x=[", b"{},", b"]\n"),
        "steps without end": repeated(valid.replace(b'"F"', b'"K"') + b"steps=[", b'"FIFO",', b"]\n"),
        "shares without end": repeated(valid + b"lmm=[", b'{firm="AAA"},', b"]\n"),
    }


def framed(body):
    """The frame of some bytes."""
    front = b"8=FIX.4.2\x019=%d\x01" % len(body) + body
    return front + b"10=%03d\x01" % (sum(front) % 256)


def soh(text):
    return text.replace("|", "\x01").encode()


HEADER = soh("49=AAA|56=GX|34=1|52=20240102-09:30:00|")
HEARTBEAT = b"35=0\x01" + HEADER
SHORTEST = framed(b"\x01")


def long_heartbeat(length):
    """The body of a heartbeat with one long text."""
    return HEARTBEAT + b"58=" + b"x" * (length - len(HEARTBEAT) - 4) + b"\x01"


def body_of(front, part, behind=b""):
    """The longest body of many parts. What is left over goes into the value of a last field."""
    room = LONGEST_BODY - len(front) - len(behind)
    count = (room - 5) // len(part)
    rest = room - count * len(part)
    return front + part * count + b"58=" + b"x" * (rest - 4) + b"\x01" + behind


def bodies():
    """A harmless body of the greatest length and hostile ones, by their names."""
    order = b"35=D\x01"
    terms = soh("11=a|55=ESZ4|54=1|38=1|40=2|44=99.00|59=0|")
    return long_heartbeat(LONGEST_BODY), {
        "fields without value": body_of(order, b"1=\x01"),
        "the shortest fields": body_of(order, b"1=x\x01", HEADER + terms),
        "one tag again and again": body_of(order, b"44=1\x01", HEADER + terms),
        "long tags": body_of(order, b"12345=x\x01", HEADER + terms),
        "a tag without end": order + b"1" * (LONGEST_BODY - 6) + b"\x01",
        "equals signs": order + b"58" + b"=" * (LONGEST_BODY - 8) + b"\x01",
        "a long price": order + HEADER + terms.replace(b"44=99.00\x01", b"") + b"44="
        + b"0" * (LONGEST_BODY - len(order + HEADER + terms) + 5) + b"\x01",
    }


def write_repeated(file, part, size):
    """As many parts as the size allows, written in pieces, so that this script stays small."""
    count = size // len(part)
    piece = part * max(1, min(count, 1_048_576 // len(part)))
    left = count * len(part)
    while left > 0:
        left -= file.write(piece[:left])


def write_stream(path, part, size):
    """A file of as many parts as the size allows. Answers how many bytes these are."""
    with open(path, "wb") as file:
        write_repeated(file, part, size)
    return os.path.getsize(path)


def whole_record(payload):
    """A record with its open gate."""
    return b"\x01M" + len(payload).to_bytes(4, "big") + payload


def longest_payload(frame, wider):
    """A payload of the greatest length of frames, some of which are wider by one byte."""
    count = RECORD // len(frame)
    return frame * (count - RECORD % len(frame)) + wider * (RECORD % len(frame))


def long_heartbeats():
    """A payload of the greatest length: two of the longest frames, and a third one."""
    longest = framed(long_heartbeat(LONGEST_BODY))
    left = RECORD - 2 * len(longest)
    last = framed(long_heartbeat(left - len("8=FIX.4.2|9=999|10=999|")))
    return longest * 2 + last


def journal_payloads():
    """A harmless payload of a record and hostile ones, by their names."""
    wider = b"8=FIX.4.2\x019=01\x01\x01"
    wider += b"10=%03d\x01" % (sum(wider) % 256)
    return long_heartbeats(), {
        "records of the shortest frame": SHORTEST,
        "long records of shortest frames": longest_payload(SHORTEST, wider),
    }


def write_journal(folder, payload, size):
    """A journal of records of one payload, at most so long, over the folder's product. Answers its length."""
    text = pathlib.Path(folder, "product.toml").read_bytes()
    front = b"\x01GXJOURN2" + len(text).to_bytes(4, "big") + text
    path = os.path.join(folder, streams.JOURNAL)
    with open(path, "wb") as file:
        file.write(front)
        write_repeated(file, whole_record(payload), size - len(front) - 1)
        file.write(b"\0")
    return os.path.getsize(path)


class Caller:
    """Calls the program in a folder, and notes how long that took and how much memory."""

    def __init__(self, program, folder, rounds):
        self.program = program
        self.folder = folder
        self.rounds = rounds

    def path(self, name):
        return os.path.join(self.folder, name)

    def call(self, command, source=os.devnull):
        """Seconds, most memory in KiB, and status of a call with this file as its input."""
        with open(source, "rb") as file:
            started = time.perf_counter()
            call = subprocess.Popen(
                [self.program, *command.split()],
                cwd=self.folder,
                stdin=file,
                stdout=subprocess.DEVNULL,
                stderr=subprocess.DEVNULL,
            )
            _, status, used = os.wait4(call.pid, 0)
            seconds = time.perf_counter() - started
        call.returncode = os.waitstatus_to_exitcode(status)
        return seconds, used.ru_maxrss, call.returncode

    def compare(self, what, size, hostile, harmless, statuses):
        """Prints a row of the table. `hostile` and `harmless` make one call each; the hostile one ends with one of some statuses."""
        calls = [(hostile(), harmless()) for _ in range(self.rounds)]
        for (_, _, status), (_, _, other) in calls:
            if status not in statuses or other != 0:
                sys.exit(f"{what}: the hostile call ended with {status}, the harmless one with {other}")
        seconds = [statistics.median(call[k][0] for call in calls) for k in (0, 1)]
        memory = [max(call[k][1] for call in calls) / 1024 for k in (0, 1)]
        print(
            f"{what:46} {size:11,} {seconds[0]:9.3f} {seconds[1]:9.3f} {seconds[0] / seconds[1]:7.1f}"
            f" {memory[0]:8.1f} {memory[1]:8.1f}  {calls[0][0][2]}",
            flush=True,
        )

    def journal_kept(self, name):
        """Makes a file the journal, and calls over it."""
        shutil.copyfile(self.path(name), self.path(streams.JOURNAL))

    def call_over(self, name, command):
        self.journal_kept(name)
        return self.call(command)

    def call_anew(self, source):
        """A run over a new journal."""
        pathlib.Path(self.path(streams.JOURNAL)).unlink(missing_ok=True)
        return self.call("run", source)


def print_head():
    print(f"{'what':46} {'bytes':>11} {'hostile':>9} {'harmless':>9} {'times':>7} {'MiB':>8} {'MiB':>8}  status")


def try_cases(program, seed, counts):
    """Runs the small inputs, and prints the tables of the program and the times."""
    for kind, count in counts.items():
        started = time.perf_counter()
        done = subprocess.run([program, kind, str(seed), str(count)])
        print(f"{time.perf_counter() - started:.1f} s", flush=True)
        if done.returncode != 0:
            sys.exit(f"{kind} ended with status {done.returncode}")


def time_products(caller):
    harmless, hostile = product_texts()

    def steps(text):
        pathlib.Path(caller.path("product.toml")).write_bytes(text)
        return caller.call("steps")

    for name, text in hostile.items():
        caller.compare(f"steps: {name}", len(text), lambda: steps(text), lambda: steps(harmless), (0, 3))


def time_streams(caller, scale):
    harmless, hostile = bodies()
    size = FRAMES // scale * len(framed(harmless))
    streams.write_product(caller.folder, f"journal_limit = {JOURNAL_LIMIT}\n")
    write_stream(caller.path("harmless"), framed(harmless), size)
    for name, part in [*((name, framed(body)) for name, body in hostile.items()), ("the shortest frames", SHORTEST)]:
        length = write_stream(caller.path("hostile"), part, size)
        caller.compare(
            f"run: {name}",
            length,
            lambda: caller.call_anew(caller.path("hostile")),
            lambda: caller.call_anew(caller.path("harmless")),
            (0,),
        )


def time_journals(caller, scale):
    harmless, hostile = journal_payloads()
    size = JOURNAL_LIMIT // scale
    streams.write_product(caller.folder, f"journal_limit = {JOURNAL_LIMIT}\n")
    for name, payload in hostile.items():
        for command in ("run", "replay"):
            measured = []
            for kept in (payload, harmless):
                length = write_journal(caller.folder, kept, size)
                measured.append([caller.call(command) for _ in range(caller.rounds)])
            turns = [iter(calls) for calls in measured]
            caller.compare(f"{command}: {name}", length, lambda: next(turns[0]), lambda: next(turns[1]), (0,))


def last_row(image):
    """Where the last row of resting orders begins in a journal whose last record is an image without stops: before the count of
    stops, the session and the last gate."""
    return len(image) - 82 - 4 - 1 - 1


def time_images(caller, scale):
    """A start from an image of a full book, beside one that applies the same messages; and an image that is wrong in its last row."""
    orders = MOST_ORDERS // scale
    streams.write_product(caller.folder, f"max_orders = {orders}\njournal_limit = {JOURNAL_LIMIT}\n")
    pathlib.Path(caller.path(streams.JOURNAL)).unlink(missing_ok=True)
    if caller.call(f"drill --first 1 --count {4 * orders}")[2] != 0:
        sys.exit("the drill did not end with 0")
    shutil.copyfile(caller.path(streams.JOURNAL), caller.path("messages"))
    if caller.call("checkpoint")[2] != 0:
        sys.exit("the checkpoint did not end with 0")
    image = bytearray(pathlib.Path(caller.path(streams.JOURNAL)).read_bytes())
    pathlib.Path(caller.path("image")).write_bytes(image)
    image[last_row(image) + 8] = 255
    pathlib.Path(caller.path("broken")).write_bytes(image)
    length = len(image) - os.path.getsize(caller.path("messages"))
    del image
    rows = (length - 6 - 561 - 25) // 82
    for name, file, statuses in ((f"an image of {rows} rows", "image", (0,)), ("one wrong in its last row", "broken", (10,))):
        for command in ("run", "book"):
            caller.compare(
                f"{command}: {name}",
                length,
                lambda: caller.call_over(file, command),
                lambda: caller.call_over("messages", command),
                statuses,
            )


def client_order(name, side, lots, price, more=""):
    """An order at a price in units, of which a hundred are one."""
    body = f"35=D|49=AAA|56=GX|34=1|52=20240102-09:30:00|11={name}|55=ESZ4|54={side}|38={lots}|40=2|44={streams.price_text(price)}|{more}"
    return streams.frame(body)


def replacement(name, price):
    """A replace of a sell of one lot."""
    terms = f"55=ESZ4|54=2|38=1|40=2|44={streams.price_text(price)}|"
    return streams.frame(f"35=G|49=AAA|56=GX|34=1|52=20240102-09:30:00|11=r{name}|41={name}|{terms}")


def stop(name, trigger):
    """A stop that buys one lot, up to a price above the one that sets it off."""
    terms = f"54=1|38=1|40=4|44={streams.price_text(trigger + 1)}|99={streams.price_text(trigger)}|"
    return streams.frame(f"35=D|49=AAA|56=GX|34=1|52=20240102-09:30:00|11={name}|55=ESZ4|{terms}")


def folded_multiply(a, b):
    product = a * b
    return (product & WORD) ^ (product >> 64)


def hash_of(of_firm, name):
    """The hash of an id after its firm: the three words of its room of 24 bytes, which zeros fill."""
    room = name.encode().ljust(24, b"\0")
    first, second, third = (int.from_bytes(room[k : k + 8], "little") for k in (0, 8, 16))
    state = folded_multiply(((of_firm + len(room)) & WORD) ^ first, MULTIPLIER ^ second)
    return folded_multiply(state ^ second, MULTIPLIER ^ third)


def ids_that_meet(count):
    """Ids of 8 digits of the first firm that all stand in a five-hundredth of the table's buckets: the hash has a fixed seed. With
    50,000 of them and room for 100,000 that is some 125 in each bucket."""
    of_firm = folded_multiply(SEED, MULTIPLIER ^ 2)
    number = 0
    while count > 0:
        name = f"{number:08}"
        if hash_of(of_firm, name) < WORD // 500:
            count -= 1
            yield name
        number += 1


def book_streams(scale):
    """Hostile streams that make a book work, each with a harmless one of as many messages, by their names."""
    count = BOOK_ORDERS // scale
    cascade = CASCADE // scale
    middle = 1_000_000
    rising = [client_order(k, 2, 1, middle + k) for k in range(count)]
    falling = [client_order(k, 2, 1, middle + count - k) for k in range(count)]
    level = [client_order(k, 2, 1, middle + k % 100) for k in range(count)]
    few = count // 5
    unfilled = [client_order(count + k, 1, 999_999, middle + count, "59=4|") for k in range(few)]
    stops = [stop(k, middle + count) for k in range(count)]
    trades = [client_order(count + k, 1 + k % 2, 1, middle - 1) for k in range(2 * few)]
    asks = [client_order(k, 2, 1, middle + k) for k in range(cascade)]
    waiting = [stop(cascade + k, middle + cascade - 1 - k) for k in range(cascade)]
    waiting_apart = [stop(cascade + k, middle + 2 * cascade) for k in range(cascade)]
    first = [client_order(2 * cascade, 1, 1, middle)]
    one_price = [client_order(k, 2, 10, middle) for k in range(count)]
    takers = [client_order(count + k, 1, 2, middle, "59=3|") for k in range(count // 50)]
    shown = [client_order(0, 2, 10 * cascade, middle, "210=1|"), client_order(1, 1, 10 * cascade, middle)]
    all_shown = [client_order(0, 2, 10 * cascade, middle), client_order(1, 1, 10 * cascade, middle)]
    met = [client_order(name, 2, 1, middle + k % 100) for k, name in enumerate(ids_that_meet(count))]
    ends = [client_order(count + k, 1, 1, middle + k) for k in range(count)]
    of_few = [client_order(count + k, 1, 1, middle + 99) for k in range(count)]
    to_worst = [replacement(k, middle + count + k) for k in range(count)]
    to_few = [replacement(k, middle + k % 100) for k in range(count)]
    return {
        "ids that meet in few buckets": (met, level),
        "each order a worse price": (rising, falling),
        "levels opened at the worst end, closed at the best": (rising + ends, level + of_few),
        "replaces, each to a worse price": (falling + to_worst, level + to_few),
        "fill or kill over many prices": (falling + unfilled, level + unfilled),
        "trades before stops that wait": (stops + trades, level + trades),
        "stops that set each other off": (asks + waiting + first, asks + waiting_apart + first),
        "lots that are shown one by one": (shown, all_shown),
        PRORATA: (one_price + takers, level + takers),
        MAKERS: (one_price + takers, level + takers),
    }


# What the instrument of a book's product has in place of the letter F.
LETTERS = {PRORATA: 'algorithm = "C"', MAKERS: dearest.market_makers(10)}


def time_books(caller, scale):
    for name, (hostile, harmless) in book_streams(scale).items():
        text = dearest.product_text(LETTERS.get(name, ""), MOST_ORDERS // scale)
        pathlib.Path(caller.path("product.toml")).write_text(text)
        pathlib.Path(caller.path("hostile")).write_bytes(b"".join(hostile))
        pathlib.Path(caller.path("harmless")).write_bytes(b"".join(harmless))
        caller.compare(
            f"run: {name}, {len(hostile):,} messages",
            os.path.getsize(caller.path("hostile")),
            lambda: caller.call_anew(caller.path("hostile")),
            lambda: caller.call_anew(caller.path("harmless")),
            (0,),
        )


def read_words():
    words = argparse.ArgumentParser(usage=__doc__)
    words.add_argument("--seed", type=int, default=1)
    words.add_argument("--frames", type=int, default=1_000_000)
    words.add_argument("--products", type=int, default=100_000)
    words.add_argument("--journals", type=int, default=100_000)
    words.add_argument("--runs", default=RUNS)
    words.add_argument("--globex", default=streams.PROGRAM)
    words.add_argument("--rounds", type=int, default=3)
    words.add_argument("--folder", default=streams.MEMORY_FOLDER)
    words.add_argument("--scale", type=int, default=1)
    words.add_argument("--only", action="append", choices=PARTS)
    return words.parse_args()


def program_at(path):
    if not os.access(path, os.X_OK):
        sys.exit(f"there is no program at {path}")
    return os.path.abspath(path)


def main():
    words = read_words()
    parts = words.only or PARTS
    if "cases" in parts:
        counts = {"frames": words.frames, "products": words.products, "journals": words.journals}
        try_cases(program_at(words.runs), words.seed, counts)
    timed = {
        "products": time_products,
        "streams": lambda caller: time_streams(caller, words.scale),
        "journals": lambda caller: time_journals(caller, words.scale),
        "images": lambda caller: time_images(caller, words.scale),
        "books": lambda caller: time_books(caller, words.scale),
    }
    if any(part in timed for part in parts):
        print_head()
    for part, time_part in timed.items():
        if part in parts:
            with tempfile.TemporaryDirectory(dir=words.folder) as folder:
                time_part(Caller(program_at(words.globex), folder, words.rounds))
    if "messages" in parts:
        dearest.print_instructions(program_at(words.globex), words.scale)


if __name__ == "__main__":
    main()

#!/usr/bin/env python3
"""A wrong engine, to try whether the sessions find it: wrong_engine.py PROGRAM VARIANT WORDS..

It is no engine. It calls PROGRAM, but changes what that is given, or what it sends, so that one rule is broken.
How near that comes to an engine with this mistake, the comment at each variant says. Calls that a variant does not
touch go to PROGRAM as they are.
"""

import os
import re
import subprocess
import sys
import tempfile
import tomllib
from decimal import Decimal, InvalidOperation
from pathlib import Path

FRAME = re.compile(rb"8=FIX\.4\.2\x019=(\d{1,6})\x01")
TRAILER = re.compile(rb"10=\d{3}\x01")
LEAD_MARKET_MAKERS = re.compile(rb"lmm = \[[^\]]*\]")
PERCENT = re.compile(rb"(percent = )(\d+)")
READING = {"run", "session", "opening"}         # the commands that read messages
REPORTING = {"run", "replay", "session"}        # the commands that send reports
TRUE_STOP = 20099                               # the tag by which a changed stop order tells its own stop price
PRODUCT, JOURNAL = "product.toml", "journal.gxj"


# ---- frames ----

def frames_of(data):
    """The frames of some bytes, whatever their checksums, each as (whole, body), and the rest."""
    frames, place = [], 0
    while front := FRAME.match(data, place):
        end = front.end() + int(front[1])
        if not TRAILER.match(data, end):
            break
        frames.append((data[place:end + 7], data[front.end():end]))
        place = end + 7
    return frames, data[place:]


def with_checksum(front):
    return front + b"10=%03d\x01" % (sum(front) % 256)


def frame_of(body):
    return with_checksum(b"8=FIX.4.2\x019=%d\x01" % len(body) + body)


def value(body, tag):
    """The value of the first field with a tag, or nothing."""
    found = re.search(rb"(?:^|\x01)%d=([^\x01]*)" % tag, body)
    return found[1] if found else b""


def with_value(body, tag, text):
    return re.sub(rb"((?:^|\x01)%d=)[^\x01]*" % tag, lambda match: match[1] + text, body, count=1)


def change_bodies(data, change):
    """The bytes with each body changed; a frame whose body stays is not touched."""
    frames, rest = frames_of(data)
    changed = [(whole, body, change(body)) for whole, body in frames]
    return b"".join(whole if body == other else frame_of(other) for whole, body, other in changed) + rest


# ---- what is changed ----

def right_checksums(data):
    frames, rest = frames_of(data)
    return b"".join(with_checksum(whole[:-7]) for whole, _ in frames) + rest


def leaves_without_fills(body):
    """A Replaced has its new quantity in 151."""
    return with_value(body, 151, value(body, 38)) if value(body, 150) == b"5" else body


def expired_stays_open(body):
    """An Expired has what was open of it in 151 still, and nothing in 9003."""
    if value(body, 150) != b"C":
        return body
    return with_value(with_value(body, 151, value(body, 9003)), 9003, b"0")


def limit_for_stop(body, instruments):
    """A stop order whose stop price is its limit; the true one is in a tag that is passed over. One that is refused stays."""
    try:
        limit, stop = Decimal(value(body, 44).decode()), Decimal(value(body, 99).decode())
    except InvalidOperation:
        return body
    instrument = instruments.get((value(body, 107) or value(body, 55)).decode())
    if value(body, 40) != b"4" or instrument is None or not is_price(stop, instrument):
        return body
    is_short = limit < stop if value(body, 54) == b"1" else limit > stop
    return body if is_short else with_value(body, 99, value(body, 44)) + b"%d=" % TRUE_STOP + value(body, 99) + b"\x01"


def is_price(price, instrument):
    units = price * 10 ** instrument["decimals"]
    return units % instrument["tick"] == 0 and abs(units) <= 999_999_999_999


def true_stop(body):
    """The message that was sent, of one that limit_for_stop gave."""
    stop = value(body, TRUE_STOP)
    return with_value(body.removesuffix(b"%d=%b\x01" % (TRUE_STOP, stop)), 99, stop) if stop else body


def own_stop_price(body, stops):
    """A report with the stop price that the client gave, and not with the one that PROGRAM was given."""
    order = value(body, 150) == b"4" and value(body, 41) or value(body, 11)
    stop = stops.get((value(body, 56), order))
    if not value(body, 99) or stop is None:
        return body
    decimals = len(value(body, 44).partition(b".")[2])
    return with_value(body, 99, f"{Decimal(stop.decode()):.{decimals}f}".encode())


def own_stop_row(line, stops):
    """A line of the book with the stop price that the client gave."""
    words = line.split(b" ")
    if words[0] == b"W" and (words[-2], words[-1]) in stops:
        decimals = len(words[3].partition(b".")[2])
        words[2] = f"{Decimal(stops[words[-2], words[-1]].decode()):.{decimals}f}".encode()
    return b" ".join(words)


def change_records(journal, change):
    """A journal with the bodies in its records of messages changed."""
    place = 13 + int.from_bytes(journal[9:13], "big")
    parts = [journal[:place]]
    while journal[place:place + 1] == b"\x01":
        end = place + 6 + int.from_bytes(journal[place + 2:place + 6], "big")
        payload = journal[place + 6:end]
        if journal[place + 1:place + 2] == b"M":
            payload = change_bodies(payload, change)
        parts.append(journal[place:place + 2] + len(payload).to_bytes(4, "big") + payload)
        place = end
    return b"".join(parts) + journal[place:]


def percents_of_the_rest(array):
    """The shares of lead market makers, each of what those before it leave of a hundred, in as many bytes."""
    rest = 100

    def percent(match):
        nonlocal rest
        share = int(match[2])
        mine, rest = max(share * rest // 100, 1), rest - share
        return match[1] + b"%*d" % (len(match[2]), mine)

    return PERCENT.sub(percent, array)


def rest_pairs(text):
    return [(array, percents_of_the_rest(array)) for array in LEAD_MARKET_MAKERS.findall(text)]


def top_pairs(text):
    """The key top_min under a name that is passed over."""
    return [(b"top_min", b"top_mix")] if b"top_min" in text else []


# ---- calls ----

def call(program, words, data=None):
    return subprocess.run([program, *words], input=data, stdout=subprocess.PIPE)


def call_changed(program, words, change_input, change_output):
    if not (READING | REPORTING) & set(words):
        os.execv(program, [program, *words])
    data = sys.stdin.buffer.read() if READING & set(words) else None
    done = call(program, words, change_input(data) if data is not None else None)
    sys.stdout.buffer.write(change_output(done.stdout) if REPORTING & set(words) else done.stdout)
    return done.returncode


def call_apart(program, words, to_program, from_program, data=None):
    """Calls PROGRAM in a folder of its own, with product and journal changed; the journal is changed back for this folder."""
    here = Path.cwd()
    with tempfile.TemporaryDirectory() as folder:
        for name, change in to_program.items():
            if (here / name).exists():
                (Path(folder) / name).write_bytes(change((here / name).read_bytes()))
        kept = Path(folder) / JOURNAL
        given = kept.read_bytes() if kept.exists() else b""
        done = subprocess.run([program, *words], input=data, stdout=subprocess.PIPE, cwd=folder)
        journal = kept.read_bytes() if kept.exists() else b""
        if journal != given:
            (here / JOURNAL).write_bytes(from_program(journal))
    return done, journal


def call_under_another_product(program, words, pairs_of):
    """Calls PROGRAM with another product. In the journal, too, the texts are changed, and then changed back."""
    pairs = pairs_of(Path(PRODUCT).read_bytes()) if Path(PRODUCT).exists() else []
    if not pairs or "steps" in words or not accepts_product(program):
        os.execv(program, [program, *words])
    there = [(new, old) for old, new in pairs]
    change = {name: lambda content: exchanged(content, pairs) for name in (PRODUCT, JOURNAL)}
    done, _ = call_apart(program, words, change, lambda journal: exchanged(journal, there), sys.stdin.buffer.read())
    sys.stdout.buffer.write(done.stdout)
    return done.returncode


def call_with_other_stops(program, words):
    """Calls PROGRAM with stop orders changed, in the input and in the journal, and changes them and the reports back."""
    if not accepts_product(program):
        os.execv(program, [program, *words])
    instruments = {table["name"]: table for table in tomllib.loads(Path(PRODUCT).read_text())["instrument"]}

    def change(body):
        return limit_for_stop(body, instruments)

    files = {PRODUCT: same, JOURNAL: lambda journal: change_records(journal, change)}
    data = change_bodies(sys.stdin.buffer.read(), change)
    done, journal = call_apart(program, words, files, lambda journal: change_records(journal, true_stop), data)
    stops = stops_of(journal)
    output = change_bodies(done.stdout, lambda body: own_stop_price(body, stops))
    if "book" in words:
        output = b"\n".join(own_stop_row(line, stops) for line in output.split(b"\n"))
    sys.stdout.buffer.write(output)
    return done.returncode


def stops_of(journal):
    """The true stop prices of the stop orders that a journal keeps, by firm and id."""
    stops = {}

    def note(body):
        if value(body, TRUE_STOP):
            stops[value(body, 49), value(body, 11)] = value(body, TRUE_STOP)
        return body

    change_records(journal, note)
    return stops


def accepts_product(program):
    return subprocess.run([program, "steps"], capture_output=True).returncode == 0


def exchanged(content, pairs):
    for old, new in pairs:
        content = content.replace(old, new)
    return content


def same(data):
    return data


VARIANTS = {
    # Exact: PROGRAM is given the right checksum for each frame that is whole but for it.
    "checksum-not-looked-at": lambda program, words: call_changed(program, words, right_checksums, same),
    # As near as whole percents come: 40 and 10 become 40 and 6, which is 10 percent of the 60 that are left.
    "percent-of-the-rest": lambda program, words: call_under_another_product(program, words, rest_pairs),
    # Exact: PROGRAM takes the least 1 of a TOP step whose least the product gives; `steps` prints the product's.
    "top-without-its-least": lambda program, words: call_under_another_product(program, words, top_pairs),
    # Exact in the reports. The printed forms are right.
    "replaced-leaves-without-fills": lambda program, words: call_changed(
        program, words, same, lambda data: change_bodies(data, leaves_without_fills)),
    # Exact in the reports. The printed forms are right.
    "expired-stays-open": lambda program, words: call_changed(
        program, words, same, lambda data: change_bodies(data, expired_stays_open)),
    # Exact in what is reported and kept, but for images. PROGRAM is given longer messages, so that places after one of
    # these are greater where a call tells them.
    "stop-at-its-limit": call_with_other_stops,
}


def main():
    if len(sys.argv) < 3 or sys.argv[2] not in VARIANTS:
        raise SystemExit(f"wrong_engine.py PROGRAM VARIANT WORDS.., where VARIANT is one of {', '.join(VARIANTS)}")
    return VARIANTS[sys.argv[2]](str(Path(sys.argv[1]).resolve()), sys.argv[3:])


if __name__ == "__main__":
    sys.exit(main())

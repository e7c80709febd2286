#!/usr/bin/env python3
"""Tries laws.py: PROGRAM keeps all laws, and each variant of lawless_engine.py breaks just its own.

PROGRAM is tried with 20,000 made messages of each letter of examples/, with as many of all kinds and lives, and with the
`run`s of the sessions. The exit status is 1 if something is not as it should be.
"""

import argparse
import random
import subprocess
import sys
import tempfile
from pathlib import Path

from laws import bodies_of, breaks_of
from lawless_engine import VARIANTS, answer, lawless_answer
from run import HERE, chosen_sessions, program_of
from seen_orders import frames_of
from session_file import Call, Put, frame_of, read_chapters

LETTERS = "FCATOQK2"
FIRMS = ["AAA", "BBB", "CCC", "DDD"]


def product_text(letter):
    text = (HERE.parent / "examples" / letter.replace("2", "F") / "product.toml").read_bytes()
    return text + text[text.index(b"[[instrument]]"):].replace(b"ESZ4", b"NQZ4") if letter == "2" else text


# ---- streams ----

def drilled(program, product, count):
    """The messages of a drill, from the records of its journal."""
    with tempfile.TemporaryDirectory() as folder:
        (Path(folder) / "product.toml").write_bytes(product)
        words = [*program, "drill", "--first", "1", "--count", str(count)]
        subprocess.run(words, cwd=folder, stdout=subprocess.DEVNULL, check=True)
        journal = (Path(folder) / "journal.gxj").read_bytes()
    place, messages = 13 + int.from_bytes(journal[9:13], "big"), []
    while journal[place:place + 2] == b"\x01M":
        end = place + 6 + int.from_bytes(journal[place + 2:place + 6], "big")
        messages.append(journal[place + 6:end])
        place = end
    return b"".join(messages)


def mixed(symbols, count):
    """Messages of all kinds and lives, cancels, replaces and closes."""
    draw = random.Random(1)
    sent, bodies = [], []
    for number in range(1, count + 1):
        firm, symbol, side = draw.choice(FIRMS), draw.choice(symbols), draw.choice("12")
        head = f"49={{}}|56=GX|34={number}|52=20240102-09:30:00|"
        what = draw.randrange(100)
        if what == 0:
            body = "35=h|" + head.format("GX") + f"340={draw.choice('3222')}|"
        elif what < 20 and sent:
            owner, old, symbol, side, kind = draw.choice(sent[-60:])
            body = f"35=F|{head.format(owner)}11=m{number}|41={old}|"
            if what < 10:
                body = body.replace("35=F", "35=G") + order_text(draw, symbol, side, kind)
                sent.append((owner, f"m{number}", symbol, side, kind))
        else:
            kind, life = draw.choice("22221444"), draw.choice("00001134")
            body = f"35=D|{head.format(firm)}11=m{number}|" + order_text(draw, symbol, side, kind) + f"59={life}|"
            body += "110=4|" if life == "3" and draw.randrange(2) else ""
            body += "210=3|" if draw.randrange(4) == 0 else ""
            sent.append((firm, f"m{number}", symbol, side, "2" if kind == "1" else kind))
        bodies.append(frame_of(body.replace("|", "\x01").encode()))
    return b"".join(bodies)


def order_text(draw, symbol, side, kind):
    price = draw.randrange(9990, 10011)
    stop = price - draw.randrange(6) if side == "1" else price + draw.randrange(6)
    text = f"55={symbol}|54={side}|38={draw.randrange(4, 30)}|40={kind}|"
    text += f"44={price / 100:.2f}|" if kind != "1" else ""
    return text + (f"99={stop / 100:.2f}|" if kind == "4" else "")


def stream_of(program, name, letter, count):
    if name == "drill":
        return drilled(program, product_text(letter), count)
    return mixed(["ESZ4", "NQZ4"] if letter == "2" else ["ESZ4"], count)


def session_streams(session):
    """The first `run`s of a session under one product, as one product, messages and reports; nothing if there are none."""
    product, messages, reports = None, b"", b""
    for step in session.steps:
        action = step.action
        if isinstance(action, Put) and (action.file != "product" or action.action != "is" or messages):
            break
        if isinstance(action, Put):
            product = action.content
        if isinstance(action, Call) and action.words != ["run"] and action.words[:1] in (["drill"], ["amend"]):
            break
        if isinstance(action, Call) and action.words == ["run"]:
            if action.status not in (0, 7, 8):
                break
            messages += b"".join(frames_of(b"".join(action.pieces)))
            reports += action.output
    return (product, messages, reports) if product and messages else None


# ---- what is tried ----

def found_in(product, messages, reports):
    return breaks_of(product.decode(), bodies_of(messages, False), bodies_of(reports, False))


def try_right(program, count):
    faults = []
    for letter in LETTERS:
        for name in ("drill", "mixed"):
            product, messages = product_text(letter), stream_of(program, name, letter, count)
            reports = answer(program, product, messages)
            found = found_in(product, messages, reports)
            counts = f"{len(frames_of(messages))} messages, {len(frames_of(reports))} reports, {len(found)} breaks"
            print(f"{letter} {name}: {counts}", flush=True)
            faults += [f"{letter} {name}: {fault}" for fault in found]
    return faults


def try_sessions():
    faults, count = [], 0
    for session in chosen_sessions(read_chapters(HERE), [], []):
        stream = session_streams(session)
        if stream:
            count += 1
            faults += [f"{session.chapter}/{session.name}: {fault}" for fault in found_in(*stream)]
    print(f"{count} sessions with runs", flush=True)
    return faults


def try_lawless(program, count):
    faults = []
    for name, variant in VARIANTS.items():
        product, messages = product_text(variant.letter), stream_of(program, variant.stream, variant.letter, count)
        found = found_in(product, messages, lawless_answer(program, variant, product, messages))
        broken = {fault.law for fault in found}
        print(f"{name}: breaks {', '.join(sorted(broken)) or 'nothing'}", flush=True)
        if broken != {variant.law}:
            faults += [f"{name} has to break {variant.law} alone", *map(str, found)]
    return faults


def main():
    parser = argparse.ArgumentParser(description=__doc__, formatter_class=argparse.RawDescriptionHelpFormatter)
    parser.add_argument("program", metavar="PROGRAM")
    parser.add_argument("--count", type=int, default=20_000, help="how many messages a stream has")
    arguments = parser.parse_args()
    program = program_of(arguments.program)
    faults = try_sessions() + try_lawless(program, min(arguments.count, 3_000)) + try_right(program, arguments.count)
    for fault in faults:
        print(fault)
    print("as it should be" if not faults else f"{len(faults)} faults")
    return 1 if faults else 0


if __name__ == "__main__":
    sys.exit(main())

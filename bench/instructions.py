#!/usr/bin/env python3
"""Counts how many instructions `globex drill` and `globex run` take for a message, and in which part of the engine, by valgrind's
callgrind, which counts the same in each run.

Serves messages in a folder in memory, once so many and once 10,000 more, and divides what the others took. The streams are made
messages, with some 10,000, 34,000 and 95,000 orders live; orders of which each trades, with three reports a message and one live
order; and cancels and replaces with 50,000 orders live. Made messages are drilled, run, and recovered from the journal of the
drill by a run without input. The product is that of the stored run, with room for 100,000 live orders and the journal that so
many messages want. Each function's own instructions are counted for the part that its crate belongs to; what
the compiler has put into another function is counted there, and what the C library copies is a part of its own.

    ./run-example.sh                                 builds the program
    bench/instructions.py [--functions] [PROGRAM]    wants valgrind, a package of Debian; with --functions it also lists
                                                     the functions of each row that take the most
"""

import os
import re
import subprocess
import sys
import tempfile

import streams

MORE = 10_000
MADE_COUNTS = [7_500, 50_000, 155_000]
TRADING_COUNT = 2_000
LIVE = 50_000
KEYS = "max_orders = 100000\njournal_limit = 67108864\n"
FUNCTIONS = 20
DRILL = ["drill", "--first", "1", "--count"]

PARTS = {
    "making": "order_maker",
    "framing": "fix_frame",
    "requests": "fix_request",
    "matching": "order_kinds level_sweep top_order lmm_pass split_pass prorata_pass leveling_pass plain_book book_side order_pool id_table price_level price_chunks book_order step_config",
    "reports": "exec_report book_print journal_print line_parts gx_base itoa",
    "journal": "match_journal gx_station book_recovery book_image",
    "copies": "libc",
}
PART_OF = {crate: part for part, crates in PARTS.items() for crate in crates.split()}
COST = re.compile(r"^(?:\+\d+|-\d+|\*|\d+) (\d+)$")
NAME = re.compile(r"^(c?)(ob|fn)=\((\d+)\)(?: (.*))?$")


def part_of(name, library):
    """The part of a function, by the first crate that its name has."""
    if "libc" in library or "ld-linux" in library:
        return "copies"
    for word in re.findall(r"[a-z_][a-z0-9_]*", name):
        if word in PART_OF:
            return PART_OF[word]
    return "other"


def costs_of(profile):
    """The own instructions of each function, with its library: the costs of lines that are not those of calls."""
    names, libraries, costs = {}, {}, {}
    library, function, is_call = "", ("", ""), False
    with open(profile) as file:
        for line in file:
            word = NAME.match(line.rstrip("\n"))
            if word:
                text = (libraries if word[2] == "ob" else names).setdefault(word[3], word[4] or "")
                if word[1]:
                    continue
                if word[2] == "ob":
                    library = os.path.basename(text)
                else:
                    function = (text, library)
            elif line.startswith("calls="):
                is_call = True
            else:
                cost = COST.match(line)
                if cost and not is_call:
                    costs[function] = costs.get(function, 0) + int(cost[1])
                is_call = False
    return costs


def profile_of(program, words, input_bytes, drilled=0):
    """The instructions of each function of a call over a new journal, or over that of so many drilled messages."""
    with tempfile.TemporaryDirectory(dir=streams.MEMORY_FOLDER) as folder:
        streams.write_product(folder, KEYS)
        if drilled > 0:
            subprocess.run([program, *DRILL, str(drilled)], check=True, cwd=folder, capture_output=True)
        profile = os.path.join(folder, "profile")
        call = ["valgrind", "--tool=callgrind", f"--callgrind-out-file={profile}", program, *words]
        subprocess.run(call, check=True, cwd=folder, input=input_bytes, capture_output=True)
        return costs_of(profile)


def row(name, live, before, after, with_functions):
    """Prints what the last 10,000 messages took: all, by parts, and by functions where that is asked."""
    each = {function: (cost - before.get(function, 0)) / MORE for function, cost in after.items()}
    parts = dict.fromkeys([*PARTS, "other"], 0.0)
    for (text, library), cost in each.items():
        parts[part_of(text, library)] += cost
    numbers = [sum(parts.values()), *parts.values()]
    print(f"| {name} | {live:,} | " + " | ".join(f"{number:,.0f}" for number in numbers) + " |", flush=True)
    if with_functions:
        for (text, _), cost in sorted(each.items(), key=lambda item: -item[1])[:FUNCTIONS]:
            print(f"    {cost:7,.0f}  {text}")


def made_rows(program, count, with_functions):
    with tempfile.TemporaryDirectory(dir=streams.MEMORY_FOLDER) as folder:
        streams.write_product(folder, KEYS)
        first, _ = streams.made(program, folder, count)
        all_of_them, live = streams.made(program, folder, count + MORE)
    drilled = [profile_of(program, [*DRILL, str(count + more)], b"") for more in (0, MORE)]
    row("drill, made", live, *drilled, with_functions)
    ran = [profile_of(program, ["run"], b"".join(frames)) for frames in (first, all_of_them)]
    row("run, made", live, *ran, with_functions)
    recovered = [profile_of(program, ["run"], b"", count + more) for more in (0, MORE)]
    row("recovery, made", live, *recovered, with_functions)


def run_row(program, name, live, frames, with_functions):
    ran = [profile_of(program, ["run"], b"".join(frames[:count])) for count in (len(frames) - MORE, len(frames))]
    row(name, live, *ran, with_functions)


def main():
    words = sys.argv[1:]
    with_functions = "--functions" in words
    words = [word for word in words if word != "--functions"]
    program = os.path.abspath(words[0] if words else streams.PROGRAM)
    print("| | live orders | " + " | ".join(["all", *PARTS, "other"]) + " |")
    print("|---" * (len(PARTS) + 4) + "|")
    for count in MADE_COUNTS:
        made_rows(program, count, with_functions)
    run_row(program, "run, each order trades", 1, streams.trading(TRADING_COUNT + MORE), with_functions)
    run_row(program, "run, cancels and replaces", LIVE - MORE // 2, streams.changing(LIVE, MORE), with_functions)


if __name__ == "__main__":
    main()

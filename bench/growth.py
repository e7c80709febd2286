#!/usr/bin/env python3
"""Counts how many instructions a whole message of `globex run` takes as live orders, levels, waiting stops, firms and instruments grow.

Each figure is the difference of two runs by valgrind's callgrind, over the messages that fill the book and over these with more of one
kind, divided by how many more there are. So the start is not in it, and it is the same in each run (`dearest.py`). The messages:

- made ones, as `drill` makes them, until so many orders live (the streams of `instructions.py`, and a shorter one);
- sells over so many levels, each at a worse price than all before it;
- a sell and a buy that trade, in turn, beside so many stops that wait for a price far above;
- orders and cancels of so many firms, or over so many instruments, in turn: the same orders, whatever their firms and instruments.

    ./run-example.sh                       builds the program
    bench/growth.py [--write] [PROGRAM]    wants valgrind, a package of Debian, and a few minutes

It prints the table of docs/BENCH.md, and with --write puts it there and the figures into docs/pictures/figures/growth.csv, in which the
figures of another program stay. Then bench/plots.py draws them.
"""

import csv
import dataclasses
import io
import os
import pathlib
import re
import sys
import tempfile

import dearest
import instructions
import streams

SHORT_STREAM = (650, 1_000)
LEVELS = [1_000, 10_000, 40_000, 95_000]
STOPS = [0, 100, 1_000, 10_000, 50_000]
FIRMS = [1, 4, 16, 64]
INSTRUMENTS = [1, 4, 16]
MORE = 1_000
MIXED = 10_000

DOCS = pathlib.Path(streams.TOP, "docs")
FIGURES = DOCS / "pictures" / "figures" / "growth.csv"
BENCH = DOCS / "BENCH.md"
ANOTHER = "another program"
COLUMNS = ["grows", "line", "count", "instructions", ANOTHER]
KEY = COLUMNS[:3]
TABLE_HEAD = "| A message | So many | Instructions |\n|---|---|---|\n"


@dataclasses.dataclass
class Point:
    """A point of the plot: what grows, how much there is of it, and what is counted, with the name of the point's line."""

    grows: str
    count: int
    case: dearest.Case


def made_point(program, count, more):
    """So many more made messages after so many."""
    product = streams.product_text(instructions.KEYS)
    with tempfile.TemporaryDirectory(dir=streams.MEMORY_FOLDER) as folder:
        pathlib.Path(folder, "product.toml").write_text(product)
        book, _ = streams.made(program, folder, count)
        frames, live = streams.made(program, folder, count + more)
    return Point("live orders", live, dearest.Case("a made message", book, frames[count:], product))


def worst_price(levels):
    """Orders at worse prices than those of so many levels."""
    worse = [dearest.entered(f"w{k}", 2, 1, dearest.MIDDLE + levels + 1 + k) for k in range(MORE)]
    return Point("levels", levels, dearest.Case("a new order at the worst price", dearest.falling(levels), worse))


def trades_beside(stops):
    """Pairs of orders that trade, beside so many stops that none reaches."""
    pairs = [dearest.entered(f"p{k}", 2 - k % 2, 1, dearest.MIDDLE) for k in range(2 * MORE)]
    return Point("waiting stops", stops, dearest.Case("an order, every other of which trades", dearest.far_stops(stops), pairs))


def mixed_case(name, firms, instruments):
    """Orders and cancels of so many firms over so many instruments."""
    firm_names = [f"F{number:02}" for number in range(firms)]
    instrument_names = [f"ES{number:02}" for number in range(instruments)]
    frames = streams.mixed(1, 2 * MIXED, firm_names, instrument_names)
    product = streams.product_text(instructions.KEYS, firm_names, instrument_names)
    return dearest.Case(name, frames[:MIXED], frames[MIXED:], product)


def points(program):
    """All points, those of a line one after the other."""
    for count, more in [SHORT_STREAM, *((count, instructions.MORE) for count in instructions.MADE_COUNTS)]:
        yield made_point(program, count, more)
    yield from map(worst_price, LEVELS)
    yield from map(trades_beside, STOPS)
    for firms in FIRMS:
        yield Point("firms", firms, mixed_case("an order or a cancel, firms in turn", firms, 1))
    for number in INSTRUMENTS:
        case = mixed_case("an order or a cancel, instruments in turn", len(streams.FIRMS), number)
        yield Point("instruments", number, case)


def measured(program):
    """A row of figures for each point. Says each on stderr as it is counted."""
    rows = []
    for point in points(program):
        each = round(dearest.instructions_of(program, point.case))
        print(f"{point.case.name}, {point.count:,} {point.grows}: {each:,} instructions", file=sys.stderr, flush=True)
        rows.append(dict(zip(COLUMNS, [point.grows, point.case.name, str(point.count), str(each), ""])))
    return rows


def kept_rows():
    """The rows of the file of figures."""
    with open(FIGURES, newline="") as file:
        return list(csv.DictReader(file))


def csv_of(rows):
    """The file of figures with these rows, in which those of another program stay."""
    another = {tuple(row[column] for column in KEY): row[ANOTHER] for row in kept_rows()}
    out = io.StringIO()
    file = csv.DictWriter(out, COLUMNS, lineterminator="\n")
    file.writeheader()
    for row in rows:
        file.writerow(row | {ANOTHER: another.get(tuple(row[column] for column in KEY), "")})
    return out.getvalue()


def listed(rows, column):
    """The numbers of a column, as a sentence has them."""
    numbers = [f"{int(row[column]):,}" for row in rows]
    return " and ".join(filter(None, [", ".join(numbers[:-1]), numbers[-1]]))


def table_of(rows):
    """The table of docs/BENCH.md: a row for each line of the plot."""
    table = TABLE_HEAD
    for grows, line in dict.fromkeys((row["grows"], row["line"]) for row in rows):
        its = [row for row in rows if (row["grows"], row["line"]) == (grows, line)]
        table += f"| {line} | {listed(its, 'count')} {grows} | {listed(its, 'instructions')} |\n"
    return table


def write(rows):
    """Puts the rows into the file of figures, and the table of them into docs/BENCH.md."""
    text, found = re.subn(re.escape(TABLE_HEAD) + r"(?:\|.*\n)*", lambda _: table_of(rows), BENCH.read_text())
    if found != 1:
        sys.exit(f"{BENCH} has {found} tables that begin with\n{TABLE_HEAD}")
    FIGURES.write_text(csv_of(rows))
    BENCH.write_text(text)


def main():
    words = [word for word in sys.argv[1:] if word != "--write"]
    rows = measured(os.path.abspath(words[0] if words else streams.PROGRAM))
    print(table_of(rows), end="")
    if "--write" in sys.argv[1:]:
        write(rows)


if __name__ == "__main__":
    main()

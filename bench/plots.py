#!/usr/bin/env python3
"""Draws the plots of docs/BENCH.md from the figures in docs/pictures/figures, as SVG in docs/pictures.

A row of a file of figures is a bar, a part of one, or a point. Where the column `another program` has a figure too, it is drawn
beside ours. The same figures give the same bytes with the same matplotlib.

    /usr/bin/python3 bench/plots.py            wants matplotlib, as Debian's python3-matplotlib has it
    /usr/bin/python3 bench/plots.py --check    says which figures of the files are not in docs/BENCH.md, and ends with 1 if there is one
"""

import csv
import io
import pathlib
import re
import sys
from html import escape

import matplotlib

matplotlib.use("svg")
import matplotlib.pyplot as plt  # noqa: E402

PICTURES = pathlib.Path(__file__).parents[1] / "docs" / "pictures"
sys.path.insert(0, str(PICTURES))
from drawing import DARK, KINDS, LIGHT  # noqa: E402

FIGURES = PICTURES / "figures"
BENCH = PICTURES.parent / "BENCH.md"
ANOTHER = "another program"
GRID = KINDS["plain"][1]
INK, SOFT = LIGHT["ink"], LIGHT["soft"]
STRONG = {kind: colours[2] for kind, colours in KINDS.items()}
LINES = ["blue", "orange", "green", "violet"]
GROWTH = [["live orders"], ["levels"], ["waiting stops"], ["firms", "instruments"]]
PARTS = {
    "making": "yellow",
    "framing": "teal",
    "requests": "violet",
    "matching": "blue",
    "reports": "green",
    "journal": "pink",
    "copies": "orange",
    "other": "plain",
}

matplotlib.rcParams.update(
    {
        "svg.hashsalt": "globex",
        "svg.fonttype": "none",
        "font.size": 11,
        "text.color": INK,
        "axes.labelcolor": SOFT,
        "axes.edgecolor": GRID,
        "axes.titlecolor": INK,
        "axes.titlesize": 12,
        "axes.titleweight": "bold",
        "axes.titlelocation": "left",
        "axes.spines.top": False,
        "axes.spines.right": False,
        "axes.axisbelow": True,
        "xtick.color": SOFT,
        "ytick.color": SOFT,
        "grid.color": GRID,
        "legend.facecolor": LIGHT["page"],
        "legend.edgecolor": LIGHT["page"],
        "legend.framealpha": 1,
        "legend.fontsize": 10,
        "figure.constrained_layout.use": True,
    }
)


def rows_of(name):
    with open(FIGURES / name, newline="") as file:
        return list(csv.DictReader(file))


def number(text):
    return float(text or 0)


def thousands(value, _=None):
    return f"{value:,.0f}" if value >= 1 or value == 0 else f"{value:g}"


def size_of(count):
    return f"{count / 1e6:,.1f} MB" if count >= 1e6 else f"{count / 1e3:,.1f} KB" if count >= 1e4 else f"{count:,.0f} bytes"


def themes():
    """Each colour of the light theme by a name, and the same in the dark one."""
    names = {LIGHT[name]: (name, DARK[name]) for name in ("ink", "soft", "page")} | {GRID: ("grid", KINDS["plain"][4])}
    for kind, colours in KINDS.items():
        names.setdefault(colours[2], (kind, colours[5]))
    return names


def save(figure, name, title, desc):
    """Writes a figure, with its colours as names that a dark page changes, and fonts that each reader has."""
    out = io.StringIO()
    figure.savefig(out, format="svg", metadata={"Date": None, "Creator": None, "Format": None, "Type": None})
    plt.close(figure)
    svg = out.getvalue()
    names = themes()

    def named(found):
        what, colour = found.groups()
        return f"{what}: {colour}; {what}: var(--{names[colour][0]}, {colour})" if colour in names else found[0]

    svg = re.sub(r"(fill|stroke): (#[0-9a-f]{6})", named, svg)
    svg = re.sub(r"font: ((?:bold |\d+ )?[0-9.]+px) [^;\"]*", r"font: \1 sans-serif", svg)
    dark = "".join(f"--{name}:{colour};" for name, colour in names.values())
    style = f"<style>@media (prefers-color-scheme:dark){{svg{{{dark}}}}}</style>"
    head = f" <title>{escape(title)}</title>\n <desc>{escape(desc)}</desc>\n {style}\n"
    svg = re.sub(r"(<svg [^>]*>\n)", lambda found: found[1] + head, svg, count=1)
    (PICTURES / name).write_text("\n".join(line.rstrip() for line in svg.splitlines()) + "\n")


def begun(width, height, **more):
    figure, axes = plt.subplots(figsize=(width, height), **more)
    figure.set_facecolor(LIGHT["page"])
    for ax in figure.axes:
        ax.set_facecolor(LIGHT["page"])
    return figure, axes


def mark_another(ax, rows, says=True):
    """A mark on each bar that another program has a figure for."""
    marked = [(number(row[ANOTHER]), place) for place, row in enumerate(rows) if row[ANOTHER]]
    if marked:
        ax.plot(*zip(*marked), "D", color=INK, label=ANOTHER)
        if says:
            ax.legend(loc="lower right")


def draw_instructions():
    rows = rows_of("instructions.csv")[::-1]
    figure, ax = begun(9.6, 4.2)
    places = range(len(rows))
    left = [0.0] * len(rows)
    for part, kind in PARTS.items():
        sizes = [number(row[part]) for row in rows]
        drawn = ax.barh(places, sizes, 0.62, left, color=STRONG[kind], label=part, edgecolor=LIGHT["page"], linewidth=0.8)
        words = [thousands(size) if size >= 240 else "" for size in sizes]
        ax.bar_label(drawn, words, label_type="center", color=LIGHT["page"], fontsize=10)
        left = [start + size for start, size in zip(left, sizes)]
    for place, row, end in zip(places, rows, left):
        ax.text(end + 50, place, thousands(number(row["all"])), va="center", weight="bold")
    mark_another(ax, rows, False)
    ax.set_yticks(places, [row["stream"] for row in rows], color=INK)
    ax.set_xlim(0, max(left) * 1.1)
    ax.xaxis.set_major_formatter(thousands)
    ax.grid(axis="x")
    ax.tick_params(length=0)
    ax.spines["left"].set_visible(False)
    ax.set_title("Instructions a message, by part of the engine")
    handles, labels = ax.get_legend_handles_labels()
    unique = dict(zip(labels, handles))
    figure.legend(unique.values(), unique.keys(), loc="lower center", ncol=9, handlelength=1, columnspacing=1.2)
    figure.get_layout_engine().set(rect=(0, 0.08, 1, 0.92))
    desc = "; ".join(f"{row['stream']}: {thousands(number(row['all']))}" for row in rows[::-1])
    save(figure, "instructions.svg", "Instructions a message, by part of the engine", desc)


def draw_lines(ax, rows, named, x, y):
    """A line for each name, through its rows' points."""
    names = list(dict.fromkeys(row[named] for row in rows))
    for name, kind in zip(names, LINES):
        its = [row for row in rows if row[named] == name]
        ax.plot([x(row) for row in its], [y(row) for row in its], "o-", color=STRONG[kind], label=name, linewidth=2)
        others = [row for row in its if row[ANOTHER]]
        if others:
            values = [number(row[ANOTHER]) for row in others]
            ax.plot([x(row) for row in others], values, "D--", color=STRONG["plain"], label=f"{name}, {ANOTHER}")
    ax.xaxis.set_major_formatter(thousands)
    ax.yaxis.set_major_formatter(thousands)
    ax.grid(axis="y")
    ax.tick_params(length=0)


def scale_counts(ax, counts):
    """A scale on which each tenfold count is as far from the one before it, from 0 on where that is a count."""
    if 0 in counts:
        ax.set_xscale("symlog", linthresh=100)
    else:
        ax.set_xscale("log")
    if max(counts) < 100:
        ax.set_xticks(sorted(counts))
    ax.xaxis.set_major_formatter(thousands)
    ax.minorticks_off()


def draw_growth():
    rows = rows_of("growth.csv")
    figure, axes = begun(9.6, 6.4, nrows=2, ncols=2)
    figure.get_layout_engine().set(h_pad=0.12, w_pad=0.1)
    for ax, subjects in zip(axes.flat, GROWTH):
        its = [row for row in rows if row["grows"] in subjects]
        if not its:
            ax.set_axis_off()
            continue
        draw_lines(ax, its, "line", lambda row: number(row["count"]), lambda row: number(row["instructions"]))
        scale_counts(ax, {int(row["count"]) for row in its})
        top = ax.get_ylim()[1]
        ax.set_ylim(0, top * 1.45)
        ax.set_title(f"More {' or '.join(subjects)}")
        ax.set_ylabel("instructions")
        ax.legend(loc="upper left")
    told = (f"{row['line']}, {thousands(number(row['count']))} {row['grows']}: {thousands(number(row['instructions']))}" for row in rows)
    desc = "; ".join(told)
    save(figure, "growth.svg", "What a message costs as the book grows, in instructions", desc)


def draw_dearest():
    rows = rows_of("dearest.csv")[::-1]
    figure, ax = begun(9.6, 3.9)
    values = [number(row["milliseconds"]) for row in rows]
    drawn = ax.barh(range(len(rows)), values, 0.6, color=STRONG["orange"])
    ax.bar_label(drawn, [thousands(value) for value in values], padding=5, color=INK, weight="bold")
    mark_another(ax, rows)
    ax.set_yticks(range(len(rows)), [row["message"] for row in rows], color=INK)
    ax.set_xlim(0, max(values) * 1.16)
    ax.xaxis.set_major_formatter(thousands)
    ax.tick_params(length=0)
    ax.spines["left"].set_visible(False)
    figure.suptitle("The dearest messages, over a full book, in milliseconds", x=0.01, ha="left", fontsize=12, weight="bold")
    desc = "; ".join(f"{row['message']}: {row['milliseconds']} ms" for row in rows[::-1])
    save(figure, "dearest.svg", "The dearest messages, in milliseconds", desc)


def draw_closes():
    rows = rows_of("closes.csv")
    figure, ax = begun(9.6, 3.6)
    draw_lines(ax, rows, "orders at a close", lambda row: number(row["count"]), lambda row: number(row["milliseconds"]))
    ax.set_ylim(0)
    ax.set_xlim(0)
    ax.set_xlabel("live orders")
    ax.set_ylabel("milliseconds")
    ax.set_title("A close of the market")
    ax.legend(loc="upper left")
    desc = "; ".join(f"{row['orders at a close']}, {thousands(number(row['count']))}: {row['milliseconds']} ms" for row in rows)
    save(figure, "closes.svg", "How long a close of the market takes", desc)


def draw_start():
    rows = rows_of("start.csv")
    journals = list(dict.fromkeys(row["journal"] for row in rows))
    figure, axes = begun(9.6, 2.9, ncols=len(journals), sharex=True)
    for ax, journal in zip(axes, journals):
        its = [row for row in rows if row["journal"] == journal][::-1]
        values = [number(row["milliseconds"]) for row in its]
        kinds = ["blue" if "image" in row["way"] else "violet" if "checkpoint" in row["way"] else "plain" for row in its]
        drawn = ax.barh(range(len(its)), values, 0.6, color=[STRONG[kind] for kind in kinds])
        words = [f"{thousands(value)} ms, {size_of(number(row['bytes']))}" for value, row in zip(values, its)]
        ax.bar_label(drawn, words, padding=5, color=INK, fontsize=10)
        mark_another(ax, its)
        ax.set_yticks(range(len(its)), [row["way"] for row in its] if ax is axes[0] else [""] * len(its), color=INK)
        ax.set_title(journal)
        ax.set_xlim(0, max(number(row["milliseconds"]) for row in rows) * 1.75)
        ax.tick_params(length=0)
        ax.spines["left"].set_visible(False)
    desc = "; ".join(f"{row['journal']}, {row['way']}: {row['milliseconds']} ms, {row['bytes']} bytes" for row in rows)
    save(figure, "start.svg", "A start by replay and from an image, over 400,000 messages", desc)


def check():
    """Says which figures docs/BENCH.md does not have."""
    told = {found.rstrip(",") for found in re.findall(r"\d[\d,]*", BENCH.read_text())}
    wrong = 0
    for path in sorted(FIGURES.glob("*.csv")):
        for row in rows_of(path.name):
            for column, value in row.items():
                if column != ANOTHER and value.isdigit() and value != "0" and f"{int(value):,}" not in told:
                    print(f"{path.name}: {column} {int(value):,} is not in docs/BENCH.md")
                    wrong = 1
    return wrong


def main():
    if sys.argv[1:] == ["--check"]:
        sys.exit(check())
    if sys.argv[1:]:
        sys.exit(__doc__)
    for draw in (draw_instructions, draw_growth, draw_dearest, draw_closes, draw_start):
        draw()


if __name__ == "__main__":
    main()

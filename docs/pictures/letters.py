"""A match of each algorithm letter, as the reports in examples/LETTER tell it: the book before it and after it.

run-example.sh holds these reports to what the program sends, so the pictures show what the program does.
"""

import dataclasses
import pathlib
import tomllib

from drawing import Picture

EXAMPLES = pathlib.Path(__file__).parents[2] / "examples"
LETTERS = "FTCAOQK"
STEPS = {
    "F": ["FIFO"],
    "T": ["LMM", "FIFO"],
    "C": ["PRORATA", "FIFO"],
    "A": ["TOP", "PRORATA", "FIFO"],
    "O": ["TOP", "PRORATA", "FIFO"],
    "Q": ["TOP", "LMM", "PRORATA", "FIFO"],
}
COLOURS = {"TOP": "violet", "LMM": "orange", "SPLIT": "pink", "PRORATA": "blue", "LEVELING": "teal", "FIFO": "green"}
SCALE = 4.6


@dataclasses.dataclass
class Order:
    number: int
    firm: str
    before: int
    given: list

    def left(self):
        return self.before - sum(lots for _, lots in self.given)


@dataclasses.dataclass
class Match:
    letter: str
    steps: list
    orders: list
    wanted: int
    price: str


def fields_of(line):
    return dict(field.split("=", 1) for field in line.strip("|\n").split("|"))


def read_match(letter):
    """The match of an example: the sells that rest, in their order, what each step took of them, and the buy."""
    product = tomllib.loads((EXAMPLES / letter / "product.toml").read_text())["instrument"][0]
    orders, wanted, price = {}, 0, ""
    for line in (EXAMPLES / letter / "reports.txt").read_text().splitlines():
        report = fields_of(line)
        if report["150"] == "0" and report["54"] == "2":
            orders[report["37"]] = Order(int(report["37"]), report["56"], int(report["38"]), [])
        elif report["150"] == "0":
            wanted, price = int(report["38"]), report["44"]
        elif report["54"] == "2":
            orders[report["37"]].given.append((report["9001"], int(report["32"])))
    return Match(letter, product.get("steps") or STEPS[product["algorithm"]], list(orders.values()), wanted, price)


def pill(picture, x, y, step):
    width = 14 + 8.2 * len(step)
    picture.rect(x, y, width, 22, f"{COLOURS[step]}-solid", 11)
    picture.text(x + width / 2, y + 15.5, step, "on", 11, "middle", bold=True)
    return x + width + 6


def bar(picture, x, y, height, order):
    """The lots of an order: what each step took in its colour, and the rest pale."""
    picture.rect(x, y, order.before * SCALE, height, "plain", 2)
    for step, lots in order.given:
        picture.rect(x, y, lots * SCALE, height, f"{COLOURS[step]}-solid", 0)
        if lots > 1:
            picture.text(x + lots * SCALE / 2, y + height / 2 + 4, str(lots), "on", 11 if lots > 2 else 10, "middle", bold=True)
        x += lots * SCALE
    if order.left() > 10:
        picture.text(x + order.left() * SCALE / 2, y + height / 2 + 4, str(order.left()), "soft", 11, "middle")


def draw_panel(picture, x, y, match):
    width, row = 458, 32
    picture.rect(x, y, width, 218, "card", 8)
    picture.rect(x + 14, y + 13, 28, 28, "plain", 6)
    picture.text(x + 28, y + 33, match.letter, "ink", 17, "middle", bold=True)
    place = x + 54
    for step in match.steps:
        place = pill(picture, place, y + 16, step)
    y += 54
    for left, words, size in ((14, "order", 48), (66, "before", 54), (396, "after", 48)):
        picture.words(x + left, y, size, 20, [words], "soft", 12)
    picture.words(x + 124, y, 268, 20, [f"sells at {match.price}"], "soft", 12, left=4)
    y += 24
    for order in match.orders:
        picture.box(x + 14, y, 48, row - 4, f"#{order.number}", size=13, radius=4)
        picture.box(x + 66, y, 54, row - 4, str(order.before), size=13, radius=4)
        picture.rect(x + 124, y, 268, row - 4, "card", 4)
        bar(picture, x + 130, y + 4, row - 12, order)
        left = order.left()
        ink = "ink" if left else "soft"
        picture.box(x + 396, y, 48, row - 4, str(left or "gone"), size=13, radius=4, bold=bool(left), ink=ink)
        y += row


def draw_key(picture, x, y, match):
    width = 458
    picture.rect(x, y, width, 218, "plain", 8)
    total = sum(order.before for order in match.orders)
    lines = [
        f"Four orders sell {total} lots at one price.",
        f"A buy wants {match.wanted}. Each step in turn shares",
        "what is still wanted, by its own rule.",
    ]
    for index, words in enumerate(lines):
        picture.words(x, y + 14 + index * 24, width, 24, [words], size=14, left=18)
    for index, (step, words) in enumerate(
        [
            ("TOP", "who bettered the price"),
            ("LMM", "market makers' percents"),
            ("SPLIT", "a percent, by time"),
            ("PRORATA", "by size"),
            ("LEVELING", "one lot, if no share"),
            ("FIFO", "by time"),
        ]
    ):
        column, place = divmod(index, 3)
        left = x + 18 + column * 222
        top = y + 104 + place * 38
        after = pill(picture, left, top, step)
        picture.words(after - 2, top, x + 18 + (column + 1) * 222 - after, 22, [words], "soft", 11, left=2)


def letters_picture():
    matches = [read_match(letter) for letter in LETTERS]
    picture = Picture(
        "One match by each algorithm letter",
        "Four sell orders of 10, 50, 30 and 1 lots at one price, and a buy of 41. "
        + " ".join(f"{match.letter} leaves {', '.join(str(order.left()) for order in match.orders)}." for match in matches),
        24 + 458 + 16 + 458 + 24,
        24 + 4 * 218 + 3 * 16 + 24,
    )
    for index, match in enumerate(matches):
        row, column = divmod(index, 2)
        draw_panel(picture, 24 + column * 474, 24 + row * 234, match)
    draw_key(picture, 24 + 474, 24 + 3 * 234, matches[0])
    return picture.svg()


def draw_ladder(picture, x, y, width, words, match, taken):
    """The queue at the price, first come first: a box for each order, whose bar is as long as what it has."""
    picture.box(x, y, width, 34, words, size=14, bold=True)
    picture.box(x, y + 40, width, 34, f"sells at {match.price}", size=13, ink="soft")
    y += 80
    for order in match.orders:
        lots = order.left() if taken else order.before
        picture.rect(x, y, width, 46, "card" if lots else "plain", 6, dashed=not lots)
        picture.words(x, y, 70, 46, [f"#{order.number}", order.firm], size=13, left=12, bold=True)
        if lots:
            picture.rect(x + 62, y + 13, max(lots * 1.9, 2), 20, "plain-solid", 2)
        ink, size = ("ink", 14) if lots else ("soft", 12)
        picture.words(x + width - 50, y, 46, 46, [str(lots or "gone")], ink, size, bold=bool(lots))
        y += 50
    total = sum(order.left() if taken else order.before for order in match.orders)
    picture.box(x, y, width, 46, [f"{total} lots", "are open"], size=14, bold=True)


def draw_step(picture, x, width, match, step):
    """A column: what the step takes of each order. Returns how many lots these are."""
    taken = 0
    picture.rect(x, 64, width, 34, f"{COLOURS[step]}-solid", 6)
    picture.words(x, 64, width, 34, [step], "on", 11, bold=True)
    for index, order in enumerate(match.orders):
        lots = sum(lots for by, lots in order.given if by == step)
        picture.rect(x, 104 + index * 50, width, 46, COLOURS[step] if lots else "plain", 6)
        if lots:
            picture.words(x, 104 + index * 50, width, 46, [str(lots)], "ink", 17, bold=True)
        taken += lots
    return taken


def told(match):
    """The match in words."""
    before = ", ".join(f"#{order.number} sells {order.before}" for order in match.orders)
    taken = [
        f"{step} takes " + ", ".join(f"{lots} of #{order.number}" for order in match.orders for by, lots in order.given if by == step)
        for step in match.steps
    ]
    after = ", ".join(f"#{order.number} has {order.left()}" for order in match.orders)
    return f"Before: {before}. A buy wants {match.wanted}. {'. '.join(taken)}. After: {after}."


def match_picture():
    """The match of the list with all six steps, step by step."""
    match = read_match("K")
    picture = Picture(
        "A match by all six steps",
        told(match),
        980,
        24 + 80 + 4 * 50 + 46 + 24,
    )
    side, gap = 210, 16
    draw_ladder(picture, 24, 24, side, "the book before", match, False)
    draw_ladder(picture, 980 - 24 - side, 24, side, "the book after", match, True)
    x = 24 + side + gap
    middle = 980 - 2 * x
    width = (middle - 5 * 6) / 6
    picture.box(x, 24, middle, 34, f"a buy of {match.wanted} lots goes through the steps", size=14, bold=True)
    wanted = match.wanted
    for step in match.steps:
        wanted -= draw_step(picture, x, width, match, step)
        picture.box(x, 304, width, 46, [str(wanted), "wanted"], size=14, bold=True)
        x += width + 6
    return picture.svg()


def pictures():
    return {"letters.svg": letters_picture(), "match.svg": match_picture()}

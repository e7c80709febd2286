"""Orders as messages and reports show them: what each has, where it stands in line, and what it shows.

Nothing here matches orders. An order is what its firm sent, and fills, ends and moves as reports say.
"""

import re
import tomllib
from dataclasses import dataclass, field
from decimal import Decimal, InvalidOperation

FRAME = re.compile(rb"8=FIX\.4\.2\x019=(\d{1,6})\x01")
TIME = re.compile(r"\d{4}(0[1-9]|1[0-2])(0[1-9]|[12]\d|3[01])-([01]\d|2[0-3]):[0-5]\d:([0-5]\d|60)(\.\d{3})?", re.ASCII)
NUMBER = re.compile(r"0*[1-9]\d*", re.ASCII)
BUY, SELL = "1", "2"
RESTS, WAITS, COMES_IN, OUT = "rests", "waits", "comes in", "out"
MOST_UNITS = 999_999_999_999
PRESETS = {"F": ["FIFO"], "T": ["LMM", "FIFO"], "C": ["PRORATA", "FIFO"], "A": ["TOP", "PRORATA", "FIFO"],
           "O": ["TOP", "PRORATA", "FIFO"], "Q": ["TOP", "LMM", "PRORATA", "FIFO"]}


# ---- frames and fields ----

def frames_of(data):
    """The frames at the front of some bytes, up to the first that has not its length or checksum."""
    frames, place = [], 0
    while front := FRAME.match(data, place):
        end = front.end() + int(front[1])
        if data[end:end + 7] != b"10=%03d\x01" % (sum(data[place:end]) % 256):
            break
        frames.append(data[place:end + 7])
        place = end + 7
    return frames


def body_of(frame):
    return frame[FRAME.match(frame).end():-7].decode("latin-1")


def fields_of(body):
    """The first value of each tag."""
    fields = {}
    for text in body.split("\x01")[:-1]:
        tag, _, value = text.partition("=")
        fields.setdefault(tag, value)
    return fields


def number_of(text):
    """The whole number of a quantity text; 0 for none."""
    digits = text.partition(".")[0]
    return int(digits) if digits.isascii() and digits.isdigit() else 0


# ---- the product ----

@dataclass(frozen=True)
class Instrument:
    name: str
    decimals: int
    tick: int
    protection: int
    steps: list[str]
    top_max: int
    least: int
    split: int
    makers: dict[str, int]

    def units_of(self, text):
        """A price text in price units; nothing if it is none."""
        try:
            return int(Decimal(text).scaleb(self.decimals))
        except (InvalidOperation, ValueError, OverflowError):
            return None

    def protected(self, best, side):
        """The limit of a market order, counted from the best opposite price."""
        most = MOST_UNITS // self.tick * self.tick
        distance = self.protection * self.tick
        return min(best + distance, most) if side == BUY else max(best - distance, -most)


@dataclass(frozen=True)
class Product:
    exchange: str
    firms: list[str]
    instruments: dict[str, Instrument]


def instrument_of(table):
    letter = table["algorithm"]
    return Instrument(
        table["name"], table["decimals"], table["tick"], table["protection"],
        table["steps"] if letter == "K" else PRESETS[letter],
        999_999 if letter == "A" else table.get("top_max", 999_999),
        table.get("least", 2 if letter == "A" else 1), table.get("split", 0),
        {share["firm"]: share["percent"] for share in table.get("lmm", [])})


def product_of(text):
    tables = tomllib.loads(text)
    return Product(tables["exchange"], tables["firms"],
                   {table["name"]: instrument_of(table) for table in tables["instrument"]})


# ---- messages with their reports ----

@dataclass(frozen=True)
class Report:
    number: int
    text: str
    fields: dict[str, str]

    def get(self, tag):
        return self.fields.get(str(tag), "")

    @property
    def is_fill(self):
        return self.get(35) == "8" and self.get(150) in ("1", "2")

    @property
    def is_triggered(self):
        return self.get(150) == "0" and self.get(58) == "TRIGGERED"

    @property
    def is_expired(self):
        return self.get(35) == "8" and self.get(150) == "C"

    @property
    def begins(self):
        """Whether it answers a message. What follows on it does not."""
        unasked = self.get(150) == "4" and "41" not in self.fields
        return not (self.is_fill or self.is_triggered or self.is_expired or unasked)


@dataclass(frozen=True)
class Message:
    number: int
    body: str
    fields: dict[str, str]

    def get(self, tag):
        return self.fields.get(str(tag), "")

    @property
    def symbol(self):
        return self.fields.get("107", self.get(55))

    def has_head(self, product):
        """Whether the session rules 1 to 6 pass it."""
        texts = self.body.split("\x01")[:-1]
        is_well_formed = all(re.fullmatch(r"[1-9]\d{0,4}=.+", text, re.ASCII | re.DOTALL) for text in texts)
        senders = [product.exchange] if self.get(35) == "h" else product.firms
        return (self.body.startswith("35=") and is_well_formed and self.get(49) in senders
                and self.get(56) == product.exchange and len(self.get(34)) <= 9
                and NUMBER.fullmatch(self.get(34)) is not None and TIME.fullmatch(self.get(52)) is not None)

    def is_silent(self, product):
        """Whether it may have no report at all."""
        kind = self.get(35)
        if kind == "h":
            return self.has_head(product) and re.fullmatch(r"0{0,8}[23]", self.get(340)) is not None
        return len(kind) == 1 and kind in "012345A" and self.has_head(product)

    def is_answered_by(self, report):
        if report.get(35) == "3":
            return report.get(45) == "0" or number_of(report.get(45)) == number_of(self.get(34))
        if (report.get(56), report.get(11)) != (self.get(49), self.get(11)):
            return False
        answers = {"D": [("8", "0"), ("8", "8")], "F": [("8", "4"), ("9", "1")], "G": [("8", "5"), ("9", "2")]}
        given = (report.get(35), report.get(150) if report.get(35) == "8" else report.get(434))
        return given in answers.get(self.get(35), [])


# ---- orders ----

@dataclass(eq=False)
class Order:
    number: int
    firm: str
    id: str
    instrument: Instrument
    side: str
    kind: str
    life: str
    price: int
    stop: int
    quantity: int
    least: int
    show: int
    filled: int = 0
    shown: int = 0
    noted: int = 0          # its share in the last pro rata step
    entered_with: int = 0   # what was filled of it as it came in
    state: str = COMES_IN

    @property
    def leaves(self):
        return self.quantity - self.filled

    def allows(self, price):
        if price is None:
            return False
        return price <= self.price if self.side == BUY else price >= self.price

    def is_reached(self, prices):
        """Whether some fill price has reached its stop price."""
        if not prices:
            return False
        return max(prices) >= self.stop if self.side == BUY else min(prices) <= self.stop


@dataclass
class Book:
    """All orders that reports have told of, and the lines in which the live ones stand."""

    orders: dict[int, Order] = field(default_factory=dict)
    live: dict[tuple[str, str], Order] = field(default_factory=dict)
    levels: dict[tuple[str, str], dict[int, list[Order]]] = field(default_factory=dict)
    waiting: dict[str, list[Order]] = field(default_factory=dict)

    def level(self, order):
        return self.levels.get((order.instrument.name, order.side), {}).get(order.price, [])

    def best(self, instrument, side):
        prices = self.levels.get((instrument.name, side))
        if not prices:
            return None
        return max(prices) if side == BUY else min(prices)

    def stops(self, instrument):
        return self.waiting.setdefault(instrument.name, [])

    def add(self, order):
        self.orders[order.number] = order
        self.live[order.firm, order.id] = order

    def rest(self, order):
        order.state = RESTS
        order.kind = "2"
        order.shown = min(order.show, order.leaves) if order.show else order.leaves
        prices = self.levels.setdefault((order.instrument.name, order.side), {})
        prices.setdefault(order.price, []).append(order)

    def wait(self, order):
        order.state = WAITS
        self.stops(order.instrument).append(order)

    def take_out(self, order):
        """Takes a live order out of the line it stands in."""
        if order.state == WAITS:
            self.stops(order.instrument).remove(order)
        if order.state == RESTS:
            prices = self.levels[order.instrument.name, order.side]
            prices[order.price].remove(order)
            if not prices[order.price]:
                del prices[order.price]
        order.state = COMES_IN

    def end(self, order):
        self.take_out(order)
        order.state = OUT
        if self.live.get((order.firm, order.id)) is order:
            del self.live[order.firm, order.id]

    def trade(self, order, lots):
        """A fill. A resting order of which nothing is shown any more goes to the end of its line."""
        order.filled += lots
        if order.leaves <= 0:
            self.end(order)
        elif order.state == RESTS:
            order.shown -= lots
            if order.shown <= 0:
                self.take_out(order)
                self.rest(order)

    def rename(self, order, new_id):
        if self.live.get((order.firm, order.id)) is order:
            del self.live[order.firm, order.id]
        order.id = new_id
        self.live[order.firm, new_id] = order

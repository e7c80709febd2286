#!/usr/bin/env python3
"""Tries by the laws of docs/LAWS.md what any engine reported: laws.py PRODUCT MESSAGES REPORTS [--text]

MESSAGES and REPORTS are files of FIX frames, from an empty book on; with --text each line is a frame, or a body of one,
with `|` for SOH. For each law that breaks it prints the first report and message at which it does. The exit status
is 1 if one breaks, and else 0.
"""

import argparse
import sys
from dataclasses import dataclass
from pathlib import Path

from seen_orders import (BUY, COMES_IN, OUT, RESTS, SELL, WAITS, Book, Message, Order, Report, body_of, fields_of,
                         frames_of, number_of, product_of)

LAWS = ["limits", "trade-through", "line", "shares", "minimum", "stops", "out", "apart", "balance", "counting"]


@dataclass(frozen=True)
class Break:
    law: str
    why: str
    report: Report | None
    message: Message | None

    def __str__(self):
        lines = [f"{self.law}: {self.why}"]
        if self.report:
            lines.append(f"  report {self.report.number}: {self.report.text}")
        if self.message:
            body = self.message.body.replace("\x01", "|")
            lines.append(f"  message {self.message.number}: {body}")
        return "\n".join(lines)


@dataclass
class Step:
    """A step of a match at one price, with the level and what was wanted as it began."""

    name: str
    wanted: int
    level: list[tuple[Order, int]]
    given: dict[int, int]


@dataclass
class Match:
    """The trades of one incoming order at one price."""

    taker: Order
    resting: Order
    left: list[str]
    step: Step | None = None

    def is_of(self, taker, resting):
        return self.taker is taker and (self.resting.instrument, self.resting.side, self.resting.price) == (
            resting.instrument, resting.side, resting.price)


class Checker:
    def __init__(self, product):
        self.product = product
        self.book = Book()
        self.breaks = {}
        self.lines = {}         # reports to each addressee
        self.executions = 0
        self.trades = 0
        self.message = None
        self.report = None
        self.taker = None
        self.match = None
        self.prices = {}        # of the message's fills, by instrument

    def hold(self, law, is_kept, why):
        """Notes the first break of each law."""
        if not is_kept and law not in self.breaks:
            self.breaks[law] = Break(law, why, self.report, self.message)
        return is_kept

    # ---- the stream ----

    def run(self, messages, reports):
        place = 0
        for message in messages:
            self.message, self.report = message, None
            place = self.serve(reports, place)
        self.message = None
        for report in reports[place:]:
            self.report = report
            self.hold("counting", False, "the report answers no message")
        return list(self.breaks.values())

    def serve(self, reports, place):
        """Takes the reports of the message that is next. Answers where those of the one after it begin."""
        message = self.message
        is_silent = message.is_silent(self.product)
        self.prices = {}
        if not is_silent:
            place = self.take_strays(reports, place)
        group = []
        if not is_silent and place < len(reports) and message.is_answered_by(reports[place]):
            group.append(reports[place])
            place += 1
        self.hold("counting", bool(group) or is_silent, "the message has no report")
        is_change = is_silent and message.get(35) == "h"
        while place < len(reports) and not reports[place].begins and reports[place].is_expired == is_change:
            group.append(reports[place])
            place += 1
        self.take_group(group)
        if is_change and number_of(message.get(340)) == 3:
            self.closed()
        return place

    def take_strays(self, reports, place):
        """Each Expired before the first report of an order message: no close has brought it."""
        while place < len(reports) and reports[place].is_expired:
            self.report = reports[place]
            self.count(self.report)
            self.hold("apart", False, "an order expires, and no market closes")
            self.executed()
            place += 1
        return place

    def take_group(self, group):
        place = 0
        while place < len(group):
            self.report = group[place]
            self.count(self.report)
            if self.report.is_fill:
                place += self.filled(group, place)
            elif self.report.get(35) == "8":
                self.executed()
            elif self.report.get(35) == "9":
                self.refused()
            place += 1
        self.taker_done()
        for name, prices in self.prices.items():
            reached = [stop for stop in self.book.waiting.get(name, []) if stop.is_reached(prices)]
            self.hold("stops", not reached, "a fill of the message reaches a stop that is left waiting")

    def count(self, report):
        """The law of counting, of each report."""
        firm = report.get(56)
        self.lines[firm] = self.lines.get(firm, 0) + 1
        self.hold("counting", report.get(34) == str(self.lines[firm]), f"34 is not {self.lines[firm]}")
        if report.get(35) == "8":
            self.executions += 1
            self.hold("counting", report.get(17) == str(self.executions), f"17 is not {self.executions}")

    # ---- reports of one order ----

    def executed(self):
        report, kind = self.report, self.report.get(150)
        if kind == "8":
            self.hold("balance", self.adds_up(report), "38 is not 14, 151 and 9003")
        elif report.is_triggered:
            self.triggered()
        elif kind == "0":
            self.accepted()
        elif kind == "5":
            self.replaced()
        elif kind in ("4", "C"):
            self.ended()

    def adds_up(self, report):
        return number_of(report.get(38)) == sum(number_of(report.get(tag)) for tag in (14, 151, 9003))

    def order_of(self, report):
        """The live order that a report is on; nothing if there is none."""
        order = self.book.orders.get(number_of(report.get(37)))
        if not self.hold("out", order is not None and order.state != OUT, "the order of the report is not live"):
            return None
        self.hold("apart", (report.get(55), report.get(54), report.get(56)) == (
            order.instrument.name, order.side, order.firm), "instrument, side or firm is not that of the order")
        self.hold("apart", self.message.get(35) not in ("D", "G") or self.message.symbol == order.instrument.name,
                  "the order is not of the message's instrument")
        return order

    def balance(self, order, leaves, ended):
        """What a report tells of an order's lots, as its fills so far make it."""
        report = self.report
        told = tuple(number_of(report.get(tag)) for tag in (38, 14, 151, 9003))
        self.hold("balance", told == (order.quantity, order.filled, leaves, ended),
                  f"38, 14, 151 and 9003 are not {order.quantity}, {order.filled}, {leaves} and {ended}")

    def accepted(self):
        message = self.message
        instrument = self.product.instruments.get(message.symbol)
        if instrument is None:
            self.hold("apart", False, "no instrument has this symbol")
            return
        kind, side, life = message.get(40), message.get(54), message.get(59) or "0"
        price = instrument.units_of(message.get(44))
        if kind == "1":
            best = self.book.best(instrument, SELL if side == BUY else BUY)
            if not self.hold("limits", best is not None, "a market order is taken, and there is no price"):
                return
            price = instrument.protected(best, side)
        stop = instrument.units_of(message.get(99)) if kind == "4" else 0
        if not self.hold("limits", None not in (price, stop), "an order without a price is taken"):
            return
        quantity = number_of(message.get(38))
        order = Order(number_of(self.report.get(37)), message.get(49), message.get(11), instrument, side, kind, life, price, stop,
                      quantity, quantity if life == "4" else number_of(message.get(110)), number_of(message.get(210)))
        self.hold("out", order.number not in self.book.orders, "the number of an order comes back")
        self.book.add(order)
        self.order_of(self.report)
        self.balance(order, order.leaves, 0)
        self.come_in(order)

    def come_in(self, order):
        if order.kind == "4":
            self.book.wait(order)
            return
        order.entered_with = order.filled
        self.taker = order

    def triggered(self):
        self.taker_done()
        order = self.order_of(self.report)
        if order is None or not self.hold("stops", order.state == WAITS, "the order is no waiting stop"):
            return
        prices = self.prices.get(order.instrument.name, [])
        reached = [stop for stop in self.book.stops(order.instrument) if stop.is_reached(prices)]
        self.hold("stops", order in reached, "no fill of the message has reached the stop price")
        self.hold("stops", order not in reached or reached[0] is order, "a stop that waited longer is reached, too")
        self.balance(order, order.leaves, 0)
        self.book.take_out(order)
        order.kind = "2"
        self.come_in(order)

    def replaced(self):
        message, order = self.message, self.order_of(self.report)
        if order is None:
            return
        named = self.book.live.get((message.get(49), message.get(41)))
        self.hold("out", named is order, "the replace does not name the order of the report")
        instrument, quantity = order.instrument, number_of(message.get(38))
        prices = instrument.units_of(message.get(44)), instrument.units_of(message.get(99)) if order.kind == "4" else order.stop
        if not self.hold("limits", None not in prices, "a replace without a price is taken"):
            return
        keeps_place = prices == (order.price, order.stop) and quantity <= order.quantity
        if not keeps_place:
            self.book.take_out(order)
        self.book.rename(order, message.get(11))
        order.price, order.stop = prices
        order.quantity = quantity
        order.least = quantity if order.life == "4" else min(order.least, quantity)
        self.balance(order, order.leaves, 0)
        if keeps_place:
            order.shown = min(order.shown, order.leaves)
        else:
            order.least = order.least if order.kind == "4" else 0
            self.come_in(order)

    def ended(self):
        """A Cancelled or an Expired."""
        order, report, message = self.order_of(self.report), self.report, self.message
        if order is None:
            return
        if "41" in report.fields:
            named = self.book.live.get((message.get(49), message.get(41)))
            self.hold("out", named is order, "the cancel does not name the order of the report")
        if report.is_expired:
            self.hold("apart", order.life != "1", "an order that is until cancelled expires")
        if order is self.taker:
            self.end_match()
            self.hold_minimum(order)
            self.taker = None
        self.balance(order, 0, order.leaves)
        self.book.end(order)

    def refused(self):
        """A cancel or a replace that is refused."""
        message = self.message
        is_live = (message.get(49), message.get(41)) in self.book.live
        self.hold("out", message.get(35) != "F" or not is_live, "the cancel of a live order is refused")

    def closed(self):
        left = [order for order in self.book.live.values() if order.life != "1"]
        self.hold("apart", not left, f"order {left[0].number if left else 0} is live after a close, and not until cancelled")

    # ---- trades ----

    def filled(self, group, place):
        """A trade: a fill of the resting order, and one of the incoming order. Answers how many more reports it took."""
        first = self.report
        resting = self.order_of(first)
        second = group[place + 1] if place + 1 < len(group) else None
        is_pair = second is not None and second.is_fill and first.get(9002) == second.get(9002)
        if not self.hold("balance", is_pair, "the trade has no second report"):
            return 0
        self.trades += 1
        self.hold("balance", first.get(9002) == str(self.trades), f"9002 is not {self.trades}")
        same = [tag for tag in (31, 32, 9001) if first.get(tag) != second.get(tag)]
        self.hold("balance", not same, "the two reports of the trade differ in price, lots or step")
        taker = self.book.orders.get(number_of(second.get(37)))
        if resting and taker:
            self.hold_trade(resting, taker)
            self.apply_fill(resting)
        self.report = second
        self.count(second)
        taker = self.order_of(second)
        if taker:
            self.hold("limits", self.is_within(taker), "the price is outside the limit of the order")
            self.apply_fill(taker)
        return 1

    def is_within(self, order):
        return order.allows(order.instrument.units_of(self.report.get(31)))

    def apply_fill(self, order):
        lots, price = number_of(self.report.get(32)), order.instrument.units_of(self.report.get(31))
        leaves = order.leaves - lots
        if price is not None:
            self.prices.setdefault(order.instrument.name, []).append(price)
        order.filled += lots
        self.balance(order, leaves, 0)
        order.filled -= lots
        self.book.trade(order, lots)

    def hold_trade(self, resting, taker):
        """The laws of a trade, by the book as it stands before it."""
        price, lots = resting.instrument.units_of(self.report.get(31)), number_of(self.report.get(32))
        self.hold("stops", WAITS not in (resting.state, taker.state), "a stop trades that is not triggered")
        self.hold("apart", resting.instrument is taker.instrument and resting.side != taker.side,
                  "the orders of the trade are not of one instrument and two sides")
        self.hold("limits", self.is_within(resting), "the price is outside the limit of the order")
        self.hold("trade-through", price == resting.price, "the price is not that of the resting order")
        best = self.book.best(resting.instrument, resting.side)
        self.hold("trade-through", resting.state != RESTS or best == resting.price, "an order with a better price rests")
        self.hold("balance", 0 < lots <= taker.leaves and (resting.state != RESTS or lots <= resting.shown),
                  "the lots are not shown by the one order and wanted by the other")
        if resting.state == RESTS:
            self.hold_step(resting, taker, lots)

    def hold_step(self, resting, taker, lots):
        name = self.report.get(9001)
        if self.match is None or not self.match.is_of(taker, resting):
            self.end_match()
            self.match = Match(taker, resting, list(resting.instrument.steps))
        match = self.match
        if match.step is None or match.step.name != name:
            if not self.hold("shares", name in match.left, f"the step {name} does not come now"):
                return
            self.go_on(name)
        if name == "FIFO":
            first = self.book.level(resting)[0]
            self.hold("line", first is resting, f"order {first.number} is first in line")
        match.step.given[resting.number] = match.step.given.get(resting.number, 0) + lots

    def go_on(self, name):
        """Ends the step of the match, and those after it, up to one that has a trade or the last."""
        match = self.match
        while match.step is None or match.step.name != name:
            self.end_step()
            if not match.left:
                return
            level = [(order, order.shown) for order in self.book.level(match.resting)]
            match.step = Step(match.left.pop(0), match.taker.leaves, level, {})

    def end_match(self):
        if self.match is not None:
            self.go_on("")
            self.match = None

    def end_step(self):
        step, match = self.match.step, self.match
        if step is None or step.wanted <= 0 or not step.level:
            return
        instrument = match.resting.instrument
        given = sum(step.given.values())
        if step.name == "TOP":
            self.hold("shares", given <= instrument.top_max and len(step.given) <= 1, "TOP gives more than its greatest")
        if step.name == "SPLIT":
            self.hold("shares", given <= step.wanted * instrument.split // 100, "SPLIT gives more than its percent")
        if step.name == "LMM":
            self.hold_makers(step, instrument)
        if step.name == "PRORATA":
            self.hold_proportion(step, instrument)
        if step.name == "LEVELING":
            is_kept = all(self.book.orders[number].noted == 0 and lots == 1 for number, lots in step.given.items())
            self.hold("shares", is_kept, "LEVELING gives more than one lot, or to an order with a share")

    def hold_makers(self, step, instrument):
        given = {}
        for number, lots in step.given.items():
            firm = self.book.orders[number].firm
            given[firm] = given.get(firm, 0) + lots
        is_kept = all(lots <= step.wanted * instrument.makers.get(firm, 0) // 100 for firm, lots in given.items())
        self.hold("shares", is_kept, "LMM gives a firm more than its percent")

    def hold_proportion(self, step, instrument):
        total = sum(shown for _, shown in step.level)
        offered = min(step.wanted, total)
        for order, shown in step.level:
            part = offered * shown // total
            order.noted = part if part >= instrument.least else 0
            given = step.given.get(order.number, 0)
            self.hold("shares", given == order.noted,
                      f"PRORATA gives order {order.number} {given} lots, and its part is {order.noted}")

    # ---- the end of an order's way ----

    def hold_minimum(self, order):
        done = order.filled - order.entered_with
        self.hold("minimum", done == 0 or done >= order.least, f"it trades {done} lots, and its minimum is {order.least}")

    def taker_done(self):
        """The order that came in rests with what is left."""
        self.end_match()
        order, self.taker = self.taker, None
        if order is None:
            return
        self.hold_minimum(order)
        if order.state == COMES_IN and order.leaves > 0:
            if self.hold("minimum", order.life in ("0", "1"), "a fill and kill or fill or kill order rests"):
                self.book.rest(order)


# ---- files ----

def bodies_of(data, is_text):
    """The bodies of the frames of a file."""
    if not is_text:
        return [body_of(frame) for frame in frames_of(data)]
    bodies = []
    for line in data.decode("latin-1").splitlines():
        if line and not line.startswith("#"):
            text = line.replace("|", "\x01")
            front = text.startswith("8=FIX.4.2\x01")
            bodies.append(text.split("\x01", 2)[2].rpartition("10=")[0] if front else text)
    return bodies


def messages_of(bodies):
    return [Message(number, body, fields_of(body)) for number, body in enumerate(bodies, 1)]


def reports_of(bodies):
    return [Report(number, body.replace("\x01", "|"), fields_of(body)) for number, body in enumerate(bodies, 1)]


def breaks_of(product_text, messages, reports):
    """The breaks of the laws, at most one of each."""
    return Checker(product_of(product_text)).run(messages_of(messages), reports_of(reports))


def main():
    parser = argparse.ArgumentParser(description=__doc__, formatter_class=argparse.RawDescriptionHelpFormatter)
    for name in ("product", "messages", "reports"):
        parser.add_argument(name, metavar=name.upper(), type=Path)
    parser.add_argument("--text", action="store_true", help="each line of both files is a frame with `|` for SOH")
    arguments = parser.parse_args()
    messages = bodies_of(arguments.messages.read_bytes(), arguments.text)
    reports = bodies_of(arguments.reports.read_bytes(), arguments.text)
    breaks = breaks_of(arguments.product.read_text(), messages, reports)
    for found in breaks:
        print(found)
    print(f"{len(messages)} messages, {len(reports)} reports, {len(breaks)} of {len(LAWS)} laws break")
    return 1 if breaks else 0


if __name__ == "__main__":
    sys.exit(main())

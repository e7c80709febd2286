"""The session rules of docs/FORMATS.md ("When a message is refused at the session"), and what they need of a product file."""

import collections
import re
import tomllib

import fix42

LONGEST_PRICE = 32
MOST_PRICE_UNITS = 999_999_999_999
LONGEST_PRODUCT = 65_536
JOURNAL_LIMITS = (131_072, 16_777_216, 268_435_456)
MOST_ORDERS = (1, 10_000, 100_000)
TICKS = (1, None, 1_000_000)

Fault = collections.namedtuple("Fault", "rule text tag reason why")


def said(fault):
    """A fault in one line: the rule, why, and what the Reject would say."""
    tag = f"371={fault.tag}" if fault.tag else "no 371"
    return f"{fault.text}: {fault.why} ({tag}, 373={fault.reason})"


# ---- forms of values


def is_name(text):
    return re.fullmatch(rb"[ -~]{1,24}", text) is not None


def is_quantity(text):
    return re.fullmatch(rb"[0-9]{1,9}(\.0*)?", text) is not None


def is_price(text):
    return len(text) <= LONGEST_PRICE and re.fullmatch(rb"-?([0-9]+\.?[0-9]*|\.[0-9]+)", text) is not None


def is_number(text):
    return re.fullmatch(rb"[0-9]{1,9}", text) is not None


def is_sequence_number(text):
    return is_number(text) and int(text) >= 1


def is_time(text):
    day = rb"[0-9]{4}(0[1-9]|1[0-2])(0[1-9]|[12][0-9]|3[01])"
    hour = rb"([01][0-9]|2[0-3]):[0-5][0-9]:([0-5][0-9]|60)(\.[0-9]{3})?"
    return re.fullmatch(day + b"-" + hour, text) is not None


def is_in_range(text, decimals):
    """Whether a price text is no more than the greatest price. One that lies between two units has another fault."""
    whole, _, fraction = text.removeprefix(b"-").partition(b".")
    if fraction[decimals:].strip(b"0"):
        return True
    return int(whole + fraction[:decimals].ljust(decimals, b"0") or b"0") <= MOST_PRICE_UNITS


# ---- products


class BadProduct(Exception):
    """A product text from which these tools cannot take what they need."""


class Product:
    """What the tools need of a product. The engine tries more."""

    def __init__(self, text):
        table = table_of(text)
        self.exchange = name_in(table, "exchange")
        firms = table.get("firms")
        if not isinstance(firms, list) or not 1 <= len(firms) <= 64:
            raise BadProduct("firms is no array of 1 to 64 names")
        self.firms = [as_name(firm, "an entry of firms") for firm in firms]
        tables = table.get("instrument")
        if not isinstance(tables, list) or not 1 <= len(tables) <= 16:
            raise BadProduct("instrument is no array of 1 to 16 tables")
        # in their order: the name, the decimals and the tick of each
        self.instruments = [instrument_in(entry) for entry in tables]
        self.decimals = {name: decimals for name, decimals, _ in self.instruments}
        if len(self.decimals) < len(tables):
            raise BadProduct("an instrument is there twice")
        self.journal_limit = integer_in(table, "journal_limit", *JOURNAL_LIMITS)
        self.max_orders = integer_in(table, "max_orders", *MOST_ORDERS)

    def follow_fault(self, before):
        """Why this product may not follow another one, or nothing: the first of these that holds."""
        if self.exchange != before.exchange:
            return "exchange is another one"
        if self.firms[: len(before.firms)] != before.firms:
            return "firms does not begin with those before"
        if self.max_orders != before.max_orders:
            return f"max_orders is {self.max_orders:,}, and was {before.max_orders:,}"
        if self.journal_limit < before.journal_limit:
            return f"journal_limit is {self.journal_limit:,}, and was {before.journal_limit:,}"
        if self.instruments != before.instruments:
            return "an instrument is there or is not, or has another name, decimals or tick"
        return None


def table_of(text):
    if len(text) > LONGEST_PRODUCT:
        raise BadProduct(f"it has more than {LONGEST_PRODUCT:,} bytes")
    try:
        return tomllib.loads(text.decode("utf-8"))
    except (UnicodeDecodeError, tomllib.TOMLDecodeError) as fault:
        raise BadProduct(f"it is no TOML: {fault}") from None


def as_name(value, what):
    text = value.encode("utf-8", "replace") if isinstance(value, str) else b""
    if not is_name(text):
        raise BadProduct(f"{what} is no name")
    return text


def name_in(table, key):
    if key not in table:
        raise BadProduct(f"{key} is missing")
    return as_name(table[key], key)


def integer_in(table, key, least, default, most):
    value = table.get(key, default)
    if type(value) is not int or not least <= value <= most:
        raise BadProduct(f"{key} is no integer from {least:,} to {most:,}")
    return value


def instrument_in(table):
    """The name of an instrument, its decimals and its tick."""
    if not isinstance(table, dict):
        raise BadProduct("an entry of instrument is no table")
    for key in ("decimals", "tick"):
        if key not in table:
            raise BadProduct(f"{key} is missing")
    return name_in(table, "name"), integer_in(table, "decimals", 0, None, 8), integer_in(table, "tick", *TICKS)


# ---- the table of messages

SYMBOL = 55
NAME, QUANTITY, PRICE, NUMBER = "name", "quantity", "price", "number"
FORMS = {
    NAME: (is_name, "no name of 1 to 24 printable bytes"),
    QUANTITY: (is_quantity, "no quantity of one to nine digits"),
    PRICE: (is_price, "no price of digits and a point in at most 32 bytes"),
    NUMBER: (is_number, "no number of one to nine digits"),
}
# a price is needed and read if 40 is one of these
READ_IF_40 = {44: (b"2", b"4"), 99: (b"4",)}
ALLOWED = {54: (b"1", b"2"), 40: (b"1", b"2", b"4"), 59: (b"0", b"1", b"3", b"4")}
# of values that are read as numbers
ALLOWED_NUMBERS = {340: (2, 3)}

Row = collections.namedtuple("Row", "needed forms values")

SESSION = Row([], [], [])
NEW = Row(
    [11, SYMBOL, 54, 38, 40, 44, 99],
    [(11, NAME), (SYMBOL, NAME), (38, QUANTITY), (44, PRICE), (99, PRICE), (110, QUANTITY), (210, QUANTITY)],
    [54, 40, 59, 44, 99],
)
CANCEL = Row([11, 41], [(11, NAME), (41, NAME)], [])
REPLACE = Row(
    [11, 41, SYMBOL, 54, 38, 40, 44, 99],
    [(11, NAME), (41, NAME), (SYMBOL, NAME), (38, QUANTITY), (44, PRICE), (99, PRICE)],
    [54, 40, 44, 99],
)
TRADING = Row([340], [(340, NUMBER)], [340])
ROWS = {kind: SESSION for kind in (b"0", b"1", b"2", b"3", b"4", b"5", b"A")}
ROWS.update({b"D": NEW, b"F": CANCEL, b"G": REPLACE, b"h": TRADING})
# the types that the exchange sends, and no firm
OF_THE_EXCHANGE = (b"h",)


# ---- the rules


class Message:
    """The first value of each tag. A symbol is that of 107 if it is there, else of 55."""

    def __init__(self, pairs):
        self.values = {}
        for tag, value in pairs:
            self.values.setdefault(tag, value)
        self.symbol_tag = 107 if 107 in self.values else SYMBOL

    def named_tag(self, tag):
        return self.symbol_tag if tag == SYMBOL else tag

    def is_read(self, tag):
        return tag not in READ_IF_40 or self.values.get(40) in READ_IF_40[tag]

    def value(self, tag):
        """The value if it is there and is read, else nothing."""
        return self.values.get(self.named_tag(tag)) if self.is_read(tag) else None


def pairs_of(body):
    """Tags and values of a body, or the fault of rules 1 to 3."""
    if not body.startswith(b"35="):
        raise Refused(Fault(1, "FIRST TAG", 35, 11, "the body does not begin with 35="))
    pairs = []
    for text in fix42.field_texts(body):
        tag_text, sign, value = text.partition(b"=")
        tag = fix42.tag_number(tag_text)
        if not sign:
            raise Refused(Fault(2, "BAD TAG", 0, 0, f"the field `{fix42.escaped(text[:40])}` has no ="))
        if tag is None:
            shown = fix42.escaped(tag_text[:40])
            raise Refused(Fault(2, "BAD TAG", 0, 0, f"`{shown}` is no tag of one to five digits, the first not 0"))
        pairs.append((tag, value))
    for tag, value in pairs:
        if not value:
            raise Refused(Fault(3, "NO VALUE", tag, 4, f"{tag} has no value"))
    return pairs


class Refused(Exception):
    def __init__(self, fault):
        super().__init__(fault.why)
        self.fault = fault


def firm_fault(value, product):
    """What is wrong with 49, or nothing."""
    if product is not None:
        return None if value in product.firms else "is no listed firm"
    return None if is_name(value) and value != b"UNKNOWN" else "can be the name of no firm"


def exchange_fault(value, product):
    """What is wrong with 56, or with 49 of a message of the exchange, or nothing."""
    if product is not None:
        return None if value == product.exchange else f"is not the exchange {fix42.escaped(product.exchange)}"
    return None if is_name(value) else "can be the name of no exchange"


def number_fault(value, product):
    return None if is_sequence_number(value) else "is no sequence number of one to nine digits, at least 1"


def time_fault(value, product):
    return None if is_time(value) else "is no time YYYYMMDD-HH:MM:SS or YYYYMMDD-HH:MM:SS.sss"


def header_rules(kind):
    """Rules 4 to 6 for a type of message."""
    return [
        (4, "SENDER", 49, 9, exchange_fault if kind in OF_THE_EXCHANGE else firm_fault),
        (5, "TARGET", 56, 9, exchange_fault),
        (6, "HEADER", 34, 6, number_fault),
        (6, "HEADER", 52, 6, time_fault),
    ]


def hold_header(values, product):
    """Rules 4 to 6."""
    for rule, text, tag, reason, find_fault in header_rules(values[35]):
        if tag not in values:
            raise Refused(Fault(rule, text, tag, 1, f"{tag} is missing"))
        wrong = find_fault(values[tag], product)
        if wrong is not None:
            raise Refused(Fault(rule, text, tag, reason, f"{tag} {wrong}"))


def hold_content(message, product):
    """Rules 7 to 10."""
    row = ROWS.get(message.values[35])
    if row is None:
        raise Refused(Fault(7, "MSGTYPE", 35, 11, f"no message has the type {fix42.escaped(message.values[35][:40])}"))
    for tag in row.needed:
        if message.is_read(tag) and message.value(tag) is None:
            raise Refused(Fault(8, "MISSING", tag, 1, f"{tag} is missing"))
    for tag, form in row.forms:
        value = message.value(tag)
        has_form, what = FORMS[form]
        if value is not None and not has_form(value):
            named = message.named_tag(tag)
            raise Refused(Fault(9, "FORMAT", named, 6, f"{named} is {what}"))
    for tag in row.values:
        value = message.value(tag)
        if value is None:
            continue
        if tag in ALLOWED and value not in ALLOWED[tag]:
            listed = ", ".join(text.decode() for text in ALLOWED[tag])
            raise Refused(Fault(10, "VALUE", tag, 5, f"{tag} is none of {listed}"))
        if tag in ALLOWED_NUMBERS and int(value) not in ALLOWED_NUMBERS[tag]:
            listed = ", ".join(map(str, ALLOWED_NUMBERS[tag]))
            raise Refused(Fault(10, "VALUE", tag, 5, f"{tag} is none of {listed}"))
        if tag in READ_IF_40 and product is not None:
            decimals = product.decimals.get(message.value(SYMBOL))
            if decimals is not None and not is_in_range(value, decimals):
                why = f"{tag} is beyond {MOST_PRICE_UNITS:,} units of its instrument"
                raise Refused(Fault(10, "VALUE", tag, 5, why))


def fault_of(body, product=None):
    """The first rule that refuses a message of this body, or nothing. Without a product only forms are tried."""
    try:
        message = Message(pairs_of(body))
        hold_header(message.values, product)
        hold_content(message, product)
    except Refused as refused:
        return refused.fault
    return None

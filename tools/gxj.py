"""Journals, by docs/FORMATS.md ("The journal", "Book images"): what a file is, its records, and copies with fewer of them."""

import dataclasses
import mmap
import os

import fix42
import session_rules

# of the first version and of the second, which new journals have
MAGICS = (b"GXJOURN1", b"GXJOURN2")
MOST_TEXT = 65_536
MOST_UNFINISHED = 65_550
MOST_PAYLOAD = 8_192
MOST_MESSAGES = 1 << 24
HEAD = 6
# of the product text in the header: its length, and its first byte
SIZE_AT = 9
TEXT_AT = 13
# of the length of a text, at the front of an amendment
SIZE_BYTES = 4
MOST_LIMIT = session_rules.JOURNAL_LIMITS[2]
# how many bytes of a mapped file are looked at before their memory is given back
LET_GO = 1 << 22

MESSAGES, OLD_IMAGE, IMAGE, AMENDMENT = b"M", b"C", b"D", b"P"
# of each version; an amendment has an image too
KINDS = {1: (MESSAGES, OLD_IMAGE, IMAGE), 2: (MESSAGES, OLD_IMAGE, IMAGE, AMENDMENT)}
OPEN, CLOSED = b"\x01", b"\x00"

IMAGE_FRONT = 552
INSTRUMENT_BYTES = 25
ORDER_BYTES = 82
LIFE_AT = 12
UNTIL_CANCELLED = 1
# of an image in each kind of record; an old one stands for an open market
SESSION_BYTES = {OLD_IMAGE: 0, IMAGE: 1, AMENDMENT: 1}
MARKET_CLOSED, MARKET_OPEN = 0, 1


class Bad(Exception):
    """A file or a record that is refused. The engine names the same `place`."""

    def __init__(self, place, why):
        super().__init__(why)
        self.place = place
        self.why = why


class PastEnd(Bad):
    """A record that is not there whole. The file has to have `end` bytes, and more if that is in its head."""

    def __init__(self, place, why, end):
        super().__init__(place, why)
        self.end = end


class ProductText:
    """A product text, by the place of its first byte. It gives a product, or `fault` says why it gives none. That of an amendment
    has no `data` if it is not whole."""

    def __init__(self, at, data, fault=None):
        self.at = at
        self.data = data
        self.product = None
        self.fault = fault
        if data is None:
            return
        try:
            self.product = session_rules.Product(data)
        except session_rules.BadProduct as wrong:
            self.fault = f"no product: {wrong}"


@dataclasses.dataclass
class Record:
    """A record with a good head. `fault` says why its payload is not good, or is nothing. `unfit` says why the text of an amendment
    is bad for who reads all texts: it has a fault, or its product may not follow the one before. `count` is how many messages the
    record has, `before` how many are before it, and `counted` the count after it, which an image sets to its own. `text` is the text
    under whose product it is read; that of an amendment is its own."""

    gate: int
    kind: bytes
    length: int
    count: int
    before: int
    counted: int
    fault: str | None
    unfit: str | None
    text: ProductText

    @property
    def end(self):
        return self.gate + HEAD + self.length

    @property
    def wrong(self):
        """Why it is not good under the product of its time, or nothing."""
        return self.unfit or self.fault

    @property
    def is_image(self):
        return self.kind in SESSION_BYTES

    @property
    def is_amendment(self):
        return self.kind == AMENDMENT


def mapped(file):
    """The bytes of a file, which are not read before they are looked at. What cannot be mapped is read: an empty file, or a pipe."""
    try:
        return mmap.mmap(file.fileno(), 0, access=mmap.ACCESS_READ)
    except (OSError, ValueError):
        return file.read()


def let_go(data, place):
    """Gives the memory of a mapped file before a place back, which is read again if it is looked at again. Answers the place."""
    if isinstance(data, mmap.mmap):
        data.madvise(mmap.MADV_DONTNEED, 0, place - place % mmap.PAGESIZE)
    return place


def number_at(data, place, width):
    return int.from_bytes(data[place : place + width], "big")


def record_bytes(kind, payload):
    """A record with its open gate, and without the gate after it."""
    return OPEN + kind + len(payload).to_bytes(4, "big") + payload


# ---- what a file is


def has_header(data):
    """Whether GXJOURN1 or GXJOURN2, a length, a text and a gate follow the first gate."""
    length = number_at(data, SIZE_AT, 4)
    return data[1:SIZE_AT] in MAGICS and len(data) >= TEXT_AT and length <= MOST_TEXT and len(data) > TEXT_AT + length


def first_gate(data):
    """The gate of the first record, if there is a header."""
    return TEXT_AT + number_at(data, SIZE_AT, 4)


def class_of(data):
    if len(data) <= 1 or (data[:1] == CLOSED and len(data) <= MOST_UNFINISHED):
        return "blank"
    if data[:1] not in (CLOSED, OPEN) and has_header(data) and data[first_gate(data)] == 0:
        return "sealed"
    if data[:1] == OPEN and data[1:SIZE_AT] in MAGICS:
        return "journal"
    return "foreign"


def foreign_place(data):
    """The first place that shows that a file is no journal: 0, or the first that fits neither magic."""
    return 0 if data[:1] != OPEN else 1 + max(fix42.first_difference(data[1:9], magic) for magic in MAGICS)


class Opened:
    """A journal file as far as it can be told without its records: its class, its version, the text of its header, and its last
    text. `records_in_turn` reads its records, up to the first closed gate or the first bad head."""

    def __init__(self, data):
        self.data = data
        self.kind = class_of(data)
        self.version = None
        self.header_text = None
        self.last_text = None
        self.gate = None
        if self.kind == "foreign":
            raise Bad(foreign_place(data), "it is no journal")
        if self.kind == "blank":
            return
        if not has_header(data):
            raise Bad(SIZE_AT, "the length of the product text in the header cannot be")
        self.version = 1 + MAGICS.index(data[1:9])
        self.header_text = self.last_text = ProductText(TEXT_AT, data[TEXT_AT : first_gate(data)])
        if self.kind == "journal":
            self.find_last_text()

    @property
    def limit(self):
        """That of the last product, to which all heads are held."""
        product = self.last_text.product
        return product.journal_limit if product else MOST_LIMIT

    def kind_at(self, gate):
        return self.data[gate + 1 : gate + 2]

    def payload_at(self, gate):
        return self.data[gate + HEAD : gate + HEAD + number_at(self.data, gate + 2, 4)]

    def gates(self, limit):
        """The gates of the records, up to a closed gate, or to a bad head, which is refused. Heads are held to this limit. `gate` is
        the one that is at hand."""
        self.gate, gone = first_gate(self.data), 0
        while self.data[self.gate : self.gate + 1] == OPEN:
            self.hold_head(self.gate, limit)
            yield self.gate
            if self.gate - gone >= LET_GO:
                gone = let_go(self.data, self.gate)
            self.gate += HEAD + number_at(self.data, self.gate + 2, 4)

    def find_last_text(self):
        """Takes the text of the last amendment, if there is one. Its product says the limit, so no head is held to that yet."""
        last = None
        try:
            for gate in self.gates(MOST_LIMIT):
                if self.kind_at(gate) == AMENDMENT:
                    last = gate
        except Bad:
            pass
        if last is not None:
            self.last_text = amended_text(last, self.payload_at(last))

    def records_in_turn(self):
        """The records, each as it is read. Refuses a bad head."""
        if self.kind != "journal":
            return
        before, counted, text = 0, 0, self.header_text
        for gate in self.gates(self.limit):
            record = self.record_at(gate, before, counted, text)
            yield record
            before, counted, text = before + record.count, record.counted, record.text

    def hold_head(self, gate, limit):
        """Refuses a bad head at a gate."""
        data = self.data
        if len(data) < gate + HEAD:
            raise PastEnd(gate, "the file ends inside the head of a record", gate + HEAD)
        kind, length = self.kind_at(gate), number_at(data, gate + 2, 4)
        if kind not in KINDS[self.version]:
            *first, last = (known.decode() for known in KINDS[self.version])
            raise Bad(gate, f"the kind of the record is the byte {data[gate + 1]}, and none of {', '.join(first)} and {last}")
        if kind == MESSAGES and not 1 <= length <= MOST_PAYLOAD:
            raise Bad(gate, f"a record of messages has {length:,} bytes, and not 1 to {MOST_PAYLOAD:,}")
        end = gate + HEAD + 1 + length
        if end > len(data):
            raise PastEnd(gate, f"a record of {length:,} bytes goes past the end of the file", end)
        if end > limit:
            raise Bad(gate, f"a record of {length:,} bytes goes past journal_limit, {limit:,}")

    def record_at(self, gate, before, counted, text):
        """The record at a gate, by the counts and the text before it."""
        kind, payload = self.kind_at(gate), self.payload_at(gate)
        if kind in SESSION_BYTES:
            image, fault, unfit = payload, None, None
            if kind == AMENDMENT:
                earlier, text = text, amended_text(gate, payload)
                image, fault = amended_image(payload), text_fault(text)
                unfit = fault or follow_fault(earlier, text)
            if fault is None:
                fault = image_fault(kind, image, text.product)
            own = number_at(image, 0, 8) if fault is None else counted
            return Record(gate, kind, len(payload), 0, before, own, fault, unfit, text)
        count, fault = count_of(payload)
        counted += count
        if fault is None and counted >= MOST_MESSAGES:
            fault = f"{counted:,} messages are counted with it, and not fewer than {MOST_MESSAGES:,}"
        return Record(gate, kind, len(payload), count, before, counted, fault, None, text)


class Journal(Opened):
    """A journal file with its records."""

    def __init__(self, data):
        super().__init__(data)
        self.records = []
        self.bad_head = None
        try:
            for record in self.records_in_turn():
                self.records.append(record)
        except Bad as fault:
            self.bad_head = fault

    def frames(self, record):
        """The messages of a good record."""
        return fix42.whole_frames(self.payload_at(record.gate)) if record.kind == MESSAGES else []

    # ---- what is wrong with it, and its messages

    def last_amendment(self):
        """The last amendment, or nothing."""
        amendments = [record for record in self.records if record.is_amendment]
        return amendments[-1] if amendments else None

    def bad_at_opening(self):
        """What each command refuses when it opens the journal, or nothing. In the second version it is the first bad head, else the
        last amendment if its text is not whole; in the first no head is read then."""
        if self.version != 2:
            return None
        last = self.last_amendment()
        if self.bad_head is None and last is not None and last.text.data is None:
            return Bad(last.gate, last.fault)
        return self.bad_head

    def first_bad(self):
        """What `replay`, `fills` and `ledger` refuse, or nothing: the first bad head, else the last amendment if its text is not
        whole, else the first bad text of all, else the first bad record."""
        return self.bad_head or self.bad_at_opening() or self.bad_text() or self.first_not_good()

    def bad_text(self):
        """The first bad text of a journal with amendments, or nothing: that of the header if it gives no product, and else that of
        the first amendment whose text has a fault, or whose product may not follow the one before."""
        amendments = [record for record in self.records if record.is_amendment]
        if amendments and self.header_text.product is None:
            return Bad(SIZE_AT, f"the product text in the header gives {self.header_text.fault}")
        for record in amendments:
            if record.unfit is not None:
                return Bad(record.gate, record.unfit)
        return None

    def first_not_good(self):
        """The first bad record of all, each read under the product of its time, or nothing."""
        for record in self.records:
            if record.wrong is not None:
                return Bad(record.gate, record.wrong)
        return self.bad_head

    def bad_for_runs(self):
        """What `run`, `drill`, `checkpoint` and `book` refuse, or nothing: the first bad head, else the last amendment if its text
        is not whole, else the first bad record from the last image on. Whether products may follow each other is not tried."""
        bad = self.bad_head or self.bad_at_opening()
        if bad is not None:
            return bad
        images = [number for number, record in enumerate(self.records) if record.is_image]
        for record in self.records[images[-1] if images else 0 :]:
            if record.fault is not None:
                return Bad(record.gate, record.fault)
        return None

    def good_records(self):
        """The records before the first bad one."""
        for record in self.records:
            if record.wrong is not None:
                return
            yield record

    def count(self):
        """How many messages are before the first bad record."""
        return sum(record.count for record in self.good_records())

    def messages(self, first, last):
        """The messages from one number to another, of those before the first bad record."""
        for record in self.good_records():
            if first <= record.before + record.count and record.before < last:
                yield from self.frames(record)[max(first - 1 - record.before, 0) : last - record.before]

    def miscounted(self):
        """The first good image whose count is not that of the messages before it, or nothing. The engine does not try this."""
        for record in self.records:
            if record.is_image and record.wrong is None and record.counted != record.before:
                why = f"the image counts {record.counted:,} messages, and {record.before:,} are before it"
                return Bad(record.gate, why)
        return None


@dataclasses.dataclass
class Totals:
    """What a journal has before its first bad record: how many messages and records, the last record of messages or nothing, and
    what is bad or nothing. The gate of `opened` is the last one, or that of the bad record."""

    opened: Opened
    messages: int = 0
    records: int = 0
    last: Record | None = None
    bad: Bad | None = None

    def last_message(self):
        """The last message, or nothing."""
        return fix42.whole_frames(self.opened.payload_at(self.last.gate))[-1] if self.last else None


def totals_of(data):
    """The totals of a journal, of which no record is held."""
    totals = Totals(Opened(data))
    try:
        for record in totals.opened.records_in_turn():
            if record.wrong is not None:
                totals.bad = Bad(record.gate, record.wrong)
                break
            totals.messages += record.count
            totals.records += 1
            totals.last = record if record.count else totals.last
    except Bad as fault:
        totals.bad = fault
    return totals


def state_of(file):
    """What another one has after somebody wrote the file."""
    state = os.fstat(file.fileno())
    return state.st_size, state.st_mtime_ns


def totals_at(path):
    """The totals of a file, which somebody may be writing. A record that reaches past what was mapped here, and is in the file by now,
    has been written since: it is not counted, and not bad. If something else is bad and the file has changed, it is read again, up to
    where the same place is bad again: an amendment may have come, with a higher limit."""
    place = None
    with open(path, "rb") as file:
        while True:
            before, data = state_of(file), mapped(file)
            totals, after = totals_of(data), state_of(file)
            if isinstance(totals.bad, PastEnd) and totals.bad.end <= after[0]:
                totals.bad = None
            is_same = before == after or not isinstance(data, mmap.mmap)
            if totals.bad is None or is_same or totals.bad.place == place:
                return totals
            place = totals.bad.place


def count_of(payload):
    """How many frames are at the front of a payload, and what is wrong with its rest or nothing."""
    try:
        return fix42.count_frames(payload), None
    except fix42.Stopped as stopped:
        return stopped.count, f"its payload is not whole frames: at its byte {stopped.offset} {stopped.why}"


def text_size(payload):
    """The length of the text of an amendment."""
    return number_at(payload, 0, SIZE_BYTES)


def amended_text(gate, payload):
    """The text of an amendment. It is no longer than the text of a header may be, and ends in the payload."""
    size, at = text_size(payload), gate + HEAD + SIZE_BYTES
    if len(payload) < SIZE_BYTES:
        return ProductText(at, None, f"its payload has {len(payload)} bytes, and the length of a product text is not there")
    if size > MOST_TEXT:
        return ProductText(at, None, f"its product text has {size:,} bytes, and not at most {MOST_TEXT:,}")
    if SIZE_BYTES + size > len(payload):
        return ProductText(at, None, f"its product text of {size:,} bytes goes past its payload of {len(payload):,}")
    return ProductText(at, payload[SIZE_BYTES : SIZE_BYTES + size])


def text_fault(text):
    """What is wrong with the text of an amendment, or nothing."""
    return f"its product text gives {text.fault}" if text.data is not None and text.fault else text.fault


def follow_fault(earlier, text):
    """Why the product of a text may not follow that of the text before, or nothing."""
    if earlier.product is None or text.product is None:
        return None
    fault = text.product.follow_fault(earlier.product)
    return fault and f"its product may not follow the one before: {fault}"


def amended_image(payload):
    return payload[SIZE_BYTES + text_size(payload) :]


def image_fault(kind, image, product):
    """What is wrong with the length of an image, with its count of messages or of live orders, or with its session; the engine
    tries more. Without a product nothing is known of its instruments."""
    if product is None:
        return None
    resting_at = IMAGE_FRONT + INSTRUMENT_BYTES * len(product.decimals)
    if len(image) < resting_at + 4:
        return f"its image has {len(image):,} bytes, and the count of resting orders is not there"
    if number_at(image, 0, 8) >= MOST_MESSAGES:
        return f"its image counts {number_at(image, 0, 8):,} messages, and not fewer than {MOST_MESSAGES:,}"
    resting = number_at(image, resting_at, 4)
    waiting_at = resting_at + 4 + ORDER_BYTES * resting
    if len(image) < waiting_at + 4:
        return f"its image has {len(image):,} bytes, and the count of waiting stops is not there"
    waiting = number_at(image, waiting_at, 4)
    length = waiting_at + 4 + ORDER_BYTES * waiting + SESSION_BYTES[kind]
    if len(image) != length:
        return f"its image has {len(image):,} bytes, and its counts say {length:,}"
    if resting + waiting > product.max_orders:
        return f"its image has {resting + waiting:,} live orders, and max_orders is {product.max_orders:,}"
    if kind == OLD_IMAGE:
        return None
    rows = [resting_at + 4 + ORDER_BYTES * number for number in range(resting)]
    rows += [waiting_at + 4 + ORDER_BYTES * number for number in range(waiting)]
    return session_fault(image, rows)


def session_fault(image, rows):
    """What is wrong with the last byte of an image, or with a row: while the market is closed all live orders are good till
    cancelled."""
    if image[-1] not in (MARKET_CLOSED, MARKET_OPEN):
        return f"the last byte of its image is {image[-1]}, and neither 0 nor 1"
    if image[-1] == MARKET_CLOSED:
        for row in rows:
            number, life = number_at(image, row, 8), image[row + LIFE_AT]
            if life != UNTIL_CANCELLED:
                return f"its image is of a closed market, and order {number} has the life {life}, and not {UNTIL_CANCELLED}"
    return None


# ---- copies


def front_of(journal):
    """All up to the gate of the first record."""
    return journal.data[: first_gate(journal.data)]


def cut(journal, count):
    """A journal that keeps the first messages, and the images and amendments up to the next message."""
    if journal.kind != "journal":
        if count > 0:
            raise Bad(0, "the creation of the journal is unfinished, and no messages are kept")
        return journal.data
    parts, kept = [front_of(journal)], 0
    for record in journal.good_records():
        if record.before > count or (record.before == count and record.kind == MESSAGES):
            break
        payload, left = journal.payload_at(record.gate), count - kept
        if record.count > left:
            payload = b"".join(journal.frames(record)[:left])
        parts.append(record_bytes(record.kind, payload))
        kept += min(record.count, left)
    if kept < count:
        bad = journal.first_not_good()
        if bad is not None:
            raise Bad(bad.place, f"only {kept} messages are before a bad record: {bad.why}")
        raise Bad(journal.gate, f"only {kept} messages are kept")
    return b"".join(parts) + CLOSED


def drop(journal, gate):
    """A journal without the image at a gate."""
    if journal.kind != "journal":
        raise Bad(gate, "the creation of the journal is unfinished, and no record is kept")
    found = next((record for record in journal.records if record.gate == gate), None)
    if found is None:
        raise journal.bad_head or Bad(gate, "no record has its gate there")
    if found.kind == MESSAGES:
        raise Bad(gate, "the record is of messages, and only an image can be taken out")
    if found.is_amendment:
        raise Bad(gate, "the record is an amendment, whose product would be lost, and only an image can be taken out")
    if journal.bad_head is not None:
        raise journal.bad_head
    return journal.data[:gate] + journal.data[found.end : journal.gate] + CLOSED

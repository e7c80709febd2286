"""Frames of FIX 4.2 and their fields, by docs/FORMATS.md ("Frames", "Fields"): the grammar, and bytes as text and back."""

import re
import zlib

SOH = b"\x01"
BEGIN = b"8=FIX.4.2\x019="
TRAILER_LENGTH = 7
MOST_LENGTH_DIGITS = 6
LONGEST_BODY = 4_000
READ = 65_536

ESCAPE = re.compile(rb"\\x([0-9a-fA-F]{2})")
# a byte that is not printable, a backslash, a `|`
ESCAPED = re.compile(rb"[^ -~]|[\\|]")
ESCAPED_IN_FRAMES = re.compile(rb"[^ -~\x01]|[\\|]")
TAG = re.compile(rb"[1-9][0-9]{0,4}")


def check_sum(front):
    """The three digits of 10 for the bytes before it."""
    return b"%03d" % (sum(front) % 256)


def frame_of(body):
    """The frame of a body."""
    front = BEGIN + b"%d" % len(body) + SOH + body
    return front + b"10=" + check_sum(front) + SOH


def body_of(frame):
    """The body of a whole frame."""
    return frame[frame.index(SOH, len(BEGIN)) + 1 : -TRAILER_LENGTH]


class NoFrame(Exception):
    """Bytes that are the front of no frame. `place` is the first wrong byte, counted from the first byte of the frame."""

    def __init__(self, place, why):
        super().__init__(why)
        self.place = place
        self.why = why


def first_difference(given, wanted):
    """The first place at which two texts differ, or the shorter one ends."""
    shared = min(len(given), len(wanted))
    if given[:shared] == wanted[:shared]:
        return shared
    return next(place for place in range(shared) if given[place] != wanted[place])


def hold_to(data, at, place, wanted, why):
    """Whether all wanted bytes are there. Refuses the first wrong one."""
    given = data[at + place : at + place + len(wanted)]
    if given == wanted:
        return True
    differs = first_difference(given, wanted)
    if differs < len(given):
        raise NoFrame(place + differs, why)
    return len(given) == len(wanted)


def length_at(data, at):
    """The length of the body and its place in the frame; nothing if more bytes are needed."""
    front = len(BEGIN)
    length = 0
    for count in range(MOST_LENGTH_DIGITS + 1):
        place = front + count
        if at + place >= len(data):
            return None
        byte = data[at + place]
        if byte == SOH[0]:
            if count == 0:
                raise NoFrame(place, "BodyLength (9) has no digits")
            if length == 0:
                raise NoFrame(place, "BodyLength (9) is 0")
            return length, place + 1
        if not 48 <= byte <= 57:
            raise NoFrame(place, "BodyLength (9) is no number")
        if count == MOST_LENGTH_DIGITS:
            raise NoFrame(place, "BodyLength (9) has more than six digits")
        length = 10 * length + byte - 48
        if length > LONGEST_BODY:
            raise NoFrame(place, f"BodyLength (9) is above {LONGEST_BODY:,}")
        if count == MOST_LENGTH_DIGITS - 1 and length == 0:
            raise NoFrame(place, "BodyLength (9) is 0")
    return None


def end_of_frame(data, at=0):
    """The end of the frame that begins at a place; nothing if more bytes are needed. Raises NoFrame if none can begin there."""
    if not hold_to(data, at, 0, BEGIN, "it does not begin with 8=FIX.4.2|9="):
        return None
    found = length_at(data, at)
    if found is None:
        return None
    length, begin = found
    last = begin + length - 1
    if at + last >= len(data):
        return None
    if data[at + last] != SOH[0]:
        raise NoFrame(last, f"BodyLength (9) is {length}, and no field ends there")
    if not hold_to(data, at, last + 1, b"10=", f"BodyLength (9) is {length}, and 10= does not follow"):
        return None
    wanted = check_sum(memoryview(data)[at : at + last + 1])
    if not hold_to(data, at, last + 4, wanted, f"CheckSum (10) is not {wanted.decode()}"):
        return None
    if not hold_to(data, at, last + 7, SOH, "CheckSum (10) does not end after three digits"):
        return None
    return at + last + 8


class Stopped(Exception):
    """A stream that does not go on with a whole frame. `is_cut` says that its rest is the front of a frame."""

    def __init__(self, offset, count, why, is_cut):
        super().__init__(why)
        self.offset = offset
        self.count = count
        self.why = why
        self.is_cut = is_cut


def stopped_by(fault, offset, count):
    return Stopped(offset, count, f"no frame begins here: {fault.why} (byte {offset + fault.place})", False)


def cut_at(offset, count, left):
    return Stopped(offset, count, f"the input ends inside a frame, of which {left} bytes are there", True)


class Frames:
    """The frames of a file that is read as its bytes come."""

    def __init__(self, file):
        self.file = file
        self.held = b""
        self.at = 0
        self.offset = 0
        self.count = 0

    def rest(self):
        """What was read and is in no frame yet."""
        return self.held[self.at :]

    def read(self):
        """Reads more. Answers whether there was any."""
        more = self.file.read1(READ)
        self.held, self.at = self.rest() + more, 0
        return len(more) > 0

    def take(self):
        """The next frame; nothing at the end. Raises Stopped if the rest begins with none."""
        while True:
            try:
                end = end_of_frame(self.held, self.at)
            except NoFrame as fault:
                raise stopped_by(fault, self.offset, self.count) from None
            if end is not None:
                break
            if not self.read():
                if self.held:
                    raise cut_at(self.offset, self.count, len(self.held))
                return None
        frame = self.held[self.at : end]
        self.at = end
        self.offset += len(frame)
        self.count += 1
        return frame

    def __iter__(self):
        """Each frame with its offset."""
        offset = self.offset
        while (frame := self.take()) is not None:
            yield offset, frame
            offset = self.offset

    def skip(self, count):
        """Takes so many frames. Answers the offset of the next one."""
        while self.count < count:
            if self.take() is None:
                raise Stopped(self.offset, self.count, f"there are only {self.count} frames", False)
        return self.offset


def whole_frames(payload):
    """The frames of some bytes, one after the other. Raises Stopped if there is a rest."""
    frames, at = [], 0
    while at < len(payload):
        try:
            end = end_of_frame(payload, at)
        except NoFrame as fault:
            raise stopped_by(fault, at, len(frames)) from None
        if end is None:
            raise cut_at(at, len(frames), len(payload) - at)
        frames.append(payload[at:end])
        at = end
    return frames


# ---- counts of frames

# the most bytes whose sum is less than the modulus of Adler-32
SUMMED = 256


def heads_by_length():
    """By the length of what follows BEGIN in a frame: the digits of its BodyLength without leading zeros, and SOH. Where no frame has
    such a length there is a tuple with nothing, with which no bytes start."""
    heads = [()]
    for length in range(1, LONGEST_BODY + 1):
        head = b"%d" % length + SOH
        whole = len(head) + length + TRAILER_LENGTH
        heads += [()] * (whole - len(heads)) + [head]
    return heads


def trailers_by_sum():
    """By the last byte of `sum_of` of what follows BEGIN in a frame: the trailers, with the SOH before them, that are right then."""
    trailers = [()] * 256
    for number in range(256):
        trailer = SOH + b"10=%03d" % number + SOH
        trailers[(1 + number - sum(BEGIN) + sum(trailer[1:])) & 255] += (trailer,)
    return trailers


HEADS = heads_by_length()
TRAILERS = trailers_by_sum()


def sum_of(data):
    """A number whose last byte is that of 1 + the sum of the bytes. That of Adler-32 is, for no more than SUMMED bytes."""
    return 1 + sum(zlib.adler32(data[at : at + SUMMED]) - 1 for at in range(0, len(data), SUMMED))


def are_frames(rests):
    """Whether each of these with BEGIN before it is one whole frame, and none has leading zeros in its BodyLength. One that has is a
    frame, too, but it is not known here."""
    longest = max(map(len, rests), default=0)
    if longest >= len(HEADS):
        return False
    sums = map(zlib.adler32 if longest <= SUMMED else sum_of, rests)
    for rest, length, total in zip(rests, map(len, rests), sums):
        if not rest.endswith(TRAILERS[total & 255]) or not rest.startswith(HEADS[length]):
            return False
    return True


def count_frames(payload):
    """How many frames some bytes are, one after the other. Raises Stopped if there is a rest.

    They are parted wherever BEGIN is. If all parts are frames, these are the frames. Else, as where a field has BEGIN in it, the frames
    are taken one by one."""
    first, *rests = payload.split(BEGIN)
    if not first and are_frames(rests):
        return len(rests)
    return len(whole_frames(payload))


# ---- text


def escape_of(found):
    return b"\\x%02x" % found[0][0]


def escaped(data):
    """Bytes as text. A byte that is not printable, a backslash and a `|` become \\x and two hex digits."""
    return ESCAPED.sub(escape_of, data).decode("ascii")


def unescaped(data):
    """The bytes that such text means."""
    return ESCAPE.sub(lambda found: bytes([int(found[1], 16)]), data)


def field_texts(body):
    """The texts of the fields of a body, each without its SOH."""
    return body[:-1].split(SOH)


def text_of(frame):
    """A frame as one line, with `|` for SOH."""
    return ESCAPED_IN_FRAMES.sub(escape_of, frame).replace(SOH, b"|").decode("ascii")


# ---- what people call tags and values

TAG_NAMES = {
    1: "Account",
    6: "AvgPx",
    7: "BeginSeqNo",
    8: "BeginString",
    9: "BodyLength",
    10: "CheckSum",
    11: "ClOrdID",
    14: "CumQty",
    16: "EndSeqNo",
    17: "ExecID",
    20: "ExecTransType",
    21: "HandlInst",
    31: "LastPx",
    32: "LastShares",
    34: "MsgSeqNum",
    35: "MsgType",
    36: "NewSeqNo",
    37: "OrderID",
    38: "OrderQty",
    39: "OrdStatus",
    40: "OrdType",
    41: "OrigClOrdID",
    43: "PossDupFlag",
    44: "Price",
    45: "RefSeqNum",
    49: "SenderCompID",
    50: "SenderSubID",
    52: "SendingTime",
    54: "Side",
    55: "Symbol",
    56: "TargetCompID",
    57: "TargetSubID",
    58: "Text",
    59: "TimeInForce",
    60: "TransactTime",
    97: "PossResend",
    98: "EncryptMethod",
    99: "StopPx",
    102: "CxlRejReason",
    103: "OrdRejReason",
    107: "SecurityDesc",
    108: "HeartBtInt",
    110: "MinQty",
    112: "TestReqID",
    122: "OrigSendingTime",
    123: "GapFillFlag",
    141: "ResetSeqNumFlag",
    142: "SenderLocationID",
    150: "ExecType",
    151: "LeavesQty",
    204: "CustomerOrFirm",
    210: "MaxShow",
    336: "TradingSessionID",
    340: "TradSesStatus",
    371: "RefTagID",
    373: "SessionRejectReason",
    434: "CxlRejResponseTo",
    9001: "Step",
    9002: "Trade",
    9003: "EndedLots",
}

TAGS_BY_NAME = {name.lower(): tag for tag, name in TAG_NAMES.items()}
# the names that a dictionary of QuickFIX gives our own tags
TAGS_BY_NAME.update({"gxstep": 9001, "gxtradenumber": 9002, "gxcancelledqty": 9003})

STATES = {
    b"0": "new",
    b"1": "partly filled",
    b"2": "filled",
    b"4": "cancelled",
    b"5": "replaced",
    b"8": "rejected",
    b"C": "expired",
}

VALUE_NAMES = {
    35: {
        b"0": "Heartbeat",
        b"1": "TestRequest",
        b"2": "ResendRequest",
        b"3": "Reject",
        b"4": "SequenceReset",
        b"5": "Logout",
        b"8": "ExecutionReport",
        b"9": "OrderCancelReject",
        b"A": "Logon",
        b"D": "NewOrderSingle",
        b"F": "OrderCancelRequest",
        b"G": "OrderCancelReplaceRequest",
        b"h": "TradingSessionStatus",
    },
    39: STATES,
    150: STATES,
    40: {b"1": "market", b"2": "limit", b"4": "stop limit"},
    54: {b"1": "buy", b"2": "sell"},
    59: {b"0": "day", b"1": "until cancelled", b"3": "fill and kill", b"4": "fill or kill"},
    102: {b"0": "too late", b"1": "unknown order", b"2": "other reason"},
    103: {
        b"0": "other reason",
        b"1": "unknown symbol",
        b"2": "market closed",
        b"3": "beyond a limit",
        b"6": "duplicate order",
    },
    340: {b"2": "open", b"3": "closed"},
    373: {
        b"0": "invalid tag",
        b"1": "tag missing",
        b"4": "tag without value",
        b"5": "value not allowed",
        b"6": "wrong form",
        b"9": "wrong firm or exchange",
        b"11": "unknown message type",
    },
    434: {b"1": "cancel", b"2": "replace"},
    9001: {
        b"TOP": "top order",
        b"LMM": "lead market makers",
        b"SPLIT": "split by priority",
        b"PRORATA": "pro rata",
        b"LEVELING": "leveling",
        b"FIFO": "first in, first out",
    },
}


def tag_number(text):
    """The number of a tag that has the form of one, else nothing: one to five digits, the first not 0."""
    return int(text) if TAG.fullmatch(text) else None


def named_field(text):
    """A field with the names of its tag and value, as far as they are known."""
    tag_text, sign, value = text.partition(b"=")
    tag = tag_number(tag_text) if sign else None
    if tag not in TAG_NAMES:
        return escaped(text)
    name = VALUE_NAMES.get(tag, {}).get(value, "")
    if tag == 371 and tag_number(value) in TAG_NAMES:
        name = TAG_NAMES[tag_number(value)]
    return f"{tag} {TAG_NAMES[tag]}={escaped(value)}" + (f" {name}" if name else "")


def names_of(frame):
    """A frame as one line for people."""
    return " | ".join(named_field(text) for text in field_texts(frame))

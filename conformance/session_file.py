"""Reads session files. README.md has their format."""

import re
from dataclasses import dataclass, field
from pathlib import Path

SOH = b"\x01"
INDENT = "    "
NO_LINE_FEED = "\\c"

TOKEN = re.compile(r"\\x([0-9a-f]{2})|\\\{(\d+) (.)\}|([^\\]+)")
STATUS = re.compile(r"status (\d+)(?: at (\d+) after (\d+))?")
CALL = re.compile(r"call (\d+):(?: (.*))?")
EXCHANGE = re.compile(r"([<>])([.=*@~]?)(?: (.*))?")
PUT = re.compile(r"put (product|journal) (\S+)(?: (.*))?")
CLAIM = re.compile(r"journal (has|shows|is|digest)(?: (.*))?")


class Malformed(Exception):
    """A session file that is not of the format."""


@dataclass
class Call:
    """A call of the program: its words, its input in pieces, and what is expected of it."""

    number: int
    words: list[str]
    pieces: list[bytes] = field(default_factory=lambda: [b""])
    output: bytes = b""
    status: int | None = None
    at: int = 0
    after: int = 0
    types: set[str] = field(default_factory=set)    # the types of the messages sent, as `35=D`


@dataclass(frozen=True)
class Put:
    """Makes or changes the product file or the journal."""

    file: str
    action: str
    values: list[str]
    content: bytes = b""


@dataclass(frozen=True)
class Claim:
    """What the journal has to be."""

    action: str
    values: list[str]
    content: bytes = b""


@dataclass(frozen=True)
class Step:
    line: int
    rule: str
    action: Call | Put | Claim


@dataclass(frozen=True)
class Session:
    chapter: str
    name: str
    steps: list[Step]

    def needs(self):
        """The commands that it calls, and the types of messages that it sends."""
        calls = [step.action for step in self.steps if isinstance(step.action, Call)]
        return {word for call in calls for word in call.words} | {kind for call in calls for kind in call.types}


# ---- bytes as text ----

def bytes_of(text, bar=SOH):
    """The bytes of a line's text, in which `|` stands for `bar`."""
    parts, place = [], 0
    while place < len(text):
        match = TOKEN.match(text, place)
        if not match:
            raise Malformed(f"no escape: {text[place:place + 4]}")
        code, count, letter, plain = match.groups()
        if code:
            parts.append(bytes([int(code, 16)]))
        elif count:
            parts.append(letter.encode("ascii") * int(count))
        else:
            parts.append(plain.encode("ascii").replace(b"|", bar))
        place = match.end()
    return b"".join(parts)


def frame_of(body):
    """The frame of a body, with the right length and checksum."""
    front = b"8=FIX.4.2\x019=%d\x01" % len(body) + body
    return front + b"10=%03d\x01" % (sum(front) % 256)


def text_of(block):
    """The bytes of a block of text: each line ends with a line feed, but for one with \\c."""
    lines = [line.removeprefix(INDENT) for line in block]
    return b"".join(bytes_of(line.removesuffix(NO_LINE_FEED), b"|") + (b"" if line.endswith(NO_LINE_FEED) else b"\n")
                    for line in lines)


def hex_of(block):
    """The bytes of a block of hex, with comments after `#`."""
    return bytes.fromhex(" ".join(line.partition("#")[0] for line in block))


# ---- the file ----

class Reader:
    """Reads one file, line by line."""

    def __init__(self, text):
        self.lines = text.splitlines()
        self.place = 0
        self.rule = ""
        self.steps = []
        self.calls = {}
        self.contents = {}      # of product texts and journals, by name

    def read(self):
        while self.place < len(self.lines):
            line = self.lines[self.place]
            self.place += 1
            if line and not line.startswith("#"):
                self.read_line(line)
        for call in self.calls.values():
            if call.status is None:
                raise Malformed(f"call {call.number} has no status")
        return self.steps

    def read_line(self, line):
        if line.startswith("rule "):
            self.rule = line.removeprefix("rule ")
        elif match := EXCHANGE.fullmatch(line):
            self.add_bytes(*match.groups())
        elif match := STATUS.fullmatch(line):
            call = self.call_at(len(self.calls))
            call.status, call.at, call.after = (int(value or 0) for value in match.groups())
        elif match := CALL.fullmatch(line):
            self.begin_call(int(match[1]), (match[2] or "").split())
        elif match := PUT.fullmatch(line):
            self.add_step(self.put_of(*match.groups()))
        elif match := CLAIM.fullmatch(line):
            content = hex_of(self.block()) if match[1] == "is" else b""
            self.add_step(Claim(match[1], (match[2] or "").split(), content))
        else:
            raise Malformed(f"no such line: {line[:40]}")

    def add_step(self, action):
        if not self.rule:
            raise Malformed("no rule stands before")
        self.steps.append(Step(self.place, self.rule, action))

    def begin_call(self, number, words):
        if number != len(self.calls) + 1:
            raise Malformed(f"call {len(self.calls) + 1} is next")
        self.calls[number] = Call(number, words)
        self.add_step(self.calls[number])

    def call_at(self, number):
        if number not in self.calls:
            raise Malformed(f"no call {number} stands before" if number else "no call stands before")
        return self.calls[number]

    def add_bytes(self, side, form, text):
        call = self.call_at(len(self.calls))
        if form == "~":
            call.pieces.append(b"")
            return
        data = self.data_of(form, text or "")
        if side == ">":
            call.output += data
            return
        call.pieces[-1] += data
        if not form:
            call.types.add(text.partition("|")[0])

    def data_of(self, form, text):
        if form == "*":
            return b"".join(self.call_at(int(number)).output for number in text.split())
        if form == "@":
            return b"".join(b"".join(self.call_at(int(number)).pieces) for number in text.split())
        if form == ".":
            return bytes_of(text, b"|") + b"\n"
        return bytes_of(text) if form == "=" else frame_of(bytes_of(text))

    def put_of(self, file, action, values):
        if action.endswith((".toml", ".gxj")):
            block = self.block()
            if block or action not in self.contents:
                self.contents[action] = text_of(block) if file == "product" else hex_of(block)
            return Put(file, "is", [], self.contents[action])
        return Put(file, action, (values or "").split())

    def block(self):
        """The indented lines that follow, with the empty ones between them."""
        first = self.place
        while self.place < len(self.lines) and (not self.lines[self.place] or self.lines[self.place].startswith(INDENT)):
            self.place += 1
        end = self.place
        while end > first and not self.lines[end - 1]:
            end -= 1
        return self.lines[first:end]


def read_session(path):
    reader = Reader(path.read_text(encoding="ascii"))
    try:
        return Session(path.parent.name, path.stem, reader.read())
    except (Malformed, ValueError) as fault:
        raise SystemExit(f"{path}:{reader.place}: {fault}") from None


def read_chapters(folder):
    """The chapters in their order, each with its page and headings."""
    rows = [line for line in (folder / "chapters.txt").read_text().splitlines() if line and not line.startswith("#")]
    return {chapter: heading for chapter, heading in (re.split(r"  +", row, maxsplit=1) for row in rows)}


def read_sessions(folder, chapter):
    return [read_session(path) for path in sorted((Path(folder) / "sessions" / chapter).glob("*.txt"))]

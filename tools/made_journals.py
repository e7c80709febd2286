"""Journals that the tests make, by docs/FORMATS.md, and calls of `journal` over them."""

import pathlib
import re
import tempfile
import unittest

import fix42
from called import FORMATS, PROGRAM, call, documented_frames, soh

TEXT = (PROGRAM / "data" / "product.toml").read_bytes()
STREAM = (PROGRAM / "stdin").read_bytes()
SELL, BUY = fix42.whole_frames(STREAM)
# a message more, of the documented stream of a drill
CANCEL = next(soh(line) for line in documented_frames() if "|35=F|" in line)

EMPTY = b"\x01GXJOURN2" + len(TEXT).to_bytes(4, "big") + TEXT + b"\x00"

# the same product with a lower limit, with the highest one, with a further firm, with the highest limit and that firm, and with a
# further instrument, which makes an image 25 bytes longer
LEAST = TEXT.replace(b"\n\n", b"\njournal_limit = 131072\n\n", 1)
MOST = TEXT.replace(b"\n\n", b"\njournal_limit = 268435456\n\n", 1)
MORE = TEXT.replace(b'"DDD"]', b'"DDD", "EEE"]')
WIDER = MOST.replace(b'"DDD"]', b'"DDD", "EEE"]')
TWO = TEXT + TEXT[TEXT.index(b"\n[[") :].replace(b"ESZ4", b"NQZ4")
NO_PRODUCT = TEXT.replace(b"exchange", b"exchangf")


def messages_record(*frames):
    return b"\x01M" + sum(map(len, frames)).to_bytes(4, "big") + b"".join(frames)


def image_record(image):
    return b"\x01D" + len(image).to_bytes(4, "big") + image


def old_image_record(image):
    return b"\x01C" + len(image).to_bytes(4, "big") + image


def amendment_record(text, image):
    return amendment_of(len(text).to_bytes(4, "big") + text + image)


def amendment_of(payload):
    return b"\x01P" + len(payload).to_bytes(4, "big") + payload


def journal_of(*records):
    return EMPTY[:-1] + b"".join(records) + b"\x00"


def first_version(data):
    """The same file in the first version."""
    return data[:8] + b"1" + data[9:]


def documented_image():
    """The 668 bytes of the image after the two messages, from the table of docs/FORMATS.md."""
    text = FORMATS.read_text()
    table = text[text.index("The image after the two messages") :].split("\n\n")[1]
    image = bytearray(668)
    for places, values in re.findall(r"^\| ([0-9, ]+) \| ([0-9a-f ,]+) \|", table, re.MULTILINE):
        values = [bytes.fromhex(value) for value in values.split(", ")]
        for place, value in zip(map(int, places.split(", ")), values, strict=True):
            image[place : place + len(value)] = value
    return bytes(image)


IMAGE = documented_image()
OLD_IMAGE = IMAGE[:-1]
ROW = IMAGE[581:663]
MARKET_CLOSED, MARKET_OPEN = b"\x00", b"\x01"


def old_image_after(count):
    """An old image without orders that counts so many messages."""
    return count.to_bytes(8, "big") + bytes(560 + 25 - 8)


def image_after(count, session=MARKET_OPEN):
    return old_image_after(count) + session


def image_of_two(count):
    """The same of two instruments, in an open market."""
    return count.to_bytes(8, "big") + bytes(560 + 50 - 8) + MARKET_OPEN


def old_image_of(resting, waiting):
    """An old image of some rows, which counts no messages."""
    counted = [len(rows).to_bytes(4, "big") + b"".join(rows) for rows in (resting, waiting)]
    return bytes(577) + b"".join(counted)


def row_of(number, life):
    return number.to_bytes(8, "big") + ROW[8:12] + bytes([life]) + ROW[13:]


# An image of an empty book, a record of two messages, an old image, one message, an image of a closed market, an old image, and one
# message.
RECORDS = [
    image_record(image_after(0)),
    messages_record(SELL, BUY),
    old_image_record(OLD_IMAGE),
    messages_record(CANCEL),
    image_record(image_after(3, MARKET_CLOSED)),
    old_image_record(old_image_after(3)),
    messages_record(CANCEL),
]
GATES = [149 + sum(map(len, RECORDS[:number])) for number in range(len(RECORDS) + 1)]
FULL = journal_of(*RECORDS)
KEPT = [SELL, BUY, CANCEL, CANCEL]

SHORT = b"its payload is not whole frames: at its byte 111 the input ends inside a frame, of which 50 bytes are there"
GO_ON = "; run, drill, checkpoint and book go on from the last image"


class InFolder(unittest.TestCase):
    def setUp(self):
        folder = tempfile.TemporaryDirectory()
        self.addCleanup(folder.cleanup)
        self.folder = pathlib.Path(folder.name)
        self.path = self.folder / "journal.gxj"
        self.copy = self.folder / "copy.gxj"

    def over(self, data, command, *words):
        """A call over a journal, which stays as it is."""
        self.path.write_bytes(data)
        self.path.chmod(0o444)
        answer = call("journal", command, self.path, *words)
        self.path.chmod(0o644)
        self.assertEqual(self.path.read_bytes(), data)
        return answer

    def copied(self, data, command, *words):
        """The copy that a command makes of a journal."""
        self.copy.unlink(missing_ok=True)
        self.assertEqual(self.over(data, command, *words, "--output", self.copy), (0, b"", ""))
        return self.copy.read_bytes()

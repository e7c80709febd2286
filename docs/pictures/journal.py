"""The bytes of a journal, from the file down to an image (docs/FORMATS.md, "The journal" and "Book images")."""

from drawing import Picture

LEFT, WIDTH = 24, 932
ROW = 56

# Of each part of a strip: its words, what it has, its share of the width, and its kind.
FILE = [
    ("1", "gate", 5, "blue"),
    ("header", "version, product text", 22, "plain"),
    ("1", "gate", 5, "blue"),
    ("M", "messages", 15, "green"),
    ("1", "gate", 5, "blue"),
    ("D", "a book image", 15, "violet"),
    ("1", "gate", 5, "blue"),
    ("P", "an amendment", 17, "orange"),
    ("0", "gate", 5, "card"),
]
HEADER = [
    ("GXJOURN2", "47 58 4a 4f 55 52 4e 32", "1 to 8", 30, "plain"),
    ("n", "4 bytes", "9 to 12", 10, "plain"),
    ("product text", "n bytes", "13 to 12 + n", 24, "plain"),
]
OLD_HEADER = [
    ("GXJOURN1", "47 58 4a 4f 55 52 4e 31", "1 to 8", 30, "plain"),
    ("n", "4 bytes", "9 to 12", 10, "plain"),
    ("product text", "n bytes", "13 to 12 + n", 24, "plain"),
]
RECORD = [
    ("gate", "1 or 0", "E", 11, "blue"),
    ("kind", "M, D, C or P", "E + 1", 15, "plain"),
    ("k", "4 bytes", "E + 2 to E + 5", 18, "plain"),
    ("payload", "k bytes", "E + 6 to E + 5 + k", 38, "plain"),
    ("gate", "of the next", "E + 6 + k", 16, "blue"),
]
MESSAGES = [
    ("frame", "8=FIX.4.2 .. 10=nnn", "", 30, "green"),
    ("frame", "one after the other", "", 30, "green"),
    ("frame", "8,192 bytes at most", "", 30, "green"),
]
IMAGE = [
    ("counters", "552 bytes", "", 13, "violet"),
    ("instruments", "25 each", "", 15, "violet"),
    ("r", "4", "", 5, "violet"),
    ("resting orders", "82 each", "", 18, "violet"),
    ("w", "4", "", 5, "violet"),
    ("waiting stops", "82 each", "", 17, "violet"),
    ("session", "1 byte", "", 10, "violet"),
]
OLD_IMAGE = IMAGE[:-1] + [("none", "it was open", "", 10, "card")]
AMENDMENT = [
    ("t", "4 bytes", "", 10, "orange"),
    ("product text", "t bytes", "", 38, "orange"),
    ("image", "as of D, under this text", "", 46, "violet"),
]
END = "Numbers have their highest byte first. r and w count the orders that rest and the stops that wait."


def draw_strip(picture, x, y, width, parts):
    """Parts side by side. Returns the place and the width of each."""
    places, gap = [], 4
    whole = sum(part[-2] for part in parts)
    for part in parts:
        its_width = (width - gap * (len(parts) - 1)) * part[-2] / whole
        lines = [line for line in part[:-2] if line]
        picture.box(x, y, its_width, ROW if len(lines) < 3 else ROW + 14, lines, part[-1], size=13, bold=True, radius=4)
        places.append((x, its_width))
        x += its_width + gap
    return places


def draw_labelled(picture, y, label, parts, kind="plain"):
    """A strip with its name in a box on the left."""
    height = ROW if all(len([line for line in part[:-2] if line]) < 3 for part in parts) else ROW + 14
    picture.box(LEFT, y, 150, height, label, kind, size=13, bold=True)
    draw_strip(picture, LEFT + 158, y, WIDTH - 158, parts)
    return y + height + 8


def draw_head(picture, y, words):
    picture.box(LEFT, y, WIDTH, 30, words, size=13, bold=True, left=14)
    return y + 38


def pictures():
    picture = Picture(
        "The bytes of a journal",
        "A journal is a gate, a header with a version and a product text, and records. A record is a gate, a kind, a length and a payload: "
        "frames of messages (M), a book image (D, or C in an old form), or an amendment, which is a product text and an image (P). It is "
        "kept if its gate is 1. The first gate that is not 1 ends the journal.",
        WIDTH + 2 * LEFT,
        0,
    )
    y = draw_head(picture, 24, "A journal: a record is kept if its gate is 1. The first gate that is not 1 ends the journal")
    draw_strip(picture, LEFT, y, WIDTH, FILE)
    y = draw_head(picture, y + ROW + 20, "The header, after the first gate, at 0")
    y = draw_labelled(picture, y, ["version 2", "of this program"], HEADER)
    y = draw_labelled(picture, y, ["version 1", "has no amendments"], OLD_HEADER)
    y = draw_head(picture, y + 12, "A record, whose gate is at E")
    y = draw_labelled(picture, y, ["each kind", "E is its gate"], RECORD)
    y = draw_head(picture, y + 12, "Its payload, by its kind")
    y = draw_labelled(picture, y, ["M", "run, drill"], MESSAGES, "green")
    y = draw_labelled(picture, y, ["D", "checkpoint"], IMAGE, "violet")
    y = draw_labelled(picture, y, ["C", "earlier programs"], OLD_IMAGE, "violet")
    y = draw_labelled(picture, y, ["P", "amend"], AMENDMENT, "orange")
    picture.box(LEFT, y + 12, WIDTH, 34, END, size=13, ink="soft")
    picture.height = y + 12 + 34 + 24
    return {"journal.svg": picture.svg()}

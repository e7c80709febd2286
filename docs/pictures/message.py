"""One message on its way from frame to report, and what a crash leaves at each moment (docs/DISK.md, "One append")."""

from drawing import Picture

WIDTH, LEFT = 980, 24
CELL, ROW = 22, 58
STAGES = [
    ("frame", "one message, read", "plain"),
    ("record", "written, then synced", "blue"),
    ("gate", "opened, then synced", "blue"),
    ("match", "by a list of steps", "plain"),
    ("report", "sent", "green"),
]
COLUMNS = [("moment", 150), ("what a read gives", 222), ("what a crash may leave", 222), ("what the next start has", 196), ("sent", 110)]
OLD, NEW, SENT = "the messages before", "and this one too", "no report"
# Of each moment: its words, the file, what a crash may leave of it, the messages that are kept then, and what is sent.
MOMENTS = [
    ("at rest", "before the frame", "aaa0", "aaa0", [OLD], SENT),
    ("record written", "not yet synced", "aaa0rrrr0", "aaa0?????", [OLD], SENT),
    ("first sync", "is done", "aaa0rrrr0", "aaa0rrrr0", [OLD], SENT),
    ("gate written", "not yet synced", "aaa1rrrr0", "aaa?rrrr0", [OLD, "or these and this one"], SENT),
    ("second sync", "is done", "aaa1rrrr0", "aaa1rrrr0", [OLD, NEW], SENT),
    ("reports sent", "one after the other", "aaa1rrrr0", "aaa1rrrr0", [OLD, NEW], "a front of them"),
]
KINDS = {"a": "plain", "r": "blue", "0": "card", "?": "orange"}
LEGEND = [
    ("a", "a byte from before", 176),
    ("r", "a byte of the record", 186),
    ("0", "a closed gate", 136),
    ("1", "an open gate", 132),
    ("?", "any byte: torn", 142),
]


def draw_cell(picture, x, y, letter):
    picture.rect(x, y, CELL - 2, CELL, KINDS.get(letter, "blue"), 3)
    if letter == "1":
        picture.rect(x, y, CELL - 2, CELL, "blue-solid", 3)
    if letter != "a":
        kind = {"1": "on", "?": "orange-ink", "r": "blue-ink"}.get(letter, "soft")
        picture.text(x + CELL / 2 - 1, y + 15.5, letter, kind, 13, "middle", mono=True, bold=letter == "1")


def draw_stages(picture, y):
    gap = 34
    width = (WIDTH - 2 * LEFT - 4 * gap) / 5
    for index, (name, words, kind) in enumerate(STAGES):
        x = LEFT + index * (width + gap)
        picture.box(x, y, width, 62, [name, words], kind, size=15, bold=True)
        if index:
            picture.arrow(x - gap + 5, y + 31, x - 6)


def draw_row(picture, y, moment, is_last):
    name, words, file, crash, kept, sent = moment
    x = LEFT
    places = []
    for _, width in COLUMNS:
        places.append((x, width))
        x += width + 8
    for index, (x, width) in enumerate(places):
        kind = "plain"
        if index == 3:
            kind = "orange" if kept[-1].startswith("or") else "blue" if len(kept) == 2 else "plain"
        if index == 4 and is_last:
            kind = "green"
        picture.rect(x, y, width, ROW, kind)
    picture.words(*places[0][:1], y, places[0][1], ROW, [name, words], size=13, bold=True, left=12)
    for column, text in ((1, file), (2, crash)):
        for index, letter in enumerate(text):
            draw_cell(picture, places[column][0] + 13 + index * CELL, y + 18, letter)
    picture.words(places[3][0], y, places[3][1], ROW, [kept[0], *((more, "ink") for more in kept[1:])], size=13, left=12)
    picture.words(places[4][0], y, places[4][1], ROW, [sent], size=12)


def draw_table(picture, y):
    x = LEFT
    for name, width in COLUMNS:
        picture.box(x, y, width, 32, name, size=13, ink="soft")
        x += width + 8
    y += 40
    for index, moment in enumerate(MOMENTS):
        draw_row(picture, y, moment, index == len(MOMENTS) - 1)
        y += ROW + 8
    return y


def draw_legend(picture, y):
    picture.rect(LEFT, y, WIDTH - 2 * LEFT, 46)
    x = LEFT + 14
    for letter, words, width in LEGEND:
        draw_cell(picture, x, y + 12, letter)
        picture.text(x + CELL + 8, y + 28, words, "soft", 13)
        x += width + 14


def pictures():
    picture = Picture(
        "One message from frame to report, and what a crash leaves",
        "A frame is kept as a record after a closed gate, and synced. Then the gate is opened, and synced. Only then is the message "
        "matched and its reports are sent. A crash before the gate is written leaves the messages before. A crash before the second sync "
        "leaves those, or those and this one. A crash after it leaves this one too, whatever part of its reports was sent.",
        WIDTH,
        0,
    )
    draw_stages(picture, 24)
    y = draw_table(picture, 108)
    draw_legend(picture, y + 4)
    picture.height = y + 4 + 46 + 24
    return {"message.svg": picture.svg()}

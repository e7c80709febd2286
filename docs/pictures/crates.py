"""The crates by layer, as crates.txt has them: its comments name the layers, and each line says what a crate stands on."""

import pathlib

from drawing import Picture

LIST = pathlib.Path(__file__).parents[2] / "crates.txt"
COLUMNS = 5
LEFT, TOP, LABEL = 24, 24, 206
BOX, HEIGHT, GAP, PAD = 138, 34, 8, 10


def read_layers(text):
    """The layers, lowest first, each a name and its crates; and on which crates each one stands."""
    layers, below = [], {}
    for line in text.splitlines():
        if line.startswith("#"):
            layers.append((line[1:].split(":")[0].strip(), []))
        elif line.strip():
            name, uses = line.split(":")
            layers[-1][1].append(name)
            below[name] = uses.split()
    for name, uses in below.items():
        below[name] = [other for other in uses if other in below]
    return layers, below


def longest_chain(below):
    """The longest chain of crates, each standing on the one before; of several the one that ends first in the file."""
    chains = {}

    def chain(name):
        if name not in chains:
            chains[name] = max((chain(other) for other in below[name]), key=len, default=[]) + [name]
        return chains[name]

    return max((chain(name) for name in below), key=len)


def kind_of(layer, name):
    if name == "globex_cli":
        return "green"
    return "violet" if layer == "laws" else "card"


def draw_crate(picture, x, y, layer, name, chain):
    picture.box(x, y, BOX, HEIGHT, name, kind_of(layer, name), size=13, left=10, dashed=name.endswith("_tests"))
    if name in chain:
        picture.rect(x + BOX - 26, y + 8, 19, 18, "blue-solid", 9)
        picture.text(x + BOX - 16.5, y + 21, str(chain.index(name) + 1), "on", 11, "middle", bold=True)


def draw_layer(picture, y, layer, names, chain):
    rows = -(-len(names) // COLUMNS)
    height = rows * HEIGHT + (rows - 1) * GAP + 2 * PAD
    inner = COLUMNS * BOX + (COLUMNS - 1) * GAP + 2 * PAD
    picture.box(LEFT, y, LABEL, height, layer, size=13, bold=True, left=14)
    picture.rect(LEFT + LABEL + GAP, y, inner, height, "plain")
    for index, name in enumerate(names):
        row, column = divmod(index, COLUMNS)
        x = LEFT + LABEL + GAP + PAD + column * (BOX + GAP)
        draw_crate(picture, x, y + PAD + row * (HEIGHT + GAP), layer, name, chain)
    return y + height + GAP


def draw_legend(picture, y, width):
    picture.rect(LEFT, y, width, 44, "plain")
    x = LEFT + 14
    picture.rect(x, y + 13, 19, 18, "blue-solid", 9)
    picture.text(x + 9.5, y + 26, "1", "on", 11, "middle", bold=True)
    picture.text(x + 28, y + 27, "the longest chain: each stands on the one before", "soft", 13)
    for place, kind, words in ((398, "violet", "laws alone"), (520, "green", "the program"), (656, "card", "tests alone")):
        picture.rect(x + place, y + 13, 26, 18, kind, 4, kind == "card")
        picture.text(x + place + 34, y + 27, words, "soft", 13)


def pictures():
    layers, below = read_layers(LIST.read_text())
    chain = longest_chain(below)
    width = LABEL + GAP + COLUMNS * BOX + (COLUMNS - 1) * GAP + 2 * PAD
    picture = Picture(
        "The crates of globex, by layer",
        f"{len(below)} crates in {len(layers)} layers, the program and the tests at the top and the base at the bottom. "
        f"The longest chain is {', '.join(chain)}.",
        width + 2 * LEFT,
        0,
    )
    y = TOP
    for layer, names in reversed(layers):
        y = draw_layer(picture, y, layer, names, chain)
    draw_legend(picture, y + 6, width)
    picture.height = y + 6 + 44 + TOP
    return {"crates.svg": picture.svg()}

"""What the pictures of this folder share: boxes, words, strips of bytes and arrows, as SVG that is read in light and in dark.

A place is in units of the view box, from the upper left corner on. A kind is a colour with one meaning in a picture. `box` refuses
words that have no room in it, by the widths of DejaVu Sans, which is wider than most fonts.
"""

from html import escape

# Of each kind: the pale fill, the line and the strong fill, in light and then in dark.
KINDS = {
    "plain": ("#f6f8fa", "#d1d9e0", "#818b98", "#151b23", "#3d444d", "#656c76"),
    "card": ("#ffffff", "#d1d9e0", "#818b98", "#0d1117", "#3d444d", "#656c76"),
    "blue": ("#ddf4ff", "#0969da", "#0969da", "#0c2744", "#4493f8", "#58a6ff"),
    "green": ("#dafbe1", "#1a7f37", "#1a7f37", "#0c2d18", "#3fb950", "#3fb950"),
    "orange": ("#fff1e5", "#bc4c00", "#bc4c00", "#3a1d08", "#f0883e", "#f0883e"),
    "violet": ("#f6eeff", "#8250df", "#8250df", "#271a3f", "#ab7df8", "#ab7df8"),
    "pink": ("#ffeff7", "#bf3989", "#bf3989", "#3a1630", "#f778ba", "#f778ba"),
    "yellow": ("#fff8c5", "#9a6700", "#9a6700", "#2e2405", "#d29922", "#d29922"),
    "teal": ("#defaf7", "#0b7a75", "#0b7a75", "#0a2e2d", "#2dd4bf", "#2dd4bf"),
}
LIGHT = {"page": "#ffffff", "lane": "#ffffff", "ink": "#1f2328", "soft": "#59636e", "on": "#ffffff"}
DARK = {"page": "#0d1117", "lane": "#0d1117", "ink": "#f0f6fc", "soft": "#9198a1", "on": "#0d1117"}
WIDTHS = [("ijlI'", 0.3), (" .,:;|!()[]/-ftr", 0.41), ("cksvxyzFJL_", 0.59), ("mwMW%@#", 0.97), ("ABCDEGHKNOPQRSTUVXYZ", 0.75)]


def width_of(words, size, mono=False, bold=False):
    """About how wide these words are, rather too much than too little."""
    if mono:
        return 0.603 * size * len(words)
    return (1.1 if bold else 1) * size * sum(next((width for letters, width in WIDTHS if letter in letters), 0.63) for letter in words)


def rules(theme, places):
    """The colours of one theme as rules of CSS."""
    pale, line, strong = places
    lines = [
        f".page{{fill:{theme['page']}}}",
        *(f".{name}{{fill:{theme[name]}}}" for name in ("ink", "soft", "on")),
        f".rule{{stroke:{theme['soft']};stroke-width:1.5;fill:none}}",
        f".head{{fill:{theme['soft']}}}",
    ]
    for kind, colours in KINDS.items():
        lines.append(f".{kind}{{fill:{colours[pale]};stroke:{colours[line]}}}")
        lines.append(f".{kind}-solid{{fill:{colours[strong]}}}")
        lines.append(f".{kind}-ink{{fill:{colours[line]}}}")
    return "".join(lines)


STYLE = (
    "text{font-family:sans-serif}.mono{font-family:monospace}.bold{font-weight:bold}.dashed{stroke-dasharray:4 3}"
    + rules(LIGHT, (0, 1, 2))
    + "@media (prefers-color-scheme:dark){"
    + rules(DARK, (3, 4, 5))
    + "}"
)


def number(value):
    return f"{value:.1f}".rstrip("0").rstrip(".")


class Picture:
    """A picture, to which each call adds what it draws."""

    def __init__(self, title, desc, width, height):
        self.title = title
        self.desc = desc
        self.width = width
        self.height = height
        self.parts = []

    def rect(self, x, y, width, height, kind="plain", radius=6, dashed=False):
        more = " dashed" if dashed else ""
        place = f'x="{number(x)}" y="{number(y)}" width="{number(width)}" height="{number(height)}"'
        self.parts.append(f'<rect class="{kind}{more}" {place} rx="{radius}"/>')

    def text(self, x, y, words, kind="ink", size=14, anchor="start", mono=False, bold=False):
        names = kind + (" mono" if mono else "") + (" bold" if bold else "")
        place = f'x="{number(x)}" y="{number(y)}" font-size="{number(size)}" text-anchor="{anchor}"'
        self.parts.append(f'<text class="{names}" {place}>{escape(words)}</text>')

    def box(self, x, y, width, height, lines, kind="plain", radius=6, dashed=False, **words):
        """A box with lines of words in its middle, or from `left` on."""
        self.rect(x, y, width, height, kind, radius, dashed)
        self.words(x, y, width, height, [lines] if isinstance(lines, str) else lines, **words)

    def words(self, x, y, width, height, lines, ink="ink", size=14, mono=False, bold=False, left=None):
        """Lines in the middle of a place. A line may be a pair of its words and its kind; all but the first are smaller."""
        step = size * 1.32
        first = y + height / 2 - step * (len(lines) - 1) / 2 + size * 0.36
        for index, line in enumerate(lines):
            words, kind = (line, ink if index == 0 else "soft") if isinstance(line, str) else line
            its_size = size if index == 0 else size * 0.85
            room = width - 6 if left is None else width - left - 4
            its_width = width_of(words, its_size, mono, bold and index == 0)
            if its_width > room:
                raise ValueError(f"no room for {words!r}: {its_width:.0f} in {room:.0f}")
            place, anchor = (x + width / 2, "middle") if left is None else (x + left, "start")
            self.text(place, first + index * step, words, kind, its_size, anchor, mono, bold and index == 0)

    def arrow(self, x, y, to_x):
        """An arrow to the right."""
        self.parts.append(f'<path class="rule" d="M{number(x)} {number(y)}H{number(to_x)}"/>')
        self.parts.append(f'<path class="head" d="M{number(to_x + 1)} {number(y)}l-7 -4v8z"/>')

    def svg(self):
        head = (
            f'<svg xmlns="http://www.w3.org/2000/svg" viewBox="0 0 {number(self.width)} {number(self.height)}" role="img" '
            f'aria-labelledby="title desc">\n<title id="title">{escape(self.title)}</title>\n<desc id="desc">{escape(self.desc)}</desc>\n'
            f"<style>{STYLE}</style>\n"
            f'<rect class="page" width="{number(self.width)}" height="{number(self.height)}" rx="10"/>\n'
        )
        return head + "\n".join(self.parts) + "\n</svg>\n"

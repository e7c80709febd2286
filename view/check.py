#!/usr/bin/env python3
"""Checks the page view/index.html against what the program prints, in a headless Chromium.

    view/check.py PROGRAM                       compare at all moments, and end with 1 if anything differs
    view/check.py PROGRAM --page FILE           the same for another page, as one with a mistake
    view/check.py PROGRAM --screenshot FILE     make a picture of the page (--dark for the dark colours)

Three streams are run by the program. At each moment the ladder that the page shows has to be what `rebuild` prints for the feed
up to that message, and its trades what `fills` prints of the journal cut after that message and does not print of the one before.
Needs Python 3.11 and Debian's package `chromium`, and no network.
"""
import argparse
import base64
import json
import os
import pathlib
import random
import re
import subprocess
import sys
import tempfile
import time

TOP = pathlib.Path(__file__).resolve().parent.parent
sys.path.insert(0, str(TOP / "docs/pictures"))
import drawing  # noqa: E402
import letters  # noqa: E402

KINDS = ("levels", "fills", "ledger", "steps")
WAIT_SECONDS = 60

PRODUCT = """exchange = "GX"
firms = ["AAA", "BBB", "CCC", "DDD"]
[[instrument]]
name = "ESZ4"
decimals = 2
tick = 1
protection = 5
algorithm = "K"
steps = ["TOP", "LMM", "SPLIT", "PRORATA", "LEVELING", "FIFO"]
top_min = 2
top_max = 8
split = 60
lmm = [{ firm = "BBB", percent = 30 }]
[[instrument]]
name = "NQZ4"
decimals = 0
tick = 5
protection = 5
algorithm = "%s"
"""


# ---- the program and its texts

class Folder:
    """A folder with a product, a journal and the four texts that the program prints of it."""

    def __init__(self, program, path, product):
        self.program, self.path = program, path
        path.mkdir()
        (path / "product.toml").write_text(product)

    def call(self, *words, given=b""):
        called = subprocess.run([self.program, *words], cwd=self.path, input=given, capture_output=True, check=False)
        if called.returncode != 0:
            sys.exit(f"check: {' '.join(words)}: {called.stderr.decode()}")
        return called.stdout

    def run(self, bodies):
        made = subprocess.run([TOP / "tools/frames", "make", "-"], input="\n".join(bodies).encode(), capture_output=True, check=True)
        self.call("run", given=made.stdout)

    def write_texts(self):
        for kind in KINDS:
            (self.path / f"{kind}.txt").write_bytes(self.call(kind))
        self.feed = (self.path / "levels.txt").read_text().splitlines()
        self.fills = (self.path / "fills.txt").read_text().splitlines()

    def files(self):
        return [self.path / f"{kind}.txt" for kind in KINDS]

    def messages(self):
        return max(int(line.split()[1]) for line in self.feed if line[0] in "SI")

    def ladder(self, message):
        """The levels after a message: what `rebuild` prints for the blocks up to it."""
        kept, keep = [], False
        for line in self.feed:
            keep = int(line.split()[1]) <= message if line[0] in "SI" else keep
            if keep:
                kept.append(line + "\n")
        return self.call("rebuild", given="".join(kept).encode()).decode().splitlines()

    def trades(self, message):
        """The lines that `fills` prints of the first messages, and not of one fewer."""
        return self.fills[self.fills_of(message - 1):self.fills_of(message)] if message > 0 else []

    def fills_of(self, messages):
        with tempfile.TemporaryDirectory() as name:
            cut = pathlib.Path(name)
            (cut / "product.toml").write_bytes((self.path / "product.toml").read_bytes())
            subprocess.run([TOP / "tools/journal", "cut", "--messages", str(messages), "--output", cut / "journal.gxj",
                            self.path / "journal.gxj"], check=True, capture_output=True)
            return len(subprocess.run([self.program, "fills"], cwd=cut, capture_output=True, check=True).stdout.splitlines())


# ---- the streams

def example_stream(program, path):
    folder = Folder(program, path, (TOP / "examples/Q/product.toml").read_text())
    made = subprocess.run([TOP / "tools/frames", "make", TOP / "examples/Q/orders.txt"], capture_output=True, check=True)
    folder.call("run", given=made.stdout)
    folder.write_texts()
    return folder


def drill_stream(program, path):
    folder = Folder(program, path, PRODUCT % "A")
    folder.call("drill", "--first", "7", "--count", "2500")
    folder.write_texts()
    return folder


def session_stream(program, path, show=0.0, count=600):
    """Orders of each kind and life, stops, cancels and replaces; a close, and an opening after it."""
    folder = Folder(program, path, PRODUCT % "C")
    folder.run(made_session(random.Random(5), show, count))
    folder.write_texts()
    return folder


def made_session(draw, show, count):
    bodies, known = [], []
    for number in range(1, count + 1):
        firm = draw.choice(("AAA", "BBB", "CCC", "DDD"))
        if number in (count // 2, count // 2 + 12):
            bodies.append(session_body(number, "3" if number == count // 2 else "2"))
        elif known and draw.random() < 0.18:
            bodies.append(changed_body(draw, number, known))
        else:
            bodies.append(new_body(draw, number, firm, show))
            known.append((firm, number, bodies[-1]))
    return bodies


def head(kind, firm, number):
    return f"35={kind}|49={firm}|56=GX|34={number}|52=20240102-09:30:00|"


def session_body(number, status):
    return head("h", "GX", number) + f"340={status}|"


def new_body(draw, number, firm, show):
    symbol = draw.choice(("ESZ4", "NQZ4"))
    side = draw.choice("12")
    lots = draw.randint(1, 30)
    kind = draw.choices("214", (80, 8, 12))[0]
    life = draw.choices("0134", (50, 30, 14, 6))[0]
    better = 6 if side == "1" else -6
    price = 10000 + draw.randint(-12, 12) - better // 2
    body = head("D", firm, number) + f"11=o{number}|55={symbol}|54={side}|38={lots}|40={kind}|59={life}|"
    if kind in "24":
        body += f"44={price_text(symbol, price + (2 * better if kind == '4' else 0))}|"
    if kind == "4":
        body += f"99={price_text(symbol, price + better)}|"
    if life in "01" and draw.random() < show:
        body += f"210={draw.randint(1, lots)}|"
    return body


def price_text(symbol, ticks):
    return f"{ticks / 100:.2f}" if symbol == "ESZ4" else str(5 * ticks)


def changed_body(draw, number, known):
    firm, before, body = draw.choice(known[-60:])
    if draw.random() < 0.5:
        return head("F", firm, number) + f"11=c{number}|41=o{before}|"
    kept = [field for field in body.split("|") if field[:3] in ("55=", "54=", "40=", "44=", "99=")]
    known.append((firm, number, body))
    return head("G", firm, number) + f"11=o{number}|41=o{before}|38={draw.randint(1, 40)}|" + "|".join(kept) + "|"


# ---- the page in a browser, by the remote debugging protocol over a pipe

class Browser:
    def __init__(self, chromium, profile, dark=False):
        reading, self.to = os.pipe()
        self.answers, writing = os.pipe()

        def set_pipes():
            os.dup2(reading, 13)
            os.dup2(writing, 14)
            os.dup2(13, 3)
            os.dup2(14, 4)

        words = [chromium, "--headless=new", "--no-sandbox", "--disable-gpu", "--remote-debugging-pipe", "--hide-scrollbars",
                 "--window-size=1200,860", f"--user-data-dir={profile}"]
        self.process = subprocess.Popen(words, pass_fds=(3, 4), preexec_fn=set_pipes, stdin=subprocess.DEVNULL,
                                        stdout=subprocess.DEVNULL, stderr=subprocess.DEVNULL)
        os.close(reading)
        os.close(writing)
        self.last, self.rest, self.session, self.dark = 0, b"", None, dark

    def close(self):
        self.ask("Browser.close", session=None)
        self.process.wait(timeout=WAIT_SECONDS)

    def ask(self, method, session="own", **given):
        self.last += 1
        message = {"id": self.last, "method": method, "params": given}
        if session == "own" and self.session:
            message["sessionId"] = self.session
        os.write(self.to, json.dumps(message).encode() + b"\0")
        while True:
            answer = self.next_answer()
            if answer.get("id") == self.last:
                if "error" in answer:
                    sys.exit(f"check: {method}: {answer['error']}")
                return answer["result"]

    def next_answer(self):
        while b"\0" not in self.rest:
            more = os.read(self.answers, 1 << 16)
            if not more:
                sys.exit("check: the browser has ended")
            self.rest += more
        answer, self.rest = self.rest.split(b"\0", 1)
        return json.loads(answer)

    def open(self, page, moment=""):
        target = self.ask("Target.createTarget", session=None, url="about:blank")["targetId"]
        self.session = self.ask("Target.attachToTarget", session=None, targetId=target, flatten=True)["sessionId"]
        scheme = "dark" if self.dark else "light"
        self.ask("Emulation.setEmulatedMedia", features=[{"name": "prefers-color-scheme", "value": scheme}])
        self.ask("Page.navigate", url=page.as_uri() + moment)
        self.wait_for("document.readyState === 'complete' && document.getElementById('files') !== null")

    def tell(self, script):
        answer = self.ask("Runtime.evaluate", expression=script, returnByValue=True)
        if "exceptionDetails" in answer:
            sys.exit(f"check: {script}: {answer['exceptionDetails']}")
        return answer["result"].get("value")

    def wait_for(self, condition):
        end = time.monotonic() + WAIT_SECONDS
        while not self.tell(condition):
            if time.monotonic() > end:
                sys.exit(f"check: waited in vain for {condition}")
            time.sleep(0.02)

    def choose(self, files):
        """Chooses files with the page's file input, and waits until they are read."""
        chosen = self.ask("Runtime.evaluate", expression="document.getElementById('files')")["result"]["objectId"]
        self.ask("DOM.setFileInputFiles", objectId=chosen, files=[str(file) for file in files])
        self.wait_for("!document.getElementById('moment').hidden && document.getElementById('notice').textContent !== 'Reading ...'")

    def drop(self, name, text):
        """Drops a text onto the page."""
        self.tell(f"""(() => {{
            const data = new DataTransfer();
            data.items.add(new File([{json.dumps(text)}], {json.dumps(name)}));
            document.body.dispatchEvent(new DragEvent('drop', {{ dataTransfer: data, bubbles: true, cancelable: true }}));
        }})()""")
        self.wait_for(f"document.getElementById('texts').textContent.includes({json.dumps(name)}) "
                      f"|| document.getElementById('faults').textContent.includes({json.dumps(name)})")

    def press(self, key):
        for kind in ("keyDown", "keyUp"):
            self.ask("Input.dispatchKeyEvent", type=kind, key=key, code=key,
                     windowsVirtualKeyCode={"ArrowLeft": 37, "ArrowRight": 39}[key])

    def go(self, moment):
        self.tell(f"location.hash = {json.dumps(moment)}")
        number = moment.split("message=")[1].split("&")[0]
        self.wait_for(f"document.getElementById('message').value === '{number}'")

    def picture(self):
        return base64.b64decode(self.ask("Page.captureScreenshot", format="png")["data"])


SHOWN = """(() => {
    const cells = table => [...table.tBodies[0].rows].map(row => [...row.cells].map(cell => cell.textContent));
    const trades = document.getElementById('trades');
    return {
        title: document.getElementById('ladders-title').textContent,
        ladders: [...document.querySelectorAll('table.ladder')].map(table => [table.dataset.instrument, cells(table)]),
        trades: trades ? cells(trades) : [],
        bars: [...document.querySelectorAll('table.ladder:has(.bar)')]
            .map(table => Math.max(...[...table.querySelectorAll('.bar')].map(bar => parseFloat(bar.style.width)))),
        unsure: document.querySelectorAll('#trades .unsure').length,
    };
})()"""


def shown_levels(shown):
    """The levels on the page, in the words and the order of `rebuild`."""
    lines = []
    for name, rows in shown["ladders"]:
        buys = [f"{name} B {price} {buy} {orders}" for orders, buy, price, _, _ in rows if buy]
        sells = [f"{name} S {price} {sell} {orders}" for _, _, price, sell, orders in rows if sell]
        lines += buys + sells[::-1]
    return lines


def shown_trades(shown):
    """The trades on the page, in the words of `fills`."""
    lines = []
    for trade, step, name, lots, resting, incoming in shown["trades"]:
        for party in (resting, incoming):
            side, order = party.split(" ", 1)
            lines.append(f"{trade} {step} {name} {side} {lots} {order}")
    return lines


# ---- the checks

class Checks:
    def __init__(self):
        self.done, self.differences, self.unsure = 0, 0, 0

    def same(self, what, shown, wanted):
        self.done += 1
        if shown != wanted:
            self.differences += 1
            print(f"{what}: the page shows\n    {shown}\nand not\n    {wanted}")


def moments_of(browser, folder, count):
    """Moments at even distances over the whole stream, and from each of them the next one that has trades, as the page says."""
    moments = []
    for part in range(count // 2):
        even = folder.messages() * part // (count // 2 - 1)
        browser.go(f"message={even}")
        browser.tell("document.getElementById('trade-on').click()")
        moments += [even, int(browser.tell("document.getElementById('message').value"))]
    return moments


def check_stream(checks, browser, page, name, folder, count):
    browser.open(page, "#message=3&order=2&levels=all")
    browser.choose(folder.files())
    checks.same(f"{name}: the link", browser.tell(SHOWN)["title"], "After message 3")
    moments = moments_of(browser, folder, count)
    sure = trades = 0
    for message in moments:
        browser.go(f"message={message}&levels=all")
        shown = browser.tell(SHOWN)
        checks.same(f"{name}, message {message}, levels", shown_levels(shown), folder.ladder(message))
        wanted = folder.trades(message)
        if shown["unsure"]:
            checks.unsure += 1
            checks.same(f"{name}, message {message}, trades among those shown", set(wanted) <= set(shown_trades(shown)), True)
        else:
            checks.same(f"{name}, message {message}, trades", shown_trades(shown), wanted)
            sure += 1
        checks.same(f"{name}, message {message}, longest bars", shown["bars"], [100.0] * len(shown["bars"]))
        trades += len(wanted) // 2
    print(f"{name}: {len(moments)} moments, {trades} trades, in {sure} moments placed for sure")


def check_moving(checks, browser, page, folder):
    browser.open(page, "#message=2")
    browser.choose(folder.files())
    browser.press("ArrowRight")
    browser.press("ArrowRight")
    browser.press("ArrowLeft")
    checks.same("arrow keys", browser.tell(SHOWN)["title"], "After message 3")
    browser.tell("document.getElementById('order').value = 3; document.getElementById('order').dispatchEvent(new Event('change'))")
    browser.wait_for("location.hash === '#message=3&order=3'")
    life = browser.tell("[...document.querySelectorAll('#life tbody tr')]"
                        ".map(row => [...row.cells].slice(2).map(cell => cell.textContent))")
    ledger = [line.split()[2::2] for line in (folder.path / "ledger.txt").read_text().splitlines() if line.startswith("#3 ")]
    checks.same("the life of an order", life, ledger)


def check_unreadable(checks, browser, page):
    browser.open(page)
    browser.drop("feed.txt", "S 0 0\nI 1 0 1\nR ESZ4 S 100.00 10 1\nI 2 1 1\nR ESZ4 S 100.0O 6 1\nI 3 2 1\nR ESZ4 B 99.00 1 1\nhello\n")
    browser.drop("letter.txt", "Dear exchange,\nplease answer.\n")
    listed = [re.sub(r" \(.*?\): ", ": ", line) for line in browser.tell("document.getElementById('faults').textContent").split("\n")]
    checks.same("lines that cannot be read", listed, ["feed.txt, line 5: R ESZ4 S 100.0O 6 1", "feed.txt, line 8: hello",
                                                     "letter.txt, line 1: Dear exchange,", "letter.txt, line 2: please answer."])
    browser.go("message=1")
    checks.same("before a bad line", browser.tell("document.getElementById('doubt').textContent"), "")
    browser.go("message=3")
    checks.same("after a bad line", "Line 5" in browser.tell("document.getElementById('doubt').textContent"), True)


def check_colours(checks, browser, page):
    """The steps have the strong colours of docs/pictures, in light and in dark."""
    for scheme, place, theme in (("light", 2, drawing.LIGHT), ("dark", 5, drawing.DARK)):
        browser.open(page)
        browser.ask("Emulation.setEmulatedMedia", features=[{"name": "prefers-color-scheme", "value": scheme}])
        for step, kind in letters.COLOURS.items():
            chip = f"getComputedStyle(document.body.appendChild(stepChip('{step}')))"
            shown = browser.tell(f"(style => [style.backgroundColor, style.color])({chip})")
            wanted = [rgb_of(drawing.KINDS[kind][place]), rgb_of(theme["on"])]
            checks.same(f"the colours of {step} in {scheme}", shown, wanted)


def rgb_of(colour):
    """A colour such as #8250df as a browser writes it."""
    return "rgb({}, {}, {})".format(*bytes.fromhex(colour[1:]))


def check_all(program, chromium, page):
    checks = Checks()
    with tempfile.TemporaryDirectory() as name:
        work = pathlib.Path(name)
        browser = Browser(chromium, work / "profile")
        example = example_stream(program, work / "example")
        check_stream(checks, browser, page, "the example Q", example, 6)
        check_stream(checks, browser, page, "a drill", drill_stream(program, work / "drill"), 20)
        check_stream(checks, browser, page, "stops and a close", session_stream(program, work / "session"), 20)
        check_stream(checks, browser, page, "hidden lots too", session_stream(program, work / "hidden", show=0.2), 20)
        check_moving(checks, browser, page, example)
        check_unreadable(checks, browser, page)
        check_colours(checks, browser, page)
        browser.close()
    print(f"view: {checks.done} comparisons, {checks.differences} differ; {checks.unsure} moments with trades that are not placed for sure")
    return 1 if checks.differences else 0


def make_picture(program, chromium, page, file, dark):
    with tempfile.TemporaryDirectory() as name:
        work = pathlib.Path(name)
        folder = session_stream(program, work / "session")
        browser = Browser(chromium, work / "profile", dark)
        browser.open(page, "#message=249&order=137")
        browser.ask("Emulation.setDeviceMetricsOverride", width=1200, height=860, deviceScaleFactor=1, mobile=False)
        browser.choose(folder.files())
        pathlib.Path(file).write_bytes(browser.picture())
        browser.close()
    return 0


def main():
    parser = argparse.ArgumentParser(description=__doc__.splitlines()[0])
    parser.add_argument("program", type=lambda text: pathlib.Path(text).resolve())
    parser.add_argument("--page", type=lambda text: pathlib.Path(text).resolve(), default=TOP / "view/index.html")
    parser.add_argument("--chromium", default="chromium")
    parser.add_argument("--screenshot", metavar="FILE")
    parser.add_argument("--dark", action="store_true")
    words = parser.parse_args()
    if words.screenshot:
        return make_picture(words.program, words.chromium, words.page, words.screenshot, words.dark)
    return check_all(words.program, words.chromium, words.page)


if __name__ == "__main__":
    sys.exit(main())

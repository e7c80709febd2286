"""Tests of `manual`: the man page of a small README, and that of this repository."""

import pathlib
import shutil
import subprocess
import tempfile
import unittest

from called import TOP, call

FIRST = "shop is a shop for lots,\nopen by day. It sells `lots`. It is no bank.\n"
COMMANDS = """| Command | What it does |
|---|---|
| `globex sell --first n` | sells lot n, and prints `sold` |
| `globex close` | closes |
"""
STATUSES = """| S | Name | What it means | A |
|---|---|---|---|
| 0 | Ok | all was sold | 0 |
| 12 | Full | no `room` | the offset; of `close` 0 |
"""
BETWEEN = "`sell` sells.\nIt never buys.\n\nThe last line is `shop: status S`.\n"
AFTER = ".first begins with a point, and \\ is a backslash.\n"
README = f"""# shop

{FIRST}
This is version 1.2.0.

## The commands

The shop has `shop.toml`.

{COMMANDS}
{BETWEEN}
{STATUSES}
{AFTER}
## Limits

None.
"""
CHANGES = "# Changes\n\n## 1.2.0, 2026-01-02\n\n## 1.1.0, 2026-01-01\n"
# from the title to the files
PAGE = r""".TH GLOBEX 1 "2026-01-02" "globex 1.2.0" "User Commands"
.SH NAME
shop \- a shop for lots, open by day
.SH SYNOPSIS
.nf
\fBglobex\fR \fBsell\fR \fB\-\-first\fR \fIn\fR
\fBglobex\fR \fBclose\fR
.fi
.SH DESCRIPTION
\fBshop\fR sells \fBlots\fR.
It is no bank.
.PP
The shop has \fBshop.toml\fR.
.SH COMMANDS
.TP
\fBsell\fR \fB\-\-first\fR \fIn\fR
Sells lot n, and prints \fBsold\fR.
.TP
\fBclose\fR
Closes.
.PP
\fBsell\fR sells.
It never buys.
.SH EXIT STATUS
The last line is \fBshop: status S\fR.
.TP
\fB0\fR Ok
All was sold.
A: 0.
.TP
\fB12\fR Full
No \fBroom\fR.
A: the offset; of \fBclose\fR 0.
.PP
\&.first begins with a point, and \e is a backslash.
.SH FILES
"""


class Shop(unittest.TestCase):
    """A folder with a README, the changes, and a folder for the page."""

    def setUp(self):
        folder = tempfile.TemporaryDirectory()
        self.addCleanup(folder.cleanup)
        self.top = pathlib.Path(folder.name)
        (self.top / "docs").mkdir()
        self.write(README)

    def write(self, readme, changes=CHANGES):
        (self.top / "README.md").write_text(readme)
        (self.top / "CHANGELOG.md").write_text(changes)

    def manual(self, *words):
        return call("manual", "--top", self.top, *words)

    def page(self):
        return (self.top / "docs" / "globex.1").read_text()

    def test_page(self):
        self.assertEqual(self.manual(), (0, b"", ""))
        head, _, page = self.page().partition("\n")
        self.assertEqual(head, r'.\" Made by tools/manual from README.md. Change that, and make this anew.')
        self.assertEqual(page[: len(PAGE)], PAGE)
        self.assertIn("\n.SH SEE ALSO\n", page[len(PAGE) :])

    def test_check(self):
        self.manual()
        self.assertEqual(self.manual("--check"), (0, b"", ""))

    def test_check_does_not_see_how_lines_are_broken(self):
        self.manual()
        self.write(README.replace("`sell` sells.\nIt", "`sell` sells. It").replace("## Limits\n\nNone", "## Limits\n\nMany"))
        self.assertEqual(self.manual("--check")[0], 0)

    def test_check_sees_a_change(self):
        changes = (("| closes |", "| shuts |"), ("all was sold", "all is sold"), ("It never", "It ever"), ("shop for", "store for"))
        for old, new in changes:
            with self.subTest(new):
                self.write(README)
                self.manual()
                self.write(README.replace(old, new))
                page = self.page()
                self.assert_fails("docs/globex.1 is not what README.md says: make it anew by tools/manual", "--check")
                self.assertEqual(self.page(), page)
                self.manual()
                self.assertEqual(self.manual("--check")[0], 0)

    def test_check_without_a_page(self):
        self.assert_fails("docs/globex.1 is not what README.md says: make it anew by tools/manual", "--check")
        self.assertFalse((self.top / "docs" / "globex.1").exists())

    def assert_fails(self, why, *words):
        self.assertEqual(self.manual(*words), (1, b"", f"manual: {why}\n"))

    def test_faults(self):
        no_version = "README.md names no version, or CHANGELOG.md does not have it with its date"
        faults = (
            (README.replace("## The commands", "## Commands"), 'README.md has no section "The commands"'),
            (README.replace(STATUSES, ""), '"The commands" of README.md has 1 tables, and not two'),
            (README.replace("| What it does |", "| What |"), "a table of README.md has the heading ['Command', 'What'], and not "),
            (README.replace("| 0 | Ok |", "| 0 |"), "a row of README.md has 3 cells, and not 4: ['0', 'all was sold', '0']"),
            (README.replace("`globex close`", "close"), "a row of the commands in README.md has close, and no call of globex"),
            (README.replace("shop is a", "A"), "the first paragraph of README.md does not begin with what the program is, "),
            (README.replace("1.2.0", "1.3.0"), no_version),
            (README.replace("This is version", "It is version"), no_version),
            (README.replace(BETWEEN, ""), "no paragraph of README.md is between the commands and the statuses"),
        )
        for readme, why in faults:
            with self.subTest(why):
                self.write(readme)
                status, out, error = self.manual()
                self.assertEqual((status, out), (1, b""))
                self.assertTrue(error.startswith(f"manual: {why}"), error)
                self.assertFalse((self.top / "docs" / "globex.1").exists())


class Repository(unittest.TestCase):
    def test_the_page_is_that_of_the_readme(self):
        self.assertEqual(call("manual", "--check"), (0, b"", ""))

    @unittest.skipUnless(shutil.which("groff"), "groff is not there")
    def test_groff_takes_it(self):
        done = subprocess.run(["groff", "-man", "-Tutf8", "-ww", TOP / "docs" / "globex.1"], capture_output=True)
        self.assertEqual((done.returncode, done.stderr), (0, b""))


if __name__ == "__main__":
    unittest.main()

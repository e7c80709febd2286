"""Tests of `gate_times`: processes that are made up in a folder, the table of jobs, and the times of modules."""

import os
import pathlib
import sys
import tempfile
import types
import unittest

from called import call, call_program, code_of

# so that its dataclasses find their module
gate_times = types.ModuleType("gate_times")
sys.modules["gate_times"] = gate_times
exec(code_of("gate_times"), gate_times.__dict__)

CHECK = ["/opt/bin/rattle", "check", "--crate-name", "shop", "src/lib.rt"]
BUILD = ["/opt/bin/rattle", "build", "--crate-name", "shop", "src/lib.rt"]
CRATE = "/tmp/rt-copy-1-a/repo/crates/shop"
COPY = "/tmp/rt-edit-1-b"
JOBS = """shop proof 60.00 100.0 160.0
shop before-edits 50.00 160.0 210.0
shop edit 20.00 210.0 230.0
shop edit 10.00 210.0 220.0
till program 6.00 230.0 240.0
case tests 3.00 230.0 280.0
- rest 30.00 100.0 280.0
"""
TABLE = """| Crate | Proof | Program | Tests | Before and after edits | Edits | All |
|---|---|---|---|---|---|---|
| shop | 60 |  |  | 50 | 30 (2) | 140 |
| the other 2 |  | 6 | 3 |  |  | 9 |
| all | 60 | 6 | 3 | 50 | 30 (2) | 149 |

"""


class InFolder(unittest.TestCase):
    def setUp(self):
        folder = tempfile.TemporaryDirectory()
        self.addCleanup(folder.cleanup)
        self.folder = pathlib.Path(folder.name)


class Jobs(unittest.TestCase):
    def test_what_a_command_does(self):
        cases = (
            ([*BUILD, "-o", f"{CRATE}/out/rlib/shop.rlib"], CRATE, ("shop", "proof")),
            ([*CHECK, "-o", "/tmp/rt-proved-1/checked"], CRATE, ("shop", "proof")),
            ([*BUILD, "--crate-checked", "/tmp/rt-proved-1/checked", "-o", "out/shop.o"], CRATE, ("shop", "program")),
            ([*BUILD, "-o", "out/shop_tests.o"], CRATE, ("shop", "tests")),
            ([*CHECK, "--incremental", "/tmp/rt-edits-1-c/seed"], COPY, ("shop", "before-edits")),
            ([*CHECK, "--incremental", "/tmp/rt-edits-1-c/0"], COPY, ("shop", "edit")),
            (CHECK, COPY, ("shop", "edit")),
            (["/opt/bin/rattle-link", "-o", "out/shop_tests", "out/shop_tests.o"], CRATE, ("shop", "tests")),
            (["/opt/bin/rattle-link", "-o", "out/shop", "out/shop.o"], CRATE, ("shop", "program")),
            (["/tmp/rt-run-1-d/bin/shop", "run"], "/tmp/rt-run-1-d/data", ("shop", "program")),
            (["/opt/bin/rattle-test", "--seconds", "60", "/tmp/rt-run-1-d/bin/case_tests_tests"], "/", ("case_tests", "tests")),
            (["sh", "-c", "exec", "/tmp/rt-run-1-d/bin/shop"], "/", None),
            (["/opt/bin/rattle", "fmt"], "/", None),
            ([], "", None),
        )
        for words, folder, wanted in cases:
            with self.subTest(words):
                self.assertEqual(gate_times.job_of(words, folder), wanted)


class Watching(InFolder):
    """A gate with the number 10."""

    def setUp(self):
        super().setUp()
        self.now = 1000.0
        self.watch = gate_times.Watch(10, self.folder, lambda: self.now)

    def put(self, number, parent, seconds, ended=0, words=("rt", "ci"), folder="/"):
        ticks = gate_times.TICKS
        place = self.folder / str(number)
        place.mkdir(exist_ok=True)
        fields = ["S", parent, *[0] * 9, round(seconds * ticks), 0, round(ended * ticks), 0, *[0] * 4, number * 7]
        (place / "stat").write_text(f"{number} (a name) with) " + " ".join(map(str, fields)) + "\n")
        (place / "cmdline").write_bytes(b"".join(word.encode() + b"\0" for word in words))
        (place / "cwd").unlink(missing_ok=True)
        os.symlink(folder, place / "cwd")

    def end(self, number):
        for file in ("stat", "cmdline", "cwd"):
            (self.folder / str(number) / file).unlink()
        (self.folder / str(number)).rmdir()

    def look(self, now):
        self.now = now
        return [(job.crate, job.kind, job.seconds, job.began, job.ended) for job in self.watch.look()]

    def test_a_job_with_what_it_starts(self):
        self.put(10, 1, 5, ended=900)
        self.put(11, 10, 3, words=BUILD, folder=CRATE)
        self.put(12, 11, 2, words=())
        self.put(20, 1, 70, words=BUILD, folder=CRATE)
        self.assertEqual(self.look(1001.0), [])
        self.put(11, 10, 4, ended=6, words=BUILD, folder=CRATE)
        self.end(12)
        self.assertEqual(self.look(1002.0), [])
        self.end(11)
        self.assertEqual(self.look(1003.0), [("shop", "proof", 10.0, 1001.0, 1002.0)])
        self.assertEqual([(job.crate, job.kind, job.seconds) for job in self.watch.last()], [("-", "rest", 5.0)])

    def test_a_shell_that_becomes_a_program(self):
        self.put(10, 1, 0)
        self.put(11, 10, 0, words=("sh", "-c", "exec", "/tmp/rt-run-1-d/bin/shop"))
        self.look(1001.0)
        self.put(11, 10, 1, words=("/tmp/rt-run-1-d/bin/shop",))
        self.look(1002.0)
        self.assertEqual([(job.crate, job.kind, job.seconds) for job in self.watch.last()][:1], [("shop", "program", 1.0)])

    def test_a_number_that_comes_again(self):
        self.put(10, 1, 0)
        self.put(11, 10, 8, words=BUILD, folder=CRATE)
        self.look(1001.0)
        self.put(11, 10, 1, words=[*CHECK], folder=COPY)
        stat = self.folder / "11" / "stat"
        stat.write_text(stat.read_text().rstrip("\n")[:-2] + "99\n")
        self.assertEqual(self.look(1002.0), [("shop", "proof", 8.0, 1001.0, 1001.0)])
        self.assertEqual(self.watch.last()[0].kind, "edit")


class Commands(InFolder):
    def test_table(self):
        file = self.folder / "times"
        file.write_text(JOBS)
        status, out, error = call("gate_times", "table", file, "--least", 100)
        front, _, sums = out.decode().partition("Proofs")
        self.assertEqual((status, error, front), (0, "", TABLE))
        self.assertIn("2 tries of edits 0,", sums)
        self.assertIn("3 minutes of the clock", sums)

    def test_files_of_two_runs(self):
        file = self.folder / "times"
        file.write_text(JOBS)
        out = call("gate_times", "table", file, file)[1].decode()
        self.assertIn("| shop | 120 |  |  | 100 | 60 (4) | 280 |", out)

    def test_no_jobs(self):
        file = self.folder / "times"
        file.write_text("")
        self.assertEqual(call("gate_times", "table", file), (1, b"", "no job is in the files\n"))
        file.write_text("shop proof 1\n")
        self.assertEqual(call("gate_times", "table", file)[2], f"{file} line 1 is no job\n")

    def test_watch(self):
        file = self.folder / "times"
        self.assertEqual(call_program("gate_times", "watch", file, "--", "sh", "-c", "exit 3")[0], 3)
        self.assertIn("- rest ", file.read_text())

    def test_modules(self):
        names = ("specs.Rows", "proofs.table.put.Statement", "proofs.table.put.Lts.Given", "proofs.table.put.Proof")
        for number, name in enumerate(names):
            path = self.folder / f"Rattle-shop-{name}.oantt"
            path.write_text("")
            os.utime(path, (0, 100 + number * number))
        out = call("gate_times", "modules", self.folder)[1].decode()
        self.assertEqual(out.splitlines()[2:], ["| table.put | 9.0 | 3 |", "| all 1 | 9 | 3 |"])

    def test_no_modules(self):
        status, _, error = call("gate_times", "modules", self.folder)
        self.assertEqual((status, error), (1, f"{self.folder} has no modules: run `rt check` in a crate without out/\n"))


if __name__ == "__main__":
    unittest.main()

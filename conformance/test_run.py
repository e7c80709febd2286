"""Tests of `run.py` with wrong programs, which are shell scripts: `cd conformance; python3 -m unittest test_run`."""

import pathlib
import subprocess
import sys
import tempfile
import time
import unittest

import run
from session_file import Call, read_sessions

ANSWERS_WRONGLY = "echo wrong\necho 'some words' >&2\ncat >/dev/null\nprintf 'a journal' >journal.gxj\n"
NEVER_ENDS = "echo begun\nsleep 1000 &\necho $! >>{numbers}\nwait\n"


class WrongPrograms(unittest.TestCase):
    def setUp(self):
        folder = tempfile.TemporaryDirectory()
        self.addCleanup(folder.cleanup)
        self.folder = pathlib.Path(folder.name)
        self.kept = self.folder / "kept"

    def program(self, text):
        path = self.folder / "program"
        path.write_text(f"#!/bin/sh\n{text.format(numbers=self.folder / 'numbers')}")
        path.chmod(0o755)
        return path

    def tried(self, text, *words):
        """Status, standard output and standard error of `run.py` over a script."""
        command = [sys.executable, run.HERE / "run.py", self.program(text), *words]
        done = subprocess.run(command, capture_output=True, text=True, timeout=300)
        return done.returncode, done.stdout, done.stderr

    def files_of(self, folder):
        return {path.name: path.read_bytes() for path in folder.iterdir()}

    def held_ended(self):
        """Holds that none of the processes goes on that the script started."""
        numbers = [int(number) for number in (self.folder / "numbers").read_text().split()]
        for number in numbers:
            for _ in range(100):
                if self.is_gone(number):
                    break
                time.sleep(0.05)
            self.assertTrue(self.is_gone(number), number)
        return len(numbers)

    def is_gone(self, number):
        state = pathlib.Path(f"/proc/{number}/stat")
        try:
            return state.read_text().rpartition(")")[2].split()[0] in "ZX"
        except (FileNotFoundError, ProcessLookupError):
            return True

    def test_all_sessions_differ_without_first(self):
        status, out, _ = self.tried(ANSWERS_WRONGLY, "frames", "counters")
        number = len(read_sessions(run.HERE, "frames")) + len(read_sessions(run.HERE, "counters"))
        self.assertGreater(number, 2)
        self.assertEqual((status, out.count(" differs (")), (1, number))
        self.assertTrue(out.endswith(f"\n{number} sessions, {number} differ\n"))

    def test_first(self):
        status, out, _ = self.tried(ANSWERS_WRONGLY, "frames", "counters", "--first")
        self.assertEqual((status, out.count(" differs (")), (1, 1))
        self.assertTrue(out.endswith("\nframes         1       1\n1 sessions, 1 differ\n"), out)

    def test_keep(self):
        status, _, _ = self.tried(ANSWERS_WRONGLY, "frames", "--keep", self.kept)
        self.assertEqual(status, 1)
        sessions = read_sessions(run.HERE, "frames")
        self.assertEqual(sorted(path.name for path in (self.kept / "frames").iterdir()), [session.name for session in sessions])
        for session in sessions:
            call = next(step.action for step in session.steps if isinstance(step.action, Call))
            product = next(step.action.content for step in session.steps if getattr(step.action, "file", "") == "product")
            # a session ends at its first difference, which is in the first call
            self.assertEqual([path.name for path in (self.kept / "frames" / session.name).iterdir()], ["call-1"])
            self.assertEqual(self.files_of(self.kept / "frames" / session.name / "call-1"), {
                "input": b"".join(call.pieces),
                "product.toml": product,
                "journal.gxj": b"a journal",
                "sent": b"wrong\n",
                "errors": b"some words\n",
            })

    def test_what_is_kept_can_be_done_again(self):
        # the first call appends to the journal, and the second gets what it left
        work, call = self.folder / "work", Call(1, ["run"], [b"one\n"], b"one\n", 0)
        work.mkdir()
        program = [self.program("cat >>journal.gxj; cat journal.gxj")]
        run.try_call(program, work, call, 30, self.kept / "call-1")
        run.try_call(program, work, Call(2, ["run"], [b"t", b"wo\n"], b"one\ntwo\n", 0), 30, self.kept / "call-2")
        first, second = (self.files_of(self.kept / f"call-{number}") for number in (1, 2))
        self.assertEqual(first, {"input": b"one\n", "journal.gxj": b"one\n", "sent": b"one\n", "errors": b""})
        after = b"one\ntwo\n"
        wanted = {"input": b"two\n", "before.gxj": b"one\n", "journal.gxj": after, "sent": after, "errors": b""}
        self.assertEqual(second, wanted)

    def test_keep_no_folder_with_other_files(self):
        self.kept.mkdir()
        self.assertEqual(self.tried(ANSWERS_WRONGLY, "frames", "--first", "--keep", self.kept)[0], 1)
        before = sorted(self.kept.rglob("*"))
        status, out, error = self.tried(ANSWERS_WRONGLY, "frames", "--first", "--keep", self.kept)
        self.assertEqual((status, out), (2, ""))
        self.assertIn(f"{self.kept} is there, and is no empty folder", error)
        self.assertEqual(sorted(self.kept.rglob("*")), before)
        self.assertEqual(self.tried(ANSWERS_WRONGLY, "frames", "--keep", self.folder / "program")[0], 2)

    def test_limit(self):
        status, out, _ = self.tried(NEVER_ENDS, "frames", "--limit", "0.5", "--keep", self.kept)
        number = len(read_sessions(run.HERE, "frames"))
        self.assertEqual((status, out.count("\n  no end within 0.5 seconds\n")), (1, number))
        self.assertTrue(out.endswith(f"\n{number} sessions, {number} differ\n"))
        self.assertEqual(self.held_ended(), number)
        kept = [path.read_bytes() for path in sorted(self.kept.rglob("sent"))]
        self.assertEqual(kept, [b"begun\n"] * number)

    def test_limits_that_are_none(self):
        for limit in ("0", "-1", "nan", "inf", "x", ""):
            self.assertEqual(self.tried(NEVER_ENDS, "frames", "--limit", limit)[:2], (2, ""), limit)

    def test_a_program_that_does_not_read(self):
        pieces = [b"x" * 300_000, b"y" * 300_000]
        for number in (1, 2):
            call = Call(1, ["run"], pieces[:number])
            begun = time.monotonic()
            self.assertEqual(run.answer_of([self.program(NEVER_ENDS)], self.folder, call, 0.5), (None, b"begun\n", b""))
            self.assertLess(time.monotonic() - begun, 30)
            self.assertEqual(run.answer_of([self.program("exit 3")], self.folder, call, 30), (3, b"", b""))
            self.assertEqual(run.answer_of([self.program("cat")], self.folder, call, 30), (0, b"".join(pieces[:number]), b""))
        self.assertEqual(self.held_ended(), 2)


if __name__ == "__main__":
    unittest.main()

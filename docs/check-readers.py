#!/usr/bin/env python3
"""Calls the commands that only read beside a writer, and compares each text with that of some number of the messages.

    docs/check-readers.py PROGRAM [--calls N]

A writer feeds made messages to runs, with a checkpoint or an amendment between two of them: with journals on a disk (in the folder for
temporary files), and with journals in memory. Beside it each reading command is called 200 times, 20 times for each journal. No call may
end with 10. It may end with 11 while an amendment is made, since the folder has the new product file then. The text of each other call
has to be the one that the command gives, byte for byte, over the journal cut after some number of its messages.
"""

import argparse
import os
import pathlib
import subprocess
import sys
import tempfile
import threading
import time

TOP = pathlib.Path(__file__).resolve().parent.parent
sys.path.insert(0, str(TOP / "tools"))

import gxj  # noqa: E402

COMMANDS = ["replay", "fills", "ledger", "levels", "book", "opening", "session"]
PLACES = {"on a disk": None, "in memory": "/dev/shm"}
PAUSE = 0.002      # seconds between two messages
SEGMENT = 40       # messages of one run
MESSAGES = 20_000
ROUND = 20         # calls of each command beside one journal, so that it stays short
FIRST_LIMIT = 67_108_864
LOGON = b"35=A|49=AAA|56=GX|34=999999999|52=20240103-08:00:00|98=0|108=30|\n"


def product_text(raised):
    """The product of an example, with a limit that each amendment raises."""
    text = (TOP / "examples/A/product.toml").read_text()
    lines = [line for line in text.splitlines() if not line.startswith("journal_limit")]
    place = next(number for number, line in enumerate(lines) if line.startswith("[[instrument]]"))
    lines.insert(place, f"journal_limit = {FIRST_LIMIT + raised}")
    return "\n".join(lines) + "\n"


def made_messages(program):
    with tempfile.TemporaryDirectory() as folder:
        (pathlib.Path(folder) / "product.toml").write_text(product_text(0))
        subprocess.run([program, "drill", "--first", "1", "--count", str(MESSAGES)], cwd=folder, check=True, stdout=subprocess.DEVNULL)
        journal = gxj.Journal((pathlib.Path(folder) / "journal.gxj").read_bytes())
        return list(journal.messages(1, MESSAGES))


class Writer(threading.Thread):
    """Runs over the messages, each with a pause after it, and makes a checkpoint or an amendment after each run."""

    def __init__(self, program, folder, messages):
        super().__init__(daemon=True)
        self.program, self.folder, self.messages = program, folder, messages
        self.fed, self.amended, self.checkpoints = 0, 0, 0
        self.amending, self.stopped = False, False
        self.fault = None

    def run(self):
        try:
            while not self.stopped and self.fed < len(self.messages):
                self.run_some()
                self.change()
        except (OSError, subprocess.CalledProcessError) as fault:
            self.fault = fault

    def run_some(self):
        with open(self.folder / "sent", "ab") as sent:
            run = subprocess.Popen([self.program, "run"], cwd=self.folder, stdin=subprocess.PIPE, stdout=sent)
            for message in self.messages[self.fed : self.fed + SEGMENT]:
                if self.stopped:
                    break
                os.write(run.stdin.fileno(), message)
                self.fed += 1
                time.sleep(PAUSE)
            run.stdin.close()
            if run.wait() != 0:
                raise subprocess.CalledProcessError(run.returncode, "run")

    def change(self):
        """A checkpoint, or every other time an amendment."""
        if self.checkpoints == self.amended:
            subprocess.run([self.program, "checkpoint"], cwd=self.folder, check=True)
            self.checkpoints += 1
            return
        self.amending = True
        (self.folder / "next.toml").write_text(product_text(self.amended + 1))
        os.replace(self.folder / "next.toml", self.folder / "product.toml")
        subprocess.run([self.program, "amend"], cwd=self.folder, check=True)
        self.amended += 1
        self.amending = False


class Call:
    """A call beside the writer: how it ended, and how many messages had been fed before it and after it."""

    def __init__(self, program, writer, command, given):
        self.command, self.before, amending = command, writer.fed, writer.amending
        amended = writer.amended
        done = subprocess.run([program, command], cwd=writer.folder, input=given, capture_output=True, check=False)
        self.after = writer.fed
        self.status, self.text, self.words = done.returncode, done.stdout, done.stderr.decode()
        self.beside_amendment = amending or writer.amending or amended != writer.amended

    def is_right(self):
        return self.status == 0 or (self.status == 11 and self.beside_amendment)


class Texts:
    """What the commands give over the journal, cut after each number of its messages."""

    def __init__(self, program, journal, folder, given):
        self.program, self.journal, self.folder, self.given = program, journal, folder, given
        self.known = {}

    def of(self, command, count):
        if (command, count) not in self.known:
            data = gxj.cut(self.journal, count)
            (self.folder / "journal.gxj").write_bytes(data)
            (self.folder / "product.toml").write_bytes(gxj.Journal(data).last_text.data)
            done = subprocess.run([self.program, command], cwd=self.folder, input=self.given, capture_output=True, check=True)
            self.known[command, count] = done.stdout
        return self.known[command, count]

    def has(self, call, most):
        """Whether a call gave the text of some number of messages. Those fed while it was called are tried first."""
        near = range(max(call.before - 1, 0), min(call.after + 1, most) + 1)
        return any(self.of(call.command, count) == call.text for count in (*near, *range(near.start - 1, max(near.start - 40, -1), -1)))


def try_round(program, what, parent, calls, messages, given):
    """Calls the readers beside a writer of a new journal. Answers the writer, the calls, and how many of them were wrong."""
    with tempfile.TemporaryDirectory(dir=parent) as room:
        folder = pathlib.Path(room)
        (folder / "product.toml").write_text(product_text(0))
        writer = Writer(program, folder, messages)
        writer.start()
        while writer.fed < 5 and writer.is_alive():
            time.sleep(0.01)
        done = [Call(program, writer, command, given) for _ in range(calls) for command in COMMANDS]
        ended, writer.stopped = not writer.is_alive(), True
        writer.join()
        if ended or writer.fault:
            sys.exit(f"check-readers: the writer ended early {what}: {writer.fault or 'no more messages'}")
        return writer, done, tell_wrong(done, what) + tell_other_texts(program, folder, done, given, what)


def try_place(program, what, parent, calls, messages, given):
    """Calls the readers so often, some of them beside each of several journals, and answers how many calls were wrong."""
    rounds = [try_round(program, what, parent, min(ROUND, calls - at), messages, given) for at in range(0, calls, ROUND)]
    writers, done, wrong = [writer for writer, _, _ in rounds], [call for _, calls, _ in rounds for call in calls], sum(wrong for _, _, wrong in rounds)
    print(f"{what}: {len(done)} calls beside {sum(writer.fed for writer in writers)} messages, "
          f"{sum(writer.checkpoints for writer in writers)} checkpoints and {sum(writer.amended for writer in writers)} amendments; "
          f"{sum(call.status == 11 for call in done)} ended with 11 beside an amendment, {wrong} are wrong", flush=True)
    return wrong


def tell_wrong(done, what):
    wrong = [call for call in done if not call.is_right()]
    for call in wrong[:5]:
        print(f"{what}: {call.command} after {call.before} messages: {call.words.strip()}", file=sys.stderr)
    return len(wrong)


def tell_other_texts(program, folder, done, given, what):
    journal = gxj.Journal((folder / "journal.gxj").read_bytes())
    with tempfile.TemporaryDirectory(dir=PLACES["in memory"]) as room:
        texts, most, wrong = Texts(program, journal, pathlib.Path(room), given), journal.count(), 0
        for call in done:
            if call.status == 0 and not texts.has(call, most):
                wrong += 1
                print(f"{what}: the text of {call.command} after {call.before} messages is that of no number", file=sys.stderr)
    return wrong


def main():
    words = argparse.ArgumentParser(description=__doc__, formatter_class=argparse.RawDescriptionHelpFormatter)
    words.add_argument("program")
    words.add_argument("--calls", type=int, default=200, help="how often each command is called; 200 if absent")
    asked = words.parse_args()
    program = os.path.abspath(asked.program)
    messages = made_messages(program)
    made = subprocess.run([TOP / "tools/frames", "make"], input=LOGON, capture_output=True, check=True)
    wrong = sum(try_place(program, *place, asked.calls, messages, made.stdout) for place in PLACES.items())
    sys.exit(1 if wrong else 0)


if __name__ == "__main__":
    main()

"""Tests of `status`: what it tells of good, bad, unfinished and amended journals, and of one that is written meanwhile."""

import itertools
import multiprocessing
import re
import time
import unittest
from unittest import mock

import fix42
import gxj
from called import call, call_program, soh
from made_journals import (
    BUY,
    CANCEL,
    EMPTY,
    FULL,
    LEAST,
    MORE,
    MOST,
    NO_PRODUCT,
    SELL,
    SHORT,
    TEXT,
    TWO,
    InFolder,
    amendment_record,
    image_after,
    journal_of,
    messages_record,
)

TWO_MESSAGES = journal_of(messages_record(SELL, BUY))
PROMETHEUS = """\
# HELP globex_messages_total Messages that the journal keeps.
# TYPE globex_messages_total counter
globex_messages_total 2
# HELP globex_records_total Records of the journal.
# TYPE globex_records_total counter
globex_records_total 1
# HELP globex_journal_bytes Bytes of the journal up to its last gate.
# TYPE globex_journal_bytes gauge
globex_journal_bytes 377
# HELP globex_journal_limit_bytes The journal_limit of the product.
# TYPE globex_journal_limit_bytes gauge
globex_journal_limit_bytes 16777216
# HELP globex_last_message_timestamp_seconds Sending time (52) of the last message, in seconds since 1970.
# TYPE globex_last_message_timestamp_seconds gauge
globex_last_message_timestamp_seconds 1704187801
# HELP globex_journal_good Whether no record of the journal is bad.
# TYPE globex_journal_good gauge
globex_journal_good 1
"""
LIVE = """\
# HELP globex_live_orders Orders that rest or wait.
# TYPE globex_live_orders gauge
globex_live_orders 3
"""
BOOK = "ESZ4 last 100.00\\nB 99.00 6/6 #1 AAA a1\\nS 100.00 6/6 #2 AAA last 1\\nW S 99.96 99.93 1 #3 AAA a3\\n"


class Status(InFolder):
    def told(self, data, *words):
        """A call over a folder whose journal stays as it is."""
        self.path.write_bytes(data)
        self.path.chmod(0o444)
        answer = call("status", self.folder, *words)
        self.path.chmod(0o644)
        self.assertEqual(self.path.read_bytes(), data)
        return answer

    def held(self, data, lines, error=""):
        wanted = "".join(f"{line}\n" for line in lines).encode()
        self.assertEqual(self.told(data), (1 if error else 0, wanted, error))

    def values(self, data):
        """The figures for Prometheus, by their names without the prefix."""
        out = self.told(data, "--prometheus")[1].decode()
        return dict(re.findall(r"^globex_(\w+) (\S+)$", out, re.MULTILINE))

    def program(self, text):
        path = self.folder / "program"
        path.write_text(f"#!/bin/sh\n{text}\n")
        path.chmod(0o755)
        return path


class Figures(Status):
    def test_for_eyes(self):
        time = "last message 20240102-09:30:01"
        self.held(TWO_MESSAGES, ["messages 2", "records 1", "bytes 377 of 16777216", time])
        size = f"bytes {len(FULL)} of 16777216"
        last = next(field[3:] for field in fix42.field_texts(fix42.body_of(CANCEL)) if field.startswith(b"52=")).decode()
        self.held(FULL, ["messages 4", "records 7", size, f"last message {last}"])
        self.held(EMPTY, ["messages 0", "records 0", "bytes 150 of 16777216", "last message -"])

    def test_for_prometheus(self):
        self.assertEqual(self.told(TWO_MESSAGES, "--prometheus"), (0, PROMETHEUS.encode(), ""))
        program = self.program(f"printf '{BOOK}'")
        self.assertEqual(self.told(TWO_MESSAGES, "--prometheus", "--program", program), (0, (PROMETHEUS + LIVE).encode(), ""))

    def test_each_name_is_there_once_and_has_its_two_lines(self):
        program = self.program(f"printf '{BOOK}'")
        lines = self.told(TWO_MESSAGES, "--prometheus", "--program", program)[1].decode().splitlines()
        names = [line.split()[0] for line in lines[2::3]]
        self.assertEqual(len(set(names)), len(names))
        for number, name in enumerate(names):
            self.assertRegex(name, r"^globex_[a-z_]+$")
            self.assertRegex(lines[3 * number], rf"^# HELP {name} [ -\[\]-~]+\.$")
            self.assertRegex(lines[3 * number + 1], rf"^# TYPE {name} (gauge|counter)$")
            self.assertEqual(name.endswith("_total"), lines[3 * number + 1].endswith("counter"))

    def test_unfinished_creations(self):
        for data in (b"", b"\x00", b"\x00" + EMPTY[1:]):
            self.held(data, ["messages 0", "records 0", "bytes 0 of a limit that is not known", "last message -"])
            self.assertEqual(self.values(data), {"messages_total": "0", "records_total": "0", "journal_bytes": "0", "journal_good": "1"})
            program = self.program("exit 1")
            self.assertTrue(self.told(data, "--program", program)[1].endswith(b"\nlive orders 0\n"))
        self.held(b"\x02" + EMPTY[1:], ["messages 0", "records 0", "bytes 0 of 16777216", "last message -"])

    def test_amendments(self):
        data = journal_of(messages_record(SELL), amendment_record(MOST, image_after(1)))
        self.held(data, ["messages 1", "records 2", f"bytes {len(data)} of 268435456", "last message 20240102-09:30:00"])

    def test_no_journal(self):
        status, out, error = call("status", self.folder)
        self.assertEqual((status, out), (1, b""))
        self.assertTrue(error.startswith("status: ") and error.count("\n") == 1 and "journal.gxj" in error, error)
        self.assertEqual(self.told(TEXT), (1, b"", "place 0: it is no journal\n"))
        self.assertEqual(call("status", "--help")[0], 0)

    def test_as_a_program(self):
        self.path.write_bytes(TWO_MESSAGES)
        self.assertEqual(call_program("status", "--prometheus", self.folder), (0, PROMETHEUS.encode(), ""))


class Times(Status):
    def values_after(self, *fields):
        frame = fix42.frame_of(soh("35=0|49=AAA|56=GX|34=1|" + "".join(f"{field}|" for field in fields)))
        data = journal_of(messages_record(SELL), messages_record(BUY, frame))
        shown = self.told(data)[1].decode().splitlines()[3].removeprefix("last message ")
        return shown, self.values(data).get("last_message_timestamp_seconds")

    def test_sending_times(self):
        for text, seconds in [
            ("19700101-00:00:00", "0"),
            ("20240102-09:30:00.250", "1704187800.25"),
            ("20240102-09:30:60", "1704187860"),
            ("20240231-00:00:00", "1709337600"),
            ("99991231-23:59:60", "253402300800"),
            ("00010101-00:00:00", "-62135596800"),
            ("00000101-00:00:00", None),
        ]:
            self.assertEqual(self.values_after(f"52={text}"), (text, seconds))

    def test_messages_without_one_that_is_right(self):
        for fields in ([], ["52=20241302-09:30:00"], ["52="], ["152=20240102-09:30:00"], ["58=52=20240102-09:30:00"]):
            self.assertEqual(self.values_after(*fields), ("-", None))
        self.assertEqual(self.values_after("52=20240102-09:30:00", "52=x")[0], "20240102-09:30:00")


class Orders(Status):
    def test_what_the_program_is_given(self):
        seen = self.folder / "seen"
        program = self.program(f"mkdir -p {seen}; cp product.toml journal.gxj {seen}; ls >{seen}/files; echo $* >{seen}/words; printf '{BOOK}'")
        amended = [messages_record(SELL), amendment_record(MORE, image_after(1)), messages_record(BUY)]
        for data, text in [
            (TWO_MESSAGES, TEXT),
            (TWO_MESSAGES + messages_record(CANCEL), TEXT),
            (journal_of(*amended), MORE),
        ]:
            self.assertTrue(self.told(data, "--program", program)[1].endswith(b"\nlive orders 3\n"))
            self.assertEqual((seen / "product.toml").read_bytes(), text)
            self.assertEqual((seen / "journal.gxj").read_bytes(), data[: gxj.Journal(data).gate] + b"\x00")
            self.assertEqual((seen / "files").read_text(), "journal.gxj\nproduct.toml\n")
            self.assertEqual((seen / "words").read_text(), "book\n")

    def test_two_instruments(self):
        data = b"\x01GXJOURN2" + len(TWO).to_bytes(4, "big") + TWO + b"\x00"
        self.assertTrue(self.told(data, "--program", self.program(f"printf '{BOOK}'"))[1].endswith(b"\nlive orders 2\n"))

    def test_a_program_that_fails(self):
        program = self.program("echo some words >&2; echo the last line >&2; exit 10")
        status, out, error = self.told(TWO_MESSAGES, "--prometheus", "--program", program)
        self.assertEqual((status, out.decode()), (1, PROMETHEUS))
        self.assertEqual(error, f"status: {program} book ended with 10: the last line\n")
        self.assertEqual(self.told(TWO_MESSAGES, "--program", self.program("exit 2"))[2], f"status: {program} book ended with 2\n")
        self.assertEqual(self.told(TWO_MESSAGES, "--program", self.folder / "none")[:2], (2, b""))

    def test_a_text_that_gives_no_product(self):
        data = b"\x01GXJOURN2" + len(NO_PRODUCT).to_bytes(4, "big") + NO_PRODUCT + messages_record(SELL) + b"\x00"
        program = self.program("exit 1")
        status, out, error = self.told(data, "--program", program)
        self.assertEqual((status, out.splitlines()[2]), (1, b"bytes 267 of a limit that is not known"))
        self.assertEqual(error, "status: the product text of the journal gives no product: exchange is missing, and so no book\n")


class Written(Status):
    def test_a_record_that_is_being_written(self):
        record = messages_record(CANCEL)
        for length in range(1, len(record)):
            part = b"\x00" + record[1 : 1 + length]
            self.assertEqual(self.told(TWO_MESSAGES[:-1] + part), self.told(TWO_MESSAGES))

    def test_bad_records(self):
        bad = journal_of(messages_record(SELL, BUY), messages_record(SELL + BUY[:50]))
        lines = ["messages 2", "records 1", "bytes 377 of 16777216", "last message 20240102-09:30:01"]
        self.held(bad, lines, f"place 376: {SHORT.decode()}\n")
        self.assertEqual(self.values(bad)["journal_good"], "0")
        cut = TWO_MESSAGES[:-1] + messages_record(CANCEL)
        self.held(cut, lines, f"place 376: a record of {len(CANCEL)} bytes goes past the end of the file\n")
        program = self.program(f"printf '{BOOK}'")
        status, out, _ = self.told(cut, "--prometheus", "--program", program)
        self.assertEqual((status, out.decode()), (1, (PROMETHEUS + LIVE).replace("good 1\n", "good 0\n")))

    def test_beside_a_writer(self):
        self.path.write_bytes(EMPTY)
        records = [messages_record(*[SELL] * (1 + number % 60)) for number in range(2_000)]
        counts = list(itertools.accumulate((1 + number % 60 for number in range(len(records))), initial=0))
        writer = multiprocessing.Process(target=self.write, args=[records])
        writer.start()
        seen = [0]
        while writer.is_alive():
            totals = gxj.totals_at(self.path)
            self.assertIsNone(totals.bad)
            self.assertEqual(totals.messages, counts[totals.records])
            self.assertGreaterEqual(totals.records, seen[-1])
            seen.append(totals.records)
        writer.join()
        self.assertEqual(gxj.totals_at(self.path).records, len(records))
        self.assertGreater(len(set(seen)), 2)

    def test_a_record_that_comes_after_the_file_was_mapped(self):
        record = messages_record(CANCEL)
        for length in (1, 5, 6, len(record)):
            self.path.write_bytes(TWO_MESSAGES[:-1] + record[:length])
            short = self.path.open("rb")
            with short:
                data = gxj.mapped(short)
            self.path.write_bytes(TWO_MESSAGES[:-1] + record + b"\x00")
            with mock.patch.object(gxj, "mapped", return_value=data):
                totals = gxj.totals_at(self.path)
            self.assertEqual((totals.messages, totals.records, totals.opened.gate, totals.bad), (2, 1, 376, None))

    def test_an_amendment_that_comes_between(self):
        record = messages_record(*[SELL] * 70)
        low = b"\x01GXJOURN2" + len(LEAST).to_bytes(4, "big") + LEAST + record * 16
        amended = low + amendment_record(TEXT.replace(b"\n\n", b"\njournal_limit = 262144\n\n", 1), image_after(70 * 16)) + record * 4
        totals = gxj.totals_of(low + record * 4 + b"\x00")
        self.assertIn("goes past journal_limit", totals.bad.why)

        def read_before_and_after(data):
            self.path.write_bytes(amended + b"\x00")
            return totals if not calls.append(data) and len(calls) == 1 else total(data)

        calls, total = [], gxj.totals_of
        self.path.write_bytes(low + b"\x00")
        with mock.patch.object(gxj, "totals_of", side_effect=read_before_and_after):
            told = gxj.totals_at(self.path)
        self.assertEqual((told.messages, told.records, told.bad, len(calls)), (70 * 20, 21, None, 2))

    def write(self, records):
        """Writes as the engine does: a payload behind the closed gate, with a closed gate after it, and then opens the gate."""
        gate = len(EMPTY) - 1
        with open(self.path, "r+b", buffering=0) as file:
            for record in records:
                file.seek(gate + 1)
                file.write(record[1:] + b"\x00")
                file.seek(gate)
                file.write(b"\x01")
                gate += len(record)
                time.sleep(0.0005)


if __name__ == "__main__":
    unittest.main()

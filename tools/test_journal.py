"""Tests of `journal`: bytes of docs/FORMATS.md, cuts at each message, images that are dropped, and files that are damaged."""

import fcntl
import os
import threading
import unittest
from unittest import mock

import fix42
import gxj
from called import PROGRAM, call, call_program, soh
from made_journals import (
    BUY,
    CANCEL,
    EMPTY,
    FULL,
    GATES,
    GO_ON,
    IMAGE,
    KEPT,
    LEAST,
    MARKET_CLOSED,
    MARKET_OPEN,
    MORE,
    OLD_IMAGE,
    RECORDS,
    ROW,
    SELL,
    SHORT,
    STREAM,
    TEXT,
    InFolder,
    amendment_record,
    first_version,
    image_after,
    image_record,
    journal_of,
    messages_record,
    old_image_after,
    old_image_of,
    old_image_record,
    row_of,
)

BAD_HEADS = [
    (b"\x01", "the file ends inside the head of a record"),
    (b"\x01M\x00\x00\x00", "the file ends inside the head of a record"),
    (b"\x01m" + messages_record(SELL)[2:] + b"\x00", "the kind of the record is the byte 109, and none of M, C, D and P"),
    (b"\x01E" + image_record(IMAGE)[2:] + b"\x00", "the kind of the record is the byte 69, and none of M, C, D and P"),
    (b"\x01M\x00\x00\x00\x00\x00", "a record of messages has 0 bytes, and not 1 to 8,192"),
    (b"\x01M\x00\x00\x20\x01" + bytes(9_000), "a record of messages has 8,193 bytes, and not 1 to 8,192"),
    (messages_record(SELL), "a record of 111 bytes goes past the end of the file"),
    (old_image_record(OLD_IMAGE), "a record of 667 bytes goes past the end of the file"),
    (image_record(IMAGE), "a record of 668 bytes goes past the end of the file"),
    (amendment_record(TEXT, IMAGE), "a record of 808 bytes goes past the end of the file"),
]
# with the least journal_limit
LONG_HEADS = [
    (b"\x01C\x00\x03\x00\x00" + bytes(200_000), "a record of 196,608 bytes goes past journal_limit, 131,072"),
    (b"\x01D\x00\x03\x00\x00" + bytes(200_000), "a record of 196,608 bytes goes past journal_limit, 131,072"),
    (
        b"\x01P\x00\x03\x00\x00" + len(LEAST).to_bytes(4, "big") + LEAST + bytes(200_000),
        "a record of 196,608 bytes goes past journal_limit, 131,072",
    ),
]
BAD_PAYLOADS = [
    (messages_record(SELL + BUY[:50]), SHORT.decode()),
    (
        messages_record(SELL + b"\n" + BUY),
        "its payload is not whole frames: at its byte 111 no frame begins here: it does not begin with 8=FIX.4.2|9= (byte 111)",
    ),
    (old_image_record(OLD_IMAGE[:-1] + b"\x01"), "its image has 667 bytes, and its counts say 749"),
    (old_image_record(OLD_IMAGE[:-1]), "its image has 666 bytes, and the count of waiting stops is not there"),
    (old_image_record(IMAGE), "its image has 668 bytes, and its counts say 667"),
    (old_image_record(OLD_IMAGE[:580]), "its image has 580 bytes, and the count of resting orders is not there"),
    (old_image_record(b""), "its image has 0 bytes, and the count of resting orders is not there"),
    (
        old_image_record(b"\x00" * 4 + b"\x01" + OLD_IMAGE[5:]),
        "its image counts 16,777,218 messages, and not fewer than 16,777,216",
    ),
    (image_record(OLD_IMAGE[:-1] + b"\x01" + MARKET_OPEN), "its image has 668 bytes, and its counts say 750"),
    (image_record(OLD_IMAGE), "its image has 667 bytes, and its counts say 668"),
    (image_record(IMAGE[:666]), "its image has 666 bytes, and the count of waiting stops is not there"),
    (image_record(IMAGE + MARKET_OPEN), "its image has 669 bytes, and its counts say 668"),
    (image_record(IMAGE[:580]), "its image has 580 bytes, and the count of resting orders is not there"),
    (image_record(b""), "its image has 0 bytes, and the count of resting orders is not there"),
    (image_record(b"\x00" * 4 + b"\x01" + IMAGE[5:]), "its image counts 16,777,218 messages, and not fewer than 16,777,216"),
    (image_record(OLD_IMAGE + b"\x02"), "the last byte of its image is 2, and neither 0 nor 1"),
    (image_record(OLD_IMAGE + MARKET_CLOSED), "its image is of a closed market, and order 1 has the life 0, and not 1"),
]



class Documented(InFolder):
    def test_lengths(self):
        self.assertEqual((len(TEXT), len(EMPTY)), (136, 150))
        self.assertEqual(len(journal_of(messages_record(SELL, BUY))), 377)
        self.assertEqual(len(journal_of(messages_record(SELL), messages_record(BUY))), 383)
        checkpoint = journal_of(messages_record(SELL, BUY), image_record(IMAGE))
        self.assertEqual(len(checkpoint), 1_051)
        self.assertEqual(checkpoint[149:155], bytes.fromhex("01 4d 00 00 00 dd"))
        self.assertEqual(checkpoint[376:382], bytes.fromhex("01 44 00 00 02 9c"))
        self.assertEqual(sum(byte != 0 for byte in IMAGE), 23)

    def test_list(self):
        for image, line, gate in [
            (image_record(IMAGE), b"376 D image after 2 messages, 668 bytes\n", 1_050),
            (old_image_record(OLD_IMAGE), b"376 C image after 2 messages, 667 bytes\n", 1_049),
        ]:
            with self.subTest(line):
                checkpoint = journal_of(messages_record(SELL, BUY), image)
                listed = (
                    b"header: version 2, product text of 136 bytes, journal_limit 16777216\n"
                    b"149 M 2 messages, 221 bytes\n"
                    b"%b"
                    b"%d last gate\n"
                    b"a journal at rest, which keeps 2 messages\n"
                ) % (line, gate)
                self.assertEqual(self.over(checkpoint, "list"), (0, listed, ""))
                more = listed.replace(b"last gate", b"last gate, and 3 bytes after it that mean nothing")
                self.assertEqual(self.over(checkpoint + b"\x01M\x00", "list"), (0, more, ""))

    def test_check_and_count(self):
        for data, checked, count in [
            (EMPTY, b"0 messages, 0 records, 0 images\n", b"0\n"),
            (journal_of(messages_record(SELL, BUY)), b"2 messages, 1 records, 0 images\n", b"2\n"),
            (journal_of(messages_record(SELL, BUY), image_record(IMAGE)), b"2 messages, 2 records, 1 images\n", b"2\n"),
            (journal_of(messages_record(SELL, BUY), old_image_record(OLD_IMAGE)), b"2 messages, 2 records, 1 images\n", b"2\n"),
            (FULL, b"4 messages, 7 records, 4 images\n", b"4\n"),
        ]:
            self.assertEqual(self.over(data, "check"), (0, checked, ""))
            self.assertEqual(self.over(data, "check", "--product", PROGRAM / "data" / "product.toml"), (0, checked, ""))
            self.assertEqual(self.over(data, "count"), (0, count, ""))

    def test_product(self):
        self.assertEqual(self.over(FULL, "product"), (0, TEXT, ""))

    def test_messages(self):
        self.assertEqual(self.over(FULL, "messages"), (0, b"".join(KEPT), ""))
        for first in range(1, 5):
            for last in range(first, 5):
                wanted = b"".join(KEPT[first - 1 : last])
                self.assertEqual(self.over(FULL, "messages", "--first", first, "--last", last), (0, wanted, ""))
        text = (BUY + CANCEL).replace(b"10=168\x01", b"10=168\x01\n").replace(b"\x01", b"|") + b"\n"
        self.assertEqual(self.over(FULL, "messages", "--text", "--first", 2, "--last", 3), (0, text, ""))
        self.assertEqual(self.over(FULL, "messages", "--first", 5), (0, b"", ""))
        three = journal_of(messages_record(SELL), messages_record(BUY, CANCEL, SELL))
        self.assertEqual(self.over(three, "messages"), (0, SELL + BUY + CANCEL + SELL, ""))
        error = "only 4 messages are kept\n"
        self.assertEqual(self.over(FULL, "messages", "--first", 6), (1, b"", error))
        self.assertEqual(self.over(FULL, "messages", "--first", 4, "--last", 5), (1, CANCEL, error))
        self.assertEqual(self.over(FULL, "messages", "--first", 0)[0], 2)

    def test_as_a_program(self):
        self.path.write_bytes(FULL)
        self.assertEqual(call_program("journal", "check", self.path), (0, b"4 messages, 7 records, 4 images\n", ""))
        self.assertEqual(call_program("journal", "messages", self.path)[1], b"".join(KEPT))
        status, out, error = call_program("journal", "check", self.folder / "no such file")
        self.assertEqual((status, out, error.count("\n")), (1, b"", 1))
        for command in ("list", "count", "messages", "product", "cut", "drop", "check"):
            self.assertEqual(call("journal", command, "--help")[0], 0)


class Copies(InFolder):
    def test_cut_at_each_message(self):
        wanted = [
            RECORDS[:1],
            [RECORDS[0], messages_record(SELL)],
            RECORDS[:3],
            RECORDS[:6],
            RECORDS,
        ]
        for count, records in enumerate(wanted):
            with self.subTest(count):
                copy = self.copied(FULL, "cut", "--messages", count)
                self.assertEqual(copy, journal_of(*records))
                status, checked, error = call("journal", "check", self.copy)
                self.assertEqual((status, error), (0, ""))
                self.assertTrue(checked.startswith(b"%d messages, " % count))
                self.assertEqual(call("journal", "messages", self.copy)[1], b"".join(KEPT[:count]))
        error = f"place {GATES[-1]}: only 4 messages are kept\n"
        self.assertEqual(self.over(FULL, "cut", "--messages", 5, "--output", self.folder / "none"), (1, b"", error))
        self.assertFalse((self.folder / "none").exists())

    def test_cut_leaves_bytes_out_that_mean_nothing(self):
        for gate in (b"\x00", b"\xc8"):
            old = journal_of(messages_record(SELL, BUY))[:-1] + gate + messages_record(CANCEL)
            self.assertEqual(self.copied(old, "cut", "--messages", 2), journal_of(messages_record(SELL, BUY)))

    def test_cut_in_front_of_a_bad_record(self):
        for bad, why in BAD_PAYLOADS + BAD_HEADS:
            with self.subTest(why):
                damaged = journal_of(messages_record(SELL, BUY), bad)[:-1]
                if bad[:1] == b"\x01" and (bad, why) in BAD_PAYLOADS:
                    damaged += b"\x00"
                self.assertEqual(self.copied(damaged, "cut", "--messages", 2), journal_of(messages_record(SELL, BUY)))
                self.assertEqual(self.copied(damaged, "cut", "--messages", 1), journal_of(messages_record(SELL)))
                error = f"place 376: only 2 messages are before a bad record: {why}\n"
                none = self.folder / "none"
                self.assertEqual(self.over(damaged, "cut", "--messages", 3, "--output", none), (1, b"", error))

    def test_cut_an_unfinished_creation(self):
        self.assertEqual(self.copied(b"\x00", "cut", "--messages", 0), b"\x00")
        self.assertEqual(self.over(b"\x00", "cut", "--messages", 1, "--output", self.folder / "none")[0], 1)

    def test_drop_each_image(self):
        for number, record in enumerate(RECORDS):
            if record[1:2] in (b"C", b"D"):
                with self.subTest(number):
                    copy = self.copied(FULL, "drop", "--gate", GATES[number])
                    self.assertEqual(copy, journal_of(*RECORDS[:number], *RECORDS[number + 1 :]))
                    self.assertEqual(call("journal", "messages", self.copy)[1], b"".join(KEPT))
                    self.assertEqual(call("journal", "check", self.copy)[1], b"4 messages, 6 records, 3 images\n")

    def test_a_bad_image_can_be_dropped(self):
        for image in (image_record(IMAGE[:-1]), image_record(OLD_IMAGE + b"\x02"), old_image_record(OLD_IMAGE[:-1])):
            damaged = journal_of(messages_record(SELL, BUY), image, messages_record(CANCEL))
            copy = self.copied(damaged, "drop", "--gate", 376)
            self.assertEqual(copy, journal_of(messages_record(SELL, BUY), messages_record(CANCEL)))

    def test_drop_refuses_all_else(self):
        none = self.folder / "none"
        for data, gate, why in [
            (FULL, GATES[1], "the record is of messages, and only an image can be taken out"),
            (FULL, GATES[6], "the record is of messages, and only an image can be taken out"),
            (FULL, GATES[7], "no record has its gate there"),
            (FULL, GATES[2] + 1, "no record has its gate there"),
            (FULL, 0, "no record has its gate there"),
            (b"\x00", 0, "the creation of the journal is unfinished, and no record is kept"),
        ]:
            with self.subTest(gate):
                error = f"place {gate}: {why}\n"
                self.assertEqual(self.over(data, "drop", "--gate", gate, "--output", none), (1, b"", error))
        damaged = FULL[:-1] + b"\x01X\x00\x00\x00\x00\x00"
        error = f"place {GATES[7]}: the kind of the record is the byte 88, and none of M, C, D and P\n"
        self.assertEqual(self.over(damaged, "drop", "--gate", GATES[2], "--output", none), (1, b"", error))
        self.assertFalse(none.exists())

    def test_outputs_that_are_there(self):
        self.copy.write_bytes(b"old")
        words = ("cut", "--messages", 1, "--output", self.copy)
        self.assertEqual(self.over(FULL, *words), (1, b"", f"{self.copy} is there already\n"))
        self.assertEqual(self.copy.read_bytes(), b"old")
        self.assertEqual(self.over(FULL, *words, "--force"), (0, b"", ""))
        self.assertEqual(self.copy.read_bytes(), journal_of(RECORDS[0], messages_record(SELL)))
        self.copy.unlink()
        os.link(self.path, self.copy)
        for output in (self.path, self.copy, self.folder / "." / "journal.gxj"):
            for force in ([], ["--force"]):
                for words in (("cut", self.path, "--messages", 1), ("drop", self.path, "--gate", GATES[2])):
                    status, _, error = call("journal", *words, "--output", output, *force)
                    self.assertEqual((status, error), (1, f"{output} is the journal itself, which is never written\n"))
        self.assertEqual(self.path.read_bytes(), FULL)


class Damaged(InFolder):
    def refused(self, data, place, why, *words):
        self.assertEqual(self.over(data, "check", *words), (1, b"", f"place {place}: {why}\n"))

    def test_heads(self):
        front = b"\x01GXJOURN2" + len(LEAST).to_bytes(4, "big") + LEAST
        for bad, why in BAD_HEADS + LONG_HEADS:
            with self.subTest(why):
                self.refused(front + bad, len(front), why)
                self.refused(front + messages_record(SELL) + bad, len(front) + 117, why)

    def test_the_limit(self):
        front = b"\x01GXJOURN2" + len(LEAST).to_bytes(4, "big") + LEAST
        filler = messages_record(SELL) * ((131_072 - len(front) - 1) // 117 - 1)
        left = 131_072 - 1 - len(front) - len(filler) - 6
        body = soh("35=0|58=")
        length = next(n for n in range(len(body) + 2, 300) if len(fix42.frame_of(bytes(n))) == left)
        last = messages_record(fix42.frame_of(body + b"x" * (length - len(body) - 1) + b"\x01"))
        whole = front + filler + last + b"\x00"
        self.assertEqual(len(whole), 131_072)
        self.assertEqual(self.over(whole, "check")[0], 0)
        longer = messages_record(fix42.frame_of(body + b"x" * (length - len(body)) + b"\x01"))
        why = f"a record of {left + 1} bytes goes past journal_limit, 131,072"
        self.refused(front + filler + longer + b"\x00", len(front) + len(filler), why)

    def test_payloads(self):
        for bad, why in BAD_PAYLOADS:
            with self.subTest(why):
                damaged = journal_of(messages_record(SELL), bad, messages_record(BUY))
                self.refused(damaged, 266, why)
                status, out, error = self.over(damaged, "list")
                self.assertEqual((status, error), (1, f"place 266: {why}\n"))
                self.assertIn(f", bad: {why}\n", out.decode())
                self.assertIn(" M 1 message, 110 bytes\n", out.decode())
                self.assertEqual(self.over(damaged, "count"), (1, b"1\n", f"place 266: {why}\n"))
                self.assertEqual(self.over(damaged, "messages"), (1, SELL, f"place 266: {why}\n"))
                self.assertEqual(self.over(damaged, "messages", "--last", 1), (0, SELL, ""))

    def test_a_bad_record_before_a_later_image(self):
        for image in (image_record(IMAGE), old_image_record(OLD_IMAGE)):
            damaged = journal_of(messages_record(SELL + BUY[:50]), image)
            self.refused(damaged, 149, SHORT.decode() + GO_ON)
            self.refused(first_version(damaged), 149, SHORT.decode() + GO_ON)

    def test_a_bad_record_before_a_bad_head(self):
        damaged = journal_of(messages_record(SELL + BUY[:50]), image_record(IMAGE))[:-1] + b"\x01X\x00\x00\x00\x00\x00"
        gate = len(damaged) - 7
        why = "the kind of the record is the byte 88, and none of M, C, D and P"
        self.refused(damaged, gate, why)
        old = "the kind of the record is the byte 88, and none of M, C and D"
        self.refused(first_version(damaged), gate, old)
        for data in (damaged, first_version(damaged)):
            self.assertEqual(self.over(data, "count"), (1, b"0\n", f"place 149: {SHORT.decode()}\n"))

    def test_a_bad_record_before_a_bad_one_behind_an_image(self):
        damaged = journal_of(messages_record(SELL + BUY[:50]), image_record(IMAGE), messages_record(SELL + BUY[:50]))
        gate = 149 + 167 + 674
        why = f"{SHORT.decode()}; run, drill, checkpoint and book end at place {gate}: {SHORT.decode()}"
        self.refused(damaged, 149, why)

    def test_more_live_orders_than_max_orders(self):
        text = TEXT.replace(b"\n\n", b"\nmax_orders = 2\n\n", 1)
        front = b"\x01GXJOURN2" + len(text).to_bytes(4, "big") + text
        for resting, waiting in ((2, 0), (1, 1), (3, 0), (1, 2)):
            image = old_image_of([ROW] * resting, [ROW] * waiting)
            for record in (image_record(image + MARKET_OPEN), old_image_record(image)):
                data = front + record + b"\x00"
                if resting + waiting == 2:
                    self.assertEqual(self.over(data, "check"), (0, b"0 messages, 1 records, 1 images\n", ""))
                else:
                    self.refused(data, len(front), "its image has 3 live orders, and max_orders is 2")

    def test_lives_in_a_closed_market(self):
        day, kept, killed = row_of(3, 0), row_of(4, 1), row_of(5, 4)
        for resting, waiting, bad in [
            ([], [], None),
            ([kept, kept], [kept], None),
            ([kept, day], [kept], "order 3 has the life 0"),
            ([kept], [kept, day], "order 3 has the life 0"),
            ([day], [killed], "order 3 has the life 0"),
            ([], [killed], "order 5 has the life 4"),
        ]:
            with self.subTest(bad):
                image = old_image_of(resting, waiting)
                for record in (image_record(image + MARKET_OPEN), old_image_record(image)):
                    self.assertEqual(self.over(journal_of(record), "check")[0], 0)
                closed = journal_of(image_record(image + MARKET_CLOSED))
                if bad is None:
                    self.assertEqual(self.over(closed, "check"), (0, b"0 messages, 1 records, 1 images\n", ""))
                else:
                    self.refused(closed, 149, f"its image is of a closed market, and {bad}, and not 1")
                for byte in (2, 255):
                    why = f"the last byte of its image is {byte}, and neither 0 nor 1"
                    self.refused(journal_of(image_record(image + bytes([byte]))), 149, why)

    def test_the_count_of_messages(self):
        most = (1 << 24) - 2
        for record in (image_record(image_after(most)), old_image_record(old_image_after(most))):
            data = journal_of(record, messages_record(SELL))
            self.refused(data, 149, "the image counts 16,777,214 messages, and 0 are before it")
            data = journal_of(record, messages_record(SELL, BUY))
            why = "16,777,216 messages are counted with it, and not fewer than 16,777,216"
            self.refused(data, 149 + len(record), why)

    def test_an_image_of_other_messages(self):
        for record, what in ((image_record(IMAGE), b"D"), (old_image_record(OLD_IMAGE), b"C")):
            data = journal_of(messages_record(SELL), record)
            self.refused(data, 266, "the image counts 2 messages, and 1 are before it")
            line = b"266 %b image after 1 message, %d bytes, but it counts 2 messages\n" % (what, len(record) - 6)
            self.assertIn(line, self.over(data, "list")[1])

    def test_what_is_no_journal(self):
        for data, place in [
            (b"\x01G", 2),
            (b"\x01X" + EMPTY[2:], 1),
            (b"\x01GXJOURN3" + EMPTY[9:], 8),
            (b"\x02" + EMPTY[1:-1] + b"\x01", 0),
            (b"\x02" + EMPTY[1:-1], 0),
            (TEXT, 0),
            (bytes(65_551), 0),
        ]:
            with self.subTest(data[:20]):
                self.refused(data, place, "it is no journal")
                for command in ("list", "count", "messages", "product"):
                    self.assertEqual(self.over(data, command), (1, b"", f"place {place}: it is no journal\n"))

    def test_headers(self):
        why = "the length of the product text in the header cannot be"
        for data in (EMPTY[:9], EMPTY[:12], EMPTY[:13], EMPTY[:-1], EMPTY[:9] + b"\x00\x01\x00\x01" + bytes(66_000)):
            with self.subTest(len(data)):
                self.refused(data, 9, why)
                self.refused(first_version(data), 9, why)

    def test_journals_of_the_first_version(self):
        old = first_version(journal_of(messages_record(SELL, BUY), image_record(IMAGE)))
        self.assertEqual(self.over(old, "check"), (0, b"2 messages, 2 records, 1 images\n", ""))
        self.assertEqual(self.over(old, "messages"), (0, STREAM, ""))
        self.assertTrue(self.over(old, "list")[1].startswith(b"header: version 1, product text of 136 bytes, "))

    def test_unfinished_creations(self):
        sealed = b"\x02" + EMPTY[1:]
        blank = [b"", b"\x07", b"\x00" * 65_550, b"\x00" + EMPTY[1:]]
        for data, kind in [*((data, "blank") for data in blank), (sealed, "sealed")]:
            with self.subTest(len(data)):
                self.assertEqual(self.over(data, "check"), (0, b"0 messages, 0 records, 0 images\n", ""))
                self.assertEqual(self.over(data, "count"), (0, b"0\n", ""))
                self.assertEqual(self.over(data, "messages"), (0, b"", ""))
                status, out, error = self.over(data, "list")
                self.assertEqual((status, error), (0, ""))
                self.assertTrue(out.decode().endswith(f"an unfinished creation ({kind}), which keeps no messages\n"))
        self.assertEqual(self.over(sealed, "product"), (0, TEXT, ""))
        self.assertEqual(self.over(b"\x00", "product")[0], 1)

    def test_other_products(self):
        other = self.folder / "product.toml"
        for text, place in [(TEXT + b"\n", 149), (TEXT[:-1], 148), (TEXT.replace(b"GX", b"GY"), 26), (b"", 13)]:
            other.write_bytes(text)
            for data in (FULL, b"\x02" + EMPTY[1:]):
                self.refused(data, place, f"the product text is not that of {other}", "--product", other)
            self.assertEqual(self.over(b"\x00", "check", "--product", other)[0], 0)

    def test_a_product_with_a_lower_limit(self):
        lower = self.folder / "product.toml"
        lower.write_bytes(LEAST)
        records = [messages_record(*[SELL] * 60) for _ in range(40)]
        data = journal_of(*records)
        ends = [149 + sum(map(len, records[: number + 1])) + 1 for number in range(len(records))]
        gate = 149 + sum(map(len, records[: next(number for number, end in enumerate(ends) if end > 131_072)]))
        why = (f"no damage: journal_limit of {lower} is 131,072, and that of the journal's last text is 16,777,216; put the file of"
               " that text back")
        self.refused(data, gate, why, "--product", lower)
        place = 13 + TEXT.index(b"\n\n") + 1
        self.refused(journal_of(*records[:10]), place, f"the product text is not that of {lower}", "--product", lower)

    def test_a_bad_journal_that_somebody_writes(self):
        self.path.write_bytes(FULL[:-5])
        why = call("journal", "check", self.path)[2].rstrip()
        with open(self.path, "rb") as file:
            fcntl.flock(file, fcntl.LOCK_EX)
            status, _, told = call("journal", "check", self.path)
        self.assertEqual(status, 1)
        self.assertEqual(told, f"{why}; another process has the lock of {self.path} and may be writing it, so try again\n")

    def test_a_text_that_gives_no_product(self):
        data = FULL.replace(b"exchange", b"exchangf")
        self.refused(data, 13, "the product text gives no product: exchange is missing")
        self.assertEqual(self.over(data, "count"), (0, b"4\n", ""))


def count_one_by_one(payload):
    """What `count_of` says, by frames that are taken one by one."""
    try:
        return len(fix42.whole_frames(payload)), None
    except fix42.Stopped as stopped:
        return stopped.count, f"its payload is not whole frames: at its byte {stopped.offset} {stopped.why}"


class Counts(InFolder):
    """Messages are counted a record at a time. So this tries what might be counted in another way than one by one."""

    def held(self, payload):
        self.assertEqual(gxj.count_of(payload), count_one_by_one(payload))

    def test_each_length_of_a_frame(self):
        for length in range(1, fix42.LONGEST_BODY + 1):
            for fill in (b"\x00", b"x", b"\xff"):
                frame = fix42.frame_of(fill * (length - 1) + b"\x01")
                self.assertTrue(fix42.are_frames([frame[len(fix42.BEGIN) :]]))
                self.assertEqual(gxj.count_of(frame), (1, None))
        self.held(fix42.frame_of(b"x" * fix42.LONGEST_BODY + b"\x01"))
        self.held(b"8=FIX.4.2\x019=0\x0110=000\x01")
        self.held(fix42.frame_of(b"x" * 20_000 + b"\x01"))

    def test_each_checksum(self):
        fronts = [fix42.BEGIN + b"4\x0158=" + bytes([byte]) + b"\x01" for byte in range(256)]
        fronts += [fix42.BEGIN + b"5\x0158=" + bytes([byte]) + b"\x01" for byte in range(256)]
        for front in fronts:
            for number in range(256):
                self.held(front + b"10=%03d\x01" % number)
        for wrong in (b"256", b"999", b"00", b"0000", b"+12", b" 12", b"1_2", b"abc"):
            self.held(SELL[:-4] + wrong + b"\x01")

    def test_each_changed_byte(self):
        payload = SELL + BUY + CANCEL
        for place in range(len(payload)):
            self.held(payload[:place])
            self.held(payload[place:])
            self.held(payload[:place] + payload[place + 1 :])
            for byte in (0, 1, 48, 49, 56, 61, 255):
                self.held(payload[:place] + bytes([byte]) + payload[place + 1 :])
                self.held(payload[:place] + bytes([byte]) + payload[place:])

    def test_begins_of_frames_in_fields(self):
        inside = [fix42.BEGIN, fix42.BEGIN + b"5", b"58=" + fix42.BEGIN + b"7\x0135=D", SELL[:-1], SELL + SELL[:-1], b"x" + fix42.BEGIN * 3]
        for body in inside:
            frame = fix42.frame_of(body + b"\x01")
            self.assertEqual(gxj.count_of(SELL + frame + BUY), (3, None))
            self.held(SELL + frame[:-2] + BUY)
            self.held(frame + b"x")

    def test_lengths_with_leading_zeros(self):
        body = fix42.body_of(SELL)
        for digits in range(1, 9):
            front = fix42.BEGIN + b"%0*d" % (digits, len(body)) + b"\x01" + body
            frame = front + b"10=" + fix42.check_sum(front) + b"\x01"
            self.held(frame)
            self.held(BUY + frame + BUY)
        self.assertEqual(gxj.count_of(BUY + frame)[0], 1)

    def test_count_of_each_cut_and_each_changed_byte(self):
        amended = journal_of(messages_record(SELL), amendment_record(MORE, image_after(1)), messages_record(BUY, CANCEL))
        for data in (FULL, amended, first_version(journal_of(*RECORDS))):
            for place in range(len(data)):
                self.counted(data[:place])
                self.counted(data[:place] + bytes([data[place] ^ 1]) + data[place + 1 :])

    def counted(self, data):
        """Holds the count, and what is bad, to those of the records."""
        try:
            journal = gxj.Journal(data)
        except gxj.Bad as bad:
            with self.assertRaises(gxj.Bad) as told:
                gxj.totals_of(data)
            self.assertEqual((told.exception.place, told.exception.why), (bad.place, bad.why))
            return
        totals, wanted = gxj.totals_of(data), journal.first_not_good()
        bad, good = totals.bad, list(journal.good_records())
        self.assertEqual((totals.messages, totals.records), (journal.count(), len(good)))
        last = next((record.gate for record in reversed(good) if record.count), None)
        self.assertEqual(totals.last and totals.last.gate, last)
        self.assertEqual(bad and (bad.place, bad.why), wanted and (wanted.place, wanted.why))

    def test_a_mapped_file(self):
        records = [messages_record(*[SELL] * 70), image_record(image_after(70))] * 2
        wrong = messages_record(*[SELL] * 69, SELL[:-2] + b"9\x01")
        data = journal_of(messages_record(*[SELL] * 70), *records, messages_record(*[BUY] * 60), wrong)
        with mock.patch.object(gxj, "LET_GO", 1 << 12):
            gate = len(data) - len(wrong) - 1
            status, out, error = self.over(data, "count")
            self.assertEqual((status, out), (1, b"270\n"))
            self.assertTrue(error.startswith(f"place {gate}: its payload is not whole frames: at its byte {69 * len(SELL)} "), error)
            self.assertEqual(self.over(data[: gate] + b"\x00", "count"), (0, b"270\n", ""))

    def test_what_cannot_be_mapped(self):
        pipe = self.folder / "pipe"
        os.mkfifo(pipe)
        writer = threading.Thread(target=pipe.write_bytes, args=[FULL])
        writer.start()
        self.assertEqual(call("journal", "count", pipe), (0, b"4\n", ""))
        writer.join()
        self.assertEqual(self.over(b"", "count"), (0, b"0\n", ""))


class Classes(unittest.TestCase):
    def test_places_of_records(self):
        journal = gxj.Journal(FULL)
        self.assertEqual([record.gate for record in journal.records] + [journal.gate], GATES)
        self.assertEqual([record.before for record in journal.records], [0, 0, 2, 2, 3, 3, 3])
        self.assertIsNone(journal.first_bad())


if __name__ == "__main__":
    unittest.main()

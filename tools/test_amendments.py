"""Tests of `journal` over journals with amendments: their bytes, the last text, products that may follow or not, and bad places."""

import unittest

import fix42
import gxj
from made_journals import (
    BUY,
    CANCEL,
    GO_ON,
    IMAGE,
    KEPT,
    LEAST,
    MARKET_CLOSED,
    MORE,
    MOST,
    NO_PRODUCT,
    OLD_IMAGE,
    SELL,
    SHORT,
    STREAM,
    TEXT,
    TWO,
    WIDER,
    InFolder,
    amendment_of,
    amendment_record,
    first_version,
    image_after,
    image_of_two,
    image_record,
    journal_of,
    messages_record,
    old_image_after,
    old_image_record,
)

# Messages, an amendment, messages, an image under its product, a second amendment, an image under that, and a message.
AMENDED = [
    messages_record(SELL, BUY),
    amendment_record(MORE, image_after(2)),
    messages_record(CANCEL),
    image_record(image_after(3)),
    amendment_record(WIDER, image_after(3)),
    old_image_record(old_image_after(3)),
    messages_record(CANCEL),
]
AMENDED_GATES = [149 + sum(map(len, AMENDED[:number])) for number in range(len(AMENDED) + 1)]
ONE_AMENDMENT = journal_of(*AMENDED[:4])
TWO_AMENDMENTS = journal_of(*AMENDED)
AT_FIRST, AT_SECOND = AMENDED_GATES[1], AMENDED_GATES[4]

# the text of these is not whole
BAD_TEXTS = [
    (amendment_of(b""), "its payload has 0 bytes, and the length of a product text is not there"),
    (amendment_of(b"\x00\x00\x00"), "its payload has 3 bytes, and the length of a product text is not there"),
    (amendment_of(b"\x00\x00\x00\x01"), "its product text of 1 bytes goes past its payload of 4"),
    (amendment_of(b"\x00\x00\x00\x88" + TEXT[:-1]), "its product text of 136 bytes goes past its payload of 139"),
    (amendment_of(b"\x00\x01\x00\x01" + bytes(65_537)), "its product text has 65,537 bytes, and not at most 65,536"),
    (amendment_of(b"\x01\x00\x00\x00" + TEXT + IMAGE), "its product text has 16,777,216 bytes, and not at most 65,536"),
]
# the text of these gives no product
NO_PRODUCTS = [
    (amendment_of(bytes(4)), "its product text gives no product: exchange is missing"),
    (amendment_record(NO_PRODUCT, IMAGE), "its product text gives no product: exchange is missing"),
    (amendment_record(TEXT + b"\xff", IMAGE), "its product text gives no product: it is no TOML: "),
]
# the image of these is bad under their product
BAD_IMAGES = [
    (amendment_record(MORE, b""), "its image has 0 bytes, and the count of resting orders is not there"),
    (amendment_record(MORE, OLD_IMAGE), "its image has 667 bytes, and its counts say 668"),
    (amendment_record(MORE, IMAGE + b"\x00"), "its image has 669 bytes, and its counts say 668"),
    (amendment_record(MORE, IMAGE[:-2]), "its image has 666 bytes, and the count of waiting stops is not there"),
    (amendment_record(MORE, OLD_IMAGE + b"\x02"), "the last byte of its image is 2, and neither 0 nor 1"),
    (amendment_record(MORE, OLD_IMAGE + MARKET_CLOSED), "its image is of a closed market, and order 1 has the life 0, and not 1"),
    (amendment_record(MORE, image_after(1 << 24)), "its image counts 16,777,216 messages, and not fewer than 16,777,216"),
    (amendment_record(MORE, image_of_two(2)), "its image has 611 bytes, and its counts say 586"),
]


def changed(old, new):
    """The usual product with another text in the place of one."""
    assert TEXT.count(old) == 1
    return TEXT.replace(old, new)


INSTRUMENT_DIFFERS = "an instrument is there or is not, or has another name, decimals or tick"
# products that may not follow the usual one, each with an image of its own
NOT_FOLLOWING = [
    (changed(b'"GX"', b'"GY"'), image_after(2), "exchange is another one"),
    (changed(b', "DDD"', b""), image_after(2), "firms does not begin with those before"),
    (changed(b'"AAA", "BBB"', b'"BBB", "AAA"'), image_after(2), "firms does not begin with those before"),
    (changed(b'"AAA", ', b'"ZZZ", "AAA", '), image_after(2), "firms does not begin with those before"),
    (changed(b'"DDD"', b'"DDE", "DDD"'), image_after(2), "firms does not begin with those before"),
    (changed(b"\n\n", b"\nmax_orders = 9999\n\n"), image_after(2), "max_orders is 9,999, and was 10,000"),
    (changed(b"\n\n", b"\nmax_orders = 10001\n\n"), image_after(2), "max_orders is 10,001, and was 10,000"),
    (LEAST, image_after(2), "journal_limit is 131,072, and was 16,777,216"),
    (changed(b"\n\n", b"\njournal_limit = 16777215\n\n"), image_after(2), "journal_limit is 16,777,215, and was 16,777,216"),
    (TWO, image_of_two(2), INSTRUMENT_DIFFERS),
    (changed(b"ESZ4", b"ESZ5"), image_after(2), INSTRUMENT_DIFFERS),
    (changed(b"decimals = 2", b"decimals = 3"), image_after(2), INSTRUMENT_DIFFERS),
    (changed(b"tick = 1", b"tick = 2"), image_after(2), INSTRUMENT_DIFFERS),
]
# products that may
FOLLOWING = [
    TEXT,
    MORE,
    MOST,
    WIDER,
    TEXT + b"# the same",
    changed(b"protection = 2", b"protection = 3"),
    changed(b'algorithm = "F"', b'algorithm = "C"'),
    changed(b"\n\n", b"\njournal_limit = 16777216\nmax_orders = 10000\n\n"),
    changed(b'exchange = "GX"\n', b"").replace(b"firms", b'exchange = "GX"\nfirms'),
]


def places(data):
    """Where `replay` and `run` refuse a journal, or nothing for each that does not."""
    journal = gxj.Journal(data)
    return tuple(bad and bad.place for bad in (journal.first_bad(), journal.bad_for_runs()))


class Amended(InFolder):
    def test_bytes(self):
        record = amendment_record(LEAST, IMAGE)
        self.assertEqual((len(LEAST), len(record)), (159, 837))
        self.assertEqual(record[:10], bytes.fromhex("01 50 00 00 03 3f 00 00 00 9f"))
        journal = gxj.Journal(journal_of(messages_record(SELL, BUY), record))
        self.assertEqual(journal.last_text.at, 376 + 10)
        self.assertEqual(journal.last_text.data, LEAST)
        self.assertEqual(journal.limit, 131_072)
        self.assertEqual(journal.records[1].end, 376 + 837)
        self.assertIsNone(journal.miscounted())

    def test_list(self):
        listed = (
            "header: version 2, product text of 136 bytes, journal_limit 16777216\n"
            "149 M 2 messages, 221 bytes\n"
            "376 P amendment after 2 messages, 733 bytes, product text of 143 bytes, journal_limit 16777216\n"
            f"{AMENDED_GATES[2]} M 1 message, {len(CANCEL)} bytes\n"
            f"{AMENDED_GATES[3]} D image after 3 messages, 586 bytes\n"
        )
        end = f"{AT_SECOND} last gate\na journal at rest, which keeps 3 messages\n"
        self.assertEqual(self.over(ONE_AMENDMENT, "list"), (0, (listed + end).encode(), ""))
        listed += (
            f"{AT_SECOND} P amendment after 3 messages, 759 bytes, product text of 169 bytes, journal_limit 268435456\n"
            f"{AMENDED_GATES[5]} C image after 3 messages, 585 bytes\n"
            f"{AMENDED_GATES[6]} M 1 message, {len(CANCEL)} bytes\n"
            f"{AMENDED_GATES[7]} last gate\n"
            "a journal at rest, which keeps 4 messages\n"
        )
        self.assertEqual(self.over(TWO_AMENDMENTS, "list"), (0, listed.encode(), ""))

    def test_messages_and_count(self):
        for data, kept in ((ONE_AMENDMENT, KEPT[:3]), (TWO_AMENDMENTS, KEPT)):
            self.assertEqual(self.over(data, "count"), (0, b"%d\n" % len(kept), ""))
            self.assertEqual(self.over(data, "messages"), (0, b"".join(kept), ""))

    def test_the_last_text(self):
        given = self.folder / "given.toml"
        for data, text, gate, checked in [
            (ONE_AMENDMENT, MORE, AT_FIRST, b"3 messages, 4 records, 2 images\n"),
            (TWO_AMENDMENTS, WIDER, AT_SECOND, b"4 messages, 7 records, 4 images\n"),
        ]:
            self.assertEqual(self.over(data, "product"), (0, text, ""))
            given.write_bytes(text)
            self.assertEqual(self.over(data, "check", "--product", given), (0, checked, ""))
            self.assertEqual(self.over(data, "check"), (0, checked, ""))
            for other in (TEXT, MOST, text[:-1], text + b"\n"):
                given.write_bytes(other)
                error = f"place {gate + 10 + fix42.first_difference(text, other)}: the product text is not that of {given}\n"
                self.assertEqual(self.over(data, "check", "--product", given), (1, b"", error))
            given.write_bytes(TEXT)
            head = data[:-1] + b"\x01X\x00\x00\x00\x00\x00"
            error = f"place {len(data) - 1}: the kind of the record is the byte 88, and none of M, C, D and P\n"
            self.assertEqual(self.over(head, "check", "--product", given), (1, b"", error))
            self.assertEqual(self.over(head, "product"), (1, text, error))

    def test_each_closed_gate(self):
        texts = [TEXT, TEXT, MORE, MORE, MORE, WIDER, WIDER, WIDER]
        for number, gate in enumerate(AMENDED_GATES):
            for closed in (b"\x00", b"\x02", b"\xff"):
                with self.subTest(gate=gate):
                    journal = gxj.Journal(TWO_AMENDMENTS[:gate] + closed + TWO_AMENDMENTS[gate + 1 :])
                    self.assertEqual(len(journal.records), number)
                    self.assertEqual(journal.gate, gate)
                    self.assertEqual(journal.last_text.data, texts[number])
                    self.assertEqual(places(journal.data), (None, None))

    def test_each_end(self):
        for end in range(150, len(TWO_AMENDMENTS)):
            gate = max(gate for gate in AMENDED_GATES if gate < end)
            self.assertEqual(places(TWO_AMENDMENTS[:end]), (gate, gate))

    def test_each_other_byte_of_a_head(self):
        """Of the kind, and of the lengths of the payload and of the text: with any other byte the amendment is bad."""
        data = journal_of(messages_record(SELL, BUY), amendment_record(MOST, image_after(2, MARKET_CLOSED)))
        self.assertEqual(places(data), (None, None))
        for place in range(377, 386):
            for byte in range(256):
                if byte != data[place]:
                    self.assertEqual(places(data[:place] + bytes([byte]) + data[place + 1 :]), (376, 376))

    def test_faults_of_the_last(self):
        for bad, why in BAD_TEXTS + NO_PRODUCTS + BAD_IMAGES:
            for front in ([messages_record(SELL, BUY)], AMENDED[:4]):
                with self.subTest(why):
                    data = journal_of(*front, bad)
                    gate = len(data) - len(bad) - 1
                    self.assertEqual(places(data), (gate, gate))
                    self.assertTrue(gxj.Journal(data).records[-1].fault.startswith(why))
                    self.assertEqual(self.over(data, "list")[0], 1)
                    self.assertIn(f", bad: {why}", self.over(data, "list")[1].decode())
                    status, out, error = self.over(data, "count")
                    self.assertEqual((status, out), (1, b"2\n" if len(front) == 1 else b"3\n"))
                    self.assertTrue(error.startswith(f"place {gate}: {why}"))
                    # after an image nobody looks at the image of the amendment, and the text is looked for all the same
                    later = journal_of(*front, bad, image_record(image_after(2)))
                    self.assertEqual(places(later)[0], gate)
                    if (bad, why) in BAD_TEXTS:
                        self.assertEqual(places(later)[1], gate)
                        self.assertEqual(self.over(later, "product"), (1, b"", f"place {gate}: {why}\n"))
                        self.assertEqual(self.over(later, "check"), (1, b"", f"place {gate}: {why}\n"))

    def test_a_bad_head_comes_before_a_bad_text(self):
        for bad, _ in BAD_TEXTS:
            data = journal_of(messages_record(SELL, BUY), bad)[:-1] + b"\x01X\x00\x00\x00\x00\x00"
            gate = 376 + len(bad)
            self.assertEqual(places(data), (gate, gate))
            why = f"place {gate}: the kind of the record is the byte 88, and none of M, C, D and P\n"
            self.assertEqual(self.over(data, "product"), (1, b"", why))

    def test_the_longest_text(self):
        longest = TEXT + b"#" * (65_536 - len(TEXT))
        data = journal_of(messages_record(SELL, BUY), amendment_record(longest, image_after(2)))
        self.assertEqual(places(data), (None, None))
        self.assertEqual(self.over(data, "product"), (0, longest, ""))

    def test_no_product(self):
        data = journal_of(messages_record(SELL, BUY), amendment_record(NO_PRODUCT, IMAGE))
        self.assertEqual(self.over(data, "check"), (1, b"", "place 386: the product text gives no product: exchange is missing\n"))
        self.assertEqual(self.over(data, "product"), (0, NO_PRODUCT, ""))
        later = journal_of(messages_record(SELL, BUY), amendment_record(NO_PRODUCT, IMAGE), image_record(IMAGE))
        self.assertEqual(self.over(later, "list")[2], "place 376: its product text gives no product: exchange is missing\n")

    def test_no_product_in_the_header(self):
        front = b"\x01GXJOURN2" + len(NO_PRODUCT).to_bytes(4, "big") + NO_PRODUCT
        good, bad = messages_record(SELL, BUY), messages_record(SELL + BUY[:50])
        amendment, why = amendment_record(TEXT, IMAGE), "the product text in the header gives no product: exchange is missing"
        data = front + good + amendment + b"\x00"
        self.assertEqual(places(data), (9, None))
        for command in ("check", "list"):
            status, _, error = self.over(data, command)
            self.assertEqual((status, error), (1, f"place 9: {why}{GO_ON}\n"))
        self.assertEqual(self.over(data, "count"), (0, b"2\n", ""))
        self.assertEqual(self.over(data, "product"), (0, TEXT, ""))
        # it comes before the other texts and before bad records
        self.assertEqual(places(front + bad + amendment + b"\x00"), (9, None))
        self.assertEqual(places(front + good + amendment_record(NO_PRODUCT, IMAGE) + amendment + b"\x00"), (9, None))
        self.assertEqual(places(front + good + amendment_record(TEXT, b"") + amendment + b"\x00"), (9, None))
        # and after the heads and the length of the last text
        self.assertEqual(places(front + good + amendment + b"\x01X\x00\x00\x00\x00\x00")[0], 376 + len(amendment))
        self.assertEqual(places(front + good + amendment + BAD_TEXTS[0][0] + b"\x00")[0], 376 + len(amendment))
        # without an amendment it is the text that is compared
        for alone in (front + b"\x00", front + good + b"\x00"):
            self.assertEqual(self.over(alone, "check"), (1, b"", "place 13: the product text gives no product: exchange is missing\n"))

    def test_products_that_may_follow(self):
        for text in FOLLOWING:
            with self.subTest(text):
                data = journal_of(messages_record(SELL, BUY), amendment_record(text, image_after(2)), messages_record(CANCEL))
                self.assertEqual(places(data), (None, None))
                self.assertEqual(self.over(data, "check"), (0, b"3 messages, 3 records, 1 images\n", ""))

    def test_products_that_may_not_follow(self):
        for text, image, fault in NOT_FOLLOWING:
            with self.subTest(fault, text=text):
                bad, why = amendment_record(text, image), f"its product may not follow the one before: {fault}"
                data = journal_of(messages_record(SELL, BUY), bad, messages_record(CANCEL))
                self.assertEqual(places(data), (376, None))
                self.assertEqual(self.over(data, "check"), (1, b"", f"place 376: {why}{GO_ON}\n"))
                self.assertIn(f", bad: {why}\n", self.over(data, "list")[1].decode())
                self.assertEqual(self.over(data, "count"), (1, b"2\n", f"place 376: {why}\n"))
                self.assertEqual(self.over(data, "messages"), (1, STREAM, f"place 376: {why}\n"))
                self.assertEqual(self.copied(data, "cut", "--messages", 2), journal_of(messages_record(SELL, BUY)))
                # with the first product again as the last one
                again = journal_of(messages_record(SELL, BUY), bad, amendment_record(TEXT, image_after(2)))
                self.assertEqual(places(again), (376, None))
                # it comes before each bad record, and its own image is not looked at
                early = journal_of(messages_record(SELL + BUY[:50]), bad)
                self.assertEqual(places(early), (149 + 167, None))
                bare = journal_of(messages_record(SELL, BUY), amendment_record(text, b""))
                self.assertEqual(places(bare), (376, 376))

    def test_each_product_follows_the_one_before(self):
        other = TEXT.replace(b'"DDD"]', b'"DDD", "FFF"]')
        one, two = amendment_record(MORE, image_after(2)), amendment_record(other, image_after(2))
        for first, second in ((one, two), (two, one)):
            data = journal_of(messages_record(SELL, BUY), first, second)
            self.assertEqual(places(data), (376 + len(first), None))
        # of two bad texts the first is told, whatever is wrong with it
        for first, _ in NO_PRODUCTS:
            data = journal_of(messages_record(SELL, BUY), first, amendment_record(LEAST, image_after(2)))
            self.assertEqual(places(data), (376, None))
            data = journal_of(messages_record(SELL, BUY), amendment_record(LEAST, image_after(2)), first)
            self.assertEqual(places(data)[0], 376)

    def test_a_bad_text_comes_before_a_bad_record(self):
        bad, last = messages_record(SELL + BUY[:50]), amendment_record(MORE, image_after(2))
        for text, why in BAD_TEXTS + NO_PRODUCTS:
            data = journal_of(bad, text, last)
            self.assertEqual(places(data), (149 + 167, None))
            self.assertEqual(self.over(data, "count")[:2], (1, b"0\n"))
            self.assertTrue(self.over(data, "check")[2].startswith(f"place {149 + 167}: {why}"))
        for image, _ in BAD_IMAGES:
            self.assertEqual(places(journal_of(bad, image, last)), (149, None))
        # a text that is not whole in the last amendment comes before those of earlier ones
        for text, _ in BAD_TEXTS:
            data = journal_of(messages_record(SELL, BUY), NO_PRODUCTS[0][0], text)
            self.assertEqual(places(data), (376 + len(NO_PRODUCTS[0][0]),) * 2)

    def test_faults_of_an_earlier_one(self):
        for bad, why in BAD_TEXTS + NO_PRODUCTS + BAD_IMAGES:
            with self.subTest(why):
                last = amendment_record(MORE, image_after(2))
                data = journal_of(messages_record(SELL, BUY), bad, last, messages_record(CANCEL))
                self.assertEqual(places(data), (376, None))
                status, out, error = self.over(data, "check")
                self.assertEqual((status, out), (1, b""))
                self.assertTrue(error.startswith(f"place 376: {why}") and error.endswith(f"{GO_ON}\n"))
                self.assertIn(f", bad: {why}", self.over(data, "list")[1].decode())
                self.assertEqual(self.over(data, "count")[:2], (1, b"2\n"))

    def test_records_after_an_amendment(self):
        amendment = amendment_record(MORE, image_after(2))
        for bad, why in [
            (image_record(image_of_two(2)), "its image has 611 bytes, and its counts say 586"),
            (old_image_record(old_image_after(2) + b"\x00"), "its image has 586 bytes, and its counts say 585"),
            (messages_record(SELL + BUY[:50]), SHORT.decode()),
        ]:
            with self.subTest(why):
                data = journal_of(messages_record(SELL, BUY), amendment, bad)
                gate = 376 + len(amendment)
                self.assertEqual(places(data), (gate, gate))
                self.assertEqual(self.over(data, "check"), (1, b"", f"place {gate}: {why}\n"))
                self.assertEqual(self.over(data, "count"), (1, b"2\n", f"place {gate}: {why}\n"))
        early = journal_of(messages_record(SELL, BUY), image_record(image_of_two(2)), amendment)
        self.assertEqual(places(early), (376, None))

    def test_the_count_of_messages(self):
        data = journal_of(messages_record(SELL), amendment_record(TEXT, IMAGE))
        self.assertEqual(gxj.Journal(data).miscounted().place, 266)
        self.assertIn(b", journal_limit 16777216, but it counts 2 messages\n", self.over(data, "list")[1])
        most = amendment_record(TEXT, image_after((1 << 24) - 2))
        self.assertEqual(places(journal_of(most, messages_record(SELL))), (None, None))
        data = journal_of(most, messages_record(SELL, BUY))
        self.assertEqual(places(data), (149 + len(most), 149 + len(most)))

    def test_the_limit(self):
        """Heads are held to the limit of the last product, before the amendment too."""
        long = messages_record(SELL) * 1_200
        front = b"\x01GXJOURN2" + len(LEAST).to_bytes(4, "big") + LEAST
        past = front + long + b"\x00"
        place = len(front) + 117 * ((131_072 - 1 - len(front)) // 117)
        self.assertEqual(places(past), (place, place))
        wider = front + long + amendment_record(MOST, image_after(1_200))
        self.assertEqual(places(wider + b"\x00"), (None, None))
        self.assertEqual(gxj.Journal(wider + b"\x00").limit, 268_435_456)
        lower = wider + amendment_record(LEAST, image_after(1_200)) + b"\x00"
        self.assertEqual(places(lower), (place, place))
        error = f"place {place}: a record of 111 bytes goes past journal_limit, 131,072\n"
        self.assertEqual(self.over(lower, "check"), (1, b"", error))
        self.assertEqual(self.over(lower, "product"), (1, LEAST, error))

    def test_an_amendment_that_ends_at_the_limit(self):
        front = b"\x01GXJOURN2" + len(LEAST).to_bytes(4, "big") + LEAST + messages_record(SELL) * 1_100
        for new, good in ((MOST, True), (LEAST, False)):
            for past in (0, 1):
                with self.subTest(good=good, past=past):
                    left = 131_072 + past - 1 - len(front) - 6 - 4 - 586
                    text = new + b"#" * (left - len(new))
                    data = front + amendment_record(text, image_after(1_100)) + b"\x00"
                    self.assertEqual(len(data), 131_072 + past)
                    place = None if good or past == 0 else len(front)
                    self.assertEqual(places(data), (place, place))

    def test_the_first_version(self):
        why = "the kind of the record is the byte 80, and none of M, C and D"
        for data, gate in ((ONE_AMENDMENT, AT_FIRST), (TWO_AMENDMENTS, AT_FIRST), (journal_of(BAD_TEXTS[0][0]), 149)):
            old = first_version(data)
            self.assertEqual(places(old), (gate, gate))
            self.assertEqual(self.over(old, "product"), (0, TEXT, ""))
            self.assertEqual(self.over(old, "check"), (1, b"", f"place {gate}: {why}\n"))
            self.assertEqual(self.over(old, "count"), (1, b"2\n" if gate > 149 else b"0\n", f"place {gate}: {why}\n"))
            error = (1, b"", f"place {gate}: {why}\n")
            self.assertEqual(self.over(old, "drop", "--gate", gate, "--output", self.copy), error)

    def test_cut(self):
        wanted = [[], [messages_record(SELL)], AMENDED[:2], AMENDED[:6], AMENDED]
        for count, records in enumerate(wanted):
            self.assertEqual(self.copied(TWO_AMENDMENTS, "cut", "--messages", count), journal_of(*records))
        self.assertEqual(self.copied(ONE_AMENDMENT, "cut", "--messages", 3), ONE_AMENDMENT)
        before = journal_of(AMENDED[1], AMENDED[0])
        self.assertEqual(self.copied(before, "cut", "--messages", 0), journal_of(AMENDED[1]))
        error = f"place {AMENDED_GATES[7]}: only 4 messages are kept\n"
        self.assertEqual(self.over(TWO_AMENDMENTS, "cut", "--messages", 5, "--output", self.folder / "none"), (1, b"", error))
        for bad, why in BAD_TEXTS + BAD_IMAGES:
            data = journal_of(messages_record(SELL, BUY), bad, messages_record(CANCEL))
            self.assertEqual(self.copied(data, "cut", "--messages", 2), journal_of(messages_record(SELL, BUY)))
            error = f"place 376: only 2 messages are before a bad record: {why}\n"
            self.assertEqual(self.over(data, "cut", "--messages", 3, "--output", self.folder / "none"), (1, b"", error))

    def test_drop(self):
        for number in (3, 5):
            copy = self.copied(TWO_AMENDMENTS, "drop", "--gate", AMENDED_GATES[number])
            self.assertEqual(copy, journal_of(*AMENDED[:number], *AMENDED[number + 1 :]))
        why = "the record is an amendment, whose product would be lost, and only an image can be taken out"
        for gate in (AT_FIRST, AT_SECOND):
            error = (1, b"", f"place {gate}: {why}\n")
            self.assertEqual(self.over(TWO_AMENDMENTS, "drop", "--gate", gate, "--output", self.folder / "none"), error)


if __name__ == "__main__":
    unittest.main()

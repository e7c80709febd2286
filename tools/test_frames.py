"""Tests of `frames`: bytes of the documents and examples, each session rule, text, CSV, and streams that are damaged."""

import io
import pathlib
import tempfile
import unittest

import fix42
import session_rules
from called import EXAMPLES, FORMATS, PROGRAM, TOP, call, call_program, documented_frames, soh

SELL = "8=FIX.4.2|9=89|35=D|49=AAA|56=GX|34=1|52=20240102-09:30:00|11=a1|55=ESZ4|54=2|38=10|40=2|44=100.00|59=0|10=210|"
BUY = "8=FIX.4.2|9=88|35=D|49=BBB|56=GX|34=1|52=20240102-09:30:01|11=b1|55=ESZ4|54=1|38=4|40=2|44=100.00|59=0|10=168|"
HEARTBEAT = "8=FIX.4.2|9=49|35=0|49=AAA|56=GX|34=1|52=20240102-09:30:00|58=x|10=133|"
STREAM = soh(SELL + BUY)

HEAD = "49=AAA|56=GX|34=1|52=20240102-09:30:00|"
ORDER = f"35=D|{HEAD}11=a1|55=ESZ4|54=2|38=10|40=2|44=100.00|59=0|"
STOP = f"35=D|{HEAD}11=a1|55=ESZ4|54=2|38=10|40=4|44=100.00|99=100.00|"
CANCEL = f"35=F|{HEAD}11=a2|41=a1|"
REPLACE = f"35=G|{HEAD}11=a2|41=a1|55=ESZ4|54=2|38=10|40=4|44=100.00|99=100.00|"
CLOSE = "35=h|49=GX|56=GX|34=1|52=20240102-16:00:00|340=3|"

FRONTS = [
    ("8=FIX.4.2|9=4000", True),
    ("8=FIX.4.2|9=4001", False),
    ("8=FIX.4.2|9=00000", True),
    ("8=FIX.4.2|9=000000", False),
    ("8=FIX.4.2|9=0000110", False),
    ("8=FIX.4.2|9=0|", False),
    ("8=FIX.4.2|9=|", False),
    ("8=FIX.4.2|9=1x", False),
    ("8=FIX.4.4", False),
    ("8=FIX.4", True),
    ("8=FIX.4.2|9=3|a=", True),
    ("8=FIX.4.2|9=3|a=b", False),
    ("8=FIX.4.2|9=1||10", True),
    ("8=FIX.4.2|9=1||11", False),
]

# Each row is refused by one rule: body, text, tag (371), reason (373).
REFUSED = [
    (f"49=AAA|35=D|{HEAD}", "FIRST TAG", 35, 11),
    ("|", "FIRST TAG", 35, 11),
    (ORDER + "58|", "BAD TAG", 0, 0),
    (ORDER + "=x|", "BAD TAG", 0, 0),
    (ORDER + "058=x|", "BAD TAG", 0, 0),
    (ORDER + "123456=x|", "BAD TAG", 0, 0),
    (ORDER + "5a=x|", "BAD TAG", 0, 0),
    (ORDER + "|", "BAD TAG", 0, 0),
    (ORDER + "58=|", "NO VALUE", 58, 4),
    (ORDER + "44=|", "NO VALUE", 44, 4),
    ("35=|", "NO VALUE", 35, 4),
    (ORDER.replace("49=AAA|", ""), "SENDER", 49, 1),
    (ORDER.replace("49=AAA|", "49=UNKNOWN|"), "SENDER", 49, 9),
    (ORDER.replace("49=AAA|", "49=" + "A" * 25 + "|"), "SENDER", 49, 9),
    (ORDER.replace("56=GX|", ""), "TARGET", 56, 1),
    (ORDER.replace("56=GX|", "56=" + "A" * 25 + "|"), "TARGET", 56, 9),
    (ORDER.replace("34=1|", ""), "HEADER", 34, 1),
    (ORDER.replace("34=1|", "34=0|"), "HEADER", 34, 6),
    (ORDER.replace("34=1|", "34=1234567890|"), "HEADER", 34, 6),
    (ORDER.replace("52=20240102-09:30:00|", ""), "HEADER", 52, 1),
    (ORDER.replace("20240102-", "20241302-"), "HEADER", 52, 6),
    (ORDER.replace("20240102-", "20240132-"), "HEADER", 52, 6),
    (ORDER.replace("09:30:00", "24:30:00"), "HEADER", 52, 6),
    (ORDER.replace("09:30:00", "09:60:00"), "HEADER", 52, 6),
    (ORDER.replace("09:30:00", "09:30:61"), "HEADER", 52, 6),
    (ORDER.replace("09:30:00", "09:30:00.1"), "HEADER", 52, 6),
    (ORDER.replace("20240102-09:30:00", "00000000-00:00:00"), "HEADER", 52, 6),
    (ORDER.replace("35=D|", "35=8|"), "MSGTYPE", 35, 11),
    (ORDER.replace("35=D|", "35=d|"), "MSGTYPE", 35, 11),
    (ORDER.replace("11=a1|", ""), "MISSING", 11, 1),
    (ORDER.replace("55=ESZ4|", ""), "MISSING", 55, 1),
    (ORDER.replace("54=2|", ""), "MISSING", 54, 1),
    (ORDER.replace("38=10|", ""), "MISSING", 38, 1),
    (ORDER.replace("40=2|", ""), "MISSING", 40, 1),
    (ORDER.replace("44=100.00|", ""), "MISSING", 44, 1),
    (STOP.replace("44=100.00|", ""), "MISSING", 44, 1),
    (STOP.replace("99=100.00|", ""), "MISSING", 99, 1),
    (CANCEL.replace("11=a2|", ""), "MISSING", 11, 1),
    (CANCEL.replace("41=a1|", ""), "MISSING", 41, 1),
    (REPLACE.replace("41=a1|", ""), "MISSING", 41, 1),
    (REPLACE.replace("38=10|", ""), "MISSING", 38, 1),
    (REPLACE.replace("99=100.00|", ""), "MISSING", 99, 1),
    (ORDER.replace("11=a1|", "11=" + "a" * 25 + "|"), "FORMAT", 11, 6),
    (ORDER.replace("55=ESZ4|", "55=" + "a" * 25 + "|"), "FORMAT", 55, 6),
    (ORDER.replace("55=ESZ4|", "55=ESZ4|107=" + "a" * 25 + "|"), "FORMAT", 107, 6),
    (ORDER.replace("38=10|", "38=1234567890|"), "FORMAT", 38, 6),
    (ORDER.replace("38=10|", "38=5.1|"), "FORMAT", 38, 6),
    (ORDER.replace("38=10|", "38=.0|"), "FORMAT", 38, 6),
    (ORDER.replace("38=10|", "38=+5|"), "FORMAT", 38, 6),
    (ORDER.replace("100.00", "."), "FORMAT", 44, 6),
    (ORDER.replace("100.00", "-"), "FORMAT", 44, 6),
    (ORDER.replace("100.00", "9x"), "FORMAT", 44, 6),
    (ORDER.replace("100.00", "1" * 33), "FORMAT", 44, 6),
    (STOP.replace("99=100.00|", "99=1e2|"), "FORMAT", 99, 6),
    (ORDER + "110=x|", "FORMAT", 110, 6),
    (ORDER + "210=x|", "FORMAT", 210, 6),
    (CANCEL.replace("41=a1|", "41=" + "a" * 25 + "|"), "FORMAT", 41, 6),
    (REPLACE.replace("100.00|99", "x|99"), "FORMAT", 44, 6),
    (ORDER.replace("54=2|", "54=3|"), "VALUE", 54, 5),
    (ORDER.replace("40=2|", "40=3|"), "VALUE", 40, 5),
    (ORDER.replace("59=0|", "59=2|"), "VALUE", 59, 5),
    (REPLACE.replace("54=2|", "54=02|"), "VALUE", 54, 5),
    (REPLACE.replace("40=4|", "40=P|"), "VALUE", 40, 5),
    (CLOSE.replace("49=GX|", ""), "SENDER", 49, 1),
    (CLOSE.replace("340=3|", ""), "MISSING", 340, 1),
    (CLOSE.replace("340=3|", "340=+3|"), "FORMAT", 340, 6),
    (CLOSE.replace("340=3|", "340=0000000003|"), "FORMAT", 340, 6),
    (CLOSE.replace("340=3|", "340=0|"), "VALUE", 340, 5),
    (CLOSE.replace("340=3|", "340=4|"), "VALUE", 340, 5),
]

# Which of two faults is the first.
FIRST_OF_TWO = [
    (ORDER.replace("11=a1|", "58|") + "58=|", "BAD TAG", 0),
    (CANCEL.replace("49=AAA|", "") + "58=|", "NO VALUE", 58),
    (ORDER.replace("49=AAA|56=GX|", ""), "SENDER", 49),
    (ORDER.replace("56=GX|34=1|", ""), "TARGET", 56),
    (ORDER.replace("34=1|52=20240102-09:30:00|", "52=x|"), "HEADER", 34),
    (ORDER.replace("35=D|", "35=8|").replace("52=2", "52=x"), "HEADER", 52),
    (ORDER.replace("11=a1|", "").replace("54=2|", "54=3|"), "MISSING", 11),
    (ORDER.replace("54=2|38=10|", "54=3|38=x|"), "FORMAT", 38),
    (ORDER.replace("38=10|", "38=x|").replace("100.00", "x"), "FORMAT", 38),
    (ORDER.replace("54=2|", "54=3|").replace("59=0|", "59=9|"), "VALUE", 54),
]

TAKEN = [
    ORDER,
    STOP,
    CANCEL,
    REPLACE,
    f"35=A|{HEAD}98=0|108=30|",
    ORDER + "58=a=b|",
    ORDER.replace("09:30:00", "09:30:60.123"),
    ORDER.replace("38=10|", "38=007.000|"),
    ORDER.replace("100.00", "-.5"),
    ORDER.replace("40=2|44=100.00|", "40=1|44=x|"),
    ORDER.replace("55=ESZ4|", "107=ESZ4|"),
    ORDER + "38=x|",
    ORDER + "99=x|",
    REPLACE + "59=9|",
    CANCEL + "54=9|",
    CLOSE,
    CLOSE.replace("340=3|", "340=02|"),
    CLOSE.replace("340=3|", "336=x|340=000000003|"),
    # The first field says the type.
    ORDER + "35=h|",
]

BY_PRODUCT = [
    (ORDER.replace("49=AAA|", "49=ZZZ|"), "SENDER", 49, 9),
    (ORDER.replace("56=GX|", "56=GY|"), "TARGET", 56, 9),
    (ORDER.replace("100.00", "10000000000.00"), "VALUE", 44, 5),
    (ORDER.replace("100.00", "-10000000000"), "VALUE", 44, 5),
    (STOP.replace("99=100.00", "99=9999999999990"), "VALUE", 99, 5),
    (CLOSE.replace("49=GX|", "49=AAA|"), "SENDER", 49, 9),
    (ORDER.replace("49=AAA|", "49=GX|"), "SENDER", 49, 9),
]
TAKEN_BY_PRODUCT = [
    ORDER,
    CLOSE,
    ORDER.replace("100.00", "9999999999.99"),
    ORDER.replace("100.00", "97.501"),
    ORDER.replace("100.00", "10000000000.001"),
    ORDER.replace("55=ESZ4|", "55=NONE|").replace("100.00", "10000000000.00"),
]
PRODUCT = TOP / "examples" / "F" / "product.toml"


class OneByOne(io.BytesIO):
    """A file that gives a byte a read."""

    def read1(self, size=-1):
        return super().read1(1)


class Grammar(unittest.TestCase):
    def test_documented_frames_are_made_again(self):
        lines = documented_frames()
        self.assertGreater(len(lines), 10)
        text = "\n".join(lines).encode()
        self.assertEqual(call("frames", "make", "--unchecked", given=text), (0, soh("".join(lines)), ""))

    def test_bytes_of_the_example(self):
        self.assertEqual(fix42.frame_of(soh(ORDER)), soh(SELL))
        self.assertEqual([len(frame) for _, frame in fix42.Frames(io.BytesIO(STREAM))], [111, 110])

    def test_lengths_with_zeros(self):
        for length in ("9=49|", "9=049|", "9=000049|"):
            front = soh(HEARTBEAT[:10] + length + HEARTBEAT[15:-7])
            frame = front + b"10=%03d\x01" % (sum(front) % 256)
            self.assertEqual(fix42.end_of_frame(frame), len(frame))
            self.assertEqual(fix42.body_of(frame), soh(HEARTBEAT[15:-7]))

    def test_fronts(self):
        self.assertIn("| `8=FIX.4.2\\|9=4001` | of none", FORMATS.read_text())
        for text, is_front in FRONTS:
            with self.subTest(text):
                if is_front:
                    self.assertIsNone(fix42.end_of_frame(soh(text)))
                else:
                    # The last byte is the first wrong one.
                    with self.assertRaises(fix42.NoFrame) as raised:
                        fix42.end_of_frame(soh(text))
                    self.assertEqual(raised.exception.place, len(text) - 1)
                    self.assertIsNone(fix42.end_of_frame(soh(text[:-1])))

    def test_each_front_of_a_frame_and_each_wrong_trailer(self):
        frame = soh(SELL)
        for length in range(len(frame)):
            self.assertIsNone(fix42.end_of_frame(frame[:length]))
        for place in range(len(frame) - 7, len(frame)):
            broken = frame[:place] + b"x" + frame[place + 1 :]
            with self.assertRaises(fix42.NoFrame) as raised:
                fix42.end_of_frame(broken)
            self.assertEqual(raised.exception.place, place)

    def test_pieces_make_no_difference(self):
        whole = list(fix42.Frames(io.BytesIO(STREAM)))
        self.assertEqual(list(fix42.Frames(OneByOne(STREAM))), whole)
        self.assertEqual([offset for offset, _ in whole], [0, 111])

    def test_each_cut_of_a_stream_is_known(self):
        for length in range(len(STREAM)):
            frames = fix42.Frames(io.BytesIO(STREAM[:length]))
            if length in (0, 111):
                self.assertEqual(frames.skip(length // 111), length)
                continue
            with self.assertRaises(fix42.Stopped) as raised:
                list(frames)
            stopped = raised.exception
            self.assertEqual((stopped.offset, stopped.is_cut), (length // 111 * 111, True))
            with self.assertRaises(fix42.Stopped) as raised:
                list(fix42.Frames(io.BytesIO(STREAM[:length] + b"\xff" * 4_024)))
            stopped = raised.exception
            self.assertEqual((stopped.offset, stopped.is_cut), (length // 111 * 111, False))

    def test_the_longest_body(self):
        body = soh(f"35=0|{HEAD}58=")
        body += b"x" * (3_999 - len(body)) + b"\x01"
        frame = fix42.frame_of(body)
        self.assertEqual(fix42.end_of_frame(frame), 4_024)
        text = body.replace(b"\x01", b"|")
        self.assertEqual(call("frames", "make", given=text), (0, frame, ""))
        longer = text.replace(b"58=", b"58=x")
        for words in (["make"], ["make", "--unchecked"]):
            status, out, error = call("frames", *words, given=longer)
            self.assertEqual((status, out), (1, b""))
            self.assertEqual(error, "row 1: the body has 4,001 bytes, and not 1 to 4,000\n")


class Rules(unittest.TestCase):
    def fault(self, body, product=None):
        return session_rules.fault_of(soh(body), product)

    def test_each_rule_refuses(self):
        for body, text, tag, reason in REFUSED:
            with self.subTest(body):
                fault = self.fault(body)
                self.assertIsNotNone(fault)
                self.assertEqual((fault.text, fault.tag, fault.reason), (text, tag, reason))
        texts = {text for _, text, _, _ in REFUSED}
        ten = {"FIRST TAG", "BAD TAG", "NO VALUE", "SENDER", "TARGET", "HEADER", "MSGTYPE", "MISSING", "FORMAT", "VALUE"}
        self.assertEqual(texts, ten)
        for text in texts:
            self.assertIn(f" | {text} | ", FORMATS.read_text())

    def test_the_first_rule_refuses(self):
        for body, text, tag in FIRST_OF_TWO:
            with self.subTest(body):
                fault = self.fault(body)
                self.assertEqual((fault.text, fault.tag), (text, tag))

    def test_the_others_pass(self):
        for body in TAKEN:
            with self.subTest(body):
                self.assertIsNone(self.fault(body))

    def test_rules_of_the_product(self):
        product = session_rules.Product(PRODUCT.read_bytes())
        for body, text, tag, reason in BY_PRODUCT:
            with self.subTest(body):
                fault = self.fault(body, product)
                self.assertEqual((fault.text, fault.tag, fault.reason), (text, tag, reason))
                self.assertIsNone(self.fault(body))
        for body in TAKEN_BY_PRODUCT:
            with self.subTest(body):
                self.assertIsNone(self.fault(body, product))

    def test_make_names_the_row_and_writes_nothing(self):
        given = ("# orders\n\n" + ORDER + "\n" + ORDER.replace("38=10", "38=1,000") + "\n").encode()
        error = "row 4: FORMAT: 38 is no quantity of one to nine digits (371=38, 373=6)\n"
        self.assertEqual(call("frames", "make", given=given), (1, b"", error))
        status, out, _ = call("frames", "make", "--unchecked", given=given)
        self.assertEqual((status, out[:111]), (0, soh(SELL)))

    def test_check_names_the_offset(self):
        broken = STREAM + fix42.frame_of(soh(ORDER + "58|"))
        error = "offset 221: BAD TAG: the field `58` has no = (no 371, 373=0)\n"
        self.assertEqual(call("frames", "check", given=broken), (1, b"", error))
        self.assertEqual(call("frames", "check", given=STREAM), (0, b"2 frames\n", ""))
        self.assertEqual(call("frames", "check", "--product", PRODUCT, given=STREAM), (0, b"2 frames\n", ""))
        other = STREAM + fix42.frame_of(soh(ORDER.replace("AAA", "ZZZ")))
        error = "offset 221: SENDER: 49 is no listed firm (371=49, 373=9)\n"
        self.assertEqual(call("frames", "check", "--product", PRODUCT, given=other), (1, b"", error))
        self.assertEqual(call("frames", "check", given=other)[0], 0)

    def test_products_that_lack_something(self):
        text = PRODUCT.read_text()
        for old, new, why in [
            ('exchange = "GX"', "", "exchange is missing"),
            ("firms = [", "friends = [", "firms is no array of 1 to 64 names"),
            ("[[instrument]]", "[[instruments]]", "instrument is no array of 1 to 16 tables"),
            ("decimals = 2", "decimals = 9", "decimals is no integer from 0 to 8"),
        ]:
            with self.subTest(why), tempfile.TemporaryDirectory() as folder:
                path = pathlib.Path(folder, "product.toml")
                path.write_text(text.replace(old, new))
                status, _, error = call("frames", "check", "--product", path, given=STREAM)
                self.assertEqual((status, error), (1, f"{path}: {why}\n"))


class Text(unittest.TestCase):
    def test_examples_go_to_frames_and_back(self):
        self.assertGreater(len(EXAMPLES), 5)
        for orders in EXAMPLES:
            with self.subTest(orders.parent.name):
                text = orders.read_bytes()
                status, stream, error = call("frames", "make", "--product", orders.parent / "product.toml", orders)
                self.assertEqual((status, stream, error), (0, text.replace(b"\n", b"").replace(b"|", b"\x01"), ""))
                self.assertEqual(call("frames", "show", given=stream), (0, text, ""))
                reports = (orders.parent / "reports.txt").read_bytes()
                stream = reports.replace(b"\n", b"").replace(b"|", b"\x01")
                self.assertEqual(call("frames", "show", given=stream), (0, reports, ""))
                self.assertEqual(call("frames", "make", "--unchecked", given=reports), (0, stream, ""))

    def test_the_stored_run_goes_to_csv_and_back(self):
        for name in ("stdin", "stdout"):
            stream = (PROGRAM / name).read_bytes()
            status, table, error = call("frames", "show", "--csv", PROGRAM / name)
            self.assertEqual((status, error), (0, ""))
            back = call("frames", "make", "--csv", "--unchecked", given=table)[1]
            for ours, theirs in zip(fix42.whole_frames(back), fix42.whole_frames(stream), strict=True):
                self.assertEqual(sorted(fix42.field_texts(ours)[2:-1]), sorted(fix42.field_texts(theirs)[2:-1]))

    def test_rows_of_all_forms_are_one(self):
        for row in (ORDER, ORDER[:-1], SELL, SELL[:-1], SELL.replace("9=89", "9=1").replace("10=210", "10=000")):
            with self.subTest(row):
                given = f"\n# {row}\n{row}\r\n\n".encode()
                self.assertEqual(call("frames", "make", given=given), (0, soh(SELL), ""))
        status, out, error = call("frames", "make", given=SELL.replace("4.2", "4.4").encode())
        self.assertEqual((status, out, error), (1, b"", "row 1: it begins with 8=FIX.4.4, and not with 8=FIX.4.2\n"))

    def test_any_bytes_come_back(self):
        odd = bytes(c for c in range(256) if c != 1)
        for body in (b"35=0\x0158=" + odd + b"\x01", b"\x01", b"35=0\x01\x01=\x01==\x01", b"35=0\x0158=a\\x7cb|c\x01"):
            with self.subTest(body):
                frame = fix42.frame_of(body)
                status, text, _ = call("frames", "show", given=frame)
                self.assertEqual((status, text.count(b"\n")), (0, 1))
                self.assertEqual(call("frames", "make", "--unchecked", given=text)[1], frame)

    def test_names(self):
        head = "8 BeginString=FIX.4.2 | 9 BodyLength=89 | 35 MsgType=D NewOrderSingle | 49 SenderCompID=AAA | 56 TargetCompID=GX"
        status, out, error = call("frames", "show", "--names", given=STREAM)
        self.assertEqual((status, error), (0, ""))
        self.assertTrue(out.decode().startswith(head + " | 34 MsgSeqNum=1 | "))
        for part in ("54 Side=2 sell", "40 OrdType=2 limit", "59 TimeInForce=0 day"):
            self.assertIn(f" | {part} | ", out.decode())
        report = call("frames", "show", "--names", PROGRAM / "stdout")[1].decode()
        for part in (
            "35 MsgType=8 ExecutionReport",
            "150 ExecType=1 partly filled",
            "39 OrdStatus=2 filled",
            "9001 Step=FIFO first in, first out",
            "9002 Trade=1",
            "9003 EndedLots=0",
        ):
            self.assertIn(f" | {part} | ", report)
        closed = fix42.frame_of(soh(CLOSE)) + fix42.frame_of(soh("35=8|150=C|39=C|58=EXPIRED|"))
        shown = call("frames", "show", "--names", given=closed)[1].decode()
        for part in (
            "35 MsgType=h TradingSessionStatus",
            "340 TradSesStatus=3 closed",
            "150 ExecType=C expired | 39 OrdStatus=C expired",
        ):
            self.assertIn(f" | {part} | ", shown)
        others = fix42.frame_of(soh("35=3|371=49|373=9|103=6|434=1|102=1|7777=x|y|"))
        shown = call("frames", "show", "--names", given=others)[1].decode()
        for part in (
            "371 RefTagID=49 SenderCompID | 373 SessionRejectReason=9 wrong firm or exchange",
            "103 OrdRejReason=6 duplicate order | 434 CxlRejResponseTo=1 cancel | 102 CxlRejReason=1 unknown order",
            "7777=x | y | 10 CheckSum=",
        ):
            self.assertIn(f" | {part}", shown)


class Csv(unittest.TestCase):
    def test_columns_in_any_order(self):
        order = b"35=D\x01" + soh(HEAD) + soh("11=a1|55=ESZ4|54=2|38=10|40=2|44=100.00|59=0|")
        for heading in (
            b"49,56,34,52,35,11,55,54,38,40,44,59,99",
            b"SenderCompID,TargetCompID,MsgSeqNum,SendingTime,MsgType,ClOrdID,"
            b"Symbol,side,orderqty,OrdType,Price,TimeInForce,StopPx",
        ):
            row = b'AAA,GX,1,20240102-09:30:00,D,a1,"ESZ4",2,10,2,100.00,0,'
            given = b"\xef\xbb\xbf# orders\r\n\r\n" + heading + b"\r\n" + row + b"\r\n,,,,,,,,,,,,\r\n"
            self.assertEqual(call("frames", "make", "--csv", given=given), (0, fix42.frame_of(order), ""))

    def test_cells_with_commas_lines_and_bars(self):
        given = b'35,58,58\n0,"a,b|c\nd""e",\\x00\n'
        body = b'35=0\x0158=a,b|c\nd"e\x0158=\x00\x01'
        self.assertEqual(call("frames", "make", "--csv", "--unchecked", given=given), (0, fix42.frame_of(body), ""))

    def test_refused_tables(self):
        for given, error in [
            (b"35,Nonsense\n", "row 1: the heading `Nonsense` is no tag and no known name of one\n"),
            (b"35,058\n", "row 1: the heading `058` is no tag and no known name of one\n"),
            (b"35\nD,x\n", "row 2: it has 2 cells, and the header row has 1\n"),
            (b'35\n"D\n', "row 2: it is no CSV: unexpected end of data\n"),
            (b"49,35\nAAA,\n", "row 2: FIRST TAG: the body does not begin with 35= (371=35, 373=11)\n"),
        ]:
            with self.subTest(given):
                self.assertEqual(call("frames", "make", "--csv", given=given), (1, b"", error))

    def test_shown_columns_are_in_order_of_first_appearance(self):
        stream = b"".join(fix42.frame_of(soh(body)) for body in ("35=0|58=a|58=b|", "35=1|112=x|58=c|", "35=2|58=|y|"))
        sums = [frame[-4:-1].decode() for frame in fix42.whole_frames(stream)]
        wanted = (
            "8,9,35,58,58,10,112,?\n"
            f"FIX.4.2,15,0,a,b,{sums[0]},,\n"
            f"FIX.4.2,16,1,c,,{sums[1]},x,\n"
            f"FIX.4.2,11,2,,,{sums[2]},,58=|y\n"
        )
        self.assertEqual(call("frames", "show", "--csv", given=stream), (0, wanted.encode(), ""))


class Streams(unittest.TestCase):
    def test_skip_offset_and_count(self):
        for number, offset in enumerate((0, 111, 221)):
            self.assertEqual(call("frames", "offset", number, given=STREAM), (0, b"%d\n" % offset, ""))
            self.assertEqual(call("frames", "skip", number, given=STREAM), (0, STREAM[offset:], ""))
        self.assertEqual(call("frames", "count", given=STREAM), (0, b"2\n", ""))
        self.assertEqual(call("frames", "count", given=b""), (0, b"0\n", ""))
        for command in ("offset", "skip"):
            status, out, error = call("frames", command, 3, given=STREAM)
            self.assertEqual((status, out, error), (1, b"", "offset 221: there are only 2 frames\n"))
            self.assertEqual(call("frames", command, "-1", given=STREAM)[0], 2)

    def test_a_cut_rest_is_not_a_broken_one(self):
        shown = (SELL + "\n").encode()
        cut = "offset 111: the input ends inside a frame, of which 109 bytes are there\n"
        self.assertEqual(call("frames", "show", given=STREAM[:-1]), (1, shown, cut))
        self.assertEqual(call("frames", "count", given=STREAM[:-1]), (1, b"1\n", cut))
        self.assertEqual(call("frames", "check", given=STREAM[:-1]), (1, b"", cut))
        broken = soh(SELL) + b"\n" + soh(BUY)
        why = "offset 111: no frame begins here: it does not begin with 8=FIX.4.2|9= (byte 111)\n"
        self.assertEqual(call("frames", "show", given=broken), (1, shown, why))
        self.assertEqual(call("frames", "count", given=broken), (1, b"1\n", why))
        self.assertEqual(call("frames", "offset", 1, given=broken), (0, b"111\n", ""))
        self.assertEqual(call("frames", "skip", 1, given=broken), (0, broken[111:], ""))
        self.assertEqual(call("frames", "skip", 2, given=broken), (1, b"", why))
        wrong_sum = soh(SELL + BUY.replace("10=168", "10=169"))
        why = "offset 111: no frame begins here: CheckSum (10) is not 168 (byte 219)\n"
        self.assertEqual(call("frames", "show", given=wrong_sum), (1, shown, why))
        wrong_length = soh(SELL + BUY.replace("9=88", "9=87"))
        why = "offset 111: no frame begins here: BodyLength (9) is 87, and no field ends there (byte 212)\n"
        self.assertEqual(call("frames", "show", given=wrong_length), (1, shown, why))

    def test_a_long_stream_is_passed_on_whole(self):
        stream = STREAM * 2_000
        with tempfile.TemporaryDirectory() as folder:
            path = pathlib.Path(folder, "orders")
            path.write_bytes(stream)
            self.assertEqual(call("frames", "skip", 1_999, path), (0, stream[1_999 // 2 * 221 + 111 :], ""))
            self.assertEqual(call("frames", "count", path), (0, b"4000\n", ""))

    def test_as_a_program(self):
        self.assertEqual(call_program("frames", "make", given=(SELL + "\n" + BUY).encode()), (0, STREAM, ""))
        self.assertEqual(call_program("frames", "count", given=STREAM + b"x")[:2], (1, b"2\n"))
        self.assertEqual(call_program("frames", "count", "--no-such-word")[0], 2)
        for command in ("make", "show", "check", "skip", "offset", "count"):
            status, out, error = call("frames", command, "--help")
            self.assertEqual((status, error), (0, ""))
            self.assertIn(b"FILE", out)

    def test_a_file_that_is_not_there(self):
        status, out, error = call("frames", "count", TOP / "no such file")
        self.assertEqual((status, out), (1, b""))
        self.assertIn("No such file", error)
        self.assertEqual(error.count("\n"), 1)


if __name__ == "__main__":
    unittest.main()

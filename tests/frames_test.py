"""Tests of tools/frames: known bytes, both sample tables, and every error."""

import pathlib
import subprocess
import sys
import unittest

TOP = pathlib.Path(__file__).resolve().parent.parent
TOOL = TOP / "tools" / "frames"
SAMPLE = TOP / "samples" / "sample.csv"
SECOND = TOP / "samples" / "t7_10_0.csv"

LOGON = "180000006500000001000000307500001500000000000000"
NEW = "30000000680000000200000001000000e903000000000000090000000000000064000000000000003200000000000000"
NEW_WORDS = "New(seq=2, security=1001, side=buy, price=100, qty=50, client=9)"


def run(text, table=SAMPLE):
    done = subprocess.run(
        [sys.executable, str(TOOL), str(table)], input=text, capture_output=True, text=True, check=False
    )
    return done.returncode, done.stdout, done.stderr


class Frames(unittest.TestCase):
    def turns(self, words, expected, table=SAMPLE):
        self.assertEqual(run(f"IN 1 {words}\n", table), (0, f"IN 1 {expected}\n", ""))

    def test_known_bytes(self):
        self.turns("Logon(seq=1, heart=30000, session=21)", LOGON)
        self.turns(NEW_WORDS, NEW)
        self.turns("Heartbeat()", "0800000067000000")
        self.turns("Logout(seq=3)", "10000000660000000300000000000000")
        self.turns(
            "Modify(seq=4, order=1, client=11, price=-100, qty=30)",
            "30000000690000000400000000000000" "01000000000000000b00000000000000" "9cffffffffffffff1e00000000000000",
        )
        self.turns("Delete(seq=6, order=1, client=12)", "200000006a000000060000000000000001000000000000000c00000000000000")
        self.turns("DeleteAll(seq=5, security=1001)", "180000006b0000000500000000000000e903000000000000")
        self.turns(
            "Resend(seq=2, after=5, upto=all)",
            "300000006c0000000200000000000000" "00000000000000000000000000000005" + "ff" * 16,
        )

    def test_several_frames_and_hex(self):
        self.turns(f"Logon(seq=1, heart=30000, session=21){NEW_WORDS}", LOGON + NEW)
        self.turns(f"{LOGON} {NEW_WORDS}", LOGON + NEW)

    def test_unset_fields_tail_and_template_names(self):
        self.turns("Logon(seq=1)", "180000006500000001000000ffffffffffffffff00000000")
        self.turns("LogonRequest(MsgSeqNum=1, HeartBtInt=30000, PartyIDSessionID=21)", LOGON)
        tailed = "38" + NEW[2:] + "00" * 8
        self.turns(NEW_WORDS[:-1] + ", tail=0000000000000000)", tailed)
        self.turns("New(seq=2, security=1001, side=none, price=100, qty=50, client=9)", NEW.replace("01000000e9", "ff000000e9"))

    def test_other_lines_pass_through(self):
        text = f"RAW\nIN 1 {NEW}\nSHOW\nFORGE LA -\n"
        self.assertEqual(run(text), (0, text, ""))

    def test_second_table(self):
        status, out, _ = run(f"IN 1 {NEW_WORDS}\n", SECOND)
        frame = bytes.fromhex(out.split()[2])
        self.assertEqual(status, 0)
        self.assertEqual(int.from_bytes(frame[:4], "little"), len(frame))

    def test_errors_name_their_line(self):
        for words, said in [
            ("Foo(seq=1)", "line 2: the table has no ETI template Foo"),
            ("New(sequence=1)", "line 2: NewOrderSingleRequest has no field sequence to set"),
            ("New(BodyLen=1)", "line 2: NewOrderSingleRequest has no field BodyLen to set"),
            ("New(seq=one)", "line 2: `one` is no number for MsgSeqNum"),
            ("New(seq=4294967296)", "line 2: 4294967296 doesn't fit MsgSeqNum"),
            ("New(seq=1, seq=2)", "line 2: seq stands twice"),
            ("New(seq)", "line 2: `seq` isn't NAME=VALUE"),
            ("New(seq=1) 123", "line 2: `123` is no hex of an even number of digits"),
            ("New(seq=1) ?", "line 2: `?` is neither a request nor hex"),
        ]:
            status, _, fault = run(f"SHOW\nIN 1 {words}\n")
            self.assertEqual((status, fault), (1, f"frames: {said}\n"))

    def test_comments_and_blank_lines_are_left_out(self):
        text = f"# a day\n\nRAW\n  \nIN 1 {NEW_WORDS}\n# its end\nSHOW\n"
        self.assertEqual(run(text), (0, f"RAW\nIN 1 {NEW}\nSHOW\n", ""))
        status, _, fault = run("# a day\n\nIN 1 Foo()\n")
        self.assertEqual((status, fault), (1, "frames: line 3: the table has no ETI template Foo\n"))

    def test_words(self):
        for words, status, out, fault in [
            (["--help"], 0, "Turns a readable script", ""),
            (["-h"], 0, "Turns a readable script", ""),
            ([str(SAMPLE), "-"], 0, "SHOW\n", ""),
            ([str(SAMPLE), "nowhere/script"], 1, "", "frames: nowhere/script: No such file or directory\n"),
            (["nowhere/table"], 1, "", "frames: nowhere/table: No such file or directory\n"),
            ([str(SAMPLE), "one", "two"], 2, "", "usage: tools/frames TABLE [SCRIPT]\n"),
        ]:
            done = subprocess.run([sys.executable, str(TOOL), *words], input="SHOW\n", capture_output=True, text=True, check=False)
            self.assertEqual((done.returncode, done.stdout[: len(out)], done.stderr), (status, out, fault))

    def test_a_reader_that_goes(self):
        tool = subprocess.Popen([sys.executable, str(TOOL), str(SAMPLE)], stdin=subprocess.PIPE, stdout=subprocess.PIPE, stderr=subprocess.PIPE)
        tool.stdout.close()
        _, fault = tool.communicate(b"SHOW\n" * 100_000)
        self.assertEqual((tool.returncode, fault), (1, b""))


if __name__ == "__main__":
    unittest.main()

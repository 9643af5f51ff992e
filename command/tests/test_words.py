"""A run in words, its memory, other boards; listings with labels; pictures of scans."""
import unittest

from command.listing import target_of
from command.picture import degrees
from command.tests.support import MORE, Case, hitch, sample


class Run(Case):
    """hitch run --words --dump, and boards."""

    def test_words_and_memory(self):
        wrote = sample("example.line").decode() + (
            "R0=0000 R1=0001 R2=0000 R3=0000 R4=0000 R5=0000 SP=000C PC=0092\n"
            "PS=0F00: N=0 Z=0 V=0 C=0; I2=0, interrupts are not heard; jumpers up 3 halt 3\n"
            "mode 0: running\n"
            "1 blank; the first in step 1, at 8000: page 80 is not fitted\n"
            "0000                                0084 4F00\n"
            "0010  0000 0090 0000 0080 0000 0000 0000 0000\n"
        )
        self.ends(0, wrote, "", "run", "--unproved", "--words", "--dump", "0C-1F", "jobs/example.txt")

    def test_what_is_not_fitted_and_what_is_alike(self):
        ended = hitch("run", "--unproved", "--dump", "00E0-FFFF", "jobs/example.txt")
        rows = ended.wrote.decode().splitlines()[1:]
        zeros, blank = " ".join(["0000"] * 8), " ".join(["----"] * 8)
        self.assertEqual(rows, [f"00E0  {zeros}", f"00F0  {zeros}", f"0100  {blank}", "  ..", f"FFF0  {blank}"])

    def test_wrong_stretches(self):
        for word in ("10", "20-10", "0-10000", "G-H", ""):
            self.ends(2, "", f"hitch: '{word}' is no stretch of addresses, as 0080-00FE is{MORE}\n", "run", "--dump", word)

    def test_another_board(self):
        self.ends(0, sample("bootstrap.line"), "", "run", "--unproved", "jobs/bootstrap.txt")
        text = "pages 0\nexternal 40\n"
        said = "hitch: standard input:2:10: 35: a jumper number is over 3, or the External Address Register over 63\n    external 40\n             ^^\n"
        self.ends(1, "REFUSED 35\n", said, "run", "--unproved", stdin=text.encode())
        self.ends(1, "REFUSED 35\n", said, "run", "--unproved", "--words", stdin=text.encode())

    def test_a_write_to_a_read_only_page(self):
        ended = hitch("run", "--unproved", "--words", "jobs/read-only.txt")
        self.assertIn(b"1 blank; the first in step 3, at C002: page C0 can't be written\n", ended.wrote)


class Labels(Case):
    """hitch list --labels, and labels of one file."""

    def test_a_sample(self):
        wrote = (
            "0080 B5C1 0005 MOV #0005,R1                   START:\n"
            "0084 1040 ADD R1,R0                           AGAIN:\n"
            "0086 0C82 INC R2\n"
            "0088 7643 SOB R1,03                           -> 0084 AGAIN, taken until R1 is 0\n"
            "008A 01FF BR FF                               DONE:  -> 008A DONE, always taken\n"
            "008C 0000 .. 00FE: 58 words 0000, NOP\n"
            "0100 ---- .. FFFE: 32,640 words are not fitted\n"
        )
        self.ends(0, wrote, "", "list", "--unproved", "--labels", "jobs/sob.txt", "0080", "FFFE")

    def test_targets(self):
        for line, target in (
            ("0100 01FE BR FE", 0x00FE),
            ("0100 017F BR 7F", 0x0200),
            ("00F0 0203 BNE 03", 0x00F8),
            ("0100 7643 SOB R1,03", 0x00FC),
            ("0100 7387 0010 JSR PC,0010(PC)", 0x0114),
            ("FFFE 0101 BR 01", 0x0002),
            ("0100 ----", None),
            ("0100 0B40 CLR R0", None),
            ("0100 F123 .WORD F123", None),
        ):
            with self.subTest(line):
                self.assertEqual(target_of(line), target)

    def test_words_of_labels(self):
        text = b"pages 0\n0016 = START\n.ORG 0080\nSTART: NOP\nVECTOR: .WORD AFTER\n.WORD START\nAFTER: NOP\n"
        ended = hitch("list", "--unproved", "-", "0080", "0086", stdin=text)
        self.assertEqual(ended.wrote, b"0080 0000 NOP\n0082 0086 SVCB 06\n0084 0080 SVCB 00\n0086 0000 NOP\n")
        said = "hitch: standard input:2:8: 26: no line gives the label NONE\n    0016 = NONE\n           ^^^^\n"
        self.ends(1, "", said, "run", "--unproved", stdin=b"pages 0\n0016 = NONE\nNOP\n")
        said = "hitch: standard input:2:7: 26: no line gives the label NONE\n    .WORD NONE\n          ^^^^\n"
        self.ends(1, "", said, "asm", "--unproved", stdin=b"NOP\n.WORD NONE\n")

    def test_a_word_is_said_once(self):
        said = "hitch: standard input:2:8: an assembler line has a word at 0000 too\n    0000 = 5\n           ^\n"
        self.ends(1, "", said, "run", "--unproved", stdin=b"pages 0\n0000 = 5\nNOP\n")
        said = "hitch: standard input: an assembler line's word at 0100: 17: a word's page is not fitted\n"
        self.ends(1, "REFUSED 17\n", said, "run", "--unproved", stdin=b".ORG 0100\nNOP\n")


class Picture(Case):
    """hitch record --picture."""

    def test_a_sample(self):
        ended = hitch("record", "--unproved", "--picture", "jobs/pulled-card.scans")
        lines = ended.wrote.decode().splitlines()
        self.assertEqual(lines[:18], sample("pulled-card.table").decode().splitlines())
        self.assertEqual(lines[18], "a mark stands for 1 scan: # reading, . no card, + both, x refused")
        self.assertEqual(lines[23], " 4 ####....####  5.9 to 6.1 degrees, average 481/8 tenths, 6.0125 degrees")
        made = hitch("job", "--unproved", "jobs/pulled-card.scans").wrote
        self.assertEqual(hitch("record", "--unproved", "--picture", stdin=made).wrote, ended.wrote)

    def test_refused_and_many_scans(self):
        ended = hitch("record", "--unproved", "--picture", "jobs/refused.scans")
        self.assertIn(b"\n 0 #xxx#  0.1 to 0.3 degrees, average 4/2 tenths, 0.2 degrees\n", ended.wrote)
        many = b"pages 0\n" + (b"scan" + b" 5" * 15 + b" --\n") * 100
        lines = hitch("record", "--unproved", "--picture", stdin=many).wrote.decode().splitlines()
        self.assertEqual(lines[18], "a mark stands for 2 scans: # reading, . no card, + both, x refused")
        self.assertEqual(lines[-1], "15 " + "." * 50 + "  no reading")

    def test_degrees(self):
        for tenths, words in ((0, "0.0"), (-5, "-0.5"), (61, "6.1")):
            self.assertEqual(degrees(tenths), words)


if __name__ == "__main__":
    unittest.main()

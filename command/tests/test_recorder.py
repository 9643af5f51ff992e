"""hitch record: scans as text and as bytes; a scan that is refused, one that is cut off, and lines that are none."""
import unittest

from command.tests.support import Case, hitch, sample

SIXTEEN = " 7" * 16


class Record(Case):
    """The plug recorder."""

    def record(self, text):
        """hitch record of a text."""
        return hitch("record", "--unproved", stdin=text.encode())

    def test_samples(self):
        for name in ("pulled-card", "no-card"):
            self.ends(0, sample(f"{name}.table"), "", "record", "--unproved", f"jobs/{name}.scans")
        made = hitch("job", "--unproved", "jobs/pulled-card.scans").wrote
        self.ends(0, sample("pulled-card.table"), "", "record", "--unproved", "-", stdin=made)
        cut = hitch("record", "--unproved", stdin=made[:-1])
        self.assertEqual((cut.status, cut.wrote.split(b"\n")[0]), (1, b"scan 12: the input ends in it"))

    def test_refused_scans_are_shown(self):
        said = (
            "hitch: jobs/refused.scans:4:20: scan 2: a reading of a channel that has its card is not from -500 to 500 (refusal 33)\n"
            "    scan 1 1 1 1 1 1 1 501 1 1 1 1 1 1 1 1\n                       ^^^\n"
            "hitch: jobs/refused.scans:5:44: scan 3: an unused bit of a line word is set (refusal 5)\n"
            "    scan 3 3 3 3 3 3 3 3 3 3 3 3 3 3 3 3 lines 0004\n    " + " " * 43 + "^^^^\n"
            "hitch: jobs/refused.scans:6:55: scan 4: over 4,096 line words (refusal 4)\n"
            "    scan 5 5 5 5 5 5 5 5 5 5 5 5 5 5 5 5 lines 0000 x4096 0000\n    " + " " * 54 + "^^^^\n"
        )
        self.ends(1, sample("refused.table"), said, "record", "--unproved", "jobs/refused.scans")

    def test_a_refused_job(self):
        said = "hitch: standard input:2:7: 13: a page is not above the one before it\n    pages 10\n          ^^\n"
        text = f"pages 10\npages 10\nscan{SIXTEEN}\n"
        self.ends(1, "the job is refused (refusal 13)\n", said, "record", "--unproved", stdin=text.encode())

    def test_no_scan(self):
        said = "hitch: standard input has no scan: a line as scan 205 -- -37 .. is needed\n"
        self.ends(1, "", said, "record", stdin=b"pages 00\n")

    def test_as_many_as_can_be_counted(self):
        most = " 0000 x4096" * 15
        ended = self.record(f"pages 00\nscan{SIXTEEN} lines{most} 0000 x4095\nscan{SIXTEEN}\n")
        one = self.record(f"pages 00\nscan{SIXTEEN}\n")
        self.assertEqual((ended.status, ended.wrote), (1, b"scan 1: over 4,096 line words (refusal 4)\n" + one.wrote))
        many = "pages 00\n" + f"scan 501{SIXTEEN[2:]}\n" * 65535 + f"scan{SIXTEEN}\n"
        ended = hitch("record", "--unproved", stdin=many.encode())
        self.assertEqual(ended.status, 1)
        self.assertEqual(ended.wrote.split(b"\n")[-20:], [b"scan 65535: a reading of a channel that has its card is not from -500 to 500 (refusal 33)", *one.wrote.split(b"\n")][-20:])

    def test_another_board(self):
        text = "pages 00 FE\njumpers up 0\nexternal 00\nlines 0000\nscan" + SIXTEEN
        ended = self.record(text)
        self.assertEqual((ended.status, ended.wrote.split(b"\n")[-2]), (0, b"processor: mode 4 (locked until it is powered up again), blanks 0"))
        self.ends(1, "the job is refused (refusal 35)\n", "hitch: standard input:1:12: 35: a jumper number is over 3, or the External Address Register over 63\n    jumpers up 4\n               ^\n", "record", "--unproved", stdin=("jumpers up 4\nscan" + SIXTEEN).encode())


if __name__ == "__main__":
    unittest.main()

"""The text of a job: its bytes, and what is said where it is none."""
import unittest

from command import jobs
from command.ends import Stop
from command.tests.support import Case, bytes_of


def at(line, column, words, text, width=1):
    """A message that shows its place."""
    return f"standard input:{line}:{column}: {words}\n    {text}\n    {' ' * (column - 1)}{'^' * width}"


class Bytes(Case):
    """The bytes of small texts."""

    def is_hex(self, text, digits):
        """Holds a text's bytes to hex digits."""
        with self.subTest(text):
            self.assertEqual(bytes_of(text), bytes.fromhex(digits))

    def test_ranges_repeats_and_comments(self):
        job = "0400 00101112 0200 80000100 82000200 0400 0000 0000 0000 0801"
        self.is_hex("pages 00 10-12 # four\n0080=0001 0002 ; two\nlines 0000 x3 0108\n", job)
        self.is_hex("  \tpages 00 10-12;four\n0080 = 0001 0002#two\n\n\t# none\n;none\nlines 0000 x3 0108", job)

    def test_read_only_pages(self):
        self.is_hex("pages 4-6", "0300 040506 0000 0000")
        self.is_hex("pages 4-6\nread-only", "0300 040506 0000 0000 0000")
        self.is_hex("read-only 5\npages 4-6\nread-only 6\nbytes 7", "0300 040506 0000 0000 0200 0506 07")

    def test_the_order_of_the_format_whatever_the_text_has(self):
        self.assertEqual(bytes_of("lines 1\n2=3\npages 4"), bytes_of("pages 4\n2=3\nlines 1"))
        self.is_hex("pages 2 1", "0200 0201 0000 0000")

    def test_bytes_and_cut(self):
        self.is_hex("bytes 00 FF", "0000 0000 0000 00FF")
        self.is_hex("lines 1234\ncut 1", "0000 0000 0100 34")
        self.is_hex("pages 07\ncut 7", "")
        self.is_hex("cut 2\ncut 3\npages 07", "0100")

    def test_addresses_go_round(self):
        self.is_hex("FFFE = 1 2", "0000 0200 FEFF0100 00000200 0000")

    def test_one_rule_for_line_ends_and_marks(self):
        job = bytes.fromhex("0100 07 0000 0100 0100")
        for end in ("\n", "\r\n", "\r"):
            text = end.join(("pages 07", "lines 1", ""))
            for data in (text.encode(), b"\xef\xbb\xbf" + text.encode(), b"\xff\xfe" + text.encode("utf-16-le"), b"\xfe\xff" + text.encode("utf-16-be")):
                with self.subTest(data):
                    self.assertEqual(bytes_of(data), job)

    def test_a_patch_goes_in_by_address(self):
        patch = [(0x80, 0xA), (0x84, 0xB)]
        for text, same in (
            ("pages 0", "pages 0\n80 = A\n84 = B"),
            ("16 = 80", "16 = 80\n80 = A\n84 = B"),
            ("16 = 80\n82 = 2\n90 = 3", "16 = 80\n80 = A 2 B\n90 = 3"),
            ("80 = 1 2 3 4", "80 = A 2 B 4"),
            ("7E = 1 2", "7E = 1 A\n84 = B"),
        ):
            with self.subTest(text):
                self.assertEqual(bytes_of(text, patch), bytes_of(same))

    def test_a_patch_leaves_refused_what_was(self):
        for text, patch, same in (
            ("82 = 1\n80 = 2", [(0x80, 0xA)], "82 = 1\n80 = A"),
            ("80 = 1\n80 = 2", [(0x80, 0xA)], "80 = A\n80 = A"),
            ("90 = 1\n80 = 2", [(0x82, 0xA)], "82 = A\n90 = 1\n80 = 2"),
        ):
            with self.subTest(text):
                self.assertEqual(bytes_of(text, patch), bytes_of(same))

    def test_as_many_as_a_count_can_say(self):
        self.assertEqual(bytes_of("lines 0000 x4096")[4:], bytes.fromhex("0010") + bytes(2 * 4096))
        most = bytes_of("lines 0000 x4096\n" * 15 + "lines 0000 x4095\n")
        self.assertEqual(most[4:], bytes.fromhex("FFFF") + bytes(2 * 65535))

    def test_the_board(self):
        def board(text):
            return jobs.from_text("-", text.encode(), None, None).board()

        self.assertEqual(board("pages 0"), (1, 3, 3, 0))
        self.assertEqual(board("microm no\njumpers up 1 halt 2\nexternal 2F"), (0, 1, 2, 0x2F))
        self.assertEqual(board("jumpers halt 0\nmicrom yes"), (1, 3, 0, 0))


class Refused(Case):
    """What is no text of a job: the place, and the words that it is refused with."""

    def test_no_line_of_a_job(self):
        need = "an address, =, and words are needed"
        self.refused("0080 =", at(1, 6, need, "0080 ="))
        self.refused("0016 0080", at(1, 6, need, "0016 0080", 4))
        self.refused("1 2 = 3", at(1, 3, need, "1 2 = 3"))
        self.refused("# a comment\n\npages 00 # more\n\t= 1", at(4, 2, "an address is needed before =", " = 1"))
        self.refused("X = 1", at(1, 1, "'X' is not a hex number, 0 to FFFF", "X = 1"))

    def test_numbers(self):
        self.refused("pages 100", at(1, 7, "'100' is over FF", "pages 100", 3))
        self.refused("10000 = 0", at(1, 1, "'10000' is over FFFF", "10000 = 0", 5))
        for word in ("G", "+1", "-1", "1_0", "0x10", "\u0661", "\uff11", "\xb2"):
            self.refused(f"lines {word}", at(1, 7, f"'{word}' is not a hex number, 0 to FFFF", f"lines {word}", len(word)))
        self.refused("bytes 1\xa02", at(1, 7, "'1\xa02' is not a hex number, 0 to FF", "bytes 1?2", 3))

    def test_ranges(self):
        self.refused("pages 00\npages 1F-10", at(2, 7, "'1F-10' is a falling range", "pages 1F-10", 5))
        self.refused("pages 10-100", at(1, 7, "'100' is over FF", "pages 10-100", 6))
        for word in ("10-", "-10", "-"):
            self.refused(f"read-only {word}", at(1, 11, f"'{word}' is no range, as 10-1F is", f"read-only {word}", len(word)))

    def test_repeats(self):
        self.refused("lines 0000 x0", at(1, 12, "'x0' repeats nothing: a line word stands before it", "lines 0000 x0", 2))
        self.refused("lines 0000\nlines x3", at(2, 7, "'x3' repeats nothing: a line word stands before it", "lines x3", 2))
        for word in ("x4097", "x65536", "x9999999999"):
            self.refused(f"lines 0000 {word}", at(1, 12, f"'{word}' repeats more than 4096 times", f"lines 0000 {word}", len(word)))
        self.refused("lines 0000 x0A", at(1, 12, "'0A' is not a count: decimal digits are needed", "lines 0000 x0A", 3))

    def test_counts_that_wrap(self):
        words = "more than 65535 entries in a section"
        self.refused("lines 0000 x4096\n" * 17, at(16, 1, words, "lines 0000 x4096", 5))
        self.refused("pages 00-FF\n" * 257, at(256, 1, words, "pages 00-FF", 5))
        long = "lines" + " 0000" * 40 + " G" + " 0000" * 40
        self.refused(long, at(1, 207, "'G' is not a hex number, 0 to FFFF", long[156:256]).replace(" " * 206, " " * 50))

    def test_cuts(self):
        self.refused("cut 7", at(1, 5, "a cut past the end: 6 bytes are left", "cut 7"))
        self.refused("cut 4\ncut 3\n", at(2, 5, "a cut past the end: 2 bytes are left", "cut 3"))
        self.refused("cut", at(1, 1, "cut, and one count", "cut", 3))
        self.refused("cut A", at(1, 5, "'A' is not a count: decimal digits are needed", "cut A"))

    def test_boards(self):
        self.refused("microm", at(1, 1, "microm yes, or microm no", "microm", 6))
        self.refused("jumpers up", at(1, 9, "jumpers up N, halt N, or both, N from 0 to 3", "jumpers up", 2))
        self.refused("jumpers 1 2", at(1, 11, "jumpers up N, halt N, or both, N from 0 to 3", "jumpers 1 2"))
        self.refused("external", at(1, 1, "external, and one hex number, 0 to 3F", "external", 8))
        self.refused("external 1\nexternal 2", at(2, 10, "this setting of the board is given twice", "external 2"))

    def test_scans(self):
        sixteen = "scan" + " 0" * 16
        self.refused("pages 0\nscan 1 2", at(2, 8, "a scan has 16 channels; here are 2", "scan 1 2"))
        self.refused(sixteen + " 7", at(1, 38, "a scan has 16 channels; here are 17", sixteen + " 7"))
        self.refused("scan 1.5" + " 0" * 15, at(1, 6, "'1.5' is no reading and not --: tenths of a degree are needed, as -37", "scan 1.5" + " 0" * 15, 3))
        self.refused("scan 32768" + " 0" * 15, at(1, 6, "'32768' is not from -32767 to 32767", "scan 32768" + " 0" * 15, 5))

    def test_bytes_that_are_no_text(self):
        self.refused(b"pages 00\n# \xe9t\xe9\n", at(2, 3, "no text: byte E9 is not UTF-8", "# "))
        self.refused(b"\xff\xfep\0\0\xd8", at(1, 2, "no text: byte 00 is not UTF-16", "p"))
        self.refused(b"pages 00\r\n\r\n# \xc3", at(3, 3, "no text: byte C3 is not UTF-8", "# "))

    def test_a_text_that_says_nothing(self):
        for text in (b"\n", b" \t\r\n", b"# only a comment\n; and one more", b"\xef\xbb\xbf"):
            with self.subTest(text), self.assertRaises(Stop) as why:
                bytes_of(text)
            self.assertEqual((why.exception.status, why.exception.words), (1, "standard input is no job: none of its lines says anything"))

    def test_control_characters_are_not_shown(self):
        self.refused("pages \x1b[2J", at(1, 7, "'\x1b[2J' is not a hex number, 0 to FF", "pages ?[2J", 4))


if __name__ == "__main__":
    unittest.main()

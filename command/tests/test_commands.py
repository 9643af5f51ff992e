"""hitch run, job, list, text and record with good and bad input."""
import os
import unittest

from command.tests.support import MORE, ROOT, Case, hitch, sample

EXAMPLE = sample("example.line")
PAGE_17 = "17: a word's page is not fitted"


def shown(where, words, line, column, width=1):
    """What hitch says of a place."""
    return f"hitch: {where}:{column}: {words}\n    {line}\n    {' ' * (column - 1)}{'^' * width}\n"


class Run(Case):
    """A job as text and as bytes, from a file and from standard input."""

    def setUp(self):
        super().setUp()
        self.job = self.file("example.job", hitch("job", "--unproved", "jobs/example.txt").wrote)

    def test_text_and_bytes(self):
        for name in ("jobs/example.txt", self.job):
            with open(os.path.join(ROOT, name), "rb") as file:
                data = file.read()
            for words, stdin in (([name], b""), (["--", name], b""), ([], data), (["-"], data)):
                self.ends(0, EXAMPLE, "", "run", "--unproved", *words, stdin=stdin)
        self.ends(0, EXAMPLE, "", "run", "jobs/example.txt", "--unproved")

    def test_other_folders_odd_names_and_a_link(self):
        odd = self.file("-odd name", sample("example.txt"))
        source = self.file("source:x", sample("example.txt"))
        os.symlink(os.path.join(ROOT, "hitch"), os.path.join(self.folder, "linked"))
        self.ends(0, EXAMPLE, "", "run", "--unproved", "example.job", cwd=self.folder)
        self.ends(0, EXAMPLE, "", "run", "--unproved", "--", os.path.basename(odd), cwd=self.folder)
        self.ends(0, EXAMPLE, "", "run", "--unproved", os.path.basename(source), cwd=self.folder)

    def test_refused_by_number_with_the_place(self):
        page = shown("jobs/refused.txt:5", PAGE_17, "0100 = 0001", 8, 4)
        self.ends(1, "REFUSED 17\n", page, "run", "--unproved", "jobs/refused.txt")
        for number, words, text, line, column, width in (
            (13, "a page is not above the one before it", "pages 01 00", 1, 10, 2),
            (14, "over 4,096 words", "0000 =" + " 0" * 4096 + "\n2000 = 5\npages 0-2F", 2, 8, 1),
            (15, "a word's address is odd", "pages 00\n0001 = 0", 2, 8, 1),
            (16, "a word's address is not above the one before it", "pages 00\n0002 = 0\n0000 = 0", 3, 8, 1),
            (18, "over 4,096 line words", "lines 0000 x4096\nlines 0000", 2, 7, 4),
            (19, "an unused bit of a line word is set", "lines 0000 8000", 1, 12, 4),
            (20, "bytes are left over after the job", "read-only\nbytes 00", 2, 7, 2),
            (22, "a read-only page is not above the one before it, or is not fitted", "read-only 00", 1, 11, 2),
        ):
            name = self.file("refused.txt", text)
            said = shown(f"{name}:{line}", f"{number}: {words}", text.split("\n")[line - 1], column, width)
            self.ends(1, f"REFUSED {number}\n", said, "run", "--unproved", name)

    def test_refused_bytes_tell_the_entry(self):
        ends = "11: the job ends inside a count or an entry"
        for data, number, words in (
            (b"", 11, f"byte 0, the count of pages: {ends}"),
            (b"\1\0", 11, f"byte 2, page 1: {ends}"),
            (b"\1\0\0\1\0\0", 11, f"byte 5, word 1: {ends}"),
            (b"pages\0", 12, "byte 0, the count of pages: 12: over 256 pages"),
            (b"\2\0\1\0\0\0\0\0", 13, "byte 3, page 2: 13: a page is not above the one before it"),
            (b"\0\0\1\0\0\1\1\0\0\0", 17, "byte 4, word 1: 17: a word's page is not fitted"),
            (bytes(8) + b"x", 20, "byte 8: 20: bytes are left over after the job"),
        ):
            name = self.file("refused.job", data)
            self.ends(1, f"REFUSED {number}\n", f"hitch: {name}: {words}\n", "run", "--unproved", name)

    def test_no_job(self):
        said = "hitch: no job on standard input\n"
        self.ends(1, "", said, "run", "--unproved")
        empty = "hitch: /dev/null: byte 0, the count of pages: 11: the job ends inside a count or an entry\n"
        self.ends(1, "REFUSED 11\n", empty, "run", "--unproved", "/dev/null")
        name = self.file("blank.txt", "\n")
        self.ends(1, "", f"hitch: {name} is no job: none of its lines says anything\n", "run", "--unproved", name)

    def test_refused_in_words_before_anything_is_built(self):
        name = self.file("falling.txt", "pages 00\npages 1F-10\n")
        self.ends(1, "", shown(f"{name}:2", "'1F-10' is a falling range", "pages 1F-10", 7, 5), "run", name)
        scan = sample("no-card.scans").decode().split("\n")[2]
        self.ends(1, "", shown("jobs/no-card.scans:3", "scans are for hitch record", scan, 1, 4), "run", "jobs/no-card.scans")

    def test_bytes_of_a_job(self):
        example = "0100 00 0600 12009000 16008000 8000BF09 8200C0B7 84000080 9000810C 0300 0000 0000 0000"
        self.ends(0, bytes.fromhex(example), "", "job", "--unproved", "jobs/example.txt")
        name = self.file("board.txt", "pages 0\nmicrom no\n")
        self.ends(1, "", shown(f"{name}:2", "a job's bytes is of bench's board; another is for run, trace and record", "microm no", 8, 2), "job", name)


class WrongUse(Case):
    """What hitch has not."""

    def test_wrong_use(self):
        for words, said in (
            (["fly"], "there is no command fly"),
            (["run", "--proved", "jobs/example.txt"], "there is no option --proved here"),
            (["run", "-u"], "there is no option -u here"),
            (["run", "a", "b"], "one file at a time"),
            (["run", "no such.txt"], "there is no file 'no such.txt'"),
            (["run", "jobs"], "'jobs' is a folder, not a file"),
            (["run", ""], "there is no file ''"),
            (["run", "a\x1bb"], "there is no file 'a?b'"),
            (["run", "jobs/sob.txt", "--asm"], "--asm, and a source's file"),
            (["run", "--asm", "x", "--asm", "y"], "--asm is given twice"),
            (["run", "--asm", "no.asm", "jobs/sob.txt"], "there is no file 'no.asm'"),
            (["run", "--asm", "jobs", "jobs/sob.txt"], "'jobs' is a folder, not a file"),
            (["run", "--asm", "-"], "one of the job and its source is standard input, not both"),
            (["asm", "--asm", "x"], "there is no option --asm here"),
            (["text", "--asm", "x"], "there is no option --asm here"),
            (["list", "jobs/example.txt", "0080"], "list takes a job, a first and a last address"),
            (["list", "jobs/example.txt", "0080", "0082", "0084"], "one job, a first and a last address"),
            (["list", "jobs/example.txt", "00G0", "0082"], "'00G0' is no address: one to four hex digits"),
            (["list", "jobs/example.txt", "0", "10000"], "'10000' is no address: one to four hex digits"),
            (["check-trace", "jobs/example.txt"], "a job and a trace are needed"),
            (["check-trace", "a", "b", "c"], "one job and one trace at a time"),
            (["check-trace", "jobs/example.txt", "no.trace"], "there is no file 'no.trace'"),
            (["make-trace", "a", "b"], "one file at a time"),
        ):
            self.ends(2, "", f"hitch: {said}{MORE}\n", *words)

    def test_help_and_version(self):
        help_ = hitch("help")
        self.assertIn(b"hitch run [--unproved] [--asm SOURCE]", help_.wrote)
        self.ends(2, "", help_.wrote.decode())
        for words in (["-h"], ["--help"], ["run", "--help"]):
            self.ends(0, help_.wrote, "", *words)
        with open(os.path.join(ROOT, "VERSION"), encoding="utf-8") as version:
            self.ends(0, f"hitch {version.read().strip()}\n", "", "version")

    @unittest.skipIf(os.geteuid() == 0, "root reads every file")
    def test_a_file_that_cannot_be_read(self):
        name = self.file("shut.txt", "pages 0\n")
        os.chmod(name, 0)
        self.ends(2, "", f"hitch: '{name}' cannot be read: Permission denied{MORE}\n", "run", name)
        self.ends(2, "", f"hitch: '{name}' cannot be read: Permission denied{MORE}\n", "run", "--asm", name, "jobs/sob.txt")


class Text(Case):
    """The text of op codes: one answer for a line."""

    def test_good_and_bad_lines(self):
        self.ends(0, "15C0 0005\nMBWU R1,R2\n", "", "text", "--unproved", stdin=b"ADD #0005,R0\n0E0A\n")
        self.ends(1, "MOV  R0\n    ^ bad operand (refusal 30 at column 4)\n", "", "text", "--unproved", stdin=b"MOV  R0\n")
        self.ends(1, "15C0\n    ^ a next word is missing (refusal 7 at column 4)\n", "", "text", "--unproved", stdin=b"15C0\n")
        self.ends(1, "B001 0000\n     ^ the op code has no more words\n", "", "text", "--unproved", stdin=b"B001 0000")
        self.ends(1, "0000 0000 0000\n     ^ the op code has no more words\n", "", "text", "--unproved", stdin=b"0000 0000 0000")
        self.ends(0, "", "", "text", "--unproved", stdin=b"")

    def test_one_rule_for_texts(self):
        for data in (b"NOP\r\nNOP\r\n", b"NOP\rNOP", b"\xef\xbb\xbfNOP\nNOP", b"\xff\xfe" + "NOP\nNOP\n".encode("utf-16-le")):
            self.ends(0, "0000\n0000\n", "", "text", "--unproved", stdin=data)
        self.ends(1, "", "hitch: standard input:1:4: no text: a byte is 00\n    NOP\n       ^\n", "text", "--unproved", stdin=b"NOP\0\n")

    def test_control_bytes_are_not_echoed(self):
        self.ends(1, "MOV ?[2J\n    ^ bad operand (refusal 30 at column 4)\n", "", "text", "--unproved", stdin=b"MOV \x1b[2J\n")

    def test_the_longest_input_and_one_byte_more(self):
        full = b"NOP\n" * 16384
        self.ends(0, "0000\n" * 16384, "", "text", "--unproved", stdin=full)
        self.ends(1, "", "hitch: standard input is longer than 65,536 bytes\n", "text", stdin=full + b"\n")


class List(Case):
    """A listing, by two addresses."""

    def test_a_sample(self):
        listed = sample("card-pulled.0080-0092.list")
        self.ends(0, listed, "", "list", "--unproved", "jobs/card-pulled.txt", "0080", "0092")
        self.ends(0, listed, "", "list", "--unproved", "-", "80", "92", stdin=sample("card-pulled.txt"))
        self.ends(0, "0082 B7C0 .WORD B7C0\n", "", "list", "--unproved", "jobs/example.txt", "0082", "0082")
        self.ends(0, "FFFC ----\nFFFE ----\n", "", "list", "--unproved", "jobs/example.txt", "fffc", "FFFE")
        whole = hitch("list", "--unproved", "jobs/example.txt", "0", "FFFE").wrote.split(b"\n")
        self.assertEqual((whole[-2], len(whole)), (b"FFFE ----", 32768))

    def test_refused(self):
        said = "hitch: 23: an address of the listing is odd, or the last is below the first\n"
        for first, last in (("0081", "0090"), ("0080", "0091"), ("0082", "0080")):
            self.ends(1, "REFUSED 23\n", said, "list", "--unproved", "jobs/example.txt", first, last)
        page = shown("jobs/refused.txt:5", PAGE_17, "0100 = 0001", 8, 4)
        self.ends(1, "REFUSED 17\n", page, "list", "--unproved", "jobs/refused.txt", "0082", "0080")


if __name__ == "__main__":
    unittest.main()

"""The assembler's lines, in a source of their own and in a job: sections, and what is refused, with its place."""
import os
import re
import unittest

from command.mnemonics import MNEMONICS
from command.programs import Programs
from command.reading import lines_of
from command.sections import section_words
from command.source import Source
from command.tests.support import ROOT, Case, hitch, sample

SECTION = bytes.fromhex("0200 8000C0B5 82000500")


class Section(Case):
    """hitch asm, and a job of its words."""

    def test_one_rule_for_texts(self):
        text = ".ORG 0080\n\n  MOV \t#0005,R0 # five\n; a comment\n# and one\n"
        for data in (text.encode(), text.replace("\n", "\r\n").encode(), text.replace("\n", "\r").encode(), text.rstrip().encode(), b"\xef\xbb\xbf" + text.encode(), b"\xff\xfe" + text.encode("utf-16-le")):
            self.ends(0, SECTION, "", "asm", "--unproved", stdin=data)
        self.ends(0, bytes(2), "", "asm", "--unproved", stdin=b"")

    def test_a_patch_goes_into_a_job_by_address(self):
        line = "0005 0005 0001 0000 0000 0000 0000 0088 0F00 0 0000 ---- ----\n"
        self.ends(0, line, "", "run", "--unproved", "--asm", self.file("patch.asm", sample("patch.asm")), "jobs/example.txt")
        job = self.file("vector.txt", "pages 00\n0016 = 0080\n0090 = 0000\nlines 0000\n")
        patch = self.file("patch.asm", ".ORG 0080\nMOV #0005,R0\n")
        line = "0005 0000 0000 0000 0000 0000 0000 0084 0F00 0 0000 ---- ----\n"
        self.ends(0, line, "", "run", "--unproved", "--asm", patch, job)
        made = self.file("example.job", hitch("job", "--unproved", "jobs/example.txt").wrote)
        self.ends(2, "", "hitch: with --asm the job must be text; hitch help tells more\n", "run", "--asm", patch, made)

    def test_as_many_lines_as_there_may_be(self):
        self.ends(0, bytes(2), "", "asm", "--unproved", stdin=b"\n" * 5000)
        most = b"".join(b".ORG %04X\n" % (2 * k) for k in range(1024))
        self.ends(0, bytes(2), "", "asm", "--unproved", stdin=most)
        said = "hitch: standard input:1025:1: 36: a source has 1,024 lines at most\n    NOP\n    ^\n"
        self.ends(1, "", said, "asm", "--unproved", stdin=most + b"NOP\n")

    def test_a_listing_is_assembled_to_the_words_that_it_shows(self):
        lines = [line.split() for line in sample("card-pulled.0080-0092.list").decode().splitlines()]
        source, words = [], b""
        for line, after in zip(lines, [*lines[1:], ["0094"]]):
            address = int(line[0], 16)
            taken = (int(after[0], 16) - address) // 2
            source += [f".ORG {line[0]}", " ".join(line[1 + taken :])]
            words += b"".join((address + 2 * k).to_bytes(2, "little") + int(word, 16).to_bytes(2, "little") for k, word in enumerate(line[1 : 1 + taken]))
        section = (len(words) // 4).to_bytes(2, "little") + words
        self.ends(0, section, "", "asm", "--unproved", stdin="\n".join(source).encode())


class Refused(Case):
    """A refused source writes nothing, and each fault has a place and says what is needed."""

    def place(self, source, line, column, words, width=1):
        """Holds a source to its message."""
        text = source.split("\n")[line - 1]
        said = f"hitch: standard input:{line}:{column}: {words}\n    {text}\n    {' ' * (column - 1)}{'^' * width}\n"
        self.ends(1, "", said, "asm", "--unproved", stdin=source.encode())

    def test_unknown_text(self):
        operands = "@R1, (R1)+, @(R1)+, -(R1), @-(R1), 1234(R1), @1234(R1), #1234, @#1234 or a label"
        self.place("NOP\nLOOP: NOPE\n", 2, 10, "24 (31): the text is whole before this; a comment begins with ; or with # between blanks")
        self.place("MVO R0,R1", 1, 2, "24 (9): MVO is no mnemonic; MOV is one")
        self.place("MOV #7,R0", 1, 7, "24 (30): four hex digits are needed: #0007")
        self.place("MOV 7(R1),R0", 1, 6, "24 (30): four hex digits are needed: 0007(R1)")
        self.place("MOV R0, R1", 1, 8, "24 (30): no blank stands here")
        self.place("MOV R0,r1", 1, 8, "24 (30): letters are upper case")
        self.place("MOV R0", 1, 7, "24 (32): the line ends too early: something is missing after it")
        self.place("NOP #comment", 1, 4, "24 (31): the text is whole before this; a comment begins with ; or with # between blanks")
        self.place("JMP R9", 1, 5, f"24 (30): an operand is needed, {operands}")
        self.place("MOV R9,R1", 1, 6, f"24 (30): an operand is needed, R1, {operands}")
        self.place("SOB R1,4", 1, 8, "24 (30): two hex digits are needed: 04")
        self.place("SOB R1,40", 1, 8, "24 (30): two hex digits are needed, 00 to 3F, or a label")
        self.place("BR 4", 1, 5, "24 (32): two hex digits are needed: 04")
        self.place("ADDI 11,R1", 1, 7, "24 (30): two hex digits are needed, 01 to 10")
        self.place("LCC R1", 1, 5, "24 (30): a hex digit is needed, 0 to F")
        self.place("IAK R9", 1, 6, "24 (30): a register is needed, R0 to R5, SP or PC")
        self.place(".WORD 7", 1, 7, "24: four hex digits are needed: .WORD 0007")
        self.place(".ORG", 1, 5, "24: four hex digits are needed: .ORG 0080")
        self.place(".BYTE 7", 1, 1, "24: .WORD and .ORG begin with a dot, and nothing else", 5)

    def test_labels(self):
        label = "24: a label is one to six capitals, no hex number, not SP or PC"
        self.place("A: NOP", 1, 1, label, 2)
        self.place("SP: NOP", 1, 1, label, 3)
        self.place("TOOLONG: NOP", 1, 1, label, 8)
        self.place("X: NOP\n\nX:\n", 3, 1, "25: the label X is already given at standard input:1:1")
        self.place("JMP @X", 1, 6, "26: no line gives the label X")
        self.place("SOB R1,X\nNOP\nX: NOP", 1, 8, "27: out of reach: a branch goes 128 words back to 127 ahead, SOB 0 to 63 back: X")

    def test_places(self):
        words = "28: an odd origin, or words that overlap an earlier line's or run past FFFF"
        self.place("NOP\n  .ORG 0081", 2, 3, words, 9)
        self.place("NOP\n.ORG 0000\nLOOP: NOP", 3, 7, words, 3)

    def test_long_lines_and_other_characters(self):
        self.place("NOP\n" + "0" * 33, 2, 33, "a line has 32 characters at most without its comment; here are 33")
        self.place("MOV #0005,R0 ; " + "x" * 60 + "\nMÖV", 2, 2, "a source has letters, digits and signs of ASCII alone")

    def test_a_refused_source_beside_a_job(self):
        patch = self.file("patch.asm", "NOP\nNOPE\n")
        said = f"hitch: {patch}:2:4: 24 (31): the text is whole before this; a comment begins with ; or with # between blanks\n    NOPE\n       ^\n"
        self.ends(1, "", said, "run", "--unproved", "--asm", patch, "jobs/example.txt")


class Labels(Case):
    """The values of labels are those that the assembler tells."""

    def test_values(self):
        text = b"X: NOP\n.ORG 0100\nBR FF\nLONG: .WORD 0000\nLABELS: NOP\n"
        values = Source(lines_of(text, "-"), Programs(proved=False), None).values({"LABELS", "LONG", "X", "NONE"})
        self.assertEqual(values, {"X": 0, "LONG": 0x0102, "LABELS": 0x0104})

    def test_words_to_the_end(self):
        text = b".ORG FFF8\nSTART: .WORD START\n.WORD LAST\n.WORD 0000\nLAST: .WORD START\n"
        words = section_words(hitch("asm", "--unproved", stdin=text).wrote)
        self.assertEqual(words, [(0xFFF8, 0xFFF8), (0xFFFA, 0xFFFE), (0xFFFC, 0), (0xFFFE, 0xFFF8)])


class Mnemonics(unittest.TestCase):
    """The mnemonics are those of the text."""

    def test_the_table_of_the_text(self):
        with open(os.path.join(ROOT, "crates/optext/specs/Rows.antt"), encoding="utf-8") as rows:
            runs = re.findall(r"rows_from 0x.*? \((.*) ∷ \[\]\)", rows.read())
        names = [name for run in runs for name in re.findall(r'"([.\w]+)"', run)]
        self.assertEqual(MNEMONICS, [name for name in names if name != ".WORD"])


if __name__ == "__main__":
    unittest.main()

"""hitch trace: a job step by step."""
import glob
import os
import time
import unittest

from command import jobs
from command.options import asked
from command.programs import Programs
from command.running import End
from command.showing import REGISTERS
from command.stepping import HEADER, NOTHING, Step
from command.tests.support import MORE, ROOT, Case, hitch, sample

EXAMPLE = [
    "   0 0000  0080 09BF           MOVI 10,SP               SP=0010 PC=0082",
    "   1 0000  0082 B7C0 8000      MOV @#8000,R0            SP=000C PC=0090 000E:=4F00 000C:=0084 a bus error in an op code: 8000, page 80 is not fitted",
    "   2 0000  0090 0C81           INC R1                   R1=0001 PC=0092",
]


def lines(*steps):
    """The header and the lines of steps."""
    return "".join(f"{line}\n" for line in [HEADER, *steps])


class Trace(Case):
    """The lines of a job's steps."""

    def test_a_sample(self):
        self.ends(0, lines(*EXAMPLE), "", "trace", "--unproved", "jobs/example.txt")
        self.ends(0, lines(*EXAMPLE), "", "trace", "--unproved", stdin=sample("example.txt"))
        made = hitch("job", "--unproved", "jobs/example.txt").wrote
        self.ends(0, lines(*EXAMPLE), "", "trace", "--unproved", "-", stdin=made)

    def test_the_page_shows_the_sample(self):
        with open(os.path.join(ROOT, "docs", "BENCH.md"), encoding="utf-8") as page:
            self.assertIn("".join(f"    {line}\n" for line in [HEADER, *EXAMPLE]), page.read())

    def test_steps_and_blanks(self):
        self.ends(0, lines(*EXAMPLE[1:]), "", "trace", "--unproved", "jobs/example.txt", "1-2")
        self.ends(0, lines(EXAMPLE[2]), "", "trace", "--unproved", "jobs/example.txt", "2")
        self.ends(0, lines(EXAMPLE[1]), "", "trace", "--unproved", "jobs/example.txt", "--blanks")
        self.ends(0, lines("no step of these met a blank"), "", "trace", "--unproved", "--blanks", "jobs/example.txt", "2-9")
        self.ends(0, lines("no step"), "", "trace", "--unproved", "jobs/example.txt", "3-9")

    def test_a_board_a_save_and_a_wait(self):
        wrote = hitch("trace", "--unproved", "jobs/bootstrap.txt", "5-6").wrote.decode().splitlines()[1:]
        blank = " " * 45
        self.assertEqual(wrote[0].split("; ")[0], f"   5 0008  {blank}mode 5: saved until the halt switch is let go")
        self.assertTrue(wrote[0].endswith(" 000C:=0010 000E:=EF04 0010:=0400 the halt option, or the end of its save"), wrote[0])
        self.assertEqual(wrote[1], f"   6 0008  {blank}nothing: waiting, halted or saved")

    def test_a_read_only_page_indicators_and_a_byte(self):
        wrote = hitch("trace", "--unproved", "jobs/read-only.txt", "1-3").wrote.decode().splitlines()[1:]
        self.assertTrue(wrote[0].endswith(" R2=C000 PC=0086 PS=0F08 N---"), wrote[0])
        self.assertTrue(wrote[2].endswith(" a bus error in an op code: C002, page C0 can't be written"), wrote[2])
        text = b"pages 0\n0016 = 0080\n.ORG 0080\nMOVB #0000,@#0101\nlines 0000\n".replace(b"0101", b"00F1")
        self.assertIn(b" 00F0:=", hitch("trace", "--unproved", stdin=text).wrote)

    def test_pc_where_nothing_is_fitted_locks(self):
        wrote = hitch("trace", "--unproved", "--blanks", stdin=b"pages 1\nlines 0000 x2\n").wrote.decode().splitlines()[1:]
        self.assertEqual(wrote, ["no step of these met a blank"])
        wrote = hitch("trace", "--unproved", stdin=b"pages 0\n0012 = 0090\n0016 = 0180\nlines 0000 x2\n").wrote.decode().splitlines()[1:]
        self.assertTrue(wrote[0].startswith("   0 0000  0180 ----"), wrote[0])
        self.assertTrue(wrote[0].endswith("locked, now or before: 0180, page 01 is not fitted"), wrote[0])

    def test_the_last_that_is_told_is_what_the_run_leaves(self):
        programs = Programs(proved=False)
        for path in sorted(glob.glob(os.path.join(ROOT, "jobs", "*.txt"))):
            job = jobs.given(asked([path]), programs)
            data = bytes(job.board()) + job.data
            answer = programs.run("steps", data)[0].decode("ascii")
            end = End(programs.run("afterrun", data)[0])
            told, written = {}, {}
            for step in [Step(line) for line in answer.splitlines() if "\t" in line]:
                told.update((name, value) for name, value in step.changed.items() if value != NOTHING)
                written.update((int(address, 16), int(word, 16)) for address, word in step.written)
            left = dict(zip((*REGISTERS, "PS", "mode"), end.line.decode("ascii").split(" ")))
            with self.subTest(os.path.basename(path)):
                self.assertEqual(told, {name: left[name].rjust(4, "0") for name in told})
                self.assertEqual(written, {address: end.word(address) for address in written})

    def test_refused_and_wrong_use(self):
        said = "hitch: jobs/refused.txt:5:8: 17: a word's page is not fitted\n    0100 = 0001\n           ^^^^\n"
        self.ends(1, "REFUSED 17\n", said, "trace", "--unproved", "jobs/refused.txt")
        self.ends(2, "", f"hitch: '2-1' is no stretch of steps, as 0-99 is{MORE}\n", "trace", "jobs/example.txt", "2-1")
        self.ends(2, "", f"hitch: 'x' is no stretch of steps, as 0-99 is{MORE}\n", "trace", "jobs/example.txt", "x")
        self.ends(2, "", f"hitch: one job, and the first and the last step{MORE}\n", "trace", "a", "1-2", "b")
        self.ends(2, "", f"hitch: there is no file 'no.txt'{MORE}\n", "trace", "no.txt")

    def test_4096_steps_are_told_well_under_a_second(self):
        job = hitch("job", "--unproved", stdin=b"pages 0\n0016 = 0080\n.ORG 0080\nMOV R0,-(SP)\nINC R0\nBR FD\nlines 0000 x4096\n").wrote
        hitch("trace", "--unproved", "-", stdin=job)
        begun = time.monotonic()
        ended = hitch("trace", "--unproved", "-", stdin=job)
        took = time.monotonic() - begun
        self.assertEqual(len(ended.wrote.splitlines()), 4097)
        self.assertLess(took, 5, "even on a busy machine")

    def test_words_and_texts_are_told_apart(self):
        rest = "\t0000 0000 " + "---- " * 10 + "0000 ---- ---- "
        for code, parts in (
            ("0100 0AC0 DECB R0", ["0100", "0AC0", "DECB R0"]),
            ("0100 0000 NOP", ["0100", "0000", "NOP"]),
            ("0100 B5C0 DECB MOV #DECB,R0", ["0100", "B5C0 DECB", "MOV #DECB,R0"]),
            ("0100 B7DF 0102 0104 MOV @#0102,@#0104", ["0100", "B7DF 0102 0104", "MOV @#0102,@#0104"]),
            ("0100 ----", ["0100", "----", ""]),
            ("", ["", "", ""]),
        ):
            with self.subTest(code):
                self.assertEqual(Step(code + rest).at(), parts)


if __name__ == "__main__":
    unittest.main()

"""hitch check-trace and make-trace."""
import unittest

from command.tests.support import Case, hitch, sample

EXAMPLE = sample("example.trace")
WRONG = sample("example-wrong.trace")


def with_byte(at, value):
    """The sample's trace with one byte changed."""
    return EXAMPLE[:at] + bytes([value]) + EXAMPLE[at + 1 :]


class Traces(Case):
    """Traces as bytes: made, and checked."""

    def checked(self, status, wrote, trace, said=""):
        """Holds a trace of the example to its verdict."""
        name = self.file("x.trace", trace)
        self.ends(status, wrote + "\n", said, "check-trace", "--unproved", "jobs/example.txt", name)

    def test_made_and_accepted(self):
        job = self.file("example.job", hitch("job", "--unproved", "jobs/example.txt").wrote)
        for name in ("jobs/example.txt", job):
            self.ends(0, "accepted: 3 steps\n", "", "check-trace", "--unproved", name, "jobs/example.trace")
            self.ends(0, EXAMPLE, "", "make-trace", "--unproved", name)
        self.ends(0, "accepted: 3 steps\n", "", "check-trace", "--unproved", "-", "jobs/example.trace", stdin=sample("example.txt"))

    def test_the_first_wrong_field(self):
        self.checked(1, "wrong at step 1: PS is 8F00, right is 0F00", WRONG)
        self.checked(1, "wrong at step 0: R0 is 1200, right is 0000", with_byte(3, 0x12))
        self.checked(1, "wrong at step 2: the mode is 0004, right is 0000", with_byte(60, 4))

    def test_lengths(self):
        self.checked(1, "wrong at step 2: the trace ends before it", b"\2\0" + EXAMPLE[2:42])
        self.checked(1, "wrong at step 3: the job ends before it", b"\4\0" + EXAMPLE[2:] + bytes(20))
        self.checked(1, "wrong at step 1: PS is 8F00, right is 0F00", b"\4\0" + WRONG[2:] + bytes(20))
        self.checked(1, "wrong at step 3: the job ends before it", b"\xff\xff" + EXAMPLE[2:] + bytes(65532 * 20))

    def test_refused(self):
        said = "hitch: 29: the trace ends inside its count or a state, or has bytes left over\n"
        for trace in (WRONG[:41], b"", EXAMPLE + b"\0", b"\xff\xff" + EXAMPLE[2:] + bytes(65532 * 20 + 1)):
            self.checked(1, "REFUSED 29", trace, said)
        page = "hitch: jobs/refused.txt:5:8: 17: a word's page is not fitted\n    0100 = 0001\n           ^^^^\n"
        self.ends(1, "REFUSED 17\n", page, "check-trace", "--unproved", "jobs/refused.txt", "jobs/example.trace")
        self.ends(1, "", page, "make-trace", "--unproved", "jobs/refused.txt")

    def test_bench_s_board_alone(self):
        name = self.file("board.txt", "pages 0\njumpers up 1\n")
        said = f"hitch: {name}:2:12: a trace is of bench's board; another is for run, trace and record\n    jumpers up 1\n               ^\n"
        self.ends(1, "", said, "make-trace", name)
        self.ends(1, "", said, "check-trace", name, "jobs/example.trace")


if __name__ == "__main__":
    unittest.main()

"""hitch trace: a job step by step. What each line tells is the program's; here it is put into words."""
import re

from command import ends, jobs
from command.ends import wrong_use
from command.options import asked
from command.programs import Programs
from command.showing import REGISTERS, indicators, page_of_kind
from command.words import words_for

MOST_STEPS = 4096
OP_CODE = 0
HEADER = "step line  at   words          text                     what changed, the words written, and why"
NOTHING = "----"


class Step:
    """A line of the program steps: the op code's listing and a tab; the step, its line word, what changed of registers, PS and mode, the
    cause, the address that it tells and the map's byte for its page; then the address and the word of each word written."""

    def __init__(self, line):
        self.code, _, rest = line.partition("\t")
        columns = rest.split()
        self.number, self.line = int(columns[0], 16), columns[1]
        self.changed = dict(zip((*REGISTERS, "PS", "mode"), columns[2:12]))
        self.cause, self.address, self.page = int(columns[12], 16), columns[13], columns[14]
        self.written = list(zip(columns[15::2], columns[16::2]))

    def is_blank(self):
        """Whether the step met a blank."""
        return self.address != NOTHING

    def at(self):
        """The op code's address, its words and its text: a text has one blank at most, before its operands."""
        fields = self.code.split(" ")
        if len(fields) < 3:
            return ["", "", ""] if not self.code else [fields[0], fields[1], ""]
        words = len(fields) - (1 if len(fields) == 3 else 2)
        return [fields[0], " ".join(fields[1:words]), " ".join(fields[words:])]

    def what_changed(self):
        """Registers, PS with its indicators, the mode, and the words written."""
        said = []
        for name, value in self.changed.items():
            if value == NOTHING:
                continue
            if name == "PS":
                said.append(f"PS={value} {indicators(int(value, 16))}")
            elif name == "mode":
                said.append(f"mode {int(value, 16)}: {words_for('mode', int(value, 16))};")
            else:
                said.append(f"{name}={value}")
        return said + [f"{address}:={word}" for address, word in self.written]

    def why(self):
        """The cause in words, but for an op code's own; a blank with its address and its page."""
        if not self.is_blank():
            return [] if self.cause == OP_CODE else [words_for("cause", self.cause)]
        address = int(self.address, 16)
        return [f"{words_for('cause', self.cause)}: {self.address}, {page_of_kind(int(self.page, 16), address)}"]

    def told(self):
        """The step in a line."""
        at, words, text = self.at()
        return f"{self.number:4} {self.line}  {at:4} {words:14} {text:24} {' '.join(self.what_changed() + self.why())}".rstrip()


def steps_of(word):
    """FROM-TO, two steps, counted from 0; one of them alone is that step."""
    found = re.fullmatch("([0-9]{1,5})(?:-([0-9]{1,5}))?", word)
    first, last = (int(found.group(1)), int(found.group(2) or found.group(1))) if found else (1, 0)
    if last < first:
        raise wrong_use(f"'{word}' is no stretch of steps, as 0-99 is")
    return first, last


def trace(words):
    """hitch trace [--unproved] [--asm SOURCE] [--blanks] JOB [FROM-TO]"""
    wanted = asked(words, ["--unproved", "--blanks"], {"--asm": "a source's file"}, 2, "one job, and the first and the last step")
    first, last = steps_of(wanted.files[1]) if len(wanted.files) > 1 else (0, MOST_STEPS)
    programs = Programs("--unproved" not in wanted)
    job = jobs.given(wanted, programs).no_scans()
    answer, _ = programs.run("steps", bytes(job.board()) + jobs.for_programs(job))
    if answer.startswith(b"REFUSED"):
        ends.answer(answer)
        job.stop_if_refused(answer)
    steps = [Step(line) for line in answer.decode("ascii").splitlines()[first : last + 1]]
    told = [step.told() for step in steps if step.is_blank() or "--blanks" not in wanted]
    ends.answer("".join(f"{line}\n" for line in [HEADER, *(told or ["no step of these met a blank" if steps else "no step"])]).encode())

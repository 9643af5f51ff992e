"""A job as a command takes it: bytes, or text with the assembler's lines in it or beside it."""
import os
import re
import stat

from command.diagnosis import Diagnosis
from command.ends import INPUT, REFUSED, Stop, wrong_use
from command.jobtext import BENCH_BOARD, read_lines
from command.places import TextError, told
from command.reading import called, is_text, lines_of, taken
from command.sections import LONGEST, WORDS, stopped_at, two, word_at
from command.source import Source, entries_of, value_of
from command.words import words_for

MOST_JOB = 0xFFFF  # bytes of a job before scans
NAMES = {"pages": "page", "words": "word", "lines": "line word", "read-only": "read-only page"}


class Job:
    """A job: its bytes, and the text that it comes from, if it does."""

    def __init__(self, name, data, text=None, sources=()):
        self.name, self.data, self.text, self.sources = name, data, text, sources

    def board(self):
        """The board's four settings."""
        return tuple(self.text.board) if self.text else BENCH_BOARD

    def scans(self):
        """The scans of the text."""
        return self.text.scans if self.text else []

    def bench_alone(self, what):
        """Refuses a board of its own where only bench's is."""
        if self.board() != BENCH_BOARD:
            place = sorted(self.text.board_places.items())[0][1]
            raise TextError(f"{what} is of bench's board; another is for run, trace and record", place)
        return self

    def no_scans(self):
        """Refuses scans where none are made."""
        if self.scans():
            raise TextError("scans are for hitch record", self.scans()[0].places[0])
        return self

    def stop_if_refused(self, answer):
        """Ends where a program answers with a number alone, and tells what it means and where."""
        found = re.match(rb"REFUSED (\d+)|the job is refused \(refusal (\d+)\)", answer)
        if found:
            raise Stop(REFUSED, self.refusal(int(found.group(1) or found.group(2))))

    def refusal(self, number):
        """A refusal in words, with its place."""
        words = f"{number}: {words_for('refusal', number)}"
        if number == 35 and self.text:
            place = next((self.text.board_places[k] for k in (1, 2, 3) if self.board()[k] > (63 if k == 3 else 3)), None)
            return told(TextError(words, place))
        stopped = stopped_at(self.data)
        if stopped is None or stopped.number != number:
            return words
        place = self.text.sections.place(stopped) if self.text else None
        if place is not None:
            return told(TextError(words, place))
        return f"{called(self.name)}: {self.in_words(stopped)}: {words}"

    def in_words(self, stopped):
        """Where in its bytes a job's reader stopped; a word that no line of a text says is of an assembler line."""
        if self.text and stopped.section == WORDS and stopped.entry is not None and stopped.at + 2 <= len(self.data):
            return f"an assembler line's word at {word_at(self.data, stopped.at):04X}"
        if stopped.section is None:
            return f"byte {stopped.at}"
        if stopped.entry is None:
            return f"byte {stopped.at}, the count of {NAMES[stopped.section]}s"
        return f"byte {stopped.at}, {NAMES[stopped.section]} {stopped.entry + 1}"

    def labels(self):
        """All labels that its sources give, with their values."""
        found = {}
        for source in self.sources:
            if source.given():
                found.update(source.values(source.given()))
        return found


def given(asked, programs, at=0):
    """The job that a command is given, with the source of --asm."""
    name, source = asked.file(at), asked.value("--asm")
    if name == "-" and source == "-":
        raise wrong_use("one of the job and its source is standard input, not both")
    data = taken(name)
    if not data and name == "-" and stat.S_ISFIFO(os.fstat(INPUT).st_mode):
        raise Stop(REFUSED, "no job on standard input")
    if source is None and not is_text(data):
        return Job(name, data)
    if data and not is_text(data):
        raise wrong_use("with --asm the job must be text")
    patch = None if source is None else lines_of(taken(source), source)
    return from_text(name, data, patch, programs)


def from_text(name, data, patch, programs):
    """A job's bytes from its text, and from the lines of a patch or None."""
    text = read_lines(lines_of(data, name), name, patch is not None)
    diagnosis = Diagnosis(programs)
    own = Source(text.source, programs, diagnosis.refused)
    beside = Source(patch or [], programs, diagnosis.refused)
    wanted = {word.text for _, word in text.labels_wanted} | own.wants() | beside.wants()
    labels = {**(beside.values(wanted) if wanted & beside.given() else {}), **(own.values(wanted) if wanted & own.given() else {})}
    for at, word in text.labels_wanted:
        text.sections.name(at, value_of(word.text, labels, word.place))
    if own.lines:
        once(text, entries_of(own.section(labels)))
    if patch is not None:
        text.sections.patch(entries_of(beside.section(labels)))
    return Job(name, text.sections.bytes(), text, (own, beside))


def once(text, entries):
    """Puts the words of the text's own assembler lines among those of its other lines; none is said twice."""
    assembled = {entry.address for entry in entries}
    for entry in text.sections.entries[WORDS]:
        if entry.address in assembled:
            raise TextError(f"an assembler line has a word at {entry.address:04X} too", entry.place)
    text.sections.patch(entries)


def for_programs(job):
    """The bytes of a job that a program reads: one more than the longest shows that there are bytes left over."""
    return job.data[: LONGEST + 1]


def record_input(job, board):
    """The bytes that record reads: the board, the job's length, the job, and the scans."""
    if job.text is None:
        return bytes(board) + job.data
    if len(job.data) > MOST_JOB:
        raise Stop(REFUSED, f"{called(job.name)}: the job has {len(job.data):,} bytes, over {MOST_JOB:,}")
    if not job.scans():
        raise Stop(REFUSED, f"{called(job.name)} has no scan: a line as scan 205 -- -37 .. is needed")
    return bytes(board) + two(len(job.data)) + job.data + b"".join(scan.bytes() for scan in job.scans())

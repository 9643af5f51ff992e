"""The text of a job: its own lines, lines of the assembler among them, the board, and the recorder's scans.

Lines of a job, all numbers hex but a count after x or cut, a reading and a jumper:
    pages 00 04 10-1F     fitted pages; a range stands for each page of it
    read-only 10-1F       those of them that can't be written; without such a line the job has no fourth section
    0080 = 09BF START     words at 0080, 0082, ..; a label stands for its address
    lines 0000 x12 0008   line words; x12 repeats the one before, so that there are 12
    microm no             the board: the third microm is not fitted (yes: it is, as on bench's board)
    jumpers up 1 halt 2   the board: the jumpers of power-up and halt, 0 to 3
    external 2F           the board: the External Address Register
    scan 205 -- .. lines 0000 x40   a scan: sixteen channels in tenths of a degree, -- for no card; its line words
    bytes 00 FF           bytes after the last section, for a job that is to be refused
    cut 3                 leaves out the last 3 bytes, for the same
Every other line is the assembler's (source.py).
"""
import re

from command.ends import REFUSED, Stop
from command.lexing import LABEL, count, is_hex, line_words_of, number, pages_of, words_in
from command.places import Line, TextError
from command.reading import called
from command.scantext import scan_of
from command.sections import LINES, PAGES, READ_ONLY, WORDS, Entry, Sections

BENCH_BOARD = (1, 3, 3, 0)  # the third microm, the jumpers 11 and 11, the External Address Register 0
MICROM, UP, HALT, EXTERNAL = range(4)


class JobText:
    """What the lines of a text come to."""

    def __init__(self):
        self.sections, self.source, self.scans = Sections(), [], []
        self.board, self.board_places = list(BENCH_BOARD), {}
        self.labels_wanted = []  # places of the words section, and the label that stands there
        self.begun = False

    def take(self, line):
        """Adds what one line says."""
        text = line.text.partition(";")[0]
        words = words_in(line, text.partition("#")[0])
        if words and (words[0].text in KINDS or any(word.text == "=" for word in words[1:])):
            self.begun = True
            KINDS.get(words[0].text, JobText.words)(self, words)
        elif words and words[0].text[0].isdigit():
            raise TextError("an address, =, and words are needed", words[-1].place)
        elif words and words[0].text == "=":
            raise TextError("an address is needed before =", words[0].place)
        elif text.strip() and not text.lstrip().startswith("#"):
            self.begun = True
            self.source.append(Line(line.file, line.number, text))

    def pages(self, words):
        """pages 00 04 10-1F"""
        self.add(PAGES, pages_of(words[1:]), words)

    def read_only(self, words):
        """read-only 10-1F"""
        self.add(READ_ONLY, pages_of(words[1:]), words)

    def lines(self, words):
        """lines 0000 x12 0008"""
        self.add(LINES, line_words_of(words[1:]), words)

    def add(self, section, values, words):
        """Adds entries; too many are told at the line's beginning."""
        try:
            self.sections.add(section, [Entry(value, place) for value, place in values])
        except TextError as why:
            raise TextError(why.words, words[0].place) from None

    def words(self, words):
        """0080 = 09BF START"""
        if words[1].text != "=" or len(words) < 3 or any(word.text == "=" for word in words[2:]):
            wrong = next((word for word in words[1:] if word.text != "="), words[-1])
            raise TextError("an address, =, and words are needed", wrong.place)
        start = number(words[0], 0xFFFF)
        entries = []
        for k, word in enumerate(words[2:]):
            address = (start + 2 * k) % 0x10000
            if re.fullmatch(LABEL, word.text) and not is_hex(word.text):
                self.labels_wanted.append((len(self.sections.entries[WORDS]) + k, word))
                entries.append(Entry(0, word.place, address))
            else:
                entries.append(Entry(number(word, 0xFFFF), word.place, address))
        try:
            self.sections.add(WORDS, entries)
        except TextError as why:
            raise TextError(why.words, words[0].place) from None

    def bytes(self, words):
        """bytes 00 FF"""
        self.sections.rest += [Entry(number(word, 0xFF), word.place) for word in words[1:]]

    def cut(self, words):
        """cut 3"""
        if len(words) != 2:
            raise TextError("cut, and one count", words[0].place)
        self.sections.cuts.append((count(words[1]), words[1].place))

    def scan(self, words):
        """scan 205 -- .. lines 0000 x40"""
        self.scans.append(scan_of(words))

    def microm(self, words):
        """microm no"""
        if len(words) != 2 or words[1].text not in ("yes", "no"):
            raise TextError("microm yes, or microm no", words[-1].place)
        self.set(MICROM, int(words[1].text == "yes"), words[1])

    def jumpers(self, words):
        """jumpers up 1 halt 2"""
        pairs = list(zip(words[1::2], words[2::2]))
        if len(words) < 3 or len(words) % 2 == 0 or any(name.text not in ("up", "halt") for name, _ in pairs):
            raise TextError("jumpers up N, halt N, or both, N from 0 to 3", words[-1].place)
        for name, word in pairs:
            self.set(UP if name.text == "up" else HALT, number(word, 0xFF), word)

    def external(self, words):
        """external 2F"""
        if len(words) != 2:
            raise TextError("external, and one hex number, 0 to 3F", words[-1].place)
        self.set(EXTERNAL, number(words[1], 0xFF), words[1])

    def set(self, setting, value, word):
        """One setting of the board, said once."""
        if setting in self.board_places:
            raise TextError("this setting of the board is given twice", word.place)
        self.board[setting], self.board_places[setting] = value, word.place


KINDS = {
    "pages": JobText.pages,
    "read-only": JobText.read_only,
    "lines": JobText.lines,
    "bytes": JobText.bytes,
    "cut": JobText.cut,
    "scan": JobText.scan,
    "microm": JobText.microm,
    "jumpers": JobText.jumpers,
    "external": JobText.external,
}


def read_lines(lines, name, may_be_empty=False):
    """What the lines of a text come to; one in which no line says anything is told, unless a patch is beside it."""
    job = JobText()
    for line in lines:
        job.take(line)
    if not job.begun and not may_be_empty:
        raise Stop(REFUSED, f"{called(name)} is no job: none of its lines says anything")
    return job

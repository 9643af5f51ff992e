"""The assembler's lines: a source is put into the form that the assembler takes, and what it answers into words of a job.

A line may be indented, and its blanks may be tabs or many. ; begins a comment, and so does # at the line's beginning or between
blanks: elsewhere # is an operand's. Lines without anything else are left out. What is left has 32 characters at most. A label may
stand for the word of .WORD: a first pass of the assembler tells its value, and digits take its place for the second.
"""
import re
from typing import NamedTuple

from command.lexing import LABEL, is_hex
from command.places import Line, Place, TextError
from command.sections import Entry, section_words, word_at

WIDTH = 32
MOST_LINES = 1024
WORD_OF_LABEL = re.compile(rf"(?:({LABEL}): )?\.WORD ({LABEL})")


class SourceLine(NamedTuple):
    """A line as the assembler takes it, the column, from 1, of each of its characters, and the line that it was."""

    text: str
    columns: list
    line: Line

    def place(self, at, width=1):
        """The place of a character; one past the end stands after the last."""
        if at < len(self.columns):
            return Place(self.line, self.columns[at], width)
        return Place(self.line, self.columns[-1] + 1 if self.columns else 1, 1)

    def label(self):
        """The label that the line gives, or None."""
        found = re.match(rf"({LABEL}):", self.text)
        return found.group(1) if found else None

    def said(self):
        """Where the line's text begins after its label."""
        found = re.match(r"[^ ]*: ?", self.text)
        return found.end() if found else 0


def without_comment(text):
    """A line's text before its comment."""
    text = text.partition(";")[0]
    if text.lstrip(" \t\f\v").startswith("#"):
        return ""
    found = re.search(r"(?<=[ \t\f\v])#(?=[ \t\f\v]|$)", text)
    return text[: found.start()] if found else text


def source_line(line):
    """A line as the assembler takes it, or None where nothing is left of it."""
    pieces = list(re.finditer(r"[^ \t\f\v]+", without_comment(line.text)))
    if not pieces:
        return None
    text, columns = "", []
    for piece in pieces:
        if text:
            text, columns = text + " ", columns + [piece.start()]
        text += piece.group()
        columns += range(piece.start() + 1, piece.end() + 1)
    made = SourceLine(text, columns, line)
    for at, character in enumerate(text):
        if not " " <= character <= "~":
            raise TextError("a source has letters, digits and signs of ASCII alone", made.place(at))
    if len(text) > WIDTH:
        raise TextError(f"a line has {WIDTH} characters at most without its comment; here are {len(text)}", made.place(WIDTH, len(text) - WIDTH))
    return made


def source_of(lines):
    """The lines of a source that the assembler is to see."""
    found = [source_line(line) for line in lines]
    return [line for line in found if line is not None]


class Source:
    """A source and the program that assembles it; what is refused is told by `refused`, a function of a number and a line."""

    def __init__(self, lines, programs, refused):
        self.lines, self.programs, self.refused = source_of(lines), programs, refused

    def given(self):
        """The labels that the lines give."""
        return {line.label() for line in self.lines if line.label()}

    def words_of_labels(self):
        """The lines that have a label for the word of .WORD, by their place in the source, and where it stands."""
        found = [(at, WORD_OF_LABEL.fullmatch(line.text)) for at, line in enumerate(self.lines)]
        return {at: match for at, match in found if match and not is_hex(match.group(2))}

    def wants(self):
        """The labels that lines have for the word of .WORD."""
        return {match.group(2) for match in self.words_of_labels().values()}

    def text(self, labels):
        """The lines with digits for the labels of .WORD; before they are known, 0000."""
        lines = [line.text for line in self.lines]
        for at, match in self.words_of_labels().items():
            value = 0 if labels is None else value_of(match.group(2), labels, self.lines[at].place(match.start(2), len(match.group(2))))
            lines[at] = f"{lines[at][: match.start(2)]}{value:04X}"
        return lines

    def answer(self, lines, words=()):
        """What the assembler answers to lines."""
        if len(lines) > MOST_LINES:
            raise TextError(f"36: a source has {MOST_LINES:,} lines at most", self.lines[min(MOST_LINES, len(self.lines) - 1)].place(0))
        answer, said = self.programs.run("assemble", "".join(f"{line}\n" for line in lines).encode("ascii"), words)
        self.stop_if_refused(said)
        return answer

    def values(self, labels):
        """The values of those labels that the lines give, as the assembler tells them: for each line its label's length and its value."""
        told = self.answer(self.text(None), ["labels"])
        sizes_and_values = [(word_at(told, at), word_at(told, at + 2)) for at in range(0, len(told), 4)]
        given = {line.text[:size]: value for line, (size, value) in zip(self.lines, sizes_and_values) if size}
        return {label: given[label] for label in sorted(labels) if label in given}

    def section(self, labels=None):
        """The word section, with the values of labels that others give beside the source's own."""
        wanted = self.wants() - set(labels or {})
        known = {**(labels or {}), **(self.values(wanted) if wanted else {})}
        return self.answer(self.text(known))

    def stop_if_refused(self, said):
        """Ends where the assembler refuses a line, and shows it."""
        found = re.search(r"REFUSED (\d+) at line (\d+)|\(refusal (\d+) at line (\d+), from 0\)", said)
        if found:
            number, at = (int(part) for part in found.groups() if part)
            raise self.refused(number, self.lines, at)


def value_of(label, labels, place):
    """A label's value."""
    if label not in labels:
        raise TextError(f"26: no line gives the label {label}", place)
    return labels[label]


def entries_of(section):
    """The words of a section as entries of a job."""
    return [Entry(word, None, address) for address, word in section_words(section)]

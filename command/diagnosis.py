"""What is wrong with a line that the assembler refuses: its number, the place and what is needed there."""
import re

from command.lexing import LABEL, is_hex
from command.needed import REGISTERS, diagnosed
from command.places import TextError, where
from command.words import words_for


class Diagnosis:
    """Tells why a line is refused; the text of an op code is read again by the program text, for its column."""

    def __init__(self, programs):
        self.programs = programs

    def refused(self, number, lines, at):
        """The error of a refused line."""
        line = lines[at]
        if number == 24:
            return self.unknown(line)
        if number == 25:
            return again(lines, at)
        if number in (26, 27):
            return labelled(number, lines, line)
        return TextError(f"{number}: {words_for('refusal', number)}", line.place(line.said(), len(line.text) - line.said()))

    def unknown(self, line):
        """A line that is no text."""
        begin = line.said()
        head = line.text[:begin].rstrip()
        if head and not (re.fullmatch(f"{LABEL}:", head) and not is_hex(head[:-1]) and head[:-1] not in REGISTERS):
            return TextError("24: a label is one to six capitals, no hex number, not SP or PC", line.place(0, len(head)))
        if ":" in head and line.text[begin - 1 : begin] != " " and begin < len(line.text):
            return TextError("24: a blank stands after a label's colon", line.place(begin))
        text = line.text[begin:]
        if text.startswith("."):
            return directive(line, begin)
        number, column, words = diagnosed(self.programs, text)
        return TextError(f"24 ({number}): {words}", line.place(begin + column, 1))


def directive(line, begin):
    """A line that begins with a dot."""
    name, _, value = line.text[begin:].partition(" ")
    if name not in (".WORD", ".ORG"):
        return TextError("24: .WORD and .ORG begin with a dot, and nothing else", line.place(begin, len(name)))
    at = begin + len(name) + 1
    example = value.upper().rjust(4, "0") if is_hex(value) and len(value) <= 4 else "0080"
    return TextError(f"24: four hex digits are needed: {name} {example}", line.place(min(at, len(line.text)), max(1, len(value))))


def again(lines, at):
    """A label that is given twice."""
    label = lines[at].label()
    first = next((line for line in lines[:at] if line.label() == label), lines[at])
    return TextError(f"25: the label {label} is already given at {where(first.place(0))}", lines[at].place(0, len(label)))


def labelled(number, lines, line):
    """A label that is missing or out of reach."""
    given = {other.label() for other in lines}
    begin = line.said()
    for operand in re.finditer(rf"(?<=[ ,@])({LABEL})(?=,|$)", line.text[begin:]):
        label = operand.group(1)
        if is_hex(label) or label in REGISTERS:
            continue
        if (number == 26) == (label not in given):
            place = line.place(begin + operand.start(1), len(label))
            words = "no line gives the label" if number == 26 else "out of reach: a branch goes 128 words back to 127 ahead, SOB 0 to 63 back:"
            return TextError(f"{number}: {words} {label}", place)
    return TextError(f"{number}: {words_for('refusal', number)}", line.place(begin))

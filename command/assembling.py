"""hitch asm: the word section of a source; hitch text: the text of op codes."""
import re

from command import ends
from command.diagnosis import Diagnosis
from command.ends import REFUSED, Stop
from command.options import asked
from command.programs import Programs
from command.reading import called, lines_of, taken
from command.source import Source

MOST_TEXT = 65536  # bytes that the program text answers


def asm(words):
    """hitch asm [--unproved] [SOURCE]"""
    wanted = asked(words, ["--unproved"])
    programs = Programs("--unproved" not in wanted)
    name = wanted.file()
    source = Source(lines_of(taken(name), name), programs, Diagnosis(programs).refused)
    ends.answer_bytes(source.section())


def text(words):
    """hitch text [--unproved] [FILE]"""
    wanted = asked(words, ["--unproved"])
    programs = Programs("--unproved" not in wanted)
    name = wanted.file()
    lines = lines_of(taken(name), name)
    asked_for = "".join(f"{line.text}\n" for line in lines).encode("utf-8")
    if len(asked_for) > MOST_TEXT:
        raise Stop(REFUSED, f"{called(name)} is longer than {MOST_TEXT:,} bytes")
    answer, _ = programs.run("text", asked_for)
    ends.answer(ends.visible_bytes(answer))
    refused = len(re.findall(rb"^ *\^ ", answer, re.M))
    if refused:
        raise Stop(REFUSED)

"""Places in a text, and messages that show them: file, line and column, the line itself and a mark under the place."""
from typing import NamedTuple

from command.ends import visible

SHOWN = 100  # characters of a long line that are shown


class Line(NamedTuple):
    """A line of a text: the file's name, its number, from 1, and its characters."""

    file: str
    number: int
    text: str


class Place(NamedTuple):
    """A place in a line: its column, from 1, and how many characters are meant."""

    line: Line
    column: int
    width: int = 1


class Word(NamedTuple):
    """A word of a line and where it stands."""

    text: str
    place: Place


class TextError(Exception):
    """What is wrong with a text, and where."""

    def __init__(self, words, place=None):
        super().__init__(words)
        self.words, self.place = words, place


def where(place):
    """FILE:LINE:COLUMN"""
    name = "standard input" if place.line.file == "-" else visible(place.line.file)
    return f"{name}:{place.line.number}:{place.column}"


def shown(place):
    """The line and the mark under the place; of a long line only what is near it."""
    text = place.line.text
    begin = max(0, place.column - 1 - SHOWN // 2) if len(text) > SHOWN else 0
    part = visible(text[begin : begin + SHOWN]).replace("\n", " ")
    column = place.column - 1 - begin
    width = max(1, min(place.width, len(part) - column))
    return f"    {part}\n    {' ' * column}{'^' * width}"


def told(error):
    """The whole message of what is wrong."""
    if error.place is None:
        return error.words
    return f"{where(error.place)}: {error.words}\n{shown(error.place)}"

"""Words and numbers of a job's text."""
import re
import sys

from command.places import Place, TextError, Word

MOST_REPEATED = 4096
MOST_ENTRIES = 0xFFFF
LABEL = "[A-Z]{1,6}"


def words_in(line, text, begin=0):
    """The words of a part of a line that begins at a column, from 0; = stands alone."""
    return [
        Word(found.group(), Place(line, begin + found.start() + 1, len(found.group())))
        for found in re.finditer(r"=|[^ \t\f\v=]+", text)
    ]


def is_hex(text):
    """Whether a text is a hex number."""
    return re.fullmatch("[0-9A-Fa-f]+", text) is not None


def number(word, most):
    """A hex number of at most `most`."""
    if not is_hex(word.text):
        raise TextError(f"'{word.text}' is not a hex number, 0 to {most:X}", word.place)
    digits = word.text.lstrip("0")
    if len(digits) > 8 or int(digits or "0", 16) > most:
        raise TextError(f"'{word.text}' is over {most:X}", word.place)
    return int(digits or "0", 16)


def count(word, text=None):
    """A decimal count; one of more digits than any job's length has is over all that is asked for."""
    text = word.text if text is None else text
    if not re.fullmatch("[0-9]+", text):
        raise TextError(f"'{text}' is not a count: decimal digits are needed", word.place)
    digits = text.lstrip("0") or "0"
    return int(digits) if len(digits) < 10 else sys.maxsize


def pages_of(words):
    """Page numbers with their places; ranges are written out."""
    pages = []
    for word in words:
        first, dash, last = word.text.partition("-")
        if dash and not (first and last):
            raise TextError(f"'{word.text}' is no range, as 10-1F is", word.place)
        start = number(Word(first, word.place), 0xFF)
        end = number(Word(last, word.place), 0xFF) if dash else start
        if end < start:
            raise TextError(f"'{word.text}' is a falling range", word.place)
        pages.extend((page, word.place) for page in range(start, end + 1))
    return pages


def line_words_of(words):
    """Line words with their places; repeats are written out."""
    lines = []
    for word in words:
        if word.text[0] != "x":
            lines.append((number(word, 0xFFFF), word.place))
            continue
        times = count(word, word.text[1:])
        if not lines or times < 1:
            raise TextError(f"'{word.text}' repeats nothing: a line word stands before it", word.place)
        if times > MOST_REPEATED:
            raise TextError(f"'{word.text}' repeats more than {MOST_REPEATED} times", word.place)
        lines.extend([(lines[-1][0], word.place)] * (times - 1))
        if len(lines) > MOST_ENTRIES:
            raise TextError(f"more than {MOST_ENTRIES} entries in a section", word.place)
    return lines

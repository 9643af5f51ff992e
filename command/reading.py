"""The one place where input is read: files and standard input, up to a length, and the one rule for text."""
import codecs
import os
import re
import stat

from command.ends import INPUT, REFUSED, Stop, Streams, say, visible, wrong_use
from command.places import Line, Place, TextError

MOST_TEXT = 4 << 20  # bytes of a text, at most
MOST_BYTES = 64 << 20  # bytes of anything, at most: 4,096 scans of 4,096 line words have 34 million

# A text in another form begins with a mark. No job that runs begins with these bytes: they would count too many pages.
UTF16 = ((codecs.BOM_UTF16_LE, "utf-16-le"), (codecs.BOM_UTF16_BE, "utf-16-be"))


def called(name):
    """What a file is called in words."""
    return "standard input" if name == "-" else visible(name)


def quoted(name):
    """The same where it stands among other words."""
    return f"'{visible(name)}'"


def opened(name):
    """A file's number; - is standard input."""
    if name == "-":
        if INPUT in Streams.closed:
            raise wrong_use("standard input is closed")
        return INPUT
    try:
        kind = os.stat(name).st_mode
        if stat.S_ISDIR(kind):
            raise wrong_use(f"{quoted(name)} is a folder, not a file")
        return os.open(name, os.O_RDONLY)
    except FileNotFoundError:
        raise wrong_use(f"there is no file {quoted(name)}") from None
    except (OSError, ValueError) as why:
        raise wrong_use(f"{quoted(name)} cannot be read: {getattr(why, 'strerror', why)}") from None


def taken(name, most=MOST_BYTES):
    """A file's bytes; one that is longer, or has no end, is refused."""
    file = opened(name)
    if file == INPUT and os.isatty(file):
        say("reading standard input; Ctrl-D ends it")
    parts, left = [], most + 1
    try:
        while left > 0:
            part = os.read(file, min(left, 1 << 20))
            if not part:
                break
            parts.append(part)
            left -= len(part)
    except OSError as why:
        raise wrong_use(f"{called(name)} cannot be read: {why.strerror}") from None
    finally:
        if file != INPUT:
            os.close(file)
    if left <= 0:
        raise Stop(REFUSED, f"{called(name)} is longer than {most:,} bytes")
    return b"".join(parts)


def is_text(data):
    """Whether bytes are text and no job's own: they begin with the mark of UTF-16, or have no byte 00. A job that runs has at most
    256 pages, so one of its first two bytes is 00; an empty one is a job, which is refused."""
    return data[:2] in [mark for mark, _ in UTF16] or (len(data) > 0 and b"\0" not in data)


def lines_of(data, name):
    """The lines of a text: UTF-8 with or without its mark, or UTF-16 with its mark; LF, CR LF and CR each end a line."""
    if len(data) > MOST_TEXT:
        raise Stop(REFUSED, f"{called(name)} is longer than the {MOST_TEXT:,} bytes of a text")
    code = next((code for mark, code in UTF16 if data.startswith(mark)), "utf-8")
    body = data[2:] if code != "utf-8" else data[3:] if data.startswith(codecs.BOM_UTF8) else data
    try:
        text = body.decode(code)
    except UnicodeDecodeError as why:
        before = body[: why.start].decode(code, "replace")
        raise wrong_at(before, name, f"no text: byte {body[why.start]:02X} is not {code.upper().replace('-LE', '').replace('-BE', '')}") from None
    if "\0" in text:
        raise wrong_at(text.partition("\0")[0], name, "no text: a byte is 00")
    lines = [Line(name, number, line) for number, line in enumerate(split(text), 1)]
    return lines[:-1] if lines[-1].text == "" else lines


def split(text):
    """The lines of a text, as editors count them."""
    return re.split("\r\n|\r|\n", text)


def wrong_at(before, name, words):
    """What is said of a character, by the text before it."""
    lines = split(before)
    line = Line(name, len(lines), lines[-1])
    return TextError(words, Place(line, len(lines[-1]) + 1, 1))

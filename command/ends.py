"""How hitch ends: its statuses, what it says on standard error, what it writes, and the signals that stop it."""
import errno
import os
import select
import signal
import sys

DONE = 0
REFUSED = 1  # by number or in words, or a trace that is wrong
WRONG_USE = 2
NOT_DONE = 3  # what is needed was not proved or not built, or the answer could not be written

INPUT, OUTPUT, ERROR = 0, 1, 2


class Stop(Exception):
    """hitch ends here, with a status and, unless all was said before, words."""

    def __init__(self, status, words=None):
        super().__init__(words)
        self.status, self.words = status, words


class Signalled(BaseException):
    """hitch was told to end: Ctrl-C, a hang-up, or kill."""

    def __init__(self, number):
        super().__init__(number)
        self.number = number


def wrong_use(words):
    """What ends hitch where it was asked for something that it has not."""
    return Stop(WRONG_USE, f"{words}; hitch help tells more")


def visible(text):
    """A text of one line or more without the characters that a terminal would obey."""
    return "".join(c if c.isprintable() or c == "\n" else " " if c == "\t" else "?" for c in text)


def visible_bytes(answer):
    """The same of a program's answer, byte by byte, so that a mark stays under its column."""
    return bytes(b if 0x20 <= b < 0x7F or b == 0x0A else 0x20 if b == 0x09 else 0x3F for b in answer)


def write_all(file, data):
    """Writes all of the bytes, or raises OSError."""
    rest = memoryview(data)
    while rest:
        try:
            rest = rest[os.write(file, rest) :]
        except BlockingIOError:
            select.select([], [file], [])


def say(words):
    """Says a line or more on standard error; nobody is told where that cannot be written."""
    try:
        write_all(ERROR, f"hitch: {visible(words)}\n".encode("utf-8", "backslashreplace"))
    except OSError:
        pass


def say_as_it_is(text):
    """Says lines that another program said."""
    try:
        write_all(ERROR, visible(text).encode("utf-8", "backslashreplace"))
    except OSError:
        pass


class Streams:
    """Standard input, output and error. One that is closed is taken by /dev/null, so that no file gets its number."""

    closed = set()

    @classmethod
    def hold(cls):
        """Looks which are closed, before any file is opened."""
        for number in (INPUT, OUTPUT, ERROR):
            try:
                os.fstat(number)
            except OSError:
                cls.closed.add(number)
                os.open(os.devnull, os.O_RDWR)


def answer(data):
    """Writes the whole answer on standard output. A reader that has closed its pipe is not told of it."""
    if not data:
        return
    try:
        if OUTPUT in Streams.closed:
            raise OSError(errno.EBADF, "it is closed")
        write_all(OUTPUT, data)
    except BrokenPipeError:
        raise Stop(NOT_DONE) from None
    except OSError as why:
        raise Stop(NOT_DONE, f"the answer could not be written: {why.strerror}") from None


def answer_bytes(data):
    """The same of bytes that are no text: a terminal would obey some of them."""
    if os.isatty(OUTPUT):
        raise wrong_use("the answer is bytes, not for a terminal: send it to a file or a pipe")
    answer(data)


def listen():
    """From here on the three signals end what is under way; one that the caller has hitch ignore stays ignored."""

    def heard(number, _):
        for other in (signal.SIGINT, signal.SIGTERM, signal.SIGHUP):
            signal.signal(other, signal.SIG_IGN)
        raise Signalled(number)

    for number in (signal.SIGTERM, signal.SIGHUP):
        if signal.getsignal(number) != signal.SIG_IGN:
            signal.signal(number, heard)
    # The launcher has python start with Ctrl-C ignored.
    signal.signal(signal.SIGINT, heard)


def leave(status):
    """Ends at once: all was written before, and nothing is flushed again."""
    sys.stdout = sys.stderr = None
    os._exit(status)

"""Words for numbers: the one table, c/numbers.tsv, from which the header for C and docs/BENCH.md have theirs too."""
import functools
import os

from command.ends import NOT_DONE, Stop

ROOT = os.path.dirname(os.path.dirname(os.path.abspath(__file__)))
TABLE = os.path.join(ROOT, "c", "numbers.tsv")
VERSION = os.path.join(ROOT, "VERSION")


@functools.lru_cache(maxsize=None)
def rows():
    """Each row of the table: kind, number, name in C, words."""
    try:
        with open(TABLE, encoding="utf-8") as table:
            lines = [line.rstrip("\n").split("\t") for line in table if not line.startswith("#") and line.strip()]
        return [(kind, int(number), name, words) for kind, number, name, words in lines]
    except (OSError, ValueError) as why:
        raise Stop(NOT_DONE, f"the table of numbers, {TABLE}, cannot be read: {why}") from None


def words_for(kind, number):
    """What a number says."""
    found = [words for of, value, _, words in rows() if (of, value) == (kind, number)]
    return found[0] if found else "it has no words"


def version():
    """The version that the header tells too."""
    try:
        with open(VERSION, encoding="utf-8") as file:
            return file.read().strip()
    except OSError as why:
        raise Stop(NOT_DONE, f"the file VERSION cannot be read: {why.strerror}") from None

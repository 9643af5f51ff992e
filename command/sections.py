"""A job's sections, from a text or from bytes, as bytes; and where in them its reader stopped."""
import heapq
from typing import NamedTuple

from command.places import TextError

MOST_ENTRIES = 0xFFFF  # a count has two bytes
LONGEST = 25096  # bytes of the longest job that runs
PAGES, WORDS, LINES, READ_ONLY = "pages", "words", "lines", "read-only"
SIZES = {PAGES: 1, WORDS: 4, LINES: 2, READ_ONLY: 1}
MOST = {PAGES: (256, 12), WORDS: (4096, 14), LINES: (4096, 18), READ_ONLY: (256, 12)}
UNUSED_BITS = 0xF074


def two(value):
    """Two bytes, low first."""
    return value.to_bytes(2, "little")


def word_at(data, at):
    """The word whose two bytes stand at a place."""
    return int.from_bytes(data[at : at + 2], "little")


class Entry(NamedTuple):
    """An entry of a section: its number, for a word its address and its number, and where it was said."""

    value: int
    place: object = None
    address: int = None


class Sections:
    """What a job has: its entries in the order in which they were said."""

    def __init__(self):
        self.entries = {PAGES: [], WORDS: [], LINES: [], READ_ONLY: None}
        self.rest, self.cuts = [], []

    def add(self, section, entries):
        """Adds entries to a section, which are not more than its count can say."""
        all_of = (self.entries[section] or []) + entries
        if len(all_of) > MOST_ENTRIES:
            raise TextError(f"more than {MOST_ENTRIES} entries in a section")
        self.entries[section] = all_of

    def name(self, at, value):
        """Puts the value of a label where the words name it."""
        entry = self.entries[WORDS][at]
        self.entries[WORDS][at] = Entry(value, entry.place, entry.address)

    def patch(self, patch):
        """Puts the words of a patch among the job's by address. A word of the patch takes the place of the one at its address, so that
        entries which don't rise still don't."""
        by_address = {entry.address: entry for entry in patch}
        own = {entry.address for entry in self.entries[WORDS]}
        kept = [by_address.get(entry.address, entry) for entry in self.entries[WORDS]]
        added = [entry for entry in patch if entry.address not in own]
        self.entries[WORDS] = []
        self.add(WORDS, list(heapq.merge(kept, added, key=lambda entry: entry.address)))

    def bytes(self):
        """The job's bytes."""
        job = b""
        for section, entries in self.entries.items():
            if entries is not None:
                job += two(len(entries)) + b"".join(encoded(section, entry) for entry in entries)
        job += bytes(entry.value for entry in self.rest)
        for less, place in self.cuts:
            if less > len(job):
                raise TextError(f"a cut past the end: {len(job)} bytes are left", place)
            job = job[: len(job) - less]
        return job

    def place(self, stopped):
        """Where the entry was said at which the job's reader stopped, or None."""
        if stopped.section is None:
            return self.rest[0].place if self.rest else None
        entries = self.entries[stopped.section] or []
        if stopped.entry is None:
            over = MOST[stopped.section][0]
            return entries[over].place if over < len(entries) else None
        return entries[stopped.entry].place if stopped.entry < len(entries) else None


def encoded(section, entry):
    """An entry's bytes."""
    if section == WORDS:
        return two(entry.address) + two(entry.value)
    return entry.value.to_bytes(SIZES[section], "little")


def section_words(section):
    """Addresses and words of a word section, as the assembler writes it."""
    return [(word_at(section, at), word_at(section, at + 2)) for at in range(2, len(section), 4)]


class Stopped(NamedTuple):
    """Where a job's reader stopped: under which number, in which section (None after the last), at which entry, from 0 (None in its
    count), and at which byte."""

    number: int
    section: str
    entry: int
    at: int


def entry_refusal(section, value, address, before, fitted):
    """The number under which an entry is refused, or 0."""
    if section == PAGES:
        return 13 if before is not None and value <= before else 0
    if section == LINES:
        return 19 if value & UNUSED_BITS else 0
    if section == READ_ONLY:
        return 22 if (before is not None and value <= before) or value not in fitted else 0
    if address % 2:
        return 15
    if before is not None and address <= before:
        return 16
    return 0 if address // 256 in fitted else 17


def stopped_at(job):
    """Where the reader of a job stops. Only to show the place: the number itself is the program's."""
    at, fitted = 0, set()
    for section, size in SIZES.items():
        if section == READ_ONLY and at == len(job):
            return None
        if at + 2 > len(job):
            return Stopped(11, section, None, at)
        count, before = word_at(job, at), None
        most, number = MOST[section]
        if count > most:
            return Stopped(number, section, None, at)
        at += 2
        for entry in range(count):
            if at + size > len(job):
                return Stopped(11, section, entry, at)
            address = word_at(job, at) if section == WORDS else None
            value = int.from_bytes(job[at + size - min(size, 2) : at + size], "little")
            number = entry_refusal(section, value, address, before, fitted)
            if number:
                return Stopped(number, section, entry, at)
            before = value if address is None else address
            if section == PAGES:
                fitted.add(value)
            at += size
    return Stopped(20, None, None, at) if at < len(job) else None

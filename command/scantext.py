"""A scan of the plug recorder: sixteen channels and the line words of its run."""
import re
from typing import NamedTuple

from command.lexing import line_words_of
from command.places import TextError
from command.sections import two

CHANNELS = 16
NO_CARD = 0x8000
MOST = 0x7FFF
LOWEST, HIGHEST = -500, 500


class Scan(NamedTuple):
    """A scan: the words of its channels, its line words, and where its channels and its line words were said."""

    channels: list
    lines: list
    places: list
    line_places: list

    def bytes(self):
        """Sixteen words, a count of line words, and the words."""
        return b"".join(map(two, self.channels)) + two(len(self.lines)) + b"".join(map(two, self.lines))


def channel_of(word):
    """The word of a channel."""
    if word.text == "--":
        return NO_CARD
    if not re.fullmatch("-?[0-9]+", word.text):
        raise TextError(f"'{word.text}' is no reading and not --: tenths of a degree are needed, as -37", word.place)
    digits = word.text.lstrip("-").lstrip("0")
    if len(digits) > 5 or int(digits or "0") > MOST:
        raise TextError(f"'{word.text}' is not from -{MOST} to {MOST}", word.place)
    return int(word.text) % 0x10000


def scan_of(words):
    """A scan, from the words of its line."""
    at = next((k for k, word in enumerate(words) if word.text == "lines"), len(words))
    if at != CHANNELS + 1:
        place = words[CHANNELS + 1].place if at > CHANNELS + 1 else words[at - 1].place
        raise TextError(f"a scan has {CHANNELS} channels; here are {at - 1}", place)
    channels = [channel_of(word) for word in words[1:at]]
    lines = line_words_of(words[at + 1 :])
    return Scan(channels, [value for value, _ in lines], [word.place for word in words[:at]], [place for _, place in lines])


def scans_in(data):
    """The scans of bytes, as far as they are whole."""
    scans, at = [], 0
    while at + 2 * CHANNELS + 2 <= len(data):
        channels = [int.from_bytes(data[k : k + 2], "little") for k in range(at, at + 2 * CHANNELS, 2)]
        at += 2 * CHANNELS
        after = at + 2 + 2 * int.from_bytes(data[at : at + 2], "little")
        if after > len(data):
            break
        scans.append(Scan(channels, [], [], []))
        at = after
    return scans

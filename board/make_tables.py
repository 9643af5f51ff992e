#!/usr/bin/env python3
"""Writes tables.h for board.c: make_tables.py SECTION SCANS > tables.h

SECTION is the word section that `hitch asm` or the program `assemble` writes: the old program. SCANS is a text of scans, as
jobs/pulled-card.scans: what the converter cards read. A channel without a card still has a cargo, with the reading of the scan
before.
"""
import sys


def old_words(section):
    """The pairs of an address and a word, after their count. A source that is refused leaves no section."""
    if not section:
        sys.exit("make_tables.py: no section: the source was refused")
    words = [int.from_bytes(section[at : at + 2], "little") for at in range(2, len(section), 2)]
    return zip(words[::2], words[1::2])


def readings(lines):
    last = [0] * 16
    for line in lines:
        if line.startswith("scan "):
            last = [old if word == "--" else int(word) for old, word in zip(last, line.split()[1:17])]
            yield last


def main(section, scans):
    print("static const struct { uint16_t at, word; } old_words[] = {")
    with open(section, "rb") as file:
        for at, word in old_words(file.read()):
            print(f"    {{0x{at:04X}, 0x{word:04X}}},")
    print("};")
    print("static const uint16_t read_by_card[][WD16_CHANNELS] = {")
    with open(scans, encoding="utf-8") as file:
        for values in readings(file):
            print("    {" + ", ".join(f"(uint16_t){value}" for value in values) + "},")
    print("};")


if __name__ == "__main__":
    main(*sys.argv[1:])

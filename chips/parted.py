#!/usr/bin/env python3
"""Takes loads of two values at once apart: chips/parted.py, from standard input to standard output, a module's text.

What a load of a pair reads lies where the target's own layout has it, and on some targets eight bytes are aligned to four. The
module writes each value by itself, at the place that x86-64's layout has. So each is read by itself too, at that place.
"""
import re
import sys

PAIR = re.compile(r"  (%\w+) = load (\{ (\w+), (\w+) \}), ptr (%\w+), align (\d+)$")
BYTES = {"i1": 1, "i8": 1, "i16": 2, "i32": 4, "i64": 8, "ptr": 8}


def parted(made, pair, first, second, base, align):
    """A load of a pair as loads of its two values."""
    size = BYTES[second]
    offset = -(-BYTES[first] // size) * size
    yield f"  {made}.0 = load {first}, ptr {base}, align {min(int(align), BYTES[first])}"
    yield f"  {made}.at = getelementptr i8, ptr {base}, i64 {offset}"
    yield f"  {made}.1 = load {second}, ptr {made}.at, align {min(int(align), size)}"
    yield f"  {made}.half = insertvalue {pair} poison, {first} {made}.0, 0"
    yield f"  {made} = insertvalue {pair} {made}.half, {second} {made}.1, 1"


def main():
    for line in sys.stdin:
        found = PAIR.match(line)
        print("\n".join(parted(*found.groups())) if found else line, end="\n" if found else "")


if __name__ == "__main__":
    main()

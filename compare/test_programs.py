#!/usr/bin/env python3
"""The tables of crates/speed/src/programs.rt are the programs of compare/programs.txt."""

import pathlib
import re
import sys

ROOT = pathlib.Path(__file__).resolve().parent.parent


def listed():
    """Name, pages, words and line words of each program of the list."""
    programs = []
    for line in (ROOT / "compare/programs.txt").read_text().splitlines():
        said = re.split("[;#]", line)[0].split()
        if not said:
            continue
        if said[0] == "program":
            programs.append((said[1], [], [], [0] * 16))
        elif said[0] == "pages":
            programs[-1][1].extend(int(page, 16) for page in said[1:])
        elif said[0] == "lines":
            programs[-1][3][:] = [int(word, 16) for word in said[1:]]
        elif said[0] != "runs":
            address, word = said[0].split("=")
            programs[-1][2].append(int(address, 16) << 16 | int(word, 16))
    return programs


def tabled():
    """The same from the tables of the Rattle program."""
    text = (ROOT / "crates/speed/src/programs.rt").read_text()
    text = re.sub("//.*", "", text)
    tables = {}
    for name, size, body in re.findall(r"const (\w+): \[u\d+; (\d+)\] = \[([^]]*)\];", text):
        numbers = [int(number.replace("_", ""), 16) for number in body.replace(",", " ").split()]
        assert len(numbers) == int(size), name
        tables[name] = numbers
    names = [name for name in tables if not name.endswith(("_PAGES", "_LINES"))]
    return [(name.lower(), tables[name + "_PAGES"], tables[name], tables.get(name + "_LINES", tables["QUIET_LINES"])) for name in names]


if __name__ == "__main__":
    if listed() != tabled():
        sys.exit("crates/speed/src/programs.rt is not what compare/programs.txt has")
    print("the tables of crates/speed are the programs of compare/programs.txt")

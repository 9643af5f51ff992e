#!/usr/bin/env python3
"""Brings the definitions, lemmas and fields of this repository to snake case: `wordAt` becomes `word_at`. Types, modules and names from source keep theirs.

usage: python3 tools/respell.py     at the top of the repository, after port.py, once

It goes over the code and proofs of crates/, the wrong answers in must-fail/ and edits/, README.md and docs/. Each part of a name between dashes is respelled by itself.
"""

import os
import re

NAME = re.compile(r"(?<![\w'\\])[^\W\d][\w'₀-₉]*(?:-[\w'₀-₉≡⇒]+)*")
CAMEL = re.compile(r"[a-z][a-z0-9]*[A-Z]\w*")
# A byte as `b'S'` is no name.
BYTE = re.compile(r"b'.'")

# Laws whose name would fall together with that of the definition that they are about get their dash back.
LAWS = {
    "lines_at": ["job/proofs/Laws.antt", "job/proofs/fill/Proof.antt"],
    "first_back": ["machine/proofs/Laws/Back.antt", "demands/proofs/Laws/Runs.antt", "recorder/proofs/Laws/Blind.antt"],
    "row_count": ["optext/proofs/Laws/Table.antt", "optext/proofs/Laws/Heads.antt", "optext/proofs/Laws/Back.antt"],
    "same_text": ["optext/proofs/Laws/Columns.antt", "optext/proofs/Laws/AsOp.antt"],
    "last_letter": ["optext/proofs/Laws/Shown.antt"],
    "goes_on": ["listing/proofs/Laws/Joined.antt", "listjob/proofs/Laws.antt", "listjob/proofs/Laws/Follow.antt"],
}


def snake(part):
    if not CAMEL.fullmatch(part.replace("'", "")) or BYTE.match(part):
        return part
    part = re.sub(r"([a-z0-9'])([A-Z])", r"\1_\2", part)
    return re.sub(r"([A-Z])([A-Z][a-z])", r"\1_\2", part).lower()


def respelled(word, known):
    return "-".join(snake(part) if part in known else part for part in word.split("-"))


def as_in_sources(word, names, dashes):
    """A name in a paper or a wrong answer, as the sources have it now: in snake case, or with its dashes turned to lines where they were."""
    found = "-".join(snake(part) for part in word.split("-"))
    if found in names:
        return found
    low = found.replace("-", "_")
    return low if dashes and low in names else word


def files(*ends, below):
    for folder, dirs, names in os.walk(below):
        dirs[:] = sorted(d for d in dirs if d not in ("out", "target", ".git"))
        for name in sorted(names):
            if name.endswith(ends):
                yield os.path.join(folder, name)


def turned(path, turn):
    with open(path, encoding="utf-8") as f:
        text = f.read()
    new = NAME.sub(lambda m: turn(m.group()), text)
    if new != text:
        with open(path, "w", encoding="utf-8") as f:
            f.write(new)


def names_in(path):
    with open(path, encoding="utf-8") as f:
        return [m.group() for m in NAME.finditer(f.read())]


def main():
    for law, where in LAWS.items():
        for path in where:
            turned(os.path.join("crates", path), lambda word: law.replace("_", "-") if word == law else word)
    sources = list(files(".antt", ".rt", below="crates"))
    parts = {part for path in sources if path.endswith(".antt") for name in names_in(path) for part in name.split("-")}
    known = {part for part in parts if snake(part) != part}
    for path in sources:
        turned(path, lambda word: respelled(word, known))
    names = {name for path in sources if path.endswith(".antt") for name in names_in(path)}
    papers = ["README.md", *files(".md", below="docs")]
    for path in list(files(".edit", below="crates")) + list(files(".edit", below="edits")):
        turned(path, lambda word: as_in_sources(word, names, True))
    for path in papers:
        turned(path, lambda word: as_in_sources(word, names, False))
    print(f"{len(known)} names")


main()

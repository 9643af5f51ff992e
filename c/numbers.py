#!/usr/bin/env python3
"""Puts the version and the numbers' names and words where C has them: numbers.py [--check]

From VERSION and c/numbers.tsv (kind, number, name, words) it writes the lines of each `enum wd16_KIND` and WD16_VERSION in
c/hitchbriar.h, and the whole of c/words.c. With --check nothing is written: it tells what differs, and that no other name of
the header is given twice.
"""
import pathlib
import re
import sys
import textwrap

C = pathlib.Path(__file__).resolve().parent
TABLE, HEADER, WORDS, VERSION = C / "numbers.tsv", C / "hitchbriar.h", C / "words.c", C.parent / "VERSION"
WIDTH = 125


def rows():
    """The table's rows by kind, each by rising numbers: number, name, words."""
    kinds, names = {}, set()
    for line in TABLE.read_text(encoding="utf-8").splitlines():
        if line.startswith("#"):
            continue
        kind, number, name, words = line.split("\t")
        kinds.setdefault(kind, []).append((int(number), name, words))
        if name in names or len(kinds[kind]) > 1 and kinds[kind][-2][0] >= int(number):
            sys.exit(f"numbers.py: {kind} {number}: the name again, or a number that does not rise")
        names.add(name)
    return kinds


def enumerator(number, name, words, widest):
    """A name of an enum with its words, over as many lines as they need."""
    head = f"    {name} = {number},".ljust(widest)
    lines = textwrap.wrap(words, WIDTH - len(head) - 7)
    return f"{head} /* " + ("\n" + " " * (len(head) + 4)).join(lines) + " */"


def enum(kind, entries):
    widest = max(len(f"    {name} = {number},") for number, name, _ in entries)
    lines = [enumerator(number, name, words, widest) for number, name, words in entries]
    return f"enum wd16_{kind} {{\n" + "\n".join(lines) + "\n};"


def header(text, kinds):
    """The header with each kind's enum and the version as they should be."""
    for kind, entries in kinds.items():
        text, count = re.subn(rf"^enum wd16_{kind} \{{\n(?:.*\n)*?\}};", lambda _: enum(kind, entries), text, count=1, flags=re.M)
        if count == 0:
            sys.exit(f"numbers.py: {HEADER.name} has no enum wd16_{kind}")
    version = VERSION.read_text(encoding="utf-8").strip()
    return re.sub(r'^#define WD16_VERSION ".*"$', f'#define WD16_VERSION "{version}"', text, flags=re.M)


def words_of(kind, entries):
    """The function that tells a kind's words."""
    yield f"const char *wd16_{kind}_words(uint8_t number)"
    yield "{"
    yield "    static const char *const words[] = {"
    for _, name, words in entries:
        yield f'        [{name}] = "{words}",'
    yield "    };"
    yield "    return number < sizeof words / sizeof *words && words[number] != NULL ? words[number] : no_such_number;"
    yield "}"


def words_file(kinds):
    yield "/* The words of the numbers, for a console or a display. Made by c/numbers.py from c/numbers.tsv. */"
    yield '#include "hitchbriar.h"'
    yield ""
    yield 'static const char no_such_number[] = "no such number";'
    for kind in ("refusal", "cause", "mode"):
        yield ""
        yield from words_of(kind, kinds[kind])


def named_twice(text):
    names = re.findall(r"^    (WD16_\w+) =", text, re.M)
    return sorted({name for name in names if names.count(name) > 1})


def main(arguments):
    if arguments not in ([], ["--check"]):
        sys.exit(__doc__)
    kinds = rows()
    text = HEADER.read_text(encoding="utf-8")
    made = {HEADER: header(text, kinds), WORDS: "\n".join(words_file(kinds)) + "\n"}
    wrong = [f"{name} is given twice" for name in named_twice(made[HEADER])]
    for file, content in made.items():
        if not arguments:
            file.write_text(content, encoding="utf-8")
        elif not file.exists() or file.read_text(encoding="utf-8") != content:
            wrong.append(f"{file.name} is not what numbers.py makes of numbers.tsv and VERSION")
    if wrong:
        sys.exit("\n".join(wrong))
    print(f"{sum(map(len, kinds.values()))} numbers of {len(kinds)} kinds, version {VERSION.read_text(encoding='utf-8').strip()}")


if __name__ == "__main__":
    main(sys.argv[1:])

#!/usr/bin/env python3
"""The table of wrong answers in docs/CONTRACTS.md, made from the edits themselves: table.py [--write | --check | --words [CRATE ..]]

An edit stands in crates/CRATE/must-fail, where the gate tries it, or in edits/CRATE, where `edits/run` does. Its first line is a
comment that says what would be wrong. Where it stands in the table is read off the tree: the function, or the definition, that its
first old text is in. --write puts the table into the paper, --check tells what is wrong with it, --words prints the edits with their
comments. A public function has two edits at least, in its own body, in that of a private function that it calls, or in its
definition.
"""
import collections
import pathlib
import re
import sys

ROOT = pathlib.Path(__file__).resolve().parent.parent
PAPER = ROOT / "docs" / "CONTRACTS.md"
BEGIN, END = "<!-- edits/table.py --write -->", "<!-- the table's end -->"
HEAD = "| Function | Wrong answers |\n|---|---|\n"
FUNCTION = re.compile(r"^( *)(pub )?(?:pub\(crate\) )?(?:extern \"C\" )?(?:final )?(?:fn|const|static) (\w+)", re.M)
DEFINITION = re.compile(r"^(?: *(?:abbrev|unfoldable) (?:pub )?|(?:pub )?(?:data|record) |pub )([^\s:({]+)", re.M)
# Functions whose edits change their definition, which they are proved to be: of a field the one line of code stands in other fields
# too, and an edit's old text must stand once; `write_end` is one call.
ALIKE = """destination_mode destination_register source_mode source_register register format9_code offset format2_code only_register
    format4_code argument format8_code block_source block_destination"""
DEFINED = {"endline write_end": "Report end_text"}
DEFINED |= {f"opcodes fields::{field}": f"Fields {field}" for field in ALIKE.split()}
# Functions with fewer than two edits, and why.
PRINTS = "put_line put_spaces put_printed put_refused say_unless read_board"
FEWER = {f"printing {name}": "what the C library reads and writes is not in the logic" for name in PRINTS.split()}

Edit = collections.namedtuple("Edit", "name crate gate place words")


def pairs(edit):
    """The first line's words, and the places that an edit changes: file, old text."""
    lines = edit.read_text(encoding="utf-8").split("\n")
    file, found = "", []
    for line in lines:
        if line.startswith("file: "):
            file = line[len("file: ") :]
        elif line.startswith("old: "):
            found.append((file, line[len("old: ") :]))
    words = lines[0][2:].strip() if lines[0].startswith("# ") else ""
    return words, sorted(found, key=lambda pair: not pair[0].startswith("src/"))


def module(file):
    """src/layout.rt is the module layout, src/lib.rt the crate's root."""
    stem = file[len("src/") : -len(".rt")]
    return "" if stem in ("lib", "main") else stem + "::"


def place(crate, file, old):
    """The function of src/, as module::name, or the definition of specs/ or proofs/, as File name, that has the old text."""
    text = (ROOT / "crates" / crate / file).read_text(encoding="utf-8")
    at = text.find(old)
    before = [found for found in (FUNCTION if file.startswith("src/") else DEFINITION).finditer(text) if found.start() <= at]
    if not before:
        return file
    return module(file) + before[-1][3] if file.startswith("src/") else f"{pathlib.Path(file).stem} {before[-1][1]}"


def edits():
    """All edits by crate."""
    for file in sorted(ROOT.glob("crates/*/must-fail/*.edit")) + sorted(ROOT.glob("edits/*/*.edit")):
        crate = file.relative_to(ROOT).parts[1]
        words, found = pairs(file)
        yield Edit(file.stem, crate, "must-fail" in file.parts, place(crate, *found[0]), words)


def functions(crate):
    """The functions of a crate, in the order of its files: name, whether it is public, its text after its file's imports."""
    files = sorted((ROOT / "crates" / crate / "src").glob("*.rt"), key=lambda file: (file.stem not in ("lib", "main"), file.stem))
    for file in files:
        text = file.read_text(encoding="utf-8")
        imports = "\n".join(re.findall(r"^use .*;$", text, re.M))
        starts = list(FUNCTION.finditer(text))
        for start, after in zip(starts, starts[1:] + [None]):
            body = text[start.start() : after.start() if after else len(text)]
            yield module(f"src/{file.name}") + start[3], bool(start[2]), f"{imports}\n{body}"


def parts(name):
    """layout::put_state is put_state of the module layout; lib's own have none."""
    *of, last = name.split("::")
    return (of or [""])[0], last


def called(name, texts):
    """The functions of the crate that a function's text calls: by module::name, or by a name of its own module, or imported."""
    here, found = parts(name)[0], []
    body = re.sub(r"^use .*;$|\bfn \w+", "", texts[name], flags=re.M)
    for of, last in set(re.findall(r"(?:\b(\w+)::)?\b(\w+)\(", body)) | {("", word) for word in re.findall(r"\b[A-Z][A-Z_]+\b", body)}:
        known = [other for other in texts if parts(other)[1] == last and other != name]
        if of and any(parts(other)[0] == of for other in known):
            known = [other for other in known if parts(other)[0] == of]
        elif any(parts(other)[0] == here for other in known):
            known = [other for other in known if parts(other)[0] == here]
        elif re.search(rf"^use .*\b(\w+)::{last};$", texts[name], re.M):
            brought = re.search(rf"^use .*\b(\w+)::{last};$", texts[name], re.M)[1]
            known = [other for other in known if parts(other)[0] in (brought, "")]
        found += known
    return sorted(found, key=list(texts).index)


def behind(name, texts, public):
    """The private functions that a public one comes to through private ones alone."""
    seen, open_ = [], [name]
    while open_:
        for other in called(open_.pop(), texts):
            if other not in public and other not in seen:
                seen.append(other)
                open_.append(other)
    return seen


def shown(found):
    return ", ".join(f"`{edit.name}`" + ("" if edit.gate else "*") for edit in found)


def rows(crate, found):
    """The rows of a crate: each public function with its own edits, then those of the private functions behind it, then those of
    its definition; what is in no function stands by its definition. And the public functions that have fewer than two."""
    listed = list(functions(crate))
    texts, public = {name: text for name, _, text in listed}, {name for name, is_public, _ in listed if is_public}
    at, few, lines, told = collections.defaultdict(list), [], [], set()
    for edit in found:
        at[edit.place].append(edit)
    for name in texts:
        if name not in public:
            continue
        inner = [other for other in behind(name, texts, public) if other in at]
        defined = DEFINED.get(f"{crate} {name}")
        is_function = name.split("::")[-1] != name.split("::")[-1].upper()
        if is_function and sum(len(at.get(other, [])) for other in (name, defined, *inner)) < 2 and f"{crate} {name}" not in FEWER:
            few.append(f"{crate} {name}")
        parts = ([shown(at[name])] if at[name] else []) + [f"in `{other}` {shown(at[other])}" for other in inner if other not in told]
        parts += [f"in its definition {shown(at[defined])}"] if defined in at else []
        parts += [f"and those in " + ", ".join(f"`{other}`" for other in inner if other in told)] if any(other in told for other in inner) else []
        if parts:
            lines.append(f"| {crate} `{name}` | {'; '.join(parts)} |")
        told |= {name, defined, *inner}
    for name in sorted(set(at) - told):
        lines.append(f"| {crate} {quoted(name)} | {shown(at[name])} |")
    return lines, few


def quoted(name):
    """`name`, or File `name`."""
    *file, last = name.split(" ")
    return " ".join([*file, f"`{last}`"])


def table():
    """The table's text, the functions that have too few edits, and the edits."""
    by_crate = collections.defaultdict(list)
    for edit in edits():
        by_crate[edit.crate].append(edit)
    lines, few = [], []
    for crate in sorted(by_crate):
        more, lack = rows(crate, by_crate[crate])
        lines, few = lines + more, few + lack
    return f"{BEGIN}\n{HEAD}" + "\n".join(lines) + f"\n{END}", few, [edit for found in by_crate.values() for edit in found]


def main(arguments):
    text, few, found = table()
    if arguments[:1] == ["--words"]:
        for edit in found:
            if edit.crate in arguments[1:] or not arguments[1:]:
                print(f"{edit.crate}\t{edit.place}\t{edit.name}\t{edit.words}")
        return
    if arguments not in (["--write"], ["--check"]):
        sys.exit(__doc__)
    paper = PAPER.read_text(encoding="utf-8")
    begin, end = paper.find(BEGIN), paper.find(END)
    if begin < 0 or end < 0:
        sys.exit(f"table.py: {PAPER.name} has no place for the table")
    right = paper[:begin] + text + paper[end + len(END) :]
    wrong = [f"{name}: fewer than two wrong answers" for name in few]
    wrong += [f"{edit.crate} {edit.name}: its first line doesn't say what would be wrong" for edit in found if len(edit.words.split()) < 4]
    if arguments == ["--write"]:
        PAPER.write_text(right, encoding="utf-8")
    elif right != paper:
        wrong.append(f"{PAPER.name} has not the table that edits/table.py --write makes")
    for line in wrong:
        print(line)
    print(f"{len(found)} wrong answers of {len({edit.crate for edit in found})} crates, {sum(edit.gate for edit in found)} of them in the gate")
    sys.exit(bool(wrong))


if __name__ == "__main__":
    main(sys.argv[1:])

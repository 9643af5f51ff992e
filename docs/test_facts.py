#!/usr/bin/env python3
"""What stands in two places is the same in both. Run by .ci/run.

- the crates: crates.txt, the folders of crates/ and the table of docs/ARCHITECTURE.md;
- the refusal numbers: c/numbers.tsv, crates/refusal (Numbers.antt and the enum Refusal), the text's own, and the table of docs/PROOFS.md;
- the public functions, and what the tables of docs/CONTRACTS.md say that they promise: crates/*/src and docs/CONTRACTS.md;
- the worked change: what the diffs of docs/CHANGE.md add stands in the tree, beside the lines that they show;
- no paragraph of README.md is longer than a reader's breath.
"""
import pathlib
import re
import sys

ROOT = pathlib.Path(__file__).resolve().parent.parent
LONGEST = 90
# Refusal numbers that are the text's own: cases of optext's answers, named in optext_c.
OF_TEXT = {6, 7, 9, 30, 31, 32}
# A function in the code: its name, its parameters, its type, its contract. And one in the paper.
HEAD = re.compile(r'^ *pub (?:extern "C" )?fn (\w+)(?:<[^>]*>)?\(([^)]*)\)(?: -> ([^\n]+))?\n((?: +(?:requires|ensures).*\n(?: {8,}.*\n)*)+)', re.M)
SIGNATURE = re.compile(r"(?:\w+::)*(\w+)\(([^()]*)\)(?: -> ([\w<>(), ]+))?")


def read(path):
    return (ROOT / path).read_text(encoding="utf-8")


def section(text, title):
    """A paper's part under a heading, up to the next one that is not below it."""
    depth = title.split(" ")[0]
    return re.split(rf"^#{{1,{len(depth)}}} ", text.split(title + "\n", 1)[1], maxsplit=1, flags=re.M)[0]


def first_cells(text):
    """The first cells of a paper's tables, without their heads."""
    rows = [line.split("|")[1].strip() for line in text.splitlines() if line.startswith("|")]
    return [cell for cell, below in zip(rows, rows[1:] + [""]) if not set(cell) <= set("-") and not (below and set(below) <= set("-"))]


def quoted(text):
    return re.findall(r"`([^`]+)`", text)


def crates():
    listed = [line.split(":")[0].split()[0] for line in read("crates.txt").splitlines() if line and not line.startswith("#")]
    yield from same("crates.txt", listed, "the folders of crates/", [folder.name for folder in (ROOT / "crates").iterdir()])
    table = read("docs/ARCHITECTURE.md").split("## The crates\n", 1)[1].split("\n\nIn each crate", 1)[0]
    yield from same("crates.txt", listed, "docs/ARCHITECTURE.md", [name for cell in first_cells(table) for name in quoted(cell)])


def same(here, some, there, others):
    """What only one of two lists has, and what one has twice."""
    for place, one, other in ((here, some, others), (there, others, some)):
        for item in sorted(set(one), key=str):
            if item not in other:
                yield f"{place} has {item}, {there if place == here else here} has not"
            elif one.count(item) > 1:
                yield f"{place} has {item} twice"


def snake(name):
    return re.sub(r"(?<!^)(?=[A-Z])", "_", name).lower()


def refusals():
    table = [line.split("\t") for line in read("c/numbers.tsv").splitlines() if line.startswith("refusal\t")]
    numbers = [int(number) for _, number, _, _ in table if number != "0"]
    refusal = re.search(r"^pub enum Refusal \{\n(.*?)^\}", read("crates/refusal/src/lib.rt"), re.M | re.S)[1]
    code = re.findall(r"^    (\w+) = (\d+),", refusal, re.M)
    meaning = re.findall(r"^(\w+) = (\d+)$", read("crates/refusal/specs/Numbers.antt"), re.M)
    yield from same("refusal Refusal", [f"{snake(name)} {number}" for name, number in code], "refusal Numbers", [f"{name} {number}" for name, number in meaning])
    yield from same("c/numbers.tsv", numbers, "refusal Refusal with the text's own", [int(number) for _, number in code] + sorted(OF_TEXT))
    paper = section(read("docs/PROOFS.md"), "## Refusal numbers")
    told = {int(number) for cell in first_cells(paper) for number in re.findall(r"\d+", re.sub(r"\([^)]*\)", "", cell))}
    yield from same("c/numbers.tsv", numbers, "the refusal numbers of docs/PROOFS.md", sorted(told))


def functions():
    """Public functions that docs/CONTRACTS.md has not, before its table of wrong answers."""
    paper = read("docs/CONTRACTS.md").split("## Wrong answers that are refused")[0]
    names = {word for text in quoted(paper) for word in re.findall(r"\w+", text)}
    programs = {path.parent.parent.name for path in ROOT.glob("crates/*/src/main.rt")}
    for path in sorted(ROOT.glob("crates/*/src/*.rt")):
        crate = path.relative_to(ROOT).parts[1]
        for name in re.findall(r"^ *pub (?:extern \"C\" )?fn (\w+)", path.read_text(encoding="utf-8"), re.M):
            if crate not in programs and name not in names:
                yield f"docs/CONTRACTS.md has no {crate} `{name}`"


def names(parameters):
    """The parameters' names, without their types; a method's self is s."""
    parts = re.sub(r"<[^<>]*>", "", parameters).split(",")
    return ["s" if name == "self" else name for name in (part.split(":")[0].replace("mut ", "").strip() for part in parts) if name]


def promised(contract):
    """What a contract's clauses promise, as the paper writes it: r is the answer, x what was lent, x' what is left; no name has its
    file before it."""
    for clause in re.split(r"\b(?:requires|ensures)\*?(?: \w+)? (?=\{)", contract)[1:]:
        text = " ".join(re.fullmatch(r"\{(.*)\}", clause.strip(), re.S)[1].split())
        short = ((r"\b(\w+)\.new\b", r"\1'"), (r"\b(\w+)\.(?:old|now)\b", r"\1"), (r"\b[A-Z]\w*\.(?=\w)", ""), (r"\bself\b", "s"), (r"\bresult\b", "r"))
        for long, shorter in short:
            text = re.sub(long, shorter, text)
        yield re.sub(r"(?<![\w'])\((\w+'?)\)", r"\1", text)


def stated():
    """What the tables of docs/CONTRACTS.md say: a function's name, parameters and type, and its promise."""
    head = ""
    for line in read("docs/CONTRACTS.md").split("## Wrong answers that are refused")[0].splitlines():
        cells = line.split("|")
        if line.startswith("| Function"):
            head = cells[2].strip()
        if line.startswith("|") and head in ("Promise", "Equal to"):
            heads = [found for found in map(SIGNATURE.fullmatch, quoted(cells[1])) if found]
            said = [text for text in quoted(cells[2]) if head == "Equal to" or "≡" in text or text[0].isupper()]
            for found, text in zip(heads, said):
                yield found[1], names(found[2]), found[3], text, head == "Equal to"
        elif not line.startswith("|"):
            head = ""


def says(said, named, text, equal):
    """Does a clause say what the paper says, whose names for the parameters are these?"""
    said = re.sub(r"\b\w+", lambda word: named.get(word[0], word[0]), said)
    return text == (said.split(" ≡ ", 1)[-1] if equal else said) or f"({text})" in said


def promises():
    """Promises of docs/CONTRACTS.md that no function of the name has: with the paper's names for its parameters, and its type."""
    code = [found.groups() for path in sorted(ROOT.glob("crates/*/src/*.rt")) for found in HEAD.finditer(path.read_text(encoding="utf-8"))]
    for name, parameters, result, text, equal in stated():
        for other, given, type_, contract in code:
            ours = names(given)
            ours = ours[1:] if equal and len(ours) == len(parameters) + 1 and ours[0] == "s" else ours
            if other == name and len(ours) == len(parameters) and result in (None, type_):
                if any(says(said, dict(zip(ours, parameters)), text, equal) for said in promised(contract)):
                    break
        else:
            yield f"docs/CONTRACTS.md: no function {name}({', '.join(parameters)}) of the code promises {text}"


def changes():
    """The hunks of docs/CHANGE.md that the tree has not: their added and unchanged lines are lines of the file, one after the other."""
    for block in re.findall(r"^```diff\n(.*?)^```$", read("docs/CHANGE.md"), re.M | re.S):
        for path, hunk in re.findall(r"^\+\+\+ (\S+)\n((?:[ +-](?!\+\+ ).*\n)+)", block, re.M):
            lines = [line[1:] for line in hunk.splitlines() if not line.startswith("-")]
            if not (ROOT / path).is_file():
                yield f"docs/CHANGE.md: there is no {path}"
            elif "\n" + "\n".join(lines) + "\n" not in "\n" + read(path):
                yield f"docs/CHANGE.md: {path} has not what the diff adds: {lines[0].strip()}"


def paragraphs():
    text = re.sub(r"^```.*?^```$", "", read("README.md"), flags=re.M | re.S)
    for paragraph in re.split(r"\n\n|\n(?=[|\-0-9])", text):
        if len(paragraph.split()) > LONGEST:
            yield f"README.md: a paragraph of {len(paragraph.split())} words: {' '.join(paragraph.split()[:8])} .."


def main():
    wrong = [*crates(), *refusals(), *functions(), *promises(), *changes(), *paragraphs()]
    for line in wrong:
        print(line)
    print(f"what stands twice: {len(wrong)} differences")
    sys.exit(bool(wrong))


if __name__ == "__main__":
    main()

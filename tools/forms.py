#!/usr/bin/env python3
"""Counts, in src/ of each crate, the places that docs/DESIGN-PASS.md speaks of: forms.py [ROOT] [--list]

The counts go by text, so they find what looks like an old form; what a place is, its line says. --list prints each place.
"""
import collections
import pathlib
import re
import sys

FUNCTION = re.compile(r"^ *(?:pub(?:\(crate\))? )?(?:extern \"C\" )?fn (\w+)(?:<[^>]*>)?\(([^{}]*?)\)(?: -> ([^\n{]+?))?(?=\n|\s*\{)", re.M)
ABSENT = "Refused RefusedAt Blank Nowhere Never NoCard Nothing Cut End".split()
KINDS = r"(?:immediate|way|unary|binary|byte_binary)_at|mode_of|mode_number|cause_number|kind_of|format|format_by_halves|row_\d"


def sources(root):
    for file in sorted(root.glob("crates/*/src/**/*.rt")):
        yield f"{file.relative_to(root / 'crates')}", file.read_text()


def functions(text):
    """Each function: its name, its parameters, its answer, its contract and body."""
    found = list(FUNCTION.finditer(text))
    for i, m in enumerate(found):
        end = found[i + 1].start() if i + 1 < len(found) else len(text)
        yield m.group(1), " ".join(m.group(2).split()), (m.group(3) or "").strip(), text[m.end() : end]


def parts(clause):
    """The facts of a clause, at its top level."""
    depth, start, out = 0, 0, []
    for i, c in enumerate(clause):
        depth += c in "(["
        depth -= c in ")]"
        if c == "×" and depth == 0:
            out.append(clause[start:i])
            start = i + 1
    return [re.sub(r"\s+", " ", p).strip().removeprefix("(").removesuffix(")") for p in out + [clause[start:]]]


def places(root):
    """The places by point and kind."""
    found = collections.defaultdict(list)
    facts, runs, stems = collections.defaultdict(list), collections.defaultdict(list), collections.defaultdict(list)
    for file, text in sources(root):
        crate = file.split("/")[0]
        for m in re.finditer(r"enum (\w+) \{(.*?)\n\}", text, re.S):
            if any(re.search(rf"^ +{v}\b", m.group(2), re.M) for v in ABSENT):
                found["1 enums of the shape of Option or Result"].append(f"{file} {m.group(1)}")
        found["1 constants that number a refusal"] += [f"{file} {m}" for m in re.findall(r"^(?:pub )?const (\w+): u8 = \d+;", text, re.M)]
        found["3 loops by while"] += [f"{file} {n}" for n, _, _, body in functions(text) for _ in re.findall(r"^ +while ", body, re.M)]
        for name, args, answer, body in functions(text):
            place = f"{file} {name}"
            if answer == "u8" and re.search(r"refus|why", name + body.split("{")[-1] if "refus" in name else name) and "extern" not in text[: text.find(name)][-40:]:
                found["1 functions that answer a number for a refusal"].append(place)
            if answer == "bool" and "impl Print" in args:
                found["1 functions that answer whether all was written"].append(place)
            if re.search(r"else \{\s*return \w+(?:\(\w+\))?;\s*\}", body) and re.search(r"let [\w:]+\(", body):
                found["1 answers taken apart by hand to be passed on"].append(place)
            arms = re.findall(r"=> (true|false),", body)
            if len(arms) > 3:
                found["4 yes or no told variant by variant"].append(place)
            if re.fullmatch(KINDS, name):
                found["4 conversions by hand"].append(place)
            if re.search(r"&(?:mut )?\[\w+\]", args) and re.search(r"\b(?:n|count|len): (?:usize|u16)", args):
                found["6 a buffer with a length or a count beside it"].append(place)
            if len(re.findall(r"^ +[\w:]+(?:\([^)]*\))? => [\w:.]*\w+\(s\b|^ +\d+ => \w+\(", body, re.M)) > 4:
                found["7 switches on which step to run"].append(place)
            stem = re.sub(r"16|8|_?bytes?|_?words?", "", name)
            stems[crate, stem].append(place)
            for clause in re.findall(r"requires \{ (.*) \}", body):
                for fact in parts(clause):
                    facts[fact].append(place)
            names = re.findall(r"(\w+: [^,]+)", args)
            for size in (3,):
                for i in range(len(names) - size + 1):
                    runs[", ".join(names[i : i + size])].append(place)
    for (crate, stem), who in stems.items():
        if len(who) > 1 and len({w.split()[-1] for w in who}) > 1 and stem:
            found["2 functions whose names differ in a width or a size"] += who
    for fact, who in facts.items():
        if len(set(who)) > 2:
            found["5 facts that three requires or more say"] += [f"{w}: {fact}" for w in who]
    for run, who in runs.items():
        if len(set(who)) > 2:
            found["5 three parameters that travel together"] += [f"{w}: {run}" for w in who]
    found["8 files of answers"] = [str(f.relative_to(root)) for f in root.glob("crates/*/proofs/**/Answers.antt")]
    found["8 lines of answers"] = [line for f in root.glob("crates/*/proofs/**/Answers.antt") for line in f.read_text().splitlines()]
    return found


def main():
    words = [w for w in sys.argv[1:] if not w.startswith("--")]
    found = places(pathlib.Path(words[0] if words else "."))
    for kind in sorted(found):
        print(f"{len(found[kind]):5}  {kind}")
        if "--list" in sys.argv and not kind.startswith("8 lines"):
            print("\n".join(f"         {place}" for place in found[kind]))


if __name__ == "__main__":
    main()

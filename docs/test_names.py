#!/usr/bin/env python3
"""Every name that the papers quote exists, so does every file that they name, and the table of mnemonics in docs/PROOFS.md has
the rows of the text's table. Run by .ci/run."""
import functools
import os
import re
import sys

ROOT = os.path.join(os.path.dirname(os.path.abspath(__file__)), "..")
PAPERS = ["README.md"] + [f"docs/{name}.md" for name in "PROOFS CONTRACTS ARCHITECTURE DECISIONS LANDINGS SPEED CHIPS BELIEVE GLOSSARY CHANGE BENCH".split()]
PROOFS = "docs/PROOFS.md"
# Quoted words that are no names of ours: the language's, commands, the C library's, and texts and words of op codes.
NO_NAMES = set("requires ensures match let  rt cargo python3 make  memset memcpy memmove __aeabi_memclr4 size_t uint16_t zeroext  ADD ADDX BRX NOPX B001".split())
NAME = r"[A-Za-z_][\w'′₀-₉-]*"


def read(*parts):
    with open(os.path.join(ROOT, *parts), encoding="utf-8") as file:
        return file.read()


def files(folder, ending):
    for place, _, names in os.walk(os.path.join(ROOT, folder)):
        for name in names:
            if name.endswith(ending):
                yield os.path.relpath(os.path.join(place, name), ROOT)


def defined(text):
    """The names that a file of specs/ or proofs/ defines: definitions, laws, fields, constructors, types."""
    return set(re.findall(rf"^\s*(?:abbrev |unfoldable )?(?:pub )?(?:data |record )?({NAME})(?: [^:=\n]*)? :", text, re.M))


def functions(text):
    return set(re.findall(r"\bfn (\w+)", text))


def other_items(text):
    """Types, their cases and fields, parameters, constants, modules and labels of a source file."""
    found = set(re.findall(r"\b(?:struct|enum|const|static|mod|impl) (\w+)", text)) | set(re.findall(r"[(,] ?(\w+): ", text))
    return found | set(re.findall(r"^\s+(?:pub )?([A-Za-z]\w*)(?:\(|:|,|$)", text, re.M))


def gather():
    specs, laws, source, names = {}, {}, {}, set()
    for path in files("crates", ".antt"):
        crate, kind, file = path.split(os.sep)[1], path.split(os.sep)[2], os.path.basename(path)[: -len(".antt")]
        here = defined(read(path))
        names |= here | {file}
        if kind == "specs":
            specs[crate, file] = here
        elif path.split(os.sep)[3] in ("Laws", "Laws.antt"):
            laws[crate, file] = here
    for path in files("crates", ".rt"):
        crate, module = path.split(os.sep)[1], os.path.basename(path)[: -len(".rt")]
        text = read(path)
        names |= functions(text) | other_items(text) | {crate, module}
        source.setdefault(crate, {})[module] = functions(text) | other_items(text)
    for path in files("compare/src", ".rs"):
        names |= functions(read(path)) | other_items(read(path))
    for path in list(files("crates", ".edit")) + list(files("edits", ".edit")):
        names.add(os.path.basename(path)[: -len(".edit")])
    return specs, laws, source, names


def function_there(source, crate, path):
    """`branch::holds` of a crate: fn holds in the file branch, or in the crate's root; a method's type stands before it."""
    *before, name = path.split("::")
    modules = source.get(crate, {})
    for module in before[:1]:
        if module in modules:
            return name in modules[module]
    return any(name in found for found in modules.values())


@functools.lru_cache(maxsize=None)
def promising(crate):
    """The functions of a crate that promise something, by the folders in proofs/ that are theirs: below their file's and their type's."""
    found = set()
    for path in files(f"crates/{crate}/src", ".rt"):
        file, of, name = os.path.basename(path)[: -len(".rt")], "", ""
        for line in read(path).splitlines():
            head = re.match(r'impl (\w+)|( *)(?:pub(?:\(crate\))? )?(?:extern "C" )?fn (\w+)', line)
            if head and head[1]:
                of = head[1]
            elif head:
                name = "/".join(filter(None, ("" if file in ("lib", "main") else file, of if head[2] else "", head[3])))
            elif re.match(r" +ensures\b", line):
                found.add(name)
    return found


def quoted(text):
    return re.findall(r"`([^`\n]+)`", text)


def wrong_names(text, names):
    """Quoted words that nothing has; what is not a name, as a command or a pattern, is not looked at."""
    for word in quoted(text):
        if re.fullmatch(rf"{NAME}(?:::\w+)*", word):
            for part in word.split("::"):
                if part not in names | NO_NAMES:
                    yield f"`{word}`: nothing has this name"


def wrong_files(text):
    """Files that are not there; what rt makes in a crate's out/ may not be made yet."""
    for path in re.findall(r"(?<![\w/])(?:crates|docs|edits|c|jobs|compare|believed|chips|board)/[\w./-]*\w", text):
        if not os.path.exists(os.path.join(ROOT, re.sub(r"/out/.*", "/src", path) if path.startswith("crates/") else path)):
            yield f"{path}: no such file"


def wrong_places(text, specs, laws):
    """In `crate File: name, name` and `File: name` each name is defined in that file, of specs/ or of proofs/Laws/."""
    both = {place: specs.get(place, set()) | laws.get(place, set()) for place in specs | laws}
    titles = {file for _, file in both}
    crates = {crate for crate, _ in both}
    for crate, file, listed in re.findall(rf"(?:\b([a-z]\w*) )?\b([A-Z]\w*): ((?:`{NAME}`(?:, | and )?)+)", text):
        if file not in titles:
            continue
        homes = [found for (c, f), found in both.items() if f == file and (crate not in crates or c == crate)]
        for name in quoted(listed):
            if not any(name in home for home in homes):
                yield f"{crate} {file}: `{name}` is not defined there"


def rows_of_text():
    runs = re.findall(r'rows_from 0x([0-9A-F]{4}) (\w+) \S+ \S+ \((.*) ∷ \[\]\)', read("crates", "optext", "specs", "Rows.antt"))
    found = [(name, int(base, 16) + k * int(step, 0)) for base, step, names in runs for k, name in enumerate(re.findall(r'"([.\w]+)"', names))]
    return [(name, f"{number:04X}") for name, number in found if name != ".WORD"]


def table_of(text):
    head = "| Mnemonic | Number | Definition | Code | Proof |\n|---|---|---|---|---|\n"
    if head not in text:
        return []
    lines = text.split(head)[1].split("\n\n")[0].strip().split("\n")
    return [[cell.strip() for cell in line.strip("|").split("|")] for line in lines]


def wrong_rows(text, specs, source):
    table = table_of(text)
    if [(row[0], row[1]) for row in table] != rows_of_text():
        yield "the table of mnemonics has not the rows of crates/optext/specs/Rows.antt"
    for name, _, definitions, code, proofs in table:
        for part in definitions.split("; "):
            crate, file, listed = re.fullmatch(r"(\w+) (\w+): (.*)", part).groups()
            for word in quoted(listed):
                if word not in specs.get((crate, file), set()):
                    yield f"{name}: {crate} {file} has no `{word}`"
        for part in code.split("; "):
            crate, listed = part.split(" ", 1)
            for word in quoted(listed):
                if not function_there(source, crate, word):
                    yield f"{name}: {crate} has no function `{word}`"
        for folder in proofs.split(", "):
            crate, path = folder.split("/proofs/")
            if path not in promising(crate):
                yield f"{name}: {crate} has no function with a contract for {folder}"


def wrong_in(paper, specs, laws, source, names):
    text = read(paper)
    yield from wrong_names(text, names)
    yield from wrong_files(text)
    yield from wrong_places(text, specs, laws)
    if paper == PROOFS:
        yield from wrong_rows(text, specs, source)


def main():
    gathered = gather()
    wrong = [f"{paper}: {line}" for paper in PAPERS for line in wrong_in(paper, *gathered)]
    for line in wrong:
        print(line)
    if wrong:
        sys.exit(1)
    quotes = sum(len(set(quoted(read(paper)))) for paper in PAPERS)
    print(f"{len(PAPERS)} papers: {quotes} names and {len(table_of(read(PROOFS)))} mnemonics, all there")


main()

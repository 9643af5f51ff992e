"""The whole repository, who names what in it, and what its statements reach."""
import collections
import os
import re

from antt import HOLE, File, Item, NAME, bare, module_of
from source import Source

# Crates of theorems alone.
THEOREMS = "demands laws patchlaws examples".split()
PROOFS, CONTRACTS, ARCHITECTURE = "docs/PROOFS.md", "docs/CONTRACTS.md", "docs/ARCHITECTURE.md"
# The part of docs/PROOFS.md that tells how proofs go: what it names is no statement.
HOW = "## How code and definition meet"
RESTS_ON = re.compile(r"^\|.*\| Rests on \|$")

PATH = re.compile(rf"(\.?)({NAME}(?:\.{NAME})*)")
RESERVED = set("where unfolding unfold abbrev unfoldable pub data record module deriving let in do elim open using as λ → × = : | ↦".split())


def read(path):
    with open(path, encoding="utf-8") as text:
        return text.read()


def users():
    """The crates whose public functions users call, by docs/CONTRACTS.md."""
    found = re.search(r"^Users call (.*?)\.", read(CONTRACTS), re.M)
    return re.findall(r"`(\w+)`", found.group(1))


def reading_order():
    """The crates from the ground up, as docs/ARCHITECTURE.md's table has them."""
    parts = read(ARCHITECTURE).split("## The crates\n")[1].split("\n\nIn each crate")[0]
    cells = re.findall(r"^\| (`\w+`(?:, `\w+`)*) \|", parts, re.M)
    return [name for cell in cells for name in re.findall(r"`(\w+)`", cell)]


def told(text):
    """The lines of docs/PROOFS.md that state something: not what a statement rests on, and not how proofs go."""
    rests = False
    for line in text.split(HOW)[0].split("\n"):
        rests = line.startswith("|") and (rests or bool(RESTS_ON.match(line)))
        yield line.rsplit("|", 2)[0] if rests else line


class Tree:
    def __init__(self):
        self.files, self.sources = {}, {}
        for path in sorted(paths("crates")):
            if path.endswith(".antt"):
                file = File(path)
                self.files[file.module] = file
            else:
                source = Source(path)
                self.sources[source.module] = source
        self.crates = sorted({m[0] for m in list(self.files) + list(self.sources)})
        self.index = {item.key: item for f in list(self.files.values()) + list(self.sources.values()) for item in f.items}
        self.name_all()
        self.contracts = [contract for source in self.sources.values() for contract in self.contracts_of(source)]

    def name_all(self):
        """What each item names."""
        for source in self.sources.values():
            for item in source.items:
                told = {key for line in item.signature[1:] for key in self.named(line, source)}
                item.shown = item.all = ({found.key for found in self.types_in(item.signature[0], source)} | told) - {item.key}
        for source in self.sources.values():
            for impl in source.impls:
                for found in self.types_in(impl.signature[0], source):
                    found.shown = found.all = found.all | {impl.key}
        for file in self.files.values():
            for item in file.items:
                around = "\n".join(s.text for s in item.sections)
                item.shown = self.named("\n".join(item.signature) + "\n" + around, file, item.first) - {item.key}
                item.all = item.shown | self.named("\n".join(item.body), file, item.first) - {item.key}

    def contracts_of(self, source):
        """Each function with whether another crate may call it, and what its contract names."""
        for function in source.functions:
            reached = {item.key for item in self.types_in(function.head, source)}
            for clause in function.clauses:
                reached |= self.named(clause, source)
            yield source, function, function.public and self.open(source), reached

    def open(self, source):
        """May another crate name this module of src/?"""
        root = self.sources.get((source.crate, "src", "lib"))
        return source.title in ("lib", "main") or (root is not None and source.title in root.public_mods)

    def types_in(self, text, source):
        """The types of src/ that a text of src/ names."""
        for word in set(re.findall(r"[A-Za-z_]\w*", text)):
            item = self.type_named(word, source)
            if item:
                yield item

    def type_named(self, word, source):
        if word in source.types:
            return source.types[word]
        path = source.imports.get(word)
        if path is None:
            return None
        mine = path[0] in ("crate", "self", "super") or (source.crate, "src", path[0]) in self.sources
        return self.type_of(source.crate if mine else path[0], [word])

    def type_of(self, crate, words):
        for word in words:
            for source in self.sources.values():
                if source.crate == crate and word in source.types:
                    return source.types[word]
        return None

    def found(self, module, name):
        """The item of this name in this module, of specs/, proofs/ or src/; a constructor's type."""
        if "declared" in module:
            words = [w for w in module[module.index("declared") + 1 :] if w != "TheVariants"]
            return self.type_of(module[0], words + [name])
        file = self.files.get(module)
        return file.here.get(name) if file else None

    def meaning(self, path, file, line=None):
        """The items that a path of a file's text, at this line, may mean: of its own items only those that begin above."""
        if path.startswith("Rattle."):
            *module, name = path.split(".")
            return [self.found(module_of(".".join(module)), name)]
        head, *rest = path.split(".")
        out = []
        if rest and head in file.names.aliases:
            module = file.names.aliases[head]
            out = [self.found((*module, *rest[:n]), rest[n]) for n in range(len(rest))]
        inside = file.parts.get(head.strip(HOLE), set()) if head.strip(HOLE) != head else set()
        for name in {head} | file.parts.get(head, set()) | inside:
            if name in file.here and (line is None or file.here[name].first <= line):
                out.append(file.here[name])
            elif name in file.names.uses:
                out.append(self.found(*file.names.uses[name]))
        return out

    def named(self, text, file, line=None):
        """The keys of the items that a text of a file names."""
        text = "\n".join(bare(part) for part in text.split("\n"))
        text = re.sub(r'"(?:[^"\\]|\\.)*"', '""', text)
        words = [m.group(2) for m in PATH.finditer(text) if not m.group(1) and m.group(2) not in RESERVED]
        if re.search(r"(?<!\S)do(?!\S)|←", text):
            words += ["◌>>=◌", "◌>>◌"]
        return {item.key for word in words for item in self.meaning(word, file, line) if item is not None}

    def closure(self, seeds):
        seen, todo = set(), list(seeds)
        while todo:
            key = todo.pop()
            if key not in seen and key in self.index:
                seen.add(key)
                todo += self.index[key].all
        return seen

    def homes(self):
        """Where each name is defined: every item but those of functions' own proofs, and every function."""
        by_name = collections.defaultdict(list)
        for file in self.files.values():
            for item in file.items:
                if not item.own:
                    by_name[item.name].append(item)
        for source in self.sources.values():
            for function in source.functions:
                by_name[function.name].append(Item(source, function.name, "function", function.public, 0, []))
        return by_name

    def named_theorems(self):
        """The laws that docs/PROOFS.md names as statements, each line by its own context: where several files have the name, those
        whose file or crate the line tells, and else all of them."""
        by_name, out = self.homes(), set()
        for line in told(read(PROOFS)):
            words = set(re.findall(r"\w+", line))
            for name in set(re.findall(rf"`({NAME})`", line)):
                homes = by_name.get(name, [])
                here = [i for i in homes if i.file.title in words and i.file.crate in words] or [i for i in homes if i.file.title in words]
                homes = [i for i in homes if i.public]
                here = here or [i for i in homes if i.file.crate in words] or homes
                out |= {item.key for item in here if item.law}
        return out

    def own_theorems(self):
        """The theorems of the crates of theorems: public, and either stated by name or cited by no other file of the crate."""
        cited = collections.defaultdict(set)
        for file in self.files.values():
            for item in file.items:
                for key in item.all:
                    cited[key].add(file.module)
        laws = [i for f in self.files.values() if f.crate in THEOREMS for i in f.items if i.law and i.public]
        return {i.key for i in laws if self.stated(i) or not any(m[0] == i.file.crate and m != i.file.module for m in cited[i.key])}

    def stated(self, law):
        """Is the law's whole type a definition of a Type in specs/ of its crate, at some arguments?"""
        found = re.fullmatch(rf"\s*pub \S+ : ({NAME})(?: {NAME})*", "\n".join(law.signature))
        items = self.meaning(found.group(1), law.file, law.first) if found else []
        return any(i and i.file.module[:2] == (law.file.crate, "specs") and re.search(r" : Type \d$", i.signature[0]) for i in items)

    def levels(self):
        """What the contracts for users reach; these and the crates of theorems; these and docs/PROOFS.md; and any statement."""
        mine = set(users())
        public = set().union(*(reached for source, _, open, reached in self.contracts if open and source.crate in mine))
        own = public.union(*(self.index[key].shown for key in self.own_theorems()))
        named = own.union(*(self.index[key].shown for key in self.named_theorems()))
        every = named.union(*(reached for *_, reached in self.contracts))
        return [self.closure(seeds) for seeds in (public, own, named, every)]

    def citers(self):
        """Who names each item."""
        by = collections.defaultdict(set)
        for file in self.files.values():
            for item in file.items:
                for key in item.all:
                    by[key].add(item.key)
        for source, function, _, reached in self.contracts:
            for key in reached:
                by[key].add((source.module, function.name))
        return by


def paths(crates):
    """The files of specs/, proofs/ and src/."""
    for place, folders, names in os.walk(crates):
        folders[:] = [f for f in folders if f not in ("must-fail", "target")]
        for name in names:
            path = os.path.join(place, name).replace(os.sep, "/")
            folder = path.split("/")[2]
            if (name.endswith(".antt") and folder in ("specs", "proofs")) or (name.endswith(".rt") and folder == "src"):
                yield path

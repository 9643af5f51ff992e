"""Files of specs/ and proofs/: their `use` lines, and their items (definitions, laws, types) with the text of each."""
import re

HOLE = "◌"  # where an operator's arguments go
NAME = r"(?:«[^»\n]*»|[^\s(){}.;,@\"«»]+)"
HEAD = re.compile(rf"((?:(?:unfoldable|abbrev|pub) )*)(?:(data|record) (?=.* (?::|where))|(?=\S+(?: \{{[^}}:=]*\}})? :(?: |$)))({NAME})")
CRATE = re.compile(r"Rattle\.([a-z0-9_]+)\.(specs|proofs)(?:\.(.*))?$")
RULES = re.compile(rf"(pub )?(ruleset) ({NAME}) = ")
# The files of a function's own proof: what only the author can choose, and the goals that are left.
OWN = ("Answers", "Invariants")


def bare(line):
    """A line without its comment."""
    return re.sub(r'(?:^|(?<=\s))--(?=[\s-]|$).*$', "", line)


def indent(line):
    return len(line) - len(line.lstrip(" "))


def module_of(path):
    """Rattle.board.specs.Work is (board, specs, Work)."""
    found = CRATE.match(path)
    if not found:
        return (path,)
    return (found.group(1), found.group(2), *(found.group(3).split(".") if found.group(3) else ()))


class Item:
    """A definition, a law, a data type, a record or a ruleset of an .antt file; or a type of src/."""

    def __init__(self, file, name, kind, public, first, sections):
        self.file, self.name, self.kind, self.public = file, name, kind, public
        self.first, self.last = first, first  # lines of the file: the signature's, and the last
        self.sections = sections
        self.made = []  # constructors, or what a deriving clause names
        self.signature, self.body = [], []
        self.in_signature = True
        self.shown, self.all = set(), set()  # what the signature names, and the whole

    @property
    def law(self):
        return self.kind == "law" and not self.own

    @property
    def own(self):
        """Does it stand in a function's own proof?"""
        return self.file.folder == "proofs" and self.file.title in OWN

    @property
    def size(self):
        return self.last - self.first + 1

    @property
    def key(self):
        return (self.file.module, self.name)

    @property
    def depth(self):
        return self.sections[-1].depth + 2 if self.sections else 0

    def extend(self, n, text):
        """One more line of the item."""
        self.last = n
        if indent(text) == self.depth:
            self.in_signature = False
        if self.kind not in ("data", "record"):
            (self.signature if self.in_signature else self.body).append(text)
            return
        self.signature.append(text)
        found = re.match(r"\s+([^:]*?) :", text)
        if self.kind == "data" and found and indent(text) == self.depth + 2:
            self.made += found.group(1).split()
        found = re.match(r"\s+deriving .* as (\S+)", text)
        if found:
            self.made.append(found.group(1))

    def __repr__(self):
        return f"{self.file.path}:{self.first + 1} {self.name}"


class Section:
    """`module _ (params) where`."""

    def __init__(self, text, depth):
        self.text, self.depth = text, depth

    @property
    def headed(self):
        return self.text.endswith("where")


class Names:
    """What a file may name by its `use` lines."""

    def __init__(self):
        self.uses, self.aliases = {}, {}

    def use(self, path, text):
        text = re.sub(r"^(?:unfoldable )?(?:pub )?use (?:package\.)?", "", text)
        if text.endswith(".*"):
            raise SystemExit(f"{path}: not understood, teach antt.py: use {text}")
        found = re.match(r"(.+?)\.\{(.*)\}$", text)
        if not found:
            module, _, other = text.partition(" as ")
            self.aliases[other or module.split(".")[-1]] = module_of(module)
            return
        for part in found.group(2).split(","):
            name, _, other = part.strip().partition(" as ")
            *deeper, last = name.split(".")
            self.uses[other or last] = (module_of(".".join([found.group(1)] + deeper)), last)


def parts_of(names):
    """The operators that a part such as `+` may stand for."""
    parts = {}
    for name in names:
        if HOLE in name and not name.startswith("«"):
            for part in filter(None, name.split(HOLE)):
                parts.setdefault(part, set()).add(name)
    return parts


class File:
    """An .antt file."""

    def __init__(self, path):
        self.path = path
        _, self.crate, self.folder, *rest = path[: -len(".antt")].split("/")
        self.module = (self.crate, self.folder, *([] if rest == ["Lib"] else rest))
        self.title = rest[-1]
        with open(path, encoding="utf-8") as text:
            self.lines = text.read().rstrip("\n").split("\n")
        self.names, self.items = Names(), []
        self.item, self.sections = None, []
        for n, line in enumerate(self.lines):
            text = bare(line).rstrip()
            if text.strip():
                self.take(n, text)
        self.here = {}
        for item in self.items:
            for name in [item.name] + item.made:
                self.here.setdefault(name, item)
        self.parts = parts_of(list(self.names.uses) + list(self.here))

    def take(self, n, text):
        """A line that is not empty: a `use` line, a section's head, an item's first line or a further one."""
        if re.match(r"(?:unfoldable )?(?:pub )?use ", text):
            self.names.use(self.path, text)
        elif not re.match(r"(?:pub )?mod \S+$", text):
            self.leave_sections(indent(text))
            inner = self.sections and indent(text) > self.sections[-1].depth
            if inner and not self.sections[-1].headed:
                self.sections[-1].text += "\n" + text
            elif indent(text) != (self.sections[-1].depth + 2 if self.sections else 0):
                self.extend(n, text)
            else:
                self.begin(n, text)

    def leave_sections(self, at):
        while self.sections and at <= self.sections[-1].depth and (self.item is not None or self.sections[-1].headed):
            self.sections = self.sections[:-1]
            self.item = None

    def begin(self, n, text):
        """A line at its section's depth: a section, a fixity, an item's signature or one of its clauses."""
        if re.match(r"\s*(?:(?:unfoldable|abbrev) )?(?:mutual|open|axiom)\b", text):
            raise SystemExit(f"{self.path}:{n + 1}: not understood, teach antt.py: {text}")
        head = HEAD.match(text.lstrip()) or RULES.match(text.lstrip())
        if text.lstrip().startswith("module _"):
            self.sections = self.sections + [Section(text, indent(text))]
            self.item = None
        elif re.match(r"\s*infix[lr]? ", text):
            self.item = None
        elif head and head.group(3) not in ("unfolding", "where"):
            marks = (head.group(1) or "").split()
            kind = head.group(2) or ("definition" if "abbrev" in marks or "unfoldable" in marks else "law")
            self.item = Item(self, head.group(3), kind, "pub" in marks, n, self.sections)
            self.item.signature.append(text)
            self.items.append(self.item)
        else:
            self.extend(n, text)

    def extend(self, n, text):
        if self.item is None:
            raise SystemExit(f"{self.path}:{n + 1}: not understood: {text}")
        self.item.extend(n, text)

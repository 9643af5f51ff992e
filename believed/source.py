"""Files of src/: their types and traits, what a trait stands for at a type, and their functions' contracts."""
import os
import re

from antt import Item, Names, parts_of

PAIRS = {"{": "}", "(": ")"}
GHOST = re.compile(r"^    ghost [^;]*;$", re.M)
CLAUSE = re.compile(r"[^{]*?\b(requires|ensures)\*?(?: \w+)?\s*(?=\{)|[^{]*(?=\{)")


def closing(text, at):
    """The place of the bracket that closes the one at this place."""
    mine, depth = text[at], 0
    for n in range(at, len(text)):
        if text[n] == mine:
            depth += 1
        elif text[n] == PAIRS[mine]:
            depth -= 1
            if not depth:
                return n
    raise ValueError("no closing bracket")


class Function:
    """A function's head, and the facts of its `requires` and `ensures`."""

    def __init__(self, text, found):
        self.name, self.public = found.group(2), found.group(1) == "pub "
        self.line = text.count("\n", 0, found.start()) + 1
        at = closing(text, text.index("(", found.end())) + 1
        self.head, self.clauses = text[found.start() : at], []
        step = CLAUSE.match(text, at)
        while step.group(1):
            end = closing(text, step.end())
            self.head += step.group()
            self.clauses.append(text[step.end() + 1 : end])
            step = CLAUSE.match(text, end + 1)
        self.head += step.group()


class Source:
    """A file of src/."""

    def __init__(self, path):
        self.path, self.crate, self.folder = path, path.split("/")[1], "src"
        self.title = os.path.basename(path)[: -len(".rt")]
        self.module = (self.crate, "src", self.title)
        with open(path, encoding="utf-8") as file:
            text = re.sub(r"//[^\n]*", lambda m: " " * len(m.group()), file.read())
        self.names, self.here = Names(), {}
        for line in re.findall(r"^ghost use (.*);$", text, re.M):
            self.names.use(path, "use " + line)
        self.parts = parts_of(self.names.uses)
        self.imports = {p.split("::")[-1]: p.split("::")[:-1] for p in re.findall(r"^(?:pub )?use ([\w:]+);$", text, re.M)}
        self.public_mods = set(re.findall(r"^pub mod (\w+);$", text, re.M))
        self.items = [self.type_at(text, found) for found in re.finditer(r"^(pub(?:\(crate\))? )?(?:struct|enum) (\w+)", text, re.M)]
        self.items += [self.ghosts_at(text, found, found.group(2)) for found in re.finditer(r"^(pub(?:\(crate\))? )?trait (\w+)", text, re.M)]
        self.types = {item.name: item for item in self.items}
        impls = [self.ghosts_at(text, found, found.group(1)) for found in re.finditer(r"^impl(?:<[^{]*?>)? ([^{\n]* for [^{\n]*?) \{$", text, re.M)]
        self.impls = [item for item in impls if item.signature[1:]]
        self.items += self.impls
        heads = re.finditer(r"^\s*(pub(?:\(crate\))? )?(?:extern \"C\" )?fn (\w+)", text, re.M)
        self.functions = [Function(text, found) for found in heads]

    def type_at(self, text, found):
        tuple_like = re.match(r"\s*\(", text[found.end() :])
        end = text.index(";", found.end()) if tuple_like else closing(text, text.index("{", found.end()))
        item = Item(self, found.group(2), "type of src", True, text.count("\n", 0, found.start()), [])
        item.last = text.count("\n", 0, end)
        item.signature = [text[found.start() : end + 1]]
        return item

    def ghosts_at(self, text, found, name):
        """A trait or an impl of one, of which a reader believes the ghost members: its head, and then each of these."""
        end = closing(text, text.index("{", found.end() - 1))
        item = Item(self, name, "type of src", True, text.count("\n", 0, found.start()), [])
        item.signature = [found.group()] + GHOST.findall(text[found.start() : end + 1])
        item.last = item.first + "\n".join(item.signature).count("\n")
        return item

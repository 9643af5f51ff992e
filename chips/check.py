#!/usr/bin/env python3
"""Looks whether a module's text can be compiled where a pointer is four bytes: chips/check.py [--tell] TEXT

Ends with 1 and tells what stands against it. The module keeps eight bytes for each pointer, and where a pointer is four bytes
the other four mean nothing. That is harmless if no byte of a pointer's eight is ever read or written but as that pointer, in a
copy that takes all eight, or by zeros over all eight. To see it, the places of the whole module are sorted into objects: two
places that may be the same, by a call, a copy or a load, are in one object, each at its offset. A place at an offset that is not
a constant makes its object one of bytes, in which no pointer may stand. So an object is wrong where a pointer and anything else
meet in it, wherever in the module that is. The library's iterators are looked at anew for each call, since one stands at many places
of those that are made of it.

Beside that, nothing may be in the text that depends on the width of a pointer or calls for what a chip has not: ptrtoint and
inttoptr, atomics, vectors, loads of several values at once, globals but constant bytes, 64-bit divisions but those by a power of
two, calls but memmove, memset and trap. An address may be looked at, by ptrtoaddr or beside null: nothing makes a pointer of it.
"""
import re
import sys

KNOWN_CALLS = ("llvm.memmove.p0.p0.i64", "llvm.memset.p0.i64", "llvm.trap")
NO_WORDS = re.compile(r"\b(ptrtoint|inttoptr|atomic|cmpxchg|addrspace|va_arg|indirectbr|invoke)\b")
NO_LINES = re.compile(r"<\d+ x |^%\S+ = type|^@|\b(?:load|store) \{")
CONSTANT = re.compile(r'(@[\w.]+) = private unnamed_addr constant \[(\d+) x i8\] (?:c".*"|zeroinitializer), align 1$')
DIVISION = re.compile(r"\b(?:udiv|urem|sdiv|srem)\b.*\bi(?:64|128) \S+, (\S+)")
NAME = r'(?:"[^"]*"|[\w.]+)'
BYTES = {"i1": 1, "i8": 1, "i16": 2, "i32": 4, "i64": 8, "ptr": 8, "float": 4, "double": 8}
# The library's iterators, which stand at different places of those that are made of them: looked at anew for each call.
ANEW = '"core::iter::'
WHOLE = 1 << 20  # more bytes than any object has
POINTER = 8


class Objects:
    """Objects, each a set of places at offsets: a union-find with offsets. A loose object is one of bytes: no offset is kept."""

    def __init__(self):
        self.above, self.loose, self.pointees = [], set(), []

    def new(self):
        self.above.append((len(self.above), 0))
        self.pointees.append({})
        return len(self.above) - 1, 0

    def root(self, place):
        at, offset = place
        while self.above[at][0] != at:
            at, more = self.above[at]
            offset += more
        return at, offset

    def loosen(self, place):
        """What the places of a loose object point at is one object too."""
        at = self.root(place)[0]
        if at not in self.loose:
            self.loose.add(at)
            pointees, self.pointees[at] = self.pointees[at], {}
            for pointee in pointees.values():
                self.join(self.pointee((at, 0)), pointee)

    def pointee(self, place):
        at, offset = self.root(place)
        key = 0 if at in self.loose else offset
        if key not in self.pointees[at]:
            self.pointees[at][key] = self.new()
        return self.pointees[at][key]

    def join(self, one, two):
        (a, p), (b, q) = self.root(one), self.root(two)
        if a == b:
            if p != q:
                self.loosen((a, 0))
            return
        loose = a in self.loose or b in self.loose
        self.above[b] = (a, p - q)
        pointees, self.pointees[b] = self.pointees[b], {}
        if loose:
            self.loose.discard(a)
            self.loosen((a, 0))
        for offset, pointee in pointees.items():
            self.join(self.pointee((a, offset + p - q)), pointee)


def functions(lines):
    """The functions of a text: name, parameters that are pointers, and numbered lines without comments."""
    for number, line in enumerate(lines, 1):
        start = re.match(rf"define .*?@({NAME})\((.*)\)", line)
        if start:
            pointers = [re.search(r"%\S+$", one).group() if one.startswith("ptr") else None
                        for one in start.group(2).split(", ") if one]
            body = []
            yield start.group(1), pointers, body
        elif line.startswith(" "):
            body.append((number, line.split(";")[0].strip()))


def size_of(word):
    return int(word) if word.isdigit() else WHOLE


class Module:
    """A module's text, its objects, and what stands against it."""

    def __init__(self, lines):
        self.lines, self.found, self.objects = lines, [], Objects()
        self.uses, self.copies = [], []  # the line's number, the place, the kind, the bytes
        self.functions = list(functions(lines))
        self.entered = {name: [p and self.objects.new() for p in pointers] for name, pointers, _ in self.functions}
        self.answered = {name: self.objects.new() for name, _, _ in self.functions}
        self.constants = dict(self.constant_bytes())
        self.pointers_of = {name: pointers for name, pointers, _ in self.functions}
        self.bodies = {name: body for name, _, body in self.functions}
        self.places, self.answer, self.inside = {}, None, []
        for number, line in enumerate(lines, 1):
            self.look_at_words(number, line.split(";")[0])
        for name, _, _ in self.functions:
            self.look_through(name, self.entered[name], self.answered[name])
        self.look_at_pointers()

    def against(self, number, what):
        self.found.append(f"{number}: {what}: {self.lines[number - 1].strip()}")

    def constant_bytes(self):
        """The places of constants, each all bytes."""
        for number, line in enumerate(self.lines, 1):
            found = CONSTANT.match(line)
            if found:
                place = self.objects.new()
                self.uses.append((number, place, "constant", int(found.group(2))))
                yield found.group(1), place

    def look_at_words(self, number, code):
        if CONSTANT.match(self.lines[number - 1]):
            return
        word, division = NO_WORDS.search(code), DIVISION.search(code)
        if word:
            self.against(number, word.group())
        if NO_LINES.search(code):
            self.against(number, "a vector, a type, a global or a pair in memory")
        if division and not (division.group(1).isdigit() and int(division.group(1)).bit_count() == 1):
            self.against(number, "a 64-bit division")

    # ---- the instructions that have to do with pointers

    def place(self, word):
        if word not in self.places:
            sys.exit(f"check.py: a pointer of no known kind: {word}")
        return self.places[word]

    def alloca(self, number, to):
        self.places[to] = self.objects.new()

    def getelementptr(self, number, to, element, base, index):
        at, offset = self.place(base)
        if index.isdigit():
            offset += int(index) * BYTES[element]
        else:
            self.objects.loosen((at, offset))
        self.places[to] = at, offset

    def load(self, number, to, kind, base):
        self.uses.append((number, self.place(base), kind, BYTES[kind]))
        if kind == "ptr":
            self.places[to] = self.objects.pointee(self.place(base))

    def store(self, number, to, kind, value, base):
        self.uses.append((number, self.place(base), kind, BYTES[kind]))
        if kind == "ptr":
            self.objects.join(self.objects.pointee(self.place(base)), self.place(value))

    def memmove(self, number, to, one, two, size):
        self.objects.join(self.place(one), self.place(two))
        self.copies += [(number, self.place(word), "copy", size_of(size)) for word in (one, two)]

    def memset(self, number, to, base, byte, size):
        kind = "zero set" if byte == "0" and size.isdigit() else "set"
        self.uses.append((number, self.place(base), kind, size_of(size)))

    def call(self, number, to, answer, name, given):
        if name not in self.entered:
            if name not in KNOWN_CALLS:
                self.against(number, f"calls {name}")
            return
        entered, answered = self.anew(name) if name.startswith(ANEW) and name not in self.inside else (self.entered[name], self.answered[name])
        for lent, one in zip(entered, given.split(", ")):
            if lent:
                self.objects.join(lent, self.place(one.split()[-1]))
        if "ptr" in answer:
            self.places[to] = answered

    def anew(self, name):
        """A function looked at for one call alone, so that what its other callers lend is not taken for the same."""
        entered, answered = [p and self.objects.new() for p in self.pointers_of[name]], self.objects.new()
        outer = self.places, self.answer
        self.inside.append(name)
        self.look_through(name, entered, answered)
        self.inside.pop()
        self.places, self.answer = outer
        return entered, answered

    def look_through(self, name, entered, answered):
        self.places = {p: place for p, place in zip(self.pointers_of[name], entered) if p} | self.constants
        self.answer = answered
        for number, code in self.bodies[name]:
            self.look_at(number, code)

    # A pair of a pointer and a number stands for its pointer: a slice with its length, an Option of a reference with its case.

    def begun(self, number, to):
        pass

    def pair(self, number, to, value):
        self.places[to] = self.place(value)

    def ret(self, number, to, value):
        self.objects.join(self.answer, self.place(value))

    def looked_at(self, number, to, value):
        self.place(value)

    INSTRUCTIONS = [
        (re.compile(r"alloca .+, align"), alloca),
        (re.compile(r"getelementptr (?:inbounds )?(?:nuw )?(\S+), ptr (%\S+), i64 (\S+)$"), getelementptr),
        (re.compile(r"load (\S+), ptr (%\S+), align"), load),
        (re.compile(r"store (\S+) (\S+), ptr (%\S+), align"), store),
        (re.compile(r"call void @llvm\.memmove\S*\(ptr (%\S+), ptr (%\S+), i64 (\S+), i1"), memmove),
        (re.compile(r"call void @llvm\.memset\S*\(ptr (%\S+), i8 (\S+), i64 (\S+), i1"), memset),
        (re.compile(rf"(?:tail )?call (\{{ [\w, ]+ \}}|\S+) @({NAME})\((.*)\)"), call),
        (re.compile(r"insertvalue \{ ptr, i64 \} poison, ptr (%\S+), 0$"), pair),
        (re.compile(r"insertvalue \{ ptr, i64 \} (%\S+), i64 \S+, 1$"), pair),
        (re.compile(r"extractvalue \{ ptr, i64 \} (%\S+), 0$"), pair),
        (re.compile(r"extractvalue \{ ptr, i64 \} (%\S+), 1$"), looked_at),
        (re.compile(r"insertvalue \{ i8, ptr \} poison, i8 \S+, 0$"), begun),
        (re.compile(r"insertvalue \{ i8, ptr \} %\S+, ptr (%\S+), 1$"), pair),
        (re.compile(r"extractvalue \{ i8, ptr \} (%\S+), 1$"), pair),
        (re.compile(r"extractvalue \{ i8, ptr \} (%\S+), 0$"), looked_at),
        (re.compile(r"ret (?:ptr|\{ ptr, i64 \}|\{ i8, ptr \}) (%\S+)$"), ret),
        (re.compile(r"ptrtoaddr ptr (%\S+) to i64$"), looked_at),
        (re.compile(r"icmp eq ptr (%\S+), null$"), looked_at),
    ]

    def look_at(self, number, code):
        to, rest = code.split(" = ", 1) if code.startswith("%") else ("", code)
        for pattern, instruction in self.INSTRUCTIONS:
            if match := pattern.match(rest):
                instruction(self, number, to, *match.groups())
                return
        if re.search(r"\bptr\b", rest):
            self.against(number, "a pointer is used in another way")
        elif rest.startswith("call "):
            self.against(number, "a call of no known kind")

    # ---- pointers, and what meets them

    def slots(self):
        """Where pointers stand: by object, each offset with the first line that has one there."""
        slots = {}
        for number, at, kind, _ in self.uses:
            if kind == "ptr":
                root, offset = self.objects.root(at)
                slots.setdefault(root, {}).setdefault(offset, number)
        return slots

    def look_at_pointers(self):
        self.pointers = self.slots()
        for root, offsets in self.pointers.items():
            if root in self.objects.loose:
                self.against(min(offsets.values()), "a pointer in an object of bytes")
        for number, at, kind, size in self.uses + self.copies:
            root, offset = self.objects.root(at)
            for slot, first in self.pointers.get(root, {}).items():
                if self.meets(kind, offset, size, slot):
                    self.against(number, f"{kind} meets the pointer of line {first}")

    @staticmethod
    def meets(kind, offset, size, slot):
        """Whether bytes from an offset meet a pointer's slot other than as that pointer, or whole in a copy or by zeros."""
        if offset + size <= slot or offset >= slot + POINTER or (kind == "ptr" and offset == slot):
            return False
        return kind not in ("copy", "zero set") or offset > slot or offset + size < slot + POINTER

    def told(self):
        objects = {self.objects.root((at, 0))[0] for at in range(len(self.objects.above))}
        return (f"{len(self.functions)} functions, {len(self.uses)} loads and stores, {len(self.copies) // 2} copies; "
                f"{len(objects)} objects, {len(self.pointers)} of them with pointers, "
                f"{sum(map(len, self.pointers.values()))} pointers in them")


def main(arguments):
    if not arguments:
        sys.exit(__doc__)
    with open(arguments[-1], encoding="utf-8") as file:
        module = Module(file.read().splitlines())
    if arguments[0] == "--tell":
        print(module.told())
    if module.found:
        print("\n".join(module.found[:20]))
        sys.exit(f"check.py: {len(module.found)} things stand against it")


if __name__ == "__main__":
    main(sys.argv[1:])

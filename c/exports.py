#!/usr/bin/env python3
"""Makes, of the list of functions for C, what builds and tests of the library need: exports.py FOLDER REPOSITORY

The list is the source's own: every `#[unsafe(no_mangle)] pub extern "C" fn` of the crate hitchbriar, which has those of all
other crates again. A parameter is a slice (`&[u8]`, `&mut [u8]`, `&[u16]`, `&mut [u16]`) or a number (u8, u16, u32); the answer
is a u8. Written to FOLDER:
    reach.txt     a program that reaches each of them, so that the toolchain compiles them without a proof
    tried.sed     gives the compiled functions of that program names that C can call
    tried.c       the functions under their own names, over the compiled ones of that program
    proved.sed    as tried.sed, for the module of `rt lib`
    proved.c      as tried.c, for the module of `rt lib`
    calls.h       for c/serve.c: each function by its name, over arguments read from a request
    calls.json    for chips/serve.mjs: each function's name and, for each argument, the bytes of an element, 0 for a number
c/hitchbriar.h must declare each function as tried.c and proved.c define it.
"""
import json
import pathlib
import re
import sys

LIBRARY = "hitchbriar"
EXPORT = re.compile(r'#\[unsafe\(no_mangle\)\]\s*pub extern "C" fn (\w+)\(([^)]*)\)\s*->\s*u8')
SLICES = {
    "&[u8]": ("const uint8_t", 1),
    "&mut [u8]": ("uint8_t", 1),
    "&[u16]": ("const uint16_t", 2),
    "&mut [u16]": ("uint16_t", 2),
}
NUMBERS = {"u8": "uint8_t", "u16": "uint16_t", "u32": "uint32_t"}


class Function:
    """A function for C: where it stands, its name, and its parameters as pairs of a name and a type."""

    def __init__(self, place, name, parameters):
        self.place, self.name = place, name
        self.parameters = [tuple(part.strip() for part in one.split(":")) for one in parameters.split(",") if one.strip()]
        for parameter, kind in self.parameters:
            if kind not in SLICES and kind not in NUMBERS:
                sys.exit(f"exports.py: {name}: {parameter} is a {kind}, which has no form in C")

    def path(self):
        return f"{self.place}::{self.name}"

    def inner(self):
        return "inner_" + self.name


def exports_of(root, crate):
    """The functions for C of a crate, in the order of its source."""
    source = root / "crates" / crate / "src"
    for file in sorted(source.glob("*.rt"), key=lambda file: (file.stem != "lib", file.stem)):
        place = crate if file.stem == "lib" else f"{crate}::{file.stem}"
        for name, parameters in EXPORT.findall(file.read_text(encoding="utf-8")):
            yield Function(place, name, parameters)


def exported(root):
    """The functions of the library. None of another crate is missing in it, and none has other parameters."""
    functions = {function.name: function for function in exports_of(root, LIBRARY)}
    for line in (root / "crates.txt").read_text(encoding="utf-8").splitlines():
        crate, *_ = line.partition("#")[0].partition(":")[0].split() or [""]
        for function in exports_of(root, crate):
            if function.name not in functions or functions[function.name].parameters != function.parameters:
                sys.exit(f"exports.py: {LIBRARY} has no {function.path()} with the same parameters")
    return list(functions.values())


def reaching(functions):
    """A program of calls, each on the shortest of buffers."""
    yield "fn main() {"
    for function in functions:
        given = []
        for at, (_, kind) in enumerate(function.parameters):
            local = f"{function.name}_{at}"
            if kind in NUMBERS:
                given.append("0")
                continue
            mutable = "mut " if kind.startswith("&mut") else ""
            yield f"    let {mutable}{local} = [0{kind[-4:-1].strip('[')}; 1];"
            given.append(f"&{mutable}{local}")
        yield f"    {function.path()}({', '.join(given)});"
    yield "}"


def renaming_tried(functions):
    """The compiled functions become callable. Each widens its answer itself, as C on 32-bit Arm, on RISC-V and in WebAssembly
    expects. The program itself is left out."""
    for function in functions:
        yield rf's/^define internal \(.*\)i8 @"{function.path()}"(/define hidden \1zeroext i8 @{function.inner()}(/'
        yield rf's/@"{function.path()}"(/@{function.inner()}(/'
    for main in ("i32 @main", 'internal void @"reach::main"'):
        yield f"/^define {main}(/,/^}}/d"


def renaming_proved(functions):
    for function in functions:
        yield rf"s/^define \(.*\)i8 @{function.name}(/define hidden \1zeroext i8 @{function.inner()}(/"
        yield rf"s/@{function.name}(/@{function.inner()}(/"


def prototype(function):
    """As c/hitchbriar.h has it: a slice is a pointer and a length."""
    parts = []
    for name, kind in function.parameters:
        if kind in NUMBERS:
            parts.append(f"{NUMBERS[kind]} {name}")
        else:
            parts += [f"{SLICES[kind][0]} *{name}", f"size_t {name}_length"]
    return f"uint8_t {function.name}({', '.join(parts)})"


def exporting(functions, lent):
    """The compiled functions take each length in 64 bits, whatever size_t is."""
    yield '#include "hitchbriar.h"'
    for function in functions:
        inner = ", ".join(NUMBERS.get(kind) or f"{SLICES[kind][0]} *, uint64_t" for _, kind in function.parameters)
        given = ", ".join(name if kind in NUMBERS else f"{lent.format(name)}, {name}_length" for name, kind in function.parameters)
        yield f"uint8_t {function.inner()}({inner});"
        yield prototype(function) + " {"
        yield f"    return {function.inner()}({given});"
        yield "}"


def exporting_tried(functions):
    """The functions of `rt lib` put another pointer in the place of one that is null; those of a program are given none."""
    return exporting(functions, "{0} ? {0} : (void *)4096")


def exporting_proved(functions):
    return exporting(functions, "{0}")


def element(kind):
    return SLICES[kind][1] if kind in SLICES else 0


def serving(functions):
    """What a request's arguments are, and the call on them."""
    for function in functions:
        given = []
        for at, (_, kind) in enumerate(function.parameters):
            if kind in NUMBERS:
                given.append(f"({NUMBERS[kind]})argument[{at}].number")
            else:
                given += [f"({SLICES[kind][0]} *)argument[{at}].bytes", f"argument[{at}].length"]
        yield f"static uint8_t call_{function.name}(const struct argument *argument)"
        yield "{"
        yield f"    return {function.name}({', '.join(given)});"
        yield "}"
    yield "static const struct call calls[] = {"
    for function in functions:
        sizes = ", ".join(str(element(kind)) for _, kind in function.parameters)
        yield f'    {{ "{function.name}", {len(function.parameters)}, {{ {sizes} }}, call_{function.name} }},'
    yield "};"


def describing(functions):
    yield json.dumps({function.name: [element(kind) for _, kind in function.parameters] for function in functions})


FILES = {
    "reach.txt": reaching,
    "tried.sed": renaming_tried,
    "tried.c": exporting_tried,
    "proved.sed": renaming_proved,
    "proved.c": exporting_proved,
    "calls.h": serving,
    "calls.json": describing,
}


def main(arguments):
    if len(arguments) != 2:
        sys.exit(__doc__)
    folder = pathlib.Path(arguments[0])
    functions = exported(pathlib.Path(arguments[1]))
    folder.mkdir(parents=True, exist_ok=True)
    for name, lines in FILES.items():
        (folder / name).write_text("\n".join(lines(functions)) + "\n", encoding="utf-8")


if __name__ == "__main__":
    main(sys.argv[1:])

#!/usr/bin/env python3
"""Tries what chips/check.py must find: chips/test_check.py TEXT, the text of a module in which it finds nothing.

Each edit puts a line into the text, after the first load of a pointer out of a slot, at a function's beginning, or on top.
"""
import pathlib
import re
import sys

import check

LOAD = re.compile(r"^(  (%r\d+) = load ptr, ptr (%r\d+), align 8, !noundef !1)$", re.M)
ENTRY = re.compile(r'^define internal .*@"core::slots::Slots::copy_in[^"]*"\(ptr noundef %a0.*\n\w+:.*\n', re.M)
ANSWER = re.compile(r"^(  (%r\d+) = extractvalue \{ ptr, i64 \} %r\d+, 0)$", re.M)
OPTION = re.compile(r"^(  (%r\d+) = extractvalue \{ i8, ptr \} %r\d+, 1)$", re.M)
WHOLE = re.compile(r"^(  (%r\d+) = call ptr @.*)$", re.M)

# What is found, and the line: \2 is the loaded pointer, \3 its slot.
AFTER_LOAD = {
    "i64 meets the pointer": r"%x = load i64, ptr \3, align 8",
    "i32 meets the pointer": r"store i32 0, ptr \3, align 4",
    "copy meets the pointer": r"call void @llvm.memmove.p0.p0.i64(ptr \3, ptr \3, i64 4, i1 false)",
    "set meets the pointer": r"call void @llvm.memset.p0.i64(ptr \3, i8 0, i64 4, i1 false)",
    "a pointer in an object of bytes": r"%x = getelementptr i8, ptr \3, i64 %y",
    "ptrtoint": r"%x = ptrtoint ptr \2 to i64",
    "a 64-bit division": r"%x = udiv i64 %y, 10",
    "calls malloc": r"call void @malloc(i64 1)",
    "a pointer is used in another way": r"%x = icmp ult ptr \2, \3",
    "a pair in memory": r"%x = load { ptr, i64 }, ptr \3, align 8",
}


def found(text):
    return "\n".join(check.Module(text.splitlines()).found)


def changed(text, pattern, by):
    text, count = pattern.subn(by, text, count=1)
    if count != 1:
        sys.exit(f"test_check.py: nothing to change: {pattern.pattern}")
    return text


def edits(text):
    for what, line in AFTER_LOAD.items():
        yield what, changed(text, LOAD, rf"\1\n  {line}")
    # All eight bytes of a pointer, but not by zeros.
    yield "set meets the pointer", changed(text, LOAD, r"\1\n  call void @llvm.memset.p0.i64(ptr \3, i8 1, i64 8, i1 false)")
    # Behind a call: a pointer that a caller lends the place of is read as a number.
    yield "i64 meets the pointer", changed(text, ENTRY, lambda entry: entry.group() + "  %x = load i64, ptr %a0, align 8\n")
    # Before a call: a pointer is put among the bytes that a function answers the place of, with a length, with a case or alone.
    for answer in (ANSWER, OPTION, WHOLE):
        yield "a pointer in an object of bytes", changed(text, answer, r"\1\n  %z = alloca i8, align 1\n  store ptr %z, ptr \2, align 8")
    yield "a vector, a type, a global", "@g = global i8 0\n" + text


def main(name):
    text = pathlib.Path(name).read_text(encoding="utf-8")
    tried = [(what, what in found(edit)) for what, edit in edits(text)]
    wrong = [what for what, seen in tried if not seen]
    if found(text):
        wrong.append("the text as it is")
    print(f"{len(tried)} edits, {len(wrong)} wrong {wrong or ''}".rstrip())
    sys.exit(bool(wrong))


if __name__ == "__main__":
    main(*sys.argv[1:])

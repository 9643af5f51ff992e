#!/usr/bin/env python3
"""Measures the library on each chip: [PROVED=1] chips/measure.py [--write | TARGET ..]

Prints tables of its code's bytes, of each function's deepest stack with the memory functions that it calls, and of the
instructions for a step, which QEMU counts; with --write those of all targets are put into docs/CHIPS.md, and in short into
c/hitchbriar.h. Where each program of compare/programs.txt ends is held to the plain interpreter (build it first: cargo build
--release --offline in compare).

The instructions for a step of a run are the difference between 3 runs of 4,096 steps and 23, so that all else falls out; for a
call of wd16_step between 1 and 3. The most for one call is that of chips/most.c.
"""
import os
import pathlib
import re
import subprocess
import sys

ROOT = pathlib.Path(__file__).resolve().parent.parent
MADE = ROOT / "target" / "chips"
PAPER, HEADER = ROOT / "docs" / "CHIPS.md", ROOT / "c" / "hitchbriar.h"
MARKS = "<!-- chips/measure.py --write -->", "<!-- end -->"
COUNTED = ["cortex-m4", "riscv32imc", "aarch64", "x86-64"]
LINES = 4096
# A letter of chips/steps.c, the function, and from how many runs to how many is counted.
KINDS = [("R", "wd16_run", 3, 23), ("O", "wd16_run_same", 3, 23), ("U", "wd16_run_until", 3, 23), ("S", "wd16_step", 1, 3)]


def run(*words, **more):
    return subprocess.run([str(word) for word in words], cwd=ROOT, check=True, stdout=subprocess.PIPE, text=True, **more).stdout


def target(name):
    """A target's settings of chips/targets.sh."""
    told = run("bash", "-c", '. chips/targets.sh; target "$1"; printf "%s\n" "$emulator" "$binutils" "$how"', "bash", name)
    return dict(zip(("emulator", "binutils", "how"), told.splitlines()))


def table(head, rows):
    yield "| " + " | ".join(head) + " |"
    yield "|" + "---|" * len(head)
    for row in rows:
        yield "| " + " | ".join(str(cell) for cell in row) + " |"


# ---- bytes and stack

def objects(name):
    return [MADE / name / f"{part}.o" for part in ("module", "exports", "words")]


def code(name, tools):
    """The bytes of code and of constants; there is no other data, which is looked at."""
    sizes = {"code": 0, "constants": 0}
    for line in run(tools["binutils"] + "size", "-A", *objects(name)).splitlines():
        section = re.match(r"\.(data\.rel\.ro|s?data|s?bss|text|s?rodata)\S*\s+(\d+)", line)
        if section and section.group(1) == "text":
            sizes["code"] += int(section.group(2))
        elif section and "ro" in section.group(1):
            sizes["constants"] += int(section.group(2))
        elif section and int(section.group(2)) > 0:
            sys.exit(f"measure.py: {name} has data: {line}")
    return sizes


def stacks(name, tools):
    """Each function's deepest stack, and the memory functions that it calls."""
    usage = ",".join(str(MADE / name / f"{part}.su") for part in ("module", "exports", "words"))
    told = run(sys.executable, "chips/stack.py", tools["binutils"] + "objdump", usage, *objects(name))
    return {line.split()[0]: line.split()[1:] for line in told.splitlines() if "_words " not in line}


def plain(outer):
    """The names of the C library for those of Arm's run-time interface."""
    names = {"memclr": "memset", "memset": "memset", "memcpy": "memcpy", "memmove": "memmove"}
    found = {names[re.sub(r"__aeabi_|\d", "", name)] for name in outer.split(",") if name != "-"}
    return " ".join(sorted(found))


# ---- instructions

def programs():
    """The programs of compare/programs.txt whose line words are quiet: name, pages, words."""
    found, heard = [], set()
    for line in (ROOT / "compare" / "programs.txt").read_text(encoding="utf-8").splitlines():
        words = re.split("[;#]", line)[0].split()
        if words[:1] == ["program"]:
            found.append((words[1], [], []))
        elif words[:1] == ["pages"]:
            found[-1][1].extend(words[1:])
        elif words[:1] == ["lines"]:
            heard.add(found[-1][0])
        elif words and "=" in words[0]:
            found[-1][2].extend(word.split("=") for word in words)
    return [program for program in found if program[0] not in heard]


def programs_in_c():
    for name, pages, words in programs():
        yield f"static const uint8_t pages_{name}[] = {{ {', '.join('0x' + page for page in pages)} }};"
        yield f"static const struct word words_{name}[] = {{ {', '.join(f'{{ 0x{at}, 0x{word} }}' for at, word in words)} }};"
    yield "static const struct program programs[] = {"
    for name, pages, words in programs():
        yield f'    {{ "{name}", pages_{name}, words_{name}, {len(pages)}, {len(words)} }},'
    yield "};"


def emulated(name, tools, program, given=""):
    """What a program printed, and what the counting plugin told."""
    emulator = (tools["emulator"] or f"qemu-{os.uname().machine}").split()
    command = [emulator[0], "-plugin", MADE / "count.so", *emulator[1:], MADE / name / program]
    return subprocess.run([str(word) for word in command], input=given, cwd=ROOT, check=True, capture_output=True, text=True)


def told(ended, what):
    return int(re.search(rf"^{what} (\d+)$", ended.stderr, re.M).group(1))


def counted(name, tools, number, runs, kind):
    """The instructions of so many runs of a program; where it ends is held to the plain interpreter."""
    ended = emulated(name, tools, "steps", chr(65 + number) + chr(65 + runs) + kind)
    program = programs()[number][0]
    end = run("compare/target/release/speed", runs, program).splitlines()[0].split()[1:]
    right = " ".join(end[:9] + end[10:11] + end[-2:])
    if ended.stdout.strip() != right:
        sys.exit(f"measure.py: {name} {program} {kind} ends with {ended.stdout.strip()}, right is {right}")
    return told(ended, "instructions")


def steps(name, tools):
    """For each function the instructions for a step of each program."""
    (MADE / "programs.h").write_text("\n".join(programs_in_c()) + "\n", encoding="utf-8")
    run("chips/program.sh", name, "chips/steps.c", MADE / name / "steps", f"-I{MADE.relative_to(ROOT)}")
    for kind, function, few, many in KINDS:
        counts = [[counted(name, tools, number, runs, kind) for runs in (few, many)] for number in range(len(programs()))]
        yield function, [round((last - first) / (many - few) / LINES) for first, last in counts]


def most(name, tools):
    """The most instructions for one call of wd16_step, and the number of calls."""
    run("chips/program.sh", name, "chips/most.c", MADE / name / "most")
    ended = emulated(name, tools, "most")
    return told(ended, "most"), int(ended.stdout.split()[0])


# ---- the tables

class Measured:
    """What was measured, by target."""

    def __init__(self, names):
        self.bytes_rows, self.stacks, self.steps, self.most = [], {}, {}, {}
        MADE.mkdir(parents=True, exist_ok=True)
        run("cc", "-shared", "-fPIC", "-O2", "-Wall", "-Wextra", "-Werror", "chips/count.c", "-o", MADE / "count.so")
        for name in names:
            self.measure(name, target(name))
        self.names = list(self.stacks)
        self.functions = sorted({function for by_function in self.stacks.values() for function in by_function})
        self.proved = bool(os.environ.get("PROVED"))

    def measure(self, name, tools):
        run("chips/library.sh", name)
        if name == "wasm32":
            size = (MADE / name / "hitchbriar.wasm").stat().st_size
            self.bytes_rows.append([name, tools["how"], f"{size}, the whole file", ""])
            return
        sizes = code(name, tools)
        self.bytes_rows.append([name, tools["how"], sizes["code"], sizes["constants"]])
        self.stacks[name] = {function: f"{depth} {plain(outer)}".rstrip() for function, (depth, outer) in stacks(name, tools).items()}
        self.steps[name] = dict(steps(name, tools))
        self.most[name] = most(name, tools)


def tables(found):
    """The tables of docs/CHIPS.md."""
    yield "Of the module that is proved." if found.proved else "Of the module that rt try compiles, without a proof."
    yield ""
    yield from table(["", "built as", "code, bytes", "constants"], found.bytes_rows)
    yield ""
    yield from table(["stack, and what is called"] + found.names,
                     [[f"`{function}`"] + [found.stacks[name][function] for name in found.names] for function in found.functions])
    yield ""
    yield from table(["instructions for a step of"] + [name for name, _, _ in programs()],
                     [[f"{name} `{function}`", *found.steps[name][function]] for name in found.names for _, function, _, _ in KINDS])
    yield ""
    yield from table(["instructions for one call of `wd16_step`", "the most", "of calls"],
                     [[name, *found.most[name]] for name in found.names])


def comment(found):
    """The same in short, for whoever has the header alone."""
    row = ("   {:<40}" + "{:<20}" * len(found.names)).format
    kind = "that is proved" if found.proved else "of rt try"
    lines = [f"/* Measured on each chip, of the module {kind}; docs/CHIPS.md tells how, and chips/measure.py --write writes it here."]
    lines.append(row("instructions", *found.names))
    for _, function, _, _ in KINDS:
        counts = [found.steps[name][function] for name in found.names]
        lines.append(row(f"a step of {function}", *(f"{min(one)} to {max(one)}" for one in counts)))
    lines.append(row("a call of wd16_step, the most seen", *(found.most[name][0] for name in found.names)))
    lines.append(row("bytes of stack, and what is called", *found.names))
    for function in found.functions:
        lines.append(row(function, *(found.stacks[name][function].replace("memcpy memset", "both") for name in found.names)))
    return "\n".join(line.rstrip() for line in lines) + " */"


def write(found):
    head, rest = PAPER.read_text(encoding="utf-8").split(MARKS[0])
    tail = rest.split(MARKS[1])[1]
    PAPER.write_text(head + "\n\n".join([MARKS[0], "\n".join(tables(found)), MARKS[1]]) + tail, encoding="utf-8")
    header = HEADER.read_text(encoding="utf-8")
    HEADER.write_text(re.sub(r"/\* Measured on each chip.*?\*/", lambda _: comment(found), header, flags=re.S), encoding="utf-8")


def main(arguments):
    writes = arguments == ["--write"]
    if not writes and [name for name in arguments if name not in COUNTED + ["wasm32"]]:
        sys.exit(__doc__)
    found = Measured(COUNTED + ["wasm32"] if writes else arguments or COUNTED + ["wasm32"])
    print("\n".join(tables(found)))
    if writes:
        write(found)


if __name__ == "__main__":
    main(sys.argv[1:])

#!/usr/bin/env python3
"""Holds what two programs tell of a wrong op code to each other, the command's and the desk's: desk/test/operands.py MODULE [SEED [LINES]]

Random lines of mnemonics and operands that the assembler refuses are told by command/needed.py, which asks the program text, and under
node by desk/src/needed.mjs (operands.mjs), which asks the library's module: the same number, column and words.
"""
import json
import pathlib
import random
import subprocess
import sys
import time

HERE = pathlib.Path(__file__).resolve().parent
sys.path.insert(0, str(HERE.parent.parent))

from command.mnemonics import ALIASES, MNEMONICS  # noqa: E402
from command.needed import diagnosed  # noqa: E402
from command.programs import Programs  # noqa: E402

NAMES = [*MNEMONICS, *(alias.strip() for alias in ALIASES)]
OPERANDS = (
    "R1 R9 @R1 (R1)+ -(R1) 4 04 40 444 #4 #0004 #00004 @#12 7(R1) 0007(R1) AWAY @AWAY SP r1 (R1 12345 @ # 0F 10 FF PC ) 1234 a"
).split()  # fmt: skip
WIDTH = 32


def line_of(chance):
    """A random op code, most of them wrong; a label only where the text of the op code has no number in its place."""
    name = chance.choice(NAMES)
    numbers = name[:3] in ("SVC", "SAV", "LCC") or name.endswith("I") or name[:2] in ("SS", "SD")
    operands = [one for one in OPERANDS if not (numbers and "AWAY" in one)]
    return f"{name} {','.join(chance.choice(operands) for _ in range(chance.choice([1, 2, 2, 3])))}"


def main(module, seed=None, count="300"):
    seed = int(seed or time.time())
    chance = random.Random(seed)
    lines = [line for line in (line_of(chance) for _ in range(int(count))) if len(line) <= WIDTH - len("X: ,R1")]
    asked = "\n".join(lines)
    answers = subprocess.run(["node", str(HERE / "operands.mjs"), module], input=asked, capture_output=True, text=True, check=True).stdout.splitlines()
    programs = Programs(False)
    refused = wrong = 0
    for line, answer in zip(lines, map(json.loads, answers), strict=True):
        if answer is None:
            continue
        refused += 1
        right = list(diagnosed(programs, line))
        if right != answer:
            wrong += 1
            print(f"{line}\n  command {right}\n  desk    {answer}")
    print(f"{len(lines)} op codes of seed {seed}, {refused} wrong, {wrong} told differently")
    if refused == 0:
        sys.exit("operands.py: no line was wrong")
    sys.exit(wrong != 0)


main(*sys.argv[1:])

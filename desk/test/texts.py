#!/usr/bin/env python3
"""Holds the two readers of a job's text to each other, the command's and the desk's: desk/test/texts.py [SEED [TEXTS]]

Random texts, most of them wrong somewhere, are read by command/ and, under node, by desk/src (texts.mjs): the same sections, assembler
lines, board and scans, or the same words at the same place. Neither is proved; the programs and the library refuse by number what
both let pass.
"""
import json
import pathlib
import random
import subprocess
import sys
import time

HERE = pathlib.Path(__file__).resolve().parent
sys.path.insert(0, str(HERE.parent.parent))

from command.jobtext import read_lines  # noqa: E402
from command.places import TextError  # noqa: E402
from command.reading import lines_of  # noqa: E402
from command.source import source_of  # noqa: E402

WHOLE = [
    "pages 00", "pages 00 10-12", "read-only 12", "lines 0000 x3 0008", "0080 = 09BF B7C0", "0016 = START", "microm no", "jumpers up 1 halt 2",
    "external 2F", "scan " + "1 " * 16 + "lines 0000 x4", "scan" + " --" * 15, "START: MOV #0005,R1 ; first", "\tSOB  R1,START # again", "bytes 00 FF", "cut 2",
]  # fmt: skip
PIECES = (
    "pages read-only lines bytes cut scan microm jumpers external 00 10-1F 1F-10 - FF 100 zz 0080 = x3 x0 x5000 x xz yes no up halt 1 4 -- -37"
    " 99999 -0 1.5 START ABC LABEL MOV #0005,R1 ; # 0000 0012 NOP START: .WORD .ORG FFFF é a=b x4096 123456789012345678901234567890123"
).split()
BLANKS = [" ", "  ", "\t", ""]
ENDS = ["\n", "\r\n", "\r"]


def text_of(chance):
    """A random text."""
    def line():
        if chance.random() < 0.3:
            return chance.choice(WHOLE)
        words = [chance.choice(PIECES) for _ in range(chance.randint(0, 7))]
        return "".join(chance.choice(BLANKS if chance.random() < 0.2 else [" "]) + word for word in words)

    return chance.choice(ENDS).join(line() for _ in range(chance.randint(1, 5)))


def told(text):
    """What the command makes of a text."""
    try:
        job = read_lines(lines_of(text.encode("utf-8"), "text"), "text", True)
        source = [[line.text, line.line.number, list(line.columns)] for line in source_of(job.source)]
        data = "labels" if job.labels_wanted else job.sections.bytes().hex()
        return {"bytes": data, "source": source, "board": list(job.board), "scans": [[scan.channels, scan.lines] for scan in job.scans]}
    except TextError as why:
        place = why.place and [why.place.line.number, why.place.column, why.place.width]
        return {"error": why.words, "place": place}


def main(seed=None, count="2000"):
    seed = int(seed or time.time())
    chance = random.Random(seed)
    texts = [text_of(chance) for _ in range(int(count))]
    asked = "\n".join(json.dumps(text) for text in texts)
    answers = subprocess.run(["node", str(HERE / "texts.mjs")], input=asked, capture_output=True, text=True, check=True).stdout.splitlines()
    refused = wrong = 0
    for text, answer in zip(texts, answers, strict=True):
        right, got = told(text), json.loads(answer)
        refused += "error" in right
        if right != got:
            wrong += 1
            print(f"{text!r}\n  command {right}\n  desk    {got}")
    print(f"{count} texts of seed {seed}, {refused} refused, {wrong} read differently")
    if refused in (0, int(count)):
        sys.exit("texts.py: all texts were of one kind")
    sys.exit(wrong != 0)


main(*sys.argv[1:])

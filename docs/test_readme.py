#!/usr/bin/env python3
"""Runs the commands that the papers show, so that none fails for a reader: test_readme.py [PAPER ..]. Run by .ci/run after c/test.sh.

A block of sh is commands, a line each. What would prove for minutes runs without a proof: hitch is given --unproved, and
crates/hitchbriar/out/libhitchbriar.a is the library that c/test.sh made. A plain block after it is what they print: its lines are
among those printed, in order. SKIPPED are the commands that are not run, with the reason.
"""
import os
import pathlib
import re
import subprocess
import sys
import tempfile

ROOT = pathlib.Path(__file__).resolve().parent.parent
PAPERS = ["README.md", "docs/CHIPS.md", "board/README.md"]
SKIPPED = {
    "(cd crates/hitchbriar && rt lib)": "proves for minutes; the library that c/test.sh made stands in for it",
    ".ci/run": "it runs this test",
    ".ci/release": "takes the emulators, and minutes",
    "./hitch release": ".ci/release runs its script",
    "chips/test.sh cortex-m4 1 2000": "takes an emulator: .ci/release",
    "python3 chips/measure.py cortex-m4": "takes an emulator",
    "board/build.sh mps2": "takes the chip's compiler: .ci/release",
    "board/test.sh mps2": "takes an emulator: .ci/release",
}
UNPROVED = re.compile(r"\./hitch (run|trace|text|list|record|asm|check-trace|make-trace)\b")


def blocks(paper):
    """The fenced blocks: language, lines."""
    for language, text in re.findall(r"^```(\w*)\n(.*?)^```$", (ROOT / paper).read_text(encoding="utf-8"), re.M | re.S):
        yield language, text.splitlines()


def commands(lines):
    """The commands of a block, without what is said behind them."""
    for line in lines:
        command = re.sub(r"(^|\s+)#.*", "", line).strip()
        if command:
            yield command


def stand_in(folder):
    """A folder like the repository's root, in which programs may be left, with the library made without a proof."""
    library = folder / "crates" / "hitchbriar" / "out"
    for made in (library, folder / "target"):
        made.mkdir(parents=True)
    (library / "libhitchbriar.a").symlink_to(ROOT / "target" / "c" / "libhitchbriar.a")
    parts = [ROOT, *(ROOT / part for part in ("target", "crates", "crates/hitchbriar"))]
    for entry in (entry for part in parts for entry in part.iterdir()):
        here = folder / entry.relative_to(ROOT)
        if not here.exists() and entry.name != ".git":
            here.symlink_to(entry)


def run(command, folder):
    """What a command prints, or None where it fails."""
    ended = subprocess.run(["bash", "-c", UNPROVED.sub(r"./hitch \1 --unproved", command)], cwd=folder, text=True,
                           stdin=subprocess.DEVNULL, capture_output=True)
    # A trace that is found wrong, and a refused line, end with 1 and are told on standard output.
    if ended.returncode == 0 or ended.returncode == 1 and ended.stdout and "check-trace" in command:
        return ended.stdout
    print(ended.stdout + ended.stderr, end="")
    return None


def in_order(lines, printed):
    rest = iter(printed)
    return all(line in rest for line in lines)


def wrong_in(paper, folder, seen):
    printed = ""
    for language, lines in blocks(paper):
        if language == "sh":
            printed = ""
            for command in commands(lines):
                seen.append(command)
                told = "" if command in SKIPPED else run(command, folder)
                if told is None:
                    yield f"{paper}: {command}: it fails"
                printed += told or ""
        elif language == "" and not in_order(lines, printed.splitlines()):
            yield f"{paper}: what is shown is not printed: {lines[0]}"


def main(papers):
    seen = []
    with tempfile.TemporaryDirectory() as made:
        stand_in(pathlib.Path(made))
        wrong = [line for paper in papers or PAPERS for line in wrong_in(paper, made, seen)]
    if not papers:
        wrong += [f"{command}: skipped, and no paper has it" for command in SKIPPED if command not in seen]
    for line in wrong:
        print(line)
    print(f"{len(seen)} commands of the papers, {sum(command in SKIPPED for command in seen)} skipped, {len(wrong)} wrong")
    sys.exit(bool(wrong))


if __name__ == "__main__":
    os.environ.setdefault("LC_ALL", "C.UTF-8")
    main(sys.argv[1:])

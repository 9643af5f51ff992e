#!/usr/bin/env python3
"""Counts the instructions a step of two speed programs, for each program of the list, and prints both and their ratio.

instructions.py valgrind OURS PLAIN    programs of this machine, under valgrind
instructions.py EMULATOR OURS LENT     programs for x86-64 under qemu-x86_64, one instruction at a time
OURS takes the runs of each program on its input, PLAIN the runs and a program's name as its arguments; LENT is that of lent.c.
Each is a command, of one or more words. The count of a short run is taken from that of a longer one, so that start-up and the
end drop out. Both must end each program in the same way.
"""
import re
import shlex
import subprocess
import sys
import tempfile

from test_programs import listed

LINES = 4096


def ours(program, runs):
    """The words and the input of a run of ours."""
    return [], "".join(f"{runs if program[0] == each[0] else 0}\n" for each in listed()).encode()


def plain(program, runs):
    """The same of plain Rust."""
    return [str(runs), program[0]], b""


def lent(program, runs):
    """The same of plain Rust over lent buffers."""
    image, board = bytearray(65536), bytearray(256)
    for page in program[1]:
        board[page] = 1
    for entry in program[2]:
        image[entry >> 16 : (entry >> 16) + 2] = (entry & 0xFFFF).to_bytes(2, "little")
    lines = b"".join(word.to_bytes(2, "little") for word in program[3]) * (LINES // 16)
    return [str(runs), program[0]], bytes(image + board) + lines


def end(wrote, name):
    """R0 to R5, SP and PC at a program's end."""
    return [line.split()[2:10] for line in wrote.decode().splitlines() if line.startswith(f"end {name} ")]


def by_valgrind(_, command, given):
    """The instructions of a command, and what it writes."""
    tool = ["valgrind", "--tool=cachegrind", "--cache-sim=no", "--cachegrind-out-file=/dev/null"]
    ran = subprocess.run(tool + command, input=given, capture_output=True, check=True)
    return int(re.search(r"I\s+refs:\s+([\d,]+)", ran.stderr.decode()).group(1).replace(",", "")), ran.stdout


def by_emulator(emulator, command, given):
    """The same, by the lines of the emulator's log."""
    log = [emulator, "-one-insn-per-tb", "-d", "exec,nochain"]
    with tempfile.TemporaryFile() as source, tempfile.TemporaryFile() as wrote:
        source.write(given)
        source.seek(0)
        with subprocess.Popen(log + command, stdin=source, stdout=wrote, stderr=subprocess.PIPE) as ran:
            count = sum(part.count(b"\n") for part in iter(lambda: ran.stderr.read(1 << 20), b""))
        if ran.returncode:
            sys.exit(f"{shlex.join(command)} failed")
        wrote.seek(0)
        return count, wrote.read()


def a_step(count, tool, few, many, command, words, program):
    """The instructions a step of a program, and where it ends."""
    taken = []
    for runs in (few, many):
        more, given = words(program, runs)
        taken.append(count(tool, command + more, given))
    return (taken[1][0] - taken[0][0]) / ((many - few) * LINES), end(taken[1][1], program[0])


def main():
    tool = sys.argv[1]
    way = (by_valgrind, tool, 4, 14) if tool == "valgrind" else (by_emulator, tool, 1, 3)
    sides = [(sys.argv[2], ours), (sys.argv[3], plain if tool == "valgrind" else lent)]
    print("program   ours  plain  instructions a step, ratio", flush=True)
    for program in listed():
        (mine, here), (other, there) = [a_step(*way, shlex.split(command), words, program) for command, words in sides]
        if len(here) != 1 or here != there:
            sys.exit(f"{program[0]} ends differently:\n{here}\n{there}")
        print(f"{program[0]:8} {mine:6.1f} {other:6.1f}  {mine / other:.2f}", flush=True)


if __name__ == "__main__":
    main()

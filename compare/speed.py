#!/usr/bin/env python3
"""Runs two speed programs by turns, and prints the steps a second of both and their ratio.

speed.py RUNS TIMES OURS PLAIN: OURS takes the runs of each program on its input, PLAIN the runs and a program's name as
its arguments. The time is the processor time of the best of TIMES. Both must end each program in the same way.
"""

import os
import subprocess
import sys

NAMES = ["sob", "copy", "call", "byte", "storm"]
LINES = 4096


def timed(command, text):
    """The lines that a command writes, and the processor time that it takes."""
    process = subprocess.Popen(command, stdin=subprocess.PIPE, stdout=subprocess.PIPE)
    process.stdin.write(text.encode())
    process.stdin.close()
    said = process.stdout.read().decode().splitlines()
    _, status, used = os.wait4(process.pid, 0)
    if status != 0:
        sys.exit(f"{command[0]} failed")
    return said, used.ru_utime + used.ru_stime


def ours(program, name, runs):
    text = "".join(f"{runs if name == each else 0}\n" for each in NAMES)
    return timed([program], text)


def plain(program, name, runs):
    return timed([program, str(runs), name], "")


def end(said, name):
    return [line for line in said if line.startswith(f"end {name} ")]


def main():
    runs, times = int(sys.argv[1]), int(sys.argv[2])
    print("program   ours  plain  million steps a second, ratio")
    for name in NAMES:
        best = [float("inf"), float("inf")]
        for _ in range(times):
            mine, took = ours(sys.argv[3], name, runs)
            best[0] = min(best[0], took)
            other, took = plain(sys.argv[4], name, runs)
            best[1] = min(best[1], took)
            if end(mine, name) != end(other, name):
                sys.exit(f"{name} ends differently:\n{end(mine, name)}\n{end(other, name)}")
        rate = [runs * LINES / seconds / 1e6 for seconds in best]
        print(f"{name:8} {rate[0]:6.1f} {rate[1]:6.1f}  {rate[0] / rate[1]:.2f}")


main()

"""hitch list: a stretch of a job's image, op code by op code; with --labels also in words, and folded."""
import re

from command import ends, jobs
from command.ends import wrong_use
from command.mnemonics import BRANCHES
from command.options import asked
from command.programs import Programs
from command.sections import two

FOLDED = 4  # lines that are alike, from which on they are folded
TEXT = 46  # the column at which words about a line begin


def address_of(word):
    """An address in hex."""
    if not re.fullmatch("[0-9A-Fa-f]{1,4}", word):
        raise wrong_use(f"'{word}' is no address: one to four hex digits")
    return int(word, 16)


def show(words):
    """hitch list [--unproved] [--asm SOURCE] [--labels] JOB FIRST LAST"""
    wanted = asked(words, ["--unproved", "--labels"], {"--asm": "a source's file"}, 3, "one job, a first and a last address")
    if len(wanted.files) != 3:
        raise wrong_use("list takes a job, a first and a last address")
    first, last = (address_of(word) for word in wanted.files[1:])
    programs = Programs("--unproved" not in wanted)
    job = jobs.given(wanted, programs).no_scans()
    answer, _ = programs.run("list", two(first) + two(last) + jobs.for_programs(job))
    if "--labels" in wanted and not answer.startswith(b"REFUSED"):
        answer = in_words(answer.decode("ascii").splitlines(), job.labels()).encode()
    ends.answer(answer)
    job.stop_if_refused(answer)


def in_words(lines, labels):
    """The lines with labels, targets and conditions behind them; stretches that say nothing are folded."""
    by_address = {}
    for label, value in sorted(labels.items()):
        by_address.setdefault(value, []).append(label)
    told = []
    for stretch in stretches(lines, by_address):
        if len(stretch) < FOLDED:
            told += [with_words(line, by_address) for line in stretch]
        else:
            told.append(f"{stretch[0][:9]} .. {stretch[-1][:4]}: {what_is_folded(stretch)}")
    return "".join(f"{line}\n" for line in told)


def stretches(lines, by_address):
    """The lines in runs of those that can be folded, the others alone."""
    runs = []
    for line in lines:
        address, words = int(line[:4], 16), line[5:9]
        alike = words == "----" or line[5:] == "0000 NOP"
        if alike and runs and runs[-1][-1][5:] == line[5:] and address not in by_address:
            runs[-1].append(line)
        else:
            runs.append([line])
    return runs


def what_is_folded(stretch):
    """What a folded stretch is."""
    return f"{len(stretch):,} words " + ("are not fitted" if stretch[0][5:9] == "----" else "0000, NOP")


def with_words(line, by_address):
    """A line with its labels, and with the target and the condition of a branch."""
    address = int(line[:4], 16)
    said = [f"{label}:" for label in by_address.get(address, [])]
    target = target_of(line)
    if target is not None:
        named = f" {by_address[target][0]}" if target in by_address else ""
        said.append(f"-> {target:04X}{named}{condition_of(line)}")
    return f"{line.ljust(TEXT)}{'  '.join(said)}" if said else line


def parts_of(line):
    """A line's address, its words and its text."""
    found = re.match(r"([0-9A-F]{4}) ((?:[0-9A-F]{4} )+?)([.A-Z][A-Z0-9]*)(?: (.*))?$", line)
    return found.groups() if found else (line[:4], "", "", None)


def target_of(line):
    """Where a branch, SOB, or an op code with an operand relative to PC goes to, or None."""
    address, words, name, operands = parts_of(line)
    after = int(address, 16) + 2 * len(words.split())
    if name in BRANCHES:
        return (after + 2 * ((int(operands, 16) ^ 0x80) - 0x80)) % 0x10000
    if name == "SOB":
        return (after - 2 * int(operands.split(",")[1], 16)) % 0x10000
    relative = re.search(r"(?:^|,)([0-9A-F]{4})\(PC\)$", operands or "")
    if relative and name in ("JSR", "LEA"):
        return (after + int(relative.group(1), 16)) % 0x10000
    return None


def condition_of(line):
    """When a branch is taken."""
    _, _, name, operands = parts_of(line)
    if name == "SOB":
        return f", taken until {operands.split(',')[0]} is 0"
    return f", {BRANCHES[name]}" if name in BRANCHES else ""

"""hitch run: runs a job and prints bench's line; in words, and with memory after the run, where that is asked for. hitch job."""
import re

from command import ends, jobs, showing
from command.ends import wrong_use
from command.jobtext import BENCH_BOARD
from command.options import asked
from command.programs import Programs

ASM = {"--asm": "a source's file"}
PAGE = 256


class End:
    """How a run ended: its line, the map, and the fitted pages after it."""

    def __init__(self, answer):
        self.line, _, rest = answer.partition(b"\n")
        self.map, pages = rest[:PAGE], rest[PAGE:]
        fitted = [page for page in range(len(self.map)) if self.map[page]]
        self.pages = {page: pages[k * PAGE : (k + 1) * PAGE] for k, page in enumerate(fitted)}

    def word(self, address):
        """The word at an even address, or None where nothing is fitted."""
        page = self.pages.get(address // PAGE)
        at = address % PAGE
        return None if page is None else int.from_bytes(page[at : at + 2], "little")


def stretch(word):
    """FIRST-LAST, two addresses in hex."""
    found = re.fullmatch("([0-9A-Fa-f]{1,4})-([0-9A-Fa-f]{1,4})", word)
    first, last = (int(digits, 16) & 0xFFFE for digits in found.groups()) if found else (1, 0)
    if last < first:
        raise wrong_use(f"'{word}' is no stretch of addresses, as 0080-00FE is")
    return first, last


def run(words):
    """hitch run [--unproved] [--asm SOURCE] [--words] [--dump FIRST-LAST] [JOB]"""
    wanted = asked(words, ["--unproved", "--words"], {**ASM, "--dump": "a first and a last address, as 0080-00FE"})
    dumped = stretch(wanted.value("--dump")) if "--dump" in wanted else None
    programs = Programs("--unproved" not in wanted)
    job = jobs.given(wanted, programs).no_scans()
    if job.board() == BENCH_BOARD and "--words" not in wanted and dumped is None:
        answer, _ = programs.run("bench", jobs.for_programs(job))
        ends.answer(answer)
    else:
        answer, _ = programs.run("afterrun", bytes(job.board()) + jobs.for_programs(job))
        ends.answer(told(End(answer), "--words" in wanted, dumped).encode())
    job.stop_if_refused(answer)


def told(end, in_words, dumped):
    """The line of a run's end, with what else is asked for."""
    lines = [end.line.decode("ascii")]
    if end.map and in_words:
        lines += showing.end_in_words(lines[0], end.map)
    if end.map and dumped:
        lines += showing.memory(end.word, *dumped)
    return "".join(f"{line}\n" for line in lines)


def make(words):
    """hitch job [--unproved] [--asm SOURCE] [JOB]"""
    wanted = asked(words, ["--unproved"], ASM)
    programs = Programs("--unproved" not in wanted)
    job = jobs.given(wanted, programs).bench_alone("a job's bytes")
    ends.answer_bytes(jobs.record_input(job, ()) if job.scans() else job.data)

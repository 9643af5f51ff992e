"""hitch record: a job and the scans of the plug recorder, and the report of each channel."""
import re

from command import ends, jobs
from command.ends import REFUSED, Stop, say
from command.options import asked
from command.places import TextError, told
from command.programs import Programs
from command.picture import picture
from command.scantext import HIGHEST, LOWEST, NO_CARD, scans_in
from command.sections import LINES, MOST, UNUSED_BITS, word_at
from command.words import words_for

MOST_LINES = MOST[LINES][0]
MOST_SHOWN = 10  # refused scans that are shown


def record(words):
    """hitch record [--unproved] [--asm SOURCE] [--picture] [SCANS]"""
    wanted = asked(words, ["--unproved", "--picture"], {"--asm": "a source's file"})
    programs = Programs("--unproved" not in wanted)
    job = jobs.given(wanted, programs)
    asked_for = jobs.record_input(job, job.board())
    answer, _ = programs.run("record", asked_for)
    report = with_mode(answer.decode("ascii"))
    if "--picture" in wanted:
        report += picture(job.scans() or scans_in(after_job(asked_for)), report)
    ends.answer(report.encode())
    job.stop_if_refused(answer)
    refused = re.findall(r"^scan (\d+): (.*)$", report, re.M)
    for number, why in refused[:MOST_SHOWN]:
        show_scan(job, int(number), why)
    if len(refused) > MOST_SHOWN and job.scans():
        say(f"and {len(refused) - MOST_SHOWN:,} scans more")
    if refused:
        raise Stop(REFUSED)


def with_mode(report):
    """The report with the words of the processor's mode."""
    return re.sub(r"^processor: mode (\d)", lambda found: f"{found.group()} ({words_for('mode', int(found.group(1)))})", report, flags=re.M)


def after_job(data):
    """The scans' bytes of what record reads: the board, the job's length and the job stand before them."""
    return data[6 + word_at(data, 4) :]


def show_scan(job, number, why):
    """The place of a scan that is refused."""
    if number <= len(job.scans()):
        say(told(TextError(f"scan {number}: {why}", wrong_place(job.scans()[number - 1], why))))


def wrong_place(scan, why):
    """What is wrong in a scan that is refused under a number, or its beginning."""
    if "refusal 33" in why:
        wrong = [place for place, word in zip(scan.places[1:], scan.channels) if not in_range(word)]
    elif "refusal 5" in why:
        wrong = [place for place, word in zip(scan.line_places, scan.lines) if word & UNUSED_BITS]
    else:
        wrong = scan.line_places[MOST_LINES : MOST_LINES + 1]
    return wrong[0] if wrong else scan.places[0]


def in_range(word):
    """Whether a channel's word is no card or a reading that the recorder takes."""
    return word == NO_CARD or LOWEST <= (word ^ 0x8000) - 0x8000 <= HIGHEST

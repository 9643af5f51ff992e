"""hitch check-trace and hitch make-trace: the trace of a job as bytes, checked and made."""
from command import ends, jobs
from command.ends import REFUSED, Stop, wrong_use
from command.options import asked
from command.programs import Programs
from command.reading import taken

LONGEST = 1310702  # bytes of the longest trace; one more shows that there are bytes left over


def check(words):
    """hitch check-trace [--unproved] [--asm SOURCE] JOB TRACE"""
    wanted = asked(words, ["--unproved"], {"--asm": "a source's file"}, 2, "one job and one trace at a time")
    if len(wanted.files) != 2:
        raise wrong_use("a job and a trace are needed")
    if wanted.files == ["-", "-"]:
        raise wrong_use("one of the job and the trace is standard input, not both")
    programs = Programs("--unproved" not in wanted)
    trace = taken(wanted.file(1))
    job = jobs.given(wanted, programs).no_scans().bench_alone("a trace")
    answer, said = programs.run_on_files("check_trace", jobs.for_programs(job), trace[: LONGEST + 1])
    ends.answer(answer)
    job.stop_if_refused(answer)
    if not answer.startswith(b"accepted"):
        raise Stop(REFUSED if answer else ends.NOT_DONE, said.strip() or None)


def make(words):
    """hitch make-trace [--unproved] [--asm SOURCE] [JOB]"""
    wanted = asked(words, ["--unproved"], {"--asm": "a source's file"})
    programs = Programs("--unproved" not in wanted)
    job = jobs.given(wanted, programs).no_scans().bench_alone("a trace")
    answer, said = programs.run("make_trace", jobs.for_programs(job))
    # A trace is bytes: the number of a refused job is said on standard error.
    job.stop_if_refused(said.encode())
    ends.answer_bytes(answer)

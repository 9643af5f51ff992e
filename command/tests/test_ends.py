"""How hitch ends whatever its input and output are: no hang, no traceback, no cut answer with status 0, nothing left behind."""
import os
import pty
import random
import signal
import subprocess
import sys
import time
import unittest

from command import kit
from command.programs import Programs
from command.tests.support import HITCH, MORE, ROOT, Case, hitch, sample

LONG = "is longer than 67,108,864 bytes"


def left(words, **more):
    """Runs hitch with files of its own for standard input, output and error; answers its status and what it said."""
    run = subprocess.run([HITCH, *words], stderr=subprocess.PIPE, check=False, cwd=ROOT, timeout=120, **more)
    return run.returncode, run.stderr.decode().replace("hitch: bench is compiled without proof\n", "")


class Endless(Case):
    """Input that has no end is refused, and none of it is kept."""

    def test_dev_zero(self):
        self.ends(1, "", f"hitch: /dev/zero {LONG}\n", "run", "/dev/zero")
        self.ends(1, "", f"hitch: /dev/zero {LONG}\n", "record", "/dev/zero")
        self.ends(1, "", f"hitch: /dev/zero {LONG}\n", "check-trace", "--unproved", "jobs/example.txt", "/dev/zero")
        self.ends(1, "", f"hitch: /dev/zero {LONG}\n", "run", "--asm", "/dev/zero", "jobs/sob.txt")

    def test_yes(self):
        for words in (["run"], ["trace"], ["text"], ["asm"], ["record"], ["list", "-", "0", "2"], ["make-trace"], ["job"]):
            with subprocess.Popen(["yes", "NOP"], stdout=subprocess.PIPE) as yes:
                status, said = left(words, stdin=yes.stdout, stdout=subprocess.DEVNULL)
                yes.stdout.close()
                yes.wait()
            self.assertEqual((status, said), (1, f"hitch: standard input {LONG}\n"))


class Output(Case):
    """What cannot be written ends with 3."""

    COMMANDS = (
        ["run", "--unproved", "jobs/example.txt"],
        ["run", "--unproved", "jobs/refused.txt"],
        ["trace", "--unproved", "jobs/example.txt"],
        ["list", "--unproved", "jobs/example.txt", "0", "FFFE"],
        ["record", "--unproved", "jobs/pulled-card.scans"],
        ["asm", "--unproved", "jobs/patch.asm"],
        ["make-trace", "--unproved", "jobs/example.txt"],
        ["check-trace", "--unproved", "jobs/example.txt", "jobs/example.trace"],
        ["job", "--unproved", "jobs/example.txt"],
        ["help"],
    )

    def test_a_full_disk(self):
        for words in self.COMMANDS:
            with open("/dev/full", "wb") as full, self.subTest(words):
                status, said = left(words, stdout=full, stdin=subprocess.DEVNULL)
                self.assertEqual(status, 3)
                self.assertIn("hitch: the answer could not be written: No space left on device\n", said)

    def test_a_closed_output(self):
        for words in self.COMMANDS:
            with self.subTest(words):
                status, said = left(words, stdout=subprocess.DEVNULL, stdin=subprocess.DEVNULL, preexec_fn=lambda: os.close(1))
                self.assertEqual(status, 3)
                self.assertIn("hitch: the answer could not be written: it is closed\n", said)

    def test_a_reader_that_has_seen_enough(self):
        for words in self.COMMANDS:
            reader, writer = os.pipe()
            os.close(reader)
            with self.subTest(words):
                status, said = left(words, stdout=writer, stdin=subprocess.DEVNULL)
                self.assertEqual((status, "Traceback" in said, "written" in said), (3, False, False))
            os.close(writer)

    def test_a_full_or_closed_standard_error(self):
        for words, status in ((["run", "no.txt"], 2), (["run", "--unproved", "jobs/refused.txt"], 1)):
            with open("/dev/full", "wb") as full:
                run = subprocess.run([HITCH, *words], stderr=full, stdout=subprocess.DEVNULL, check=False, cwd=ROOT)
                self.assertEqual(run.returncode, status)
            run = subprocess.run([HITCH, *words], stdout=subprocess.DEVNULL, check=False, cwd=ROOT, preexec_fn=lambda: os.close(2))
            self.assertEqual(run.returncode, status)

    def test_a_closed_input(self):
        status, said = left(["run"], stdout=subprocess.DEVNULL, preexec_fn=lambda: os.close(0))
        self.assertEqual((status, said), (2, f"hitch: standard input is closed{MORE}\n"))

    def test_bytes_are_not_for_a_terminal(self):
        for words in (["asm", "--unproved", "jobs/patch.asm"], ["make-trace", "--unproved", "jobs/example.txt"], ["job", "--unproved", "jobs/example.txt"]):
            own, terminal = pty.openpty()
            status, said = left(words, stdout=terminal, stdin=subprocess.DEVNULL)
            os.close(terminal)
            os.close(own)
            with self.subTest(words):
                self.assertEqual(status, 2)
                self.assertIn("the answer is bytes, not for a terminal", said)

    def test_programs_say_that_an_answer_is_cut(self):
        programs = Programs(proved=False)
        job = hitch("job", "--unproved", "jobs/example.txt").wrote
        scans = bytes((1, 3, 3, 0)) + hitch("job", "--unproved", "jobs/no-card.scans").wrote
        trace = os.path.join(ROOT, "jobs/example.trace")
        for name, data, words in (
            ("bench", job, []),
            ("afterrun", bytes((1, 3, 3, 0)) + job, []),
            ("steps", bytes((1, 3, 3, 0)) + job, []),
            ("list", bytes(4) + job, []),
            ("record", scans, []),
            ("assemble", b"NOP\n", []),
            ("assemble", b"X: NOP\n", ["labels"]),
            ("text", b"NOP\n", []),
            ("make_trace", job, []),
            ("check_trace", b"", [self.file("job", job), trace]),
        ):
            with open("/dev/full", "wb") as full, self.subTest(name):
                run = subprocess.run(kit.launcher(kit.folder()) + [programs.file(name), *words], input=data, stdout=full, stderr=subprocess.PIPE, check=False)
                self.assertEqual(run.stderr.decode(), f"{name}: the answer could not be written\n")


class Missing(Case):
    """What is needed and not there is said."""

    def path(self, *programs):
        """A PATH with these programs alone."""
        for name in programs:
            where = subprocess.run(["which", name], capture_output=True, text=True, check=True).stdout.strip()
            os.symlink(os.path.realpath(sys.executable) if name == "python3" else where, os.path.join(self.folder, name))
        return {"PATH": self.folder}

    def test_python3(self):
        self.ends(3, "", "hitch: python3 is not on the PATH\n", "help", env=self.path("sh", "dirname", "readlink"))

    def test_rt(self):
        env = self.path("sh", "dirname", "readlink", "python3")
        said = "hitch: rt, the Rattle kit's command, is not on the PATH\n"
        self.ends(3, "", said, "run", "jobs/example.txt", env=env)
        self.ends(3, "", said, "run", "--unproved", "jobs/example.txt", env=env)
        self.assertEqual(hitch("help", env=env).status, 0)


class TooFewCases(Case):
    """c/test.sh says how many cases it needs, before it builds anything."""

    def test_the_least_number(self):
        for cases in ("2000", "many"):
            run = subprocess.run(["c/test.sh", "7", cases], capture_output=True, text=True, cwd=ROOT, check=False)
            self.assertEqual((run.returncode, run.stdout), (2, ""))
            self.assertEqual(run.stderr, "c/test.sh: CASES is a number, 20000 at least: fewer don't reach every op code\n")


class Proof(Case):
    """A proof, by a stand-in for rt in a copy of the repository."""

    def setUp(self):
        super().setUp()
        self.copy = os.path.join(self.folder, "copy")
        os.makedirs(os.path.join(self.copy, "bin"))
        for name in ("c", "jobs", "compare", "VERSION"):
            os.symlink(os.path.join(ROOT, name), os.path.join(self.copy, name))
        subprocess.run(["cp", "-r", os.path.join(ROOT, "command"), HITCH, self.copy], check=True)
        with open(os.path.join(self.copy, "crates.txt"), "w", encoding="utf-8") as crates:
            crates.write("board:\njob:  # a comment\nbench: board job io\nhitchbriar staticlib: job\n")
        os.makedirs(os.path.join(self.copy, "crates", "bench"))
        words = "0012 = 0090\n0016 = 0080\n0080 = 09BF B7C0 8000\n0090 = 0C81\n"
        self.job = self.file("plain.txt", f"pages 00\n{words}lines 0000 x3\n")

    def stand_in(self, script):
        """A stand-in for rt that runs a script."""
        guide = subprocess.run(["rt", "doc"], capture_output=True, text=True, check=True).stdout.strip()
        path = os.path.join(self.copy, "bin", "rt")
        with open(path, "w", encoding="utf-8") as file:
            file.write(f"#!/bin/sh\ncase $1 in doc) echo '{guide}'; exit ;; esac\n{script}\n")
        os.chmod(path, 0o755)

    def command(self, *words):
        """The copy's hitch with the stand-in."""
        return [os.path.join(self.copy, "hitch"), *words], {**os.environ, "PATH": f"{self.copy}/bin:{os.environ['PATH']}"}

    def proves(self, status, said, script):
        """Runs a job over a proof."""
        self.stand_in(script)
        words, env = self.command("run", self.job)
        run = subprocess.run(words, capture_output=True, text=True, env=env, cwd=ROOT, check=False)
        self.assertEqual((run.returncode, run.stderr), (status, said))
        return run.stdout

    def test_a_line_for_each_crate(self):
        bench = Programs(proved=False).file("bench")
        said = "hitch: 1 of 3: job proved\nhitch: 3 of 3: bench proved\n"
        script = f"""[ "$* $PWD" = 'run {self.copy}/crates/bench' ] || exit 9
echo 'crate job: modules loaded=28 checked=5'; echo 'logic=proved functions=3'
echo 'crate bench: modules loaded=0 checked=23' >&2; echo 'logic=proved functions=1' >&2; mkdir -p out; cp '{bench}' out/bench
echo 'rt: running out/bench; to give it other input, run that file yourself' >&2; echo 'REFUSED 11'; exit 1"""
        self.assertEqual(self.proves(0, said, script).encode(), sample("example.line"))

    def test_what_is_under_way(self):
        lines = ["crate board: modules loaded=28 checked=5", "logic=proved functions=1", "rt: chose --jobs 2 for job", "error[goal]: job::read_job"]
        said = "hitch: 1 of 3: board proved\nhitch: 1 of 3 proved; under way: job\n"
        script = "; sleep 1.6; ".join("; ".join(f"echo '{line}'" for line in some) for some in (lines[:3], lines[3:])) + "; exit 1"
        lines = "".join(f"{line}\n" for line in lines)
        self.proves(3, f"{said}{lines}hitch: bench is not proved\n", script)

    def test_a_signal_ends_all(self):
        for number, status in ((signal.SIGINT, 130), (signal.SIGTERM, 143), (signal.SIGHUP, 129)):
            self.stand_in(f"mkdir $TMPDIR/left; sleep 300 & echo $! >>{self.folder}/sleeping; sleep 300")
            words, env = self.command("run", self.job)
            room = os.path.join(self.folder, f"tmp{number}")
            os.mkdir(room)
            with subprocess.Popen(words, env={**env, "TMPDIR": room}, cwd=ROOT, stderr=subprocess.PIPE, preexec_fn=ignore_none) as child:
                self.wait_for(lambda: os.path.exists(f"{self.folder}/sleeping"))
                child.send_signal(number)
                self.assertEqual((child.wait(10), child.stderr.read()), (status, b""))
            with open(f"{self.folder}/sleeping", encoding="ascii") as sleeping:
                sleeper = int(sleeping.read())
            os.unlink(f"{self.folder}/sleeping")
            self.wait_for(lambda: not running(sleeper))
            self.assertEqual(os.listdir(room), [])

    def wait_for(self, test):
        """Waits until a test holds, up to ten seconds."""
        for _ in range(200):
            if test():
                return
            time.sleep(0.05)
        self.fail("it does not come to it")


def ignore_none():
    """In the child: a signal that the tests' own caller ignores, as nohup has it, is heard again."""
    for number in (signal.SIGTERM, signal.SIGHUP):
        signal.signal(number, signal.SIG_DFL)


def running(process):
    """Whether a process runs, and is not only waiting to be forgotten."""
    try:
        with open(f"/proc/{process}/stat", encoding="ascii") as stat:
            return stat.read().rpartition(")")[2].split()[0] != "Z"
    except OSError:
        return False


class AnyInput(Case):
    """Whatever comes in, hitch says something and ends with a status of its own."""

    def test_any_bytes(self):
        chance = random.Random(16)
        words = [w.encode() for w in "pages lines 00 0016 = 0080 MOV #0005,R0 R1 LOOP: .WORD .ORG scan -- x9 ; # SOB ,".split()]
        for k in range(40):
            if k % 2:
                data = bytes(chance.randrange(256) for _ in range(chance.randrange(60)))
            else:
                data = b"".join(chance.choice(words) + chance.choice([b" ", b"\n", b"\t"]) for _ in range(chance.randrange(25)))
            command = chance.choice((["run"], ["trace"], ["text"], ["asm"], ["record"], ["list", "-", "0", "8"], ["make-trace"]))
            with self.subTest(command=command, data=data):
                ended = hitch(command[0], "--unproved", *command[1:], stdin=data)
                self.assertIn(ended.status, (0, 1, 2))
                self.assertNotIn("Traceback", ended.said)
                self.assertTrue(ended.status == 0 or ended.said or ended.wrote)


if __name__ == "__main__":
    unittest.main()

"""Programs built: proved by rt run, with a line for each crate; or compiled in seconds without proof, and kept by content."""
import fcntl
import glob
import hashlib
import os
import re
import shutil
import tempfile
from contextlib import contextmanager

from command import children, kit
from command.ends import NOT_DONE, Stop, say, say_as_it_is
from command.words import ROOT

TARGET = os.path.join(ROOT, "target")
UNPROVED = os.path.join(TARGET, "unproved")
COMPILE = '. compare/toolchain.sh && unproved_program "$1" "$2" "$3"'
# What turns a program's source into what is compiled, beside the kit.
TURNING = ("compare/toolchain.sh", "compare/unchecked.py")


@contextmanager
def work():
    """A folder for what is made on the way, which is removed however hitch ends; programs that are started put theirs into it too."""
    made = tempfile.mkdtemp(prefix="hitch-")
    try:
        yield made
    finally:
        shutil.rmtree(made, ignore_errors=True)


@contextmanager
def alone():
    """One hitch builds at a time: two rt in one folder would break each other."""
    os.makedirs(TARGET, exist_ok=True)
    with open(os.path.join(TARGET, "hitch.lock"), "w", encoding="ascii") as lock:
        try:
            fcntl.flock(lock, fcntl.LOCK_EX | fcntl.LOCK_NB)
        except BlockingIOError:
            say("another hitch is building here; waiting for it")
            fcntl.flock(lock, fcntl.LOCK_EX)
        yield


def built(name, proved):
    """A program's file, built as was asked for."""
    try:
        if not proved:
            say(f"{name} is compiled without proof")
            program = os.path.join(UNPROVED, f"{name}-{content(name)}")
            if os.path.exists(program):
                return program
        with alone(), work() as made:
            return check(name, made) if proved else compiled(name, program, made)
    except OSError as why:
        raise Stop(NOT_DONE, f"{name} is not built: {why}") from None


# ---- with proof


class Progress:
    """What is said while crates are proved: how many of how many, and which is under way."""

    def __init__(self, name):
        self.name, self.plan = name, kit.plan(name)
        self.done, self.crate, self.told, self.built, self.log = set(), None, None, False, []

    def heard(self, line):
        """A line of rt: what it begins with, what it looks at, and that it is proved; at last that the program is there, and runs."""
        self.log.append(line)
        found = re.match(r"rt: chose --jobs \d+ for (\w+)$|fn (\w+)::|crate (\w+): modules ", line)
        crate = next(filter(None, found.groups())) if found else None
        if crate in self.plan:
            self.crate = crate
            # What it stands on was proved before, in this run or an earlier one.
            self.done.update(name for name in kit.plan(crate) if name != crate)
        elif line.startswith("logic=proved ") and self.crate not in (None, *self.done):
            self.done.add(self.crate)
            say(f"{len(self.done)} of {len(self.plan)}: {self.crate} proved")
        elif line.startswith(f"rt: running out/{self.name};"):
            self.built = True

    def quiet(self):
        """Nothing was heard for a second: says what is under way, once."""
        if self.crate not in (None, self.told, *self.done):
            self.told = self.crate
            say(f"{len(self.done)} of {len(self.plan)} proved; under way: {self.crate}")


def check(name, made):
    """Proves a program and what it stands on; rt then runs it, on nothing, and how that ends is no matter."""
    progress, folder = Progress(name), os.path.join(ROOT, "crates", name)
    children.run_by_lines([kit.rt(), "run"], progress.heard, progress.quiet, cwd=folder, env={**os.environ, "TMPDIR": made})
    if not progress.built:
        say_as_it_is("".join(f"{line}\n" for line in progress.log))
        raise Stop(NOT_DONE, f"{name} is not proved")
    return os.path.join(folder, "out", name)


# ---- without proof


def content(name):
    """What a program is made of: the kit, the crates that it stands on, and their sources."""
    digest = hashlib.sha256()
    for path in (os.path.join(kit.folder(), "KIT-ID"), *(os.path.join(ROOT, part) for part in TURNING)):
        with open(path, "rb") as part:
            digest.update(part.read())
    needs = kit.crates()
    for crate in kit.plan(name):
        digest.update(f"{crate}: {needs[crate]}\n".encode())
        for path in sorted(glob.glob(os.path.join(ROOT, "crates", crate, "src", "**", "*.rt"), recursive=True)):
            with open(path, "rb") as source:
                digest.update(f"{os.path.relpath(path, ROOT)}\n".encode() + hashlib.sha256(source.read()).digest())
    return digest.hexdigest()[:16]


def compiled(name, program, made):
    """Compiles a program with no proof, and keeps it under the name of its content alone."""
    if os.path.exists(program):
        return program
    os.makedirs(UNPROVED, exist_ok=True)
    made_program = os.path.join(made, name)
    words = ["sh", "-c", COMPILE, "sh", ROOT, name, made_program]
    status, _, said = children.run(words, cwd=ROOT, env={**os.environ, "TMPDIR": made})
    if status != 0 or not os.path.exists(made_program):
        say_as_it_is(said.decode("utf-8", "replace"))
        raise Stop(NOT_DONE, f"{name} is not built")
    shutil.copy(made_program, f"{program}.new")
    os.replace(f"{program}.new", program)
    for older in glob.glob(os.path.join(UNPROVED, f"{name}-*")):
        if older != program:
            os.unlink(older)
    return program

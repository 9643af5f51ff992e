"""What the tests share: hitch run as a user runs it, and texts made into jobs."""
import os
import subprocess
import tempfile
import unittest
from typing import NamedTuple

from command import jobs
from command.places import TextError, told
from command.sections import Entry
from command.words import ROOT

HITCH = os.path.join(ROOT, "hitch")
MORE = "; hitch help tells more"
UNPROVED = " is compiled without proof\n"


class Ended(NamedTuple):
    """How a command ended."""

    status: int
    wrote: bytes
    said: str


def hitch(*words, stdin=b"", cwd=ROOT, env=None, **more):
    """Runs hitch; lines that tell that a program is not proved are left out of what it said."""
    run = subprocess.run([HITCH, *words], input=stdin, capture_output=True, cwd=cwd, env=env, check=False, **more)
    said = run.stderr.decode("utf-8", "replace")
    kept = [line for line in said.splitlines(True) if not line.endswith(UNPROVED)]
    return Ended(run.returncode, run.stdout, "".join(kept))


def sample(name):
    """A file of jobs/."""
    with open(os.path.join(ROOT, "jobs", name), "rb") as file:
        return file.read()


def bytes_of(text, patch=()):
    """The bytes of a job's text without assembler lines."""
    data = text if isinstance(text, bytes) else text.encode("utf-8")
    made = jobs.from_text("-", data, None, None)
    if patch:
        made.text.sections.patch([Entry(word, None, address) for address, word in patch])
        return made.text.sections.bytes()
    return made.data


class Case(unittest.TestCase):
    """A test with files of its own."""

    maxDiff = None

    def setUp(self):
        folder = tempfile.TemporaryDirectory(prefix="hitch-test-")
        self.addCleanup(folder.cleanup)
        self.folder = folder.name

    def file(self, name, data):
        """Writes a file, and answers its name."""
        path = os.path.join(self.folder, name)
        with open(path, "wb") as file:
            file.write(data if isinstance(data, bytes) else data.encode("utf-8"))
        return path

    def ends(self, status, wrote, said, *words, **more):
        """Runs hitch and holds it to its status, what it wrote and what it said."""
        ended = hitch(*words, **more)
        wrote = wrote if isinstance(wrote, bytes) else wrote.encode("utf-8")
        with self.subTest(words=words):
            self.assertEqual((ended.status, ended.wrote, ended.said), (status, wrote, said))
        return ended

    def refused(self, text, words):
        """Holds a text to the message with which it is refused."""
        with self.subTest(text[:60]), self.assertRaises(TextError) as why:
            bytes_of(text)
        self.assertEqual(told(why.exception), words)

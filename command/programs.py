"""The repository's programs, built when they are first needed and run on bytes."""
import os

from command import build, children, kit
from command.ends import NOT_DONE, Stop, say_as_it_is

# What a program says on standard error where its answer could not be written.
CUT = "could not be written"


class Programs:
    """Programs that are proved, or compiled without proof."""

    def __init__(self, proved):
        self.proved, self.files = proved, {}

    def file(self, name):
        """A program's file; it is built once."""
        if name not in self.files:
            self.files[name] = build.built(name, self.proved)
        return self.files[name]

    def run(self, name, data, words=(), keep=()):
        """What a program writes, and what it says, as text."""
        command = kit.launcher(kit.folder()) + [self.file(name), *words]
        status, wrote, said = children.run(command, data, pass_fds=keep)
        said = said.decode("utf-8", "replace")
        if status != 0:
            say_as_it_is(said)
            raise Stop(NOT_DONE, f"{name} ended with status {status}")
        if CUT in said:
            raise Stop(NOT_DONE, f"what {name} answers is cut: {said.strip()}")
        return wrote, said

    def run_on_files(self, name, *files):
        """The same of a program that takes its input by names of files; these have no name that outlives it."""
        numbers = []
        try:
            for data in files:
                number = os.memfd_create(name)
                numbers.append(number)
                with os.fdopen(os.dup(number), "wb") as file:
                    file.write(data)
            return self.run(name, b"", [f"/proc/self/fd/{number}" for number in numbers], numbers)
        except OSError as why:
            raise Stop(NOT_DONE, f"no room for what {name} reads: {why.strerror}") from None
        finally:
            for number in numbers:
                os.close(number)

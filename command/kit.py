"""The Rattle kit: its command rt, what a program is run under, and which crates a program stands on."""
import functools
import os
import platform
import shutil

from command import children
from command.ends import NOT_DONE, Stop
from command.words import ROOT


def rt():
    """The kit's command."""
    found = shutil.which("rt")
    if not found:
        raise Stop(NOT_DONE, "rt, the Rattle kit's command, is not on the PATH")
    return found


@functools.lru_cache(maxsize=None)
def folder():
    """The kit's folder: the guide that rt names stands in it."""
    status, wrote, _ = children.run([rt(), "doc"])
    guide = wrote.decode("utf-8", "replace").strip()
    if status != 0 or not guide:
        raise Stop(NOT_DONE, "rt doc does not tell where the Rattle kit is")
    return os.path.dirname(guide)


def launcher(kit):
    """The words before a program: the kit's loader and C library, and an emulator where this machine is not x86-64."""
    emulator = [] if platform.machine() == "x86_64" else ["qemu-x86_64"]
    library = os.path.join(kit, "toolchain", "lib")
    return emulator + [os.path.join(library, "ld-linux-x86-64.so.2"), "--library-path", library]


def crates():
    """The crates of the repository, each with those that it names."""
    found = {}
    with open(os.path.join(ROOT, "crates.txt"), encoding="utf-8") as listed:
        for line in listed:
            name, colon, needs = line.partition("#")[0].partition(":")
            if colon:
                # A static library has that word after its name.
                found[name.split()[0]] = needs.split()
    return found


def plan(program):
    """The crates that rt proves for a program: those that it stands on, and it."""
    needs, found = crates(), set()
    if program not in needs:
        raise Stop(NOT_DONE, f"there is no program {program} here")

    def visit(name):
        if name in needs and name not in found:
            found.add(name)
            for need in needs[name]:
                visit(need)

    visit(program)
    return sorted(found)

"""Programs that hitch starts. Each leads a group of its own, and the whole group ends with hitch."""
import os
import selectors
import signal
import subprocess

from command.ends import NOT_DONE, Stop

NOTHING = subprocess.DEVNULL
PATIENCE = 3  # seconds that a group has to clean up after it was told to end


def started(words, **more):
    """Starts a program in a group of its own."""
    try:
        return subprocess.Popen(words, start_new_session=True, **more)
    except OSError as why:
        raise Stop(NOT_DONE, f"{words[0]} cannot be run: {why.strerror}") from None


def end(child):
    """Ends a program and all that it started."""
    for number in (signal.SIGTERM, signal.SIGKILL):
        try:
            os.killpg(child.pid, number)
        except ProcessLookupError:
            break
        try:
            child.wait(PATIENCE)
        except subprocess.TimeoutExpired:
            continue
    child.wait()


def run(words, data=b"", **more):
    """Runs a program on bytes; answers its status, what it wrote and what it said."""
    pipe = subprocess.PIPE
    child = started(words, stdin=pipe, stdout=pipe, stderr=pipe, **more)
    try:
        wrote, said = child.communicate(data)
    except BaseException:
        end(child)
        raise
    return child.returncode, wrote, said


def run_by_lines(words, heard, quiet, **more):
    """Runs a program and hands on each line that it writes or says; after each second without one `quiet` is called."""
    child = started(words, stdin=subprocess.DEVNULL, stdout=subprocess.PIPE, stderr=subprocess.STDOUT, **more)
    try:
        with selectors.DefaultSelector() as selector:
            selector.register(child.stdout, selectors.EVENT_READ)
            rest = b""
            while True:
                if not selector.select(1):
                    quiet()
                    continue
                part = os.read(child.stdout.fileno(), 65536)
                if not part:
                    break
                *lines, rest = (rest + part).split(b"\n")
                for line in lines:
                    heard(line.decode("utf-8", "replace"))
        return child.wait()
    except BaseException:
        end(child)
        raise
    finally:
        child.stdout.close()

"""hitch desk and hitch release: the scripts that make the page for a laptop, and what a shop takes away."""
import os
import sys

from command import children
from command.ends import NOT_DONE, Stop
from command.options import asked
from command.words import ROOT


def script(words, what, path, env, before=()):
    """Runs a script of the repository with nothing on standard input; its own words are its answer."""
    whole = os.path.join(ROOT, path)
    if not os.path.exists(whole):
        raise Stop(NOT_DONE, f"{what} cannot be made: there is no {path} here")
    child = children.started([*before, whole, *words], cwd=ROOT, env={**os.environ, **env}, stdin=children.NOTHING)
    try:
        status = child.wait()
    except BaseException:
        children.end(child)
        raise
    if status != 0:
        raise Stop(NOT_DONE, f"{what} is not made: {path} ended with status {status}")


def desk(words):
    """hitch desk"""
    wanted = asked(words, ["--unproved"], most=0, too_many="hitch desk takes no file")
    del wanted
    script([], "the desk's page", "desk/build.py", {}, [sys.executable])


def release(words):
    """hitch release [--unproved]"""
    wanted = asked(words, ["--unproved"], most=0, too_many="hitch release takes no file")
    script([], "the release", "chips/release.sh", {"UNPROVED": "1"} if "--unproved" in wanted else {})

"""hitch's commands, and the one place where it ends."""
from command import assembling, ends, listing, recording, running, scripts, stepping, tracing
from command.ends import DONE, NOT_DONE, REFUSED, WRONG_USE, Signalled, Stop, Streams, say
from command.help import HELP
from command.options import Help
from command.places import TextError, told
from command.words import version


def help_(words):
    """hitch help"""
    del words
    ends.answer(HELP.encode())


def version_(words):
    """hitch version"""
    del words
    ends.answer(f"hitch {version()}\n".encode())


COMMANDS = {
    "run": running.run,
    "trace": stepping.trace,
    "job": running.make,
    "text": assembling.text,
    "list": listing.show,
    "record": recording.record,
    "asm": assembling.asm,
    "check-trace": tracing.check,
    "make-trace": tracing.make,
    "desk": scripts.desk,
    "release": scripts.release,
    "help": help_,
    "-h": help_,
    "--help": help_,
    "version": version_,
    "--version": version_,
}


def command(words):
    """Does what the words ask for."""
    if not words:
        ends.say_as_it_is(HELP)
        raise Stop(WRONG_USE)
    if words[0] not in COMMANDS:
        raise ends.wrong_use(f"there is no command {words[0]}")
    try:
        COMMANDS[words[0]](words[1:])
    except Help:
        help_([])
    except TextError as why:
        raise Stop(REFUSED, told(why)) from None


def status_of(words):
    """Does what the words ask for, and answers the status."""
    try:
        command(words)
        return DONE
    except Stop as why:
        if why.words is not None:
            say(why.words)
        return why.status
    except Signalled as why:
        return 128 + why.number
    except MemoryError:
        say("there is not enough memory")
        return NOT_DONE


def start(words):
    """hitch, from its words to its status."""
    Streams.hold()
    try:
        ends.listen()
        status = status_of(words)
    except Signalled as why:
        status = 128 + why.number
    ends.leave(status)

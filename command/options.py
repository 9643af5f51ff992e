"""The words after a command: its options and its files."""
from command.ends import wrong_use


class Asked:
    """What was asked for: the files in their order, the options that were named, and the words of those that take one."""

    def __init__(self):
        self.files, self.named, self.values = [], set(), {}

    def __contains__(self, option):
        return option in self.named

    def value(self, option):
        """The word after an option, or None."""
        return self.values.get(option)

    def file(self, at=0):
        """The file at a place, or - for standard input."""
        return self.files[at] if at < len(self.files) else "-"


class Help(Exception):
    """Help was asked for."""


def asked(words, options=(), taking=None, most=1, too_many="one file at a time"):
    """Takes the words apart. `options` stand alone; `taking` tells of each that takes a word what that is."""
    taking = taking or {}
    found = Asked()
    rest = iter(words)
    for word in rest:
        if word == "--":
            found.files.extend(rest)
        elif word in ("-h", "--help"):
            raise Help
        elif word in options:
            found.named.add(word)
        elif word in taking:
            _take(found, word, next(rest, None), taking[word])
        elif word.startswith("-") and word != "-":
            raise wrong_use(f"there is no option {word} here")
        else:
            found.files.append(word)
    if len(found.files) > most:
        raise wrong_use(too_many)
    return found


def _take(found, option, value, what):
    """An option and the word after it."""
    if value is None:
        raise wrong_use(f"{option}, and {what}")
    if option in found.named:
        raise wrong_use(f"{option} is given twice")
    found.named.add(option)
    found.values[option] = value

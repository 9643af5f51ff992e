"""A strip of scans for each channel: where there was a reading, where no card was in, and what the report tells of it."""
import re
from fractions import Fraction

from command.scantext import CHANNELS, NO_CARD

WIDTH = 60  # characters of a strip; of more scans each stands for several
READING, NOTHING, BOTH, REFUSED = "#", ".", "+", "x"


def picture(scans, report):
    """The strips of all channels, from the scans and from the report's table."""
    refused = {int(number) for number in re.findall(r"^scan (\d+): ", report, re.M)}
    rows = re.findall(r"^ +(\d+) +(\d+) +(\d+) +(\S+) +(\S+) +(\S+)$", report, re.M)
    each = -(-len(scans) // WIDTH) or 1
    lines = [f"a mark stands for {each} scan{'s' if each > 1 else ''}: {READING} reading, {NOTHING} no card, {BOTH} both, {REFUSED} refused"]
    for channel, row in zip(range(CHANNELS), rows):
        marks = [mark_of(scan, number, channel, refused) for number, scan in enumerate(scans, 1)]
        strip = "".join(together(marks[k : k + each]) for k in range(0, len(marks), each))
        lines.append(f"{channel:2} {strip}  {report_in_words(*row[3:])}")
    return "".join(f"{line}\n" for line in lines)


def mark_of(scan, number, channel, refused):
    """The mark of one scan."""
    if number in refused:
        return REFUSED
    return NOTHING if scan.channels[channel] == NO_CARD else READING


def together(marks):
    """The mark of several scans."""
    kinds = set(marks) - {REFUSED}
    if not kinds:
        return REFUSED
    return kinds.pop() if len(kinds) == 1 else BOTH


def degrees(tenths):
    """Tenths of a degree, or a fraction of them, in degrees."""
    exact = Fraction(tenths, 10)
    text = f"{float(exact):.1f}" if (exact * 10).denominator == 1 else f"{float(exact):.4f}".rstrip("0")
    about = "" if Fraction(text) == exact else "about "
    return about + text


def report_in_words(lowest, highest, average):
    """Lowest, highest and average in degrees; the average as a fraction of tenths too."""
    if lowest == "--":
        return "no reading"
    total, number = (int(part) for part in average.split("/"))
    return f"{degrees(int(lowest))} to {degrees(int(highest))} degrees, average {average} tenths, {degrees(Fraction(total, number))} degrees"

"""A processor's state and memory in words."""
from command.words import words_for

REGISTERS = ("R0", "R1", "R2", "R3", "R4", "R5", "SP", "PC")
INDICATORS = (("N", 8), ("Z", 4), ("V", 2), ("C", 1))
ROW = 8  # words in a row of memory


def status_in_words(ps):
    """A PS: the indicators, the interrupt enable and the jumpers."""
    flags = " ".join(f"{name}={int(bool(ps & bit))}" for name, bit in INDICATORS)
    enable = "I2=1, interrupts are heard" if ps & 0x1000 else "I2=0, interrupts are not heard"
    return f"{flags}; {enable}; jumpers up {ps >> 8 & 3} halt {ps >> 10 & 3}"


def indicators(ps):
    """The indicators of a PS as letters, a dash for each that is 0."""
    return "".join(name if ps & bit else "-" for name, bit in INDICATORS)


def page_of_kind(kind, address):
    """What the map's byte says of the page of an address at which a step met a blank."""
    return f"page {address // 256:02X} " + ("can't be written" if kind == 2 else f"is {words_for('page', kind)}")


def page_in_words(pages, address):
    """The same by the map."""
    return page_of_kind(pages[address // 256], address)


def end_in_words(line, pages):
    """bench's line in words."""
    fields = line.split(" ")
    values = dict(zip(REGISTERS, fields))
    ps, mode, blanks = int(fields[8], 16), int(fields[9]), int(fields[10], 16)
    lines = [
        " ".join(f"{name}={values[name]}" for name in REGISTERS),
        f"PS={fields[8]}: {status_in_words(ps)}",
        f"mode {mode}: {words_for('mode', mode)}",
    ]
    if not blanks:
        return lines + ["no blanks"]
    address = int(fields[12], 16)
    number = f"{blanks} blank{'s' if blanks > 1 else ''}"
    return lines + [f"{number}; the first in step {int(fields[11], 16)}, at {fields[12]}: {page_in_words(pages, address)}"]


def memory(word_at, first, last):
    """Rows of words; an unfitted word is ----, and rows that are all alike are folded."""
    rows = []
    for start in range(first - first % (2 * ROW), last + 1, 2 * ROW):
        words = [word_at(start + 2 * k) if first <= start + 2 * k <= last else "    " for k in range(ROW)]
        rows.append((start, " ".join("----" if word is None else word if isinstance(word, str) else f"{word:04X}" for word in words).rstrip()))
    return folded(rows)


def folded(rows):
    """The rows without those between two that are alike."""
    lines = []
    for k, (start, text) in enumerate(rows):
        same_before = k > 0 and rows[k - 1][1] == text
        same_after = k + 1 < len(rows) and rows[k + 1][1] == text
        if same_before and same_after:
            if lines[-1] != "  ..":
                lines.append("  ..")
        else:
            lines.append(f"{start:04X}  {text}")
    return lines

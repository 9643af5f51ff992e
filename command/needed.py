"""What is needed where the text of an op code is refused: what could stand there is tried, and the program text says what it reads."""
import difflib
import re

from command.lexing import LABEL, is_hex
from command.mnemonics import ALIASES, BRANCHES, MNEMONICS

REGISTERS = ("SP", "PC")
COMMENT = "a comment begins with ; or with # between blanks"
FORMS = "R1 @R1 (R1)+ @(R1)+ -(R1) @-(R1) 1234(R1) @1234(R1) #1234 @#1234".split()
NUMBERS = {
    "a hex digit is": [f"{number:X}" for number in range(16)],
    "two hex digits are": [f"{number:02X}" for number in range(256)],
    "four hex digits are": ["0000", "FFFF"],
}
RELATIVE = "0000(PC)"
WORDS = re.compile("[0-9A-F]{4}( [0-9A-F]{4})*")


def diagnosed(programs, text):
    """The number, the column and what is needed, for the text of an op code that the assembler refuses."""
    plain, columns = plain_text(text)
    number, at = read_texts(programs, [plain])[0]
    if number == 0:
        at = plain.find(" ") + 1
        return 30, min(len(text), text.find(" ") + 1), needed(programs, 30, text, text.find(" ") + 1, plain[: operand_at(plain, at)])
    column = columns[at] if at < len(columns) else len(text)
    return number, column, needed(programs, number, text, column, plain[: operand_at(plain, at)])


def read_texts(programs, texts):
    """The number and the column of each text, as the program text tells them; 0 and 0 of one that is read."""
    answer, _ = programs.run("text", "".join(f"{text}\n" for text in texts).encode("ascii"))
    lines = iter(answer.decode("ascii").splitlines())
    told = []
    for text in texts:
        line = next(lines)
        if WORDS.fullmatch(text):  # the program takes DECB and DECB 0000 for words, not for a text that ends too early
            if line == text:
                next(lines)
            told.append((32, len(text)))
        elif line != text:
            told.append((0, 0))
        else:
            found = re.search(r"\(refusal (\d+) at column (\d+)\)", next(lines))
            told.append((int(found.group(1)), int(found.group(2))))
    return told


def plain_text(text):
    """The text with 00 or 0000(PC) for labels and an alias's own name, and for each character the column in the text."""
    plain, columns = text, list(range(len(text)))
    stands = "00" if is_branch(text) else RELATIVE
    for label in reversed(list(re.finditer(rf"(?:(?<=[ ,])|(?<=[ ,]@)){LABEL}(?=[ ,]|$)", text))):
        if is_hex(label.group()) or label.group() in REGISTERS:
            continue
        plain = plain[: label.start()] + stands + plain[label.end() :]
        columns[label.start() : label.end()] = [label.start()] * len(stands)
    for alias, own in ALIASES.items():
        if plain.startswith(alias):
            plain = own + plain[len(alias) :]
            columns[: len(alias)] = [0] * (len(own) - 1) + [len(alias)]
    return plain, columns


def is_branch(text):
    """Whether a label stands for a branch's field."""
    name = text.partition(" ")[0]
    return ALIASES.get(f"{name} ", name).strip() in (*BRANCHES, "SOB")


def operand_at(text, column):
    """Where the operand begins that a column is in."""
    return max(text.rfind(",", 0, column), text.rfind(" ", 0, column)) + 1


def needed(programs, number, text, column, head):
    """What is needed at the column of an op code's text; head is what the program reads before the operand there."""
    if number == 9:
        name = text.partition(" ")[0]
        near = difflib.get_close_matches(name.upper(), MNEMONICS, 1)
        return f"{name} is no mnemonic" + (f"; {near[0]} is one" if near else "")
    if number == 31:
        return f"the text is whole before this; {COMMENT}"
    operand = re.split("[, ]", text[operand_at(text, column) :])[0]
    if re.fullmatch("[0-9A-F]", operand) and taken(programs, head, ["0" + operand]):
        return f"two hex digits are needed: 0{operand}"
    if number == 32:
        return "the line ends too early: something is missing after it"
    sign, digits, rest = re.match(r"(@?#?)([0-9A-Fa-f]{0,8})(.*)", operand).groups()
    four = f"{sign}{digits.upper()[-4:].rjust(4, '0')}{rest}"
    if four != operand and (sign.endswith("#") or digits) and taken(programs, head, [four]):
        return f"four hex digits are needed: {four}"
    if text[column : column + 1].islower():
        return "letters are upper case"
    if text[column : column + 1] == " ":
        return "no blank stands here"
    return operands_after(programs, head)


def operands_after(programs, head):
    """What may stand after the beginning of a text."""
    read = set(taken(programs, head, [*FORMS, RELATIVE, *(digits for all_digits in NUMBERS.values() for digits in all_digits)]))
    label = ["a label"] if is_branch(head) and "00" in read or RELATIVE in read else []
    for words, all_digits in NUMBERS.items():
        good = [digits for digits in all_digits if digits in read]
        if good:
            return ", or ".join([f"{words} needed, {good[0]} to {good[-1]}", *label])
    forms = [form for form in FORMS if form in read]
    if len(forms) < 2:
        return "a register is needed, R0 to R5, SP or PC" if forms else "nothing can stand here"
    *most, last = forms + label
    return f"an operand is needed, {', '.join(most)} or {last}"


def taken(programs, head, operands):
    """The operands that the program reads after the beginning of a text, as the whole or up to the comma of another."""
    texts = [head + operand for operand in operands]
    answers = read_texts(programs, [*texts, *(text + "," for text in texts)])
    whole, begun = answers[: len(texts)], answers[len(texts) :]
    return [one for one, text, (number, _), (_, column) in zip(operands, texts, whole, begun, strict=True) if number == 0 or column > len(text)]

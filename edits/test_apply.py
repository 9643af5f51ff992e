#!/usr/bin/env python3
"""Every wrong answer of the tree still applies to its text, as rt must-fail applies it: test_apply.py [ROOT]

The edits are crates/CRATE/must-fail/*.edit and edits/CRATE/*.edit. A line 'file: PATH' holds for the pairs of lines 'old: TEXT'
and 'new: TEXT' after it; the pairs are applied one after the other, and each old text must stand in its file exactly once by
then. Other lines are empty or comments. An edit that leaves all as it was is no wrong answer.
"""
import pathlib
import sys


def replaced(text, old, new):
    """The text with the one place of `old` in it replaced, or why there is none."""
    at = text.find(old) if old else -1
    if at < 0:
        return None, f"its old text is not there: {old}"
    if text.find(old, at + len(old)) >= 0:
        return None, f"its old text is there more than once: {old}"
    return text[:at] + new + text[at + len(old) :], ""


def source(crate, name):
    """The text of a file that an edit may change, or None."""
    file = crate / name
    inside = name.split("/")[0] in ("src", "specs", "proofs") and ".." not in name.split("/")
    return file.read_text(encoding="utf-8") if inside and file.is_file() and not file.is_symlink() else None


def fault(crate, edit):
    """Why an edit doesn't apply to its crate; nothing if it does."""
    name, old, before, after = "", "", {}, {}
    for line in edit.read_text(encoding="utf-8").split("\n"):
        if line.startswith("file: "):
            name = line[len("file: ") :]
        elif line.startswith("old: "):
            old = line[len("old: ") :]
        elif line.startswith("new:"):
            if name not in after:
                before[name] = after[name] = source(crate, name)
            if after[name] is None:
                return f"there is no file {name!r} to edit"
            after[name], why = replaced(after[name], old, line[len("new:") :].removeprefix(" "))
            if why:
                return f"{name}: {why}"
            old = ""
        elif line and not line.startswith("#"):
            return f"no line of an edit: {line}"
    if old or before == after:
        return "an old text without a new one" if old else "it changes nothing"
    return ""


def main(root):
    """Tries all edits, and prints how many apply."""
    edits = sorted(root.glob("crates/*/must-fail/*.edit")) + sorted(root.glob("edits/*/*.edit"))
    faults = 0
    for edit in edits:
        below = edit.relative_to(root)
        why = fault(root / "crates" / below.parts[1], edit)
        if why:
            print(f"{below}: {why}")
            faults += 1
    print(f"edits: {len(edits) - faults} of {len(edits)} apply to their text")
    return 1 if faults or not edits else 0


if __name__ == "__main__":
    sys.exit(main(pathlib.Path(sys.argv[1] if len(sys.argv) > 1 else pathlib.Path(__file__).parent.parent).resolve()))

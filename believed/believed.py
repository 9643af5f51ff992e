#!/usr/bin/env python3
"""What a reader of this repository must believe, and what he may leave to the prover. See README.md beside this file.

    believed/believed.py                 the count by crate
    believed/believed.py --list          the files to read, in their order, with the lines of each to believe
    believed/believed.py --sums          the lines to believe, by what leads there
    believed/believed.py --items         each definition that a statement reaches, by file, and what leads to it
    believed/believed.py --why NAME      who leads to the item NAME (or CRATE.FILE.NAME)
    believed/believed.py --unused        definitions and laws that nothing cites
    believed/believed.py --check         exit 1 where specs/ holds what no statement reaches, or a paper shows another list or other sums
    believed/believed.py --paper         put the list into docs/PROOFS.md, the sums into docs/BELIEVE.md
"""
import argparse
import collections
import os
import re
import sys

from tree import ARCHITECTURE, PROOFS, THEOREMS, Tree, read, reading_order

# What leads to a definition, the first that does.
LEVELS = ["a contract for users", "a statement of " + ", ".join(THEOREMS), f"a theorem that {PROOFS} names", "an inner function's contract"]
BELIEVE = "docs/BELIEVE.md"
# Where what is printed stands in a paper.
PRINTED = r"(```\n\$ believed/believed.py --{}\n)(.*?)(```\n)"


def definitions(tree, keys):
    return [tree.index[key] for key in keys if tree.index[key].kind != "type of src"]


def report(tree):
    """The count by crate and by what leads there."""
    levels, total = tree.levels(), collections.Counter()
    for file in tree.files.values():
        if file.folder == "specs":
            total[file.crate] += len(file.lines)
    believed, stated = (collections.Counter() for _ in range(2))
    for count, level in ((believed, levels[2]), (stated, levels[3])):
        for item in definitions(tree, level):
            count[item.file.crate] += item.size
    print(f"{'crate':14}{'believed':>9}{'stated':>8}{'specs/':>8}   lines of definitions that users must believe; that any statement reaches; of files under specs/")
    for crate in tree.crates:
        if total[crate] or believed[crate]:
            print(f"{crate:14}{believed[crate]:9}{stated[crate]:8}{total[crate]:8}")
    print(f"{'all':14}{believed.total():9}{stated.total():8}{total.total():8}\n")
    print(sums(tree), end="")


def sums(tree):
    """The lines to believe, by what leads there."""
    levels, out = tree.levels(), ""
    for level, who in zip(levels, LEVELS):
        items = definitions(tree, level)
        files = len({item.file.path for item in items})
        out += f"{sum(i.size for i in items):6} lines of {len(items)} definitions in {files} files: {'reached by ' if who is LEVELS[0] else 'or by '}{who}\n"
    types = [tree.index[key] for key in levels[2] if tree.index[key].kind == "type of src"]
    return out + f"{sum(i.size for i in types):6} lines of types in src/ beside them\n"


def order_of(tree, crate):
    """The files of a crate's specs/, in the order of its root."""
    root = tree.files.get((crate, "specs"))
    return re.findall(r"^pub mod (\w+)$", "\n".join(root.lines), re.M) if root else []


def listed(tree):
    """The files to read, a line for each crate, with the lines of definitions in each that users must believe."""
    lines = collections.Counter()
    for item in definitions(tree, tree.levels()[2]):
        lines[item.file.crate, item.file.title] += item.size
    crates = reading_order()
    lost = {crate for crate, _ in lines} - set(crates)
    if lost:
        sys.exit(f"{ARCHITECTURE}'s table of crates lacks {', '.join(sorted(lost))}")
    out = ""
    for crate in crates:
        files = [f"{title} {lines[crate, title]}" for title in order_of(tree, crate) if lines[crate, title]]
        if files:
            out += f"{crate:13}{', '.join(files)}\n"
    return out + f"{'all':13}{lines.total()} lines in {len(lines)} files\n"


def items(tree):
    levels = tree.levels()
    for key in sorted(levels[-1], key=lambda k: (tree.index[k].file.path, tree.index[k].first)):
        item, level = tree.index[key], next(n for n, keys in enumerate(levels) if key in keys)
        print(f"{item!r} ({item.kind}, {item.size} lines, {LEVELS[level]})")


def quoted_names():
    papers = ["README.md"] + sorted("docs/" + n for n in os.listdir("docs") if n.endswith(".md"))
    return {name for paper in papers for name in re.findall(r"`([^`\n]+)`", read(paper))}


def unused(tree):
    """Items that nothing cites, that state no theorem and that no paper quotes; examples are proved for themselves."""
    by, quoted = tree.citers(), quoted_names()
    theorems = tree.named_theorems() | tree.own_theorems()
    found = []
    for key, item in tree.index.items():
        meant = item.kind == "type of src" or item.file.title == "Examples" or item.own
        if not (meant or by[key] or key in theorems or item.name in quoted):
            found.append(item)
    for item in sorted(found, key=lambda i: (i.file.path, i.first)):
        print(f"{item.file.path}:{item.first + 1}: {item.name}, {item.kind}, {item.size} lines: nothing cites it")
    print(f"{len(found)} items, {sum(i.size for i in found)} lines")
    return 1 if found else 0


def why(tree, name):
    *_, named, every = tree.levels()
    theorems = tree.named_theorems() | tree.own_theorems()
    for item in tree.index.values():
        if name not in (item.name, ".".join((item.file.crate, item.file.title, item.name))):
            continue
        print(f"{item!r} ({item.kind}): {'users must believe it' if item.key in named else 'a statement reaches it' if item.key in every else 'no statement reaches it'}")
        for source, function, _, reached in tree.contracts:
            if item.key in reached:
                print(f"    the contract of {source.path}:{function.line} {function.name}")
        for key in sorted(theorems):
            if item.key in tree.index[key].shown:
                print(f"    the statement of {tree.index[key]!r}")
        for other in tree.index.values():
            if item.key in other.all and other.key in every:
                print(f"    {other!r}")


def stray(tree):
    """What breaks the rule: items of specs/ that no statement reaches, words of a statement that stand in proofs/."""
    *_, named, every = tree.levels()
    for file in sorted(tree.files.values(), key=lambda f: f.path):
        for item in file.items:
            if file.folder == "specs" and item.key not in every:
                yield f"{file.path}:{item.first + 1}: {item.name}: no contract and no named theorem's statement reaches it; its place is proofs/"
            elif file.folder == "proofs" and item.key in named:
                yield f"{file.path}:{item.first + 1}: {item.name}: a statement reaches it; its place is specs/"


def printed(tree):
    """What papers show, by the option that prints it."""
    return ((PROOFS, "list", listed(tree)), (BELIEVE, "sums", sums(tree)))


def check(tree):
    wrong = list(stray(tree))
    for name, option, text in printed(tree) if not wrong else ():
        found = re.search(PRINTED.format(option), read(name), re.S)
        if not found or found.group(2) != text:
            wrong.append(f"{name}: it has not what --{option} prints; believed/believed.py --paper puts it there")
    for line in wrong:
        print(line)
    if wrong:
        return 1
    print(f"specs/ holds what statements reach: {listed(tree).splitlines()[-1].split(None, 1)[1]} to believe")
    return 0


def paper(tree):
    for name, option, text in printed(tree):
        whole, count = re.subn(PRINTED.format(option), lambda m: m.group(1) + text + m.group(3), read(name), flags=re.S)
        if count != 1:
            sys.exit(f"{name}: the place of what --{option} prints is not there once")
        with open(name, "w", encoding="utf-8") as file:
            file.write(whole)


def main():
    parser = argparse.ArgumentParser(description=__doc__, formatter_class=argparse.RawDescriptionHelpFormatter)
    for flag in ("check", "list", "sums", "items", "unused", "paper"):
        parser.add_argument("--" + flag, action="store_true")
    parser.add_argument("--why", metavar="NAME")
    args = parser.parse_args()
    if not os.path.isfile("crates.txt"):
        sys.exit("run this at the repository's root")
    tree = Tree()
    if args.check:
        sys.exit(check(tree))
    if args.unused:
        sys.exit(unused(tree))
    if args.why:
        why(tree, args.why)
    elif args.list:
        print(listed(tree), end="")
    elif args.sums:
        print(sums(tree), end="")
    elif args.items:
        items(tree)
    elif args.paper:
        paper(tree)
    else:
        report(tree)


if __name__ == "__main__":
    main()

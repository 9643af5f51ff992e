#!/usr/bin/env python3
"""Makes the desk, one page that needs nothing else: desk/build.py [--module FILE.wasm [--proved]] [--out FILE.html]

Into the page go the library's module, the words of its numbers (c/numbers.tsv), the version (VERSION), the layout of its buffers
(c/hitchbriar.h) and the samples of jobs/. The scripts of desk/src are joined to one, since a page from a file loads no other.
Without --module the module is made of the code that is not proved (chips/library.sh wasm32), and the page says so; --proved says
that the given module is the one that was compiled of proved code. Without --out it is target/desk.html.

    desk/build.py --module FILE.wasm --given     prints what goes in, as JSON, for tests

Status: 0 made; 1 not made, in words; 2 wrong use.
"""
import argparse
import base64
import json
import pathlib
import re
import subprocess
import sys

HERE = pathlib.Path(__file__).resolve().parent
ROOT = HERE.parent
MODULE = ROOT / "target" / "chips" / "wasm32" / "hitchbriar.wasm"
IMPORT = re.compile(r'^import \{ ([\w, ]+) \} from "\./(\w+)\.mjs";\n', re.M)
EXPORT = re.compile(r"^export (?=(?:const|class|function|async function) )", re.M)
EXPORTED = re.compile(r"^export (const|class|function|async function) (.*)$", re.M)


class Unmade(Exception):
    """Why there is no page."""


def read(*names):
    """The text of a file of the repository."""
    return ROOT.joinpath(*names).read_text(encoding="utf-8")


def numbers():
    """Rows of kind, number and words."""
    rows = [line.split("\t") for line in read("c", "numbers.tsv").splitlines() if line and not line.startswith("#")]
    return [[kind, int(number), words] for kind, number, _, words in rows]


def layout():
    """The number of the buffers' layout."""
    return int(re.search(r"#define WD16_LAYOUT (\d+)", read("c", "hitchbriar.h")).group(1))


def samples():
    """The sample jobs; one that has no words of its own with the patch that stands beside it, if there is one."""
    names = sorted(path for path in (ROOT / "jobs").iterdir() if path.suffix in (".txt", ".scans"))
    made = {}
    for path in names:
        text, patch = path.read_text(encoding="utf-8"), path.with_suffix(".asm")
        made[path.name] = [text, patch.read_text(encoding="utf-8") if "=" not in text and patch.exists() else ""]
    return made


def given(module, proved):
    """What the page is given."""
    return {
        "version": read("VERSION").strip(),
        "layout": layout(),
        "proved": proved,
        "numbers": numbers(),
        "samples": samples(),
        "module": base64.b64encode(module.read_bytes()).decode(),
    }


def exported(text):
    """The names that a script exports."""
    for kind, rest in EXPORTED.findall(text):
        if kind == "const" and not rest.startswith("{"):
            yield from re.findall(r"(?:^|, )(\w+) = ", rest) if " => " not in rest else [rest.partition(" ")[0]]
        else:
            yield re.match(r"\w+", rest).group()


def scripts():
    """The scripts, each after those that it imports, each in a scope of its own."""
    made, done = [], []

    def add(name):
        if name in done:
            return
        text = read("desk", "src", f"{name}.mjs")
        for _, other in IMPORT.findall(text):
            add(other)
        names = list(exported(text))
        body = IMPORT.sub(lambda found: f"const {{ {found.group(1)} }} = {found.group(2)}_script;\n", text)
        body = EXPORT.sub("", body)
        if re.search(r"^(import|export)\b", body, re.M):
            raise Unmade(f"desk/src/{name}.mjs has an import or export of another form")
        made.append(f"const {name}_script = (() => {{\n{body}return {{ {', '.join(names)} }};\n}})();")
        done.append(name)

    add("main")
    left = sorted(path.stem for path in (HERE / "src").glob("*.mjs") if path.stem not in done)
    if left:
        raise Unmade(f"no script imports {', '.join(left)}")
    return made


def page(data):
    """The page."""
    script = "\n".join(['"use strict";', f"globalThis.GIVEN = {json.dumps(data)};", *scripts()]).replace("</", "<\\/")
    return read("desk", "page.html").replace("/*STYLE*/", read("desk", "style.css")).replace("/*SCRIPT*/", script)


def unproved():
    """Makes the module of code that is not proved."""
    made = subprocess.run(["chips/library.sh", "wasm32"], cwd=ROOT, check=False)
    if made.returncode != 0 or not MODULE.exists():
        raise Unmade("chips/library.sh wasm32 made no module")
    return MODULE


def main():
    parser = argparse.ArgumentParser(description=__doc__, formatter_class=argparse.RawDescriptionHelpFormatter)
    parser.add_argument("--module", type=pathlib.Path)
    parser.add_argument("--proved", action="store_true")
    parser.add_argument("--given", action="store_true")
    parser.add_argument("--out", type=pathlib.Path, default=ROOT / "target" / "desk.html")
    asked = parser.parse_args()
    if asked.proved and asked.module is None:
        parser.error("--proved is said of a --module")
    try:
        data = given(asked.module or unproved(), asked.proved)
        if asked.given:
            json.dump(data, sys.stdout)
            return
        made = page(data)
        asked.out.parent.mkdir(parents=True, exist_ok=True)
        asked.out.write_text(made, encoding="utf-8")
    except (OSError, Unmade) as why:
        print(f"build.py: {why}", file=sys.stderr)
        sys.exit(1)
    print(f"{asked.out}: {len(made.encode()):,} bytes, its module {'proved' if asked.proved else 'not proved'}")


if __name__ == "__main__":
    main()

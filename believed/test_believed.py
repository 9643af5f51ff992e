#!/usr/bin/env python3
"""believed.py on a small tree: what is reached, what breaks the rule, and the list in the paper. Run by .ci/run."""
import os
import subprocess
import sys
import tempfile

TOOL = os.path.join(os.path.dirname(os.path.abspath(__file__)), "believed.py")
SPECS = """-- Work.
use Rattle.std.specs.Prelude.{ℕ, ◌+◌, ◌≡◌, refl}

infixl 10 ◌>>=◌

pub data Work (A : Type 0) : Type 0 where
  give : A → Work A

unfoldable pub ◌>>=◌ : {A B : Type 0} → Work A → (A → Work B) → Work B
(give x) >>= f = f x

abbrev pub twice : ℕ → ℕ
twice n = n + n

hidden : ℕ → ℕ
hidden n = n

unfoldable pub shown : ℕ → ℕ
unfolding hidden
shown n = hidden n

module _ (k : ℕ) where
  -- more by k
  abbrev pub over : ℕ → ℕ
  over n = n + k
"""
LAWS = """-- Laws.
use Rattle.std.specs.Prelude.{ℕ, ◌+◌, ◌≡◌, refl}
use Rattle.low.specs.Work.{twice, over}

abbrev pub proof_word : ℕ → ℕ
proof_word n = n

pub twice-is : (n : ℕ) → twice n ≡ n + n
twice-is n = refl

pub rested : (n : ℕ) → proof_word n ≡ n
rested n = refl
"""
PROOFS = """# Proofs

```
$ believed/believed.py --list
```

| Law | Stated in | Rests on |
|---|---|---|
| twice | `twice-is` | `rested` |

## How code and definition meet

`rested` too.
"""
TREE = {
    "crates.txt": "low:\nmachine: low\n",
    "docs/ARCHITECTURE.md": "## The crates\n\n| Crate | What it is |\n|---|---|\n| `low` | ground |\n| `machine` | top |\n\nIn each crate\n",
    "docs/CONTRACTS.md": "Users call `machine`.\n",
    "docs/PROOFS.md": PROOFS,
    "docs/BELIEVE.md": "```\n$ believed/believed.py --sums\n```\n",
    "crates/low/src/lib.rt": "ghost use Rattle.low.specs.Work as W;\n\npub trait Width {\n    ghost wide: { ℕ → ℕ };\n\n    fn bits(self) -> u32;\n}\n\nimpl Width for u8 {\n    ghost wide = { W.twice };\n\n    fn bits(self) -> u32 {\n        8\n    }\n}\n\nfn inner<T: Width>(x: u16) -> u16\n    ensures { result ≡ W.twice x }\n{\n    x\n}\n",
    "crates/low/specs/Lib.antt": "pub mod Work\n",
    "crates/low/specs/Work.antt": SPECS,
    "crates/low/proofs/Laws/Work.antt": LAWS,
    "crates/machine/src/lib.rt": "ghost use Rattle.machine.specs.Use.{stepped, walk};\n\npub fn step(x: u16) -> u16\n    requires { x < 2 }\n    ensures below { result < 2 ^ 16 }\n    ensures stepped { result ≡ stepped walk x }\n{\n    x\n}\n",
    "crates/machine/specs/Lib.antt": "pub mod Use\n",
    "crates/machine/specs/Use.antt": """-- Use.
use Rattle.std.specs.Prelude.{ℕ}
use Rattle.low.specs.Work.{Work, give, ◌>>=◌}
use Rattle.low.specs.Work as Low

abbrev pub walk : Work ℕ
walk = do
  x ← give 1
  give x

abbrev pub stepped : Work ℕ → ℕ → ℕ
stepped w x = Low.over 1 (Low.shown x)
""",
}
LIST = "low          Work 13\nmachine      Use 6\nall          19 lines in 2 files\n"


def write(path, text):
    os.makedirs(os.path.dirname(path) or ".", exist_ok=True)
    with open(path, "w", encoding="utf-8") as file:
        file.write(text)


def run(*words):
    ran = subprocess.run([sys.executable, TOOL, *words], stdout=subprocess.PIPE, stderr=subprocess.STDOUT, encoding="utf-8")
    return ran.returncode, ran.stdout


def flagged():
    """What --check names, file by file; it must exit 1 then."""
    status, said = run("--check")
    assert status == 1, said
    return {tuple(line.split(": ")[1:3]) for line in said.splitlines()}


def with_edit(path, old, new, expected):
    assert TREE[path].count(old) == 1, old
    write(path, TREE[path].replace(old, new))
    found = flagged()
    write(path, TREE[path])
    assert found == expected, found


def main():
    with tempfile.TemporaryDirectory() as room:
        os.chdir(room)
        for path, text in TREE.items():
            write(path, text)
        status, said = run("--check")
        assert status == 1 and said.count("believed.py --paper puts it there") == 2, said
        assert run("--paper")[0] == 0
        assert run("--check")[0] == 0, run("--check")
        assert run("--list") == (0, LIST), run("--list")
        assert run("--sums")[1].startswith("    17 lines of 7 definitions in 2 files: reached by a contract for users\n"), run("--sums")
        for ghosts in ("Width (type of src, 2 lines, an inner function's contract)", "Width for u8 (type of src, 2 lines, an inner function's contract)"):
            assert ghosts in run("--items")[1], run("--items")
        with open("docs/PROOFS.md", encoding="utf-8") as file:
            TREE["docs/PROOFS.md"] = file.read()
        unreached = "no contract and no named theorem's statement reaches it; its place is proofs/"
        with_edit("crates/machine/specs/Use.antt", "(Low.shown x)", "x", {("hidden", unreached), ("shown", unreached)})
        with_edit("crates/low/specs/Work.antt", "  over n = n + k\n", "  over n = n + k\n\npub over-is : (n : ℕ) → over 1 n ≡ n + 1\nover-is n = refl\n", {("over-is", unreached)})
        with_edit("docs/PROOFS.md", "| `twice-is` | `rested` |", "| `rested` | |", {("proof_word", "a statement reaches it; its place is specs/")})
        os.chdir("/")
    print("believed: what statements of a small tree reach, and what breaks the rule")


main()

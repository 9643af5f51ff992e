"""The samples of jobs/: each has its line and its row in the page, and the words of docs/BENCH.md are those of the table."""
import glob
import os
import re
import unittest

from command.tests.support import ROOT, Case, hitch, sample
from command.words import rows


class Samples(Case):
    """Every sample has its text, its expected line, its listing, and its row in jobs/README.md."""

    def test_each_has_its_line(self):
        readme = sample("README.md").decode()
        texts = sorted(glob.glob(os.path.join(ROOT, "jobs", "*.txt")))
        self.assertGreaterEqual(len(texts), 14)
        for path in texts:
            name = os.path.basename(path)[: -len(".txt")]
            ended = hitch("run", "--unproved", path)
            with self.subTest(name):
                self.assertEqual(ended.wrote, sample(f"{name}.line"))
                self.assertEqual(ended.status, int(ended.wrote.startswith(b"REFUSED")))
                self.assertIn(f"| {name} |", readme)

    def test_each_has_its_listing(self):
        for path in sorted(glob.glob(os.path.join(ROOT, "jobs", "*.list"))):
            name, stretch = os.path.basename(path)[: -len(".list")].rsplit(".", 1)
            self.ends(0, sample(os.path.basename(path)), "", "list", "--unproved", f"jobs/{name}.txt", *stretch.split("-"))

    def test_the_readme_s_text_is_the_example(self):
        shown = re.search(r"(?m)^    # The example.*?^    lines 0000 x3\n", sample("README.md").decode(), re.S).group()
        self.assertEqual(re.sub("(?m)^    ", "", shown).encode(), sample("example.txt"))


class Page(unittest.TestCase):
    """docs/BENCH.md tells the numbers and words of c/numbers.tsv."""

    def test_words(self):
        with open(os.path.join(ROOT, "docs/BENCH.md"), encoding="utf-8") as page:
            text = page.read()
        told = {(kind, number): words for kind, number, _, words in rows() if kind not in ("verdict",)}
        sections = dict(re.findall(r"<!-- (\w+) -->\n(.*?)\n\n", text + "\n\n", re.S))
        for kind in sorted({kind for kind, _ in told}):
            found = {(kind, int(number)): words for number, words in re.findall(r"(?m)^\| (\d+) \| (.*) \|$", sections.get(kind, ""))}
            with self.subTest(kind):
                self.assertEqual(found, {key: words for key, words in told.items() if key[0] == kind})

    def test_words_of_programs(self):
        words = {number: words for kind, number, _, words in rows() if kind == "refusal"}
        with open(os.path.join(ROOT, "crates/refusal/src/lib.rt"), encoding="utf-8") as names:
            numbers = {name: int(number) for name, number in re.findall(r"(?m)^    (\w+) = (\d+),", names.read())}
        for program, refusals in (
            ("record/src/table.rt", {"LinesLength", "LineBit", "ReadingOutOfRange", "ScansFull"}),
            ("assemble/src/main.rt", {"UnknownText", "LabelAgain", "LabelMissing", "OutOfReach", "OutOfPlace", "SourceLines"}),
        ):
            with open(os.path.join(ROOT, "crates", program), encoding="utf-8") as code:
                said = re.findall(r'Refusal::(\w+) =>[\s{]*"(.*?)"', code.read())
            self.assertEqual({name for name, _ in said}, refusals)
            for name, told in said:
                with self.subTest(program=program, refusal=name):
                    # A program may add to the table's words after a semicolon, and leave out what is not its own after a comma.
                    self.assertIn(told.partition("; ")[0], (words[numbers[name]], words[numbers[name]].partition(", or ")[0]))


if __name__ == "__main__":
    unittest.main()

"""Adds the command of tests/data/command to a copy of the crates: how few files that takes, and that it runs unproved.

For the latter `rt try` compiles the whole program, which takes minutes: only where the variable TRY_COMMAND stands.
TRY_COMMAND=1 python3 -m unittest."""
import os
import pathlib
import re
import shutil
import subprocess
import tempfile
import unittest

from worked import HONEST, stream

TOP = pathlib.Path(__file__).resolve().parents[1]
TEMPLATE = TOP / "tests" / "data" / "command"
PAGE = (TOP / "docs" / "CHANGING.md").read_text()
FIRST = PAGE.partition("## A command\n")[2].partition("\nBefore it lands")[0]
MOST_FILES = 8
SECONDS = 1800
MEASURE = ["measure", HONEST.id.hex()]
# What the new command is run on: its words, its input, and the text that it writes.
CASES = {
    "metadata": (MEASURE, stream(HONEST.metadata), "bytes 12\n"),
    "nothing": (MEASURE, b"", "no metadata\n"),
    "words": (["measure", "12"], b"", "usage: "),
}


def read_edits() -> dict[str, list[tuple[str, str]]]:
    """For each file that changes, the texts that are replaced, each with what stands there then."""
    edits: dict[str, list[tuple[str, str]]] = {}
    for part in (TEMPLATE / "edits").read_text().rstrip("\n").split("\n\nfile: ")[1:]:
        name, *pairs = part.split("\nold: ")
        edits[name] = [(old, "\n".join(new)) for old, *new in (pair.split("\nnew: ") for pair in pairs)]
    return edits


class NewCommand(unittest.TestCase):
    """A copy of the crates to which the command is added."""

    def setUp(self) -> None:
        folder = tempfile.TemporaryDirectory()
        self.addCleanup(folder.cleanup)
        self.top = pathlib.Path(folder.name) / "walrus"
        left_out = shutil.ignore_patterns("out", "proofs", "must-fail")
        shutil.copytree(TOP / "crates", self.top / "crates", ignore=left_out)
        for name in ("crates.txt", "HANDLES"):
            shutil.copy(TOP / name, self.top)
        self.new = {str(path.relative_to(TEMPLATE).with_suffix("")): path for path in TEMPLATE.rglob("*.new")}
        for name, path in self.new.items():
            shutil.copy(path, self.top / name)
        for name, pairs in read_edits().items():
            text = (self.top / name).read_text()
            for old, new in pairs:
                self.assertEqual(text.count(old), 1, f"{old} in {name}")
                text = text.replace(old, new)
            (self.top / name).write_text(text)

    def touched(self) -> list[str]:
        """The files of the copy that are new, or other than in the checkout."""
        files = [str(path.relative_to(self.top)) for path in self.top.rglob("*") if path.is_file()]
        return [
            name
            for name in files
            if not (TOP / name).exists() or (self.top / name).read_bytes() != (TOP / name).read_bytes()
        ]

    def test_it_touches_few_files(self) -> None:
        touched = self.touched()
        self.assertEqual(sorted(touched), sorted([*self.new, *read_edits()]))
        self.assertLessEqual(len(touched), MOST_FILES)
        named = set(re.findall(r"`(crates/[\w/]+\.\w+)`", FIRST))
        self.assertEqual([name for name in touched if name not in named and name not in self.new], [])
        # A file that is new has another name for each command: the page names those of `verify`.
        self.assertEqual(len(named), len(touched))

    @unittest.skipUnless("TRY_COMMAND" in os.environ, "the program is compiled unproved only where TRY_COMMAND stands")
    def test_it_runs_unproved(self) -> None:
        cases = self.top / "cases"
        cases.mkdir()
        for name, (asked, given, _) in CASES.items():
            (cases / name).write_bytes(given)
            (cases / f"{name}.args").write_text("".join(f"{word}\n" for word in asked))
        words = ["rt", "try", "--cases", str(cases)]
        ran = subprocess.run(words, cwd=self.top / "crates" / "walrus", capture_output=True, text=True, timeout=SECONDS)
        self.assertEqual(ran.returncode, 0, ran.stderr)
        told = dict(re.findall(r"^== (\w+)\n(.*\n)", ran.stdout, re.M))
        self.assertEqual(sorted(told), sorted(CASES), ran.stdout)
        for name, (_, _, text) in CASES.items():
            self.assertEqual(told[name][: len(text)], text)
        self.assertIn(" | measure ID | ", told["words"])


if __name__ == "__main__":
    unittest.main()

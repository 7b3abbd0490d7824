"""Tests of examples/why: the lines of each schedule, its edit, its pictures, and the page that tells of it."""

import pathlib
import re
import subprocess
import sys
import unittest

from test_pages import PROGRAM

TOP = pathlib.Path(__file__).resolve().parents[1]
WHY = TOP / "examples" / "why"
RULES = sorted(path.parent.name for path in WHY.glob("*/schedule.json"))
PAGE = (TOP / "docs" / "PROTOCOL.md").read_text(encoding="utf-8")


class Why(unittest.TestCase):
    def test_the_program_has_the_lines_with_each_rule(self):
        self.assertGreater(len(RULES), 10)
        for name in RULES:
            with self.subTest(name):
                schedule = (WHY / name / "schedule.json").read_bytes()
                ran = subprocess.run([PROGRAM, "replay"], input=schedule, capture_output=True, timeout=60)
                self.assertEqual((ran.returncode, ran.stdout), (0, (WHY / name / "with.report").read_bytes()))

    def test_each_edit_applies_and_its_lines_differ(self):
        edits = sorted(WHY.glob("*/rule.edit"))
        self.assertEqual(len(edits), len(RULES) - 1)  # too many faults break no rule
        for path in edits:
            with self.subTest(path.parent.name):
                changes = re.findall(r"file: (.*)\nold: (.*)\nnew: (.*)\n", path.read_text())
                self.assertNotEqual(changes, [])
                for source, old, new in changes:
                    self.assertEqual((TOP / source).read_text().count(old), 1)
                    self.assertNotEqual(old, new)
                reports = [(path.parent / f"{which}.report").read_text() for which in ("with", "without")]
                self.assertNotEqual(*reports)

    def test_the_page_tells_of_each_rule(self):
        told = re.findall(r"^### .*\(`(\w+)`\)$", PAGE, re.MULTILINE)
        self.assertEqual(sorted(told), RULES)
        self.assertLessEqual(len(PAGE.encode()), 20_000)

    def test_the_pictures_are_those_of_the_lines(self):
        draw = [sys.executable, str(TOP / "clients" / "python" / "walrus_timeline.py")]
        for report in sorted(WHY.glob("*/*.report")):
            with self.subTest(str(report.relative_to(WHY))):
                words = [*draw, str(report.parent / "schedule.json"), str(report), "--svg"]
                drawn = subprocess.run(words, check=True, capture_output=True, timeout=60).stdout
                self.assertEqual(drawn, report.with_suffix(".svg").read_bytes())


if __name__ == "__main__":
    unittest.main()

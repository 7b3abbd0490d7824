"""Tests what docs/definitions.py says of a reading order that the specs do not bear out: python3 -m unittest."""
import pathlib
import sys
import unittest

TOP = pathlib.Path(__file__).resolve().parents[1]
sys.path.insert(0, str(TOP / "docs"))
import definitions  # noqa: E402

PAGE = (TOP / "docs" / "DEFINITIONS.md").read_text()


def faults_of(page: str) -> list[str]:
    made = definitions.Page.__new__(definitions.Page)
    made.faults = []
    made.compare(page)
    return made.faults


class ReadingOrder(unittest.TestCase):
    def test_what_is_named_is_there(self) -> None:
        self.assertEqual(faults_of(PAGE), [])
        changed = PAGE.replace("`wal_gf/specs/Field`", "`wal_gf/specs/Fields`")
        self.assertEqual(faults_of(changed), ["DEFINITIONS.md names wal_gf/specs/Fields, which is not there"])

    def test_definitions_are_spelled_as_in_the_specs(self) -> None:
        [fault] = faults_of(PAGE.replace("  pub differ : one ≢ other\n", "  pub differ : one ≡ other\n"))
        self.assertIn("wal_tree/specs/Collision does not have these lines", fault)
        [fault] = faults_of(PAGE.replace("```antt wal_tree/specs/Collision\n", "```antt wal_tree/specs/Tree\n"))
        self.assertIn("wal_tree/specs/Tree does not have these lines", fault)
        self.assertEqual(faults_of("# Definitions\n"), ["DEFINITIONS.md has no definition"])

    def test_it_is_an_hour(self) -> None:
        self.assertLess(len(PAGE.encode()), 12_000)


if __name__ == "__main__":
    unittest.main()

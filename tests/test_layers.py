"""Tests that docs/tables.py reads the layers of crates.txt, and that it refuses a wrong order: python3 -m unittest."""
import pathlib
import sys
import tempfile
import unittest
from unittest import mock

TOP = pathlib.Path(__file__).resolve().parents[1]
sys.path.insert(0, str(TOP / "docs"))
import tables  # noqa: E402


def read(text: str) -> tables.Crates:
    """What is read of a crates.txt with this text."""
    with tempfile.TemporaryDirectory() as folder:
        (pathlib.Path(folder) / "crates.txt").write_text(text)
        with mock.patch.object(tables, "TOP", pathlib.Path(folder)):
            return tables.read_crates()


class Layers(unittest.TestCase):
    def test_layers_and_notes(self) -> None:
        low = "## Low: what is below.\na: sha2\n# A note.\nb staticlib: a\n"
        crates = read(f"# head\n\n{low}\n## High: above.\nc: b a\n")
        told = [(layer.title, layer.told, layer.notes) for layer in crates.layers]
        self.assertEqual(told, [("Low", "what is below.", {"a": "", "b": "A note."}), ("High", "above.", {"c": ""})])
        self.assertEqual(crates.below, {"a": ["sha2"], "b": ["a"], "c": ["b", "a"]})
        self.assertEqual(tables.chain_of(crates.below), ["a", "b", "c"])

    def test_a_crate_before_what_it_stands_on_is_refused(self) -> None:
        with self.assertRaisesRegex(SystemExit, "b is in no layer, or before a"):
            read("## One: all.\nb: a\na:\n")
        with self.assertRaisesRegex(SystemExit, "a is in no layer"):
            read("a:\n")


if __name__ == "__main__":
    unittest.main()

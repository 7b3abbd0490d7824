"""Tests that the clauses which docs/CLAIMS.md links to are in the contracts, and its laws too: python3 -m unittest."""
import pathlib
import re
import sys
import unittest

TOP = pathlib.Path(__file__).resolve().parents[1]
sys.path.insert(0, str(TOP / "docs"))
import clauses  # noqa: E402

PAGE = (TOP / "docs" / "CLAIMS.md").read_text()
CONTRACTS = clauses.read(None)[0]


class Claims(unittest.TestCase):
    def test_each_clause_that_is_linked_is_there(self) -> None:
        """A link is [`FUNCTION`](FILE), and behind a colon the names of its clauses may follow."""
        table = PAGE.partition("## README's promises")[2].partition("\n## ")[0]
        links = re.findall(r"\[`([\w:]+)`\]\(\.\./(crates/(\w+)/[\w/]+\.rt)\)(?:: (`\w+`(?:, `\w+`)*))?", table)
        self.assertGreater(len(links), 25)
        for function, file, crate, names in links:
            with self.subTest(function=function, crate=crate):
                owner, _, name = function.rpartition("::")
                contract = CONTRACTS[crate, owner, name]
                self.assertEqual(contract.file, file)
                for clause in re.findall(r"\w+", names):
                    self.assertIn(f"ensures {clause}", contract.clauses)

    def test_each_promise_of_readme_has_clauses(self) -> None:
        promises = (TOP / "README.md").read_text().partition("## What is proved")[2].partition("\n## ")[0]
        numbers = re.findall(r"^(\d)\. ", promises, re.M)
        self.assertEqual(numbers, re.findall(r"^\| (\d) \|", PAGE, re.M))

    def test_each_law_is_there(self) -> None:
        """In the rows of the table of laws, behind the crates."""
        rows = PAGE.partition("| Crate | Laws |\n|---|---|\n")[2].partition("\n\n")[0].splitlines()
        self.assertGreater(len(rows), 8)
        for row in rows:
            crates, laws = (re.findall(r"`(\w+)`", cell) for cell in row.split("|")[1:3])
            self.assertNotEqual(laws, [])
            names = {name for crate, _, name in CONTRACTS if crate in crates}
            self.assertLessEqual(set(laws), names)

    def test_links_lead_to_files(self) -> None:
        named = re.findall(r"\]\(([^)#]+)", PAGE)
        self.assertEqual([name for name in named if not (TOP / "docs" / name).exists()], [])


if __name__ == "__main__":
    unittest.main()

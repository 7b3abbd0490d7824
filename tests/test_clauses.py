"""Tests docs/clauses.py, which compares the public contracts of two commits: python3 -m unittest."""
import contextlib
import io
import pathlib
import subprocess
import sys
import tempfile
import unittest
from unittest import mock

TOP = pathlib.Path(__file__).resolve().parents[1]
sys.path.insert(0, str(TOP / "docs"))
import clauses  # noqa: E402

OLD = """//! A crate.
impl<'a, H: Hash32>
    Reader<'a, H> {
    /// Reads.
    pub fn read(&self, into: &mut [u8; 4]) -> [u8; 2]
        requires { length into.old ≡ 4 }
        ensures bytes { result ≡ record { a = 1; b = codes "}" } }  // a brace in a text
        ensures* lends { IsLent self }
    {
        let requires = 1;
    }
    fn private(&self) ensures hidden { ⊤ } {}
}
pub trait Source {
    fn left(&self) -> u8
        ensures most { result ≤ 9 };
}
pub fn law() ensures holds { (n : ℕ) → n ≤ n } {}
pub fn gone() {}
"""
NEW = (
    OLD.replace("into.old ≡ 4", "into.old ≡ 5")
    .replace("ensures most { result ≤ 9 };", "ensures least { 1 ≤ result };")
    .replace("(n : ℕ) → n ≤ n", "(n : ℕ)  // on two lines\n    → n ≤ n")
    .replace("pub fn gone() {}", "pub fn come(n: u8) requires { n < 3 } {}")
)
TOLD = """\
+ wal_a: come
  + requires 1 { n < 3 }
- wal_a: gone
~ wal_a: Reader::read
  ~ requires 1
      length into.old ≡ 4
      length into.old ≡ 5
~ wal_a: Source::left
  - ensures most { result ≤ 9 }
  + ensures least { 1 ≤ result }"""


class Clauses(unittest.TestCase):
    def test_contracts_are_read(self) -> None:
        found = clauses.contracts_in("wal_a", "a.rt", OLD)
        names = {("Reader", "read"), ("Source", "left"), ("", "law"), ("", "gone")}
        self.assertEqual({key[1:] for key in found}, names)
        reads = found["wal_a", "Reader", "read"]
        self.assertEqual(reads.signature, "pub fn read(&self, into: &mut [u8; 4]) -> [u8; 2]")
        wanted = {
            "requires 1": "length into.old ≡ 4",
            "ensures bytes": 'result ≡ record { a = 1; b = codes "}" }',
            "ensures* lends": "IsLent self",
        }
        self.assertEqual(reads.clauses, wanted)

    def test_what_differs_is_told(self) -> None:
        old, new = (clauses.contracts_in("wal_a", "a.rt", text) for text in (OLD, NEW))
        told = sorted(clauses.compare(old, new), key=lambda it: it.split(": ")[1].lower())
        self.assertEqual("\n".join(told), TOLD)
        self.assertEqual(list(clauses.compare(old, old)), [])

    def test_a_function_that_moves_is_compared(self) -> None:
        old = clauses.contracts_in("wal_a", "a.rt", OLD)
        moved = clauses.contracts_in("wal_b", "b.rt", OLD.replace("n ≤ n", "n < n + 1"))
        told = list(clauses.compare(old, moved))
        self.assertIn(
            "~ (from wal_a) wal_b: law\n  ~ ensures holds\n      (n : ℕ) → n ≤ n\n      (n : ℕ) → n < n + 1", told
        )
        self.assertIn("~ (from wal_a) wal_b: gone", told)

    def test_two_commits(self) -> None:
        with tempfile.TemporaryDirectory() as name:
            top = pathlib.Path(name)
            source, specs = top / "crates" / "wal_a" / "src" / "a.rt", top / "crates" / "wal_a" / "specs" / "A.antt"
            for text in (OLD, NEW):
                for path in (source, specs):
                    path.parent.mkdir(parents=True, exist_ok=True)
                    path.write_text(text)
                git = ["git", "-C", name, "-c", "user.name=a", "-c", "user.email=a@b.c"]
                for words in (["init", "-q"], ["add", "crates"], ["commit", "-q", "-m", "a"]):
                    subprocess.run([*git, *words], check=True)
            with mock.patch.object(clauses, "TOP", top):
                ended = [self.said("HEAD~1", "HEAD"), self.said("HEAD~1"), self.said("HEAD"), self.said("none")]
        wanted = sorted([*TOLD.splitlines(), "definitions differ: crates/wal_a/specs/A.antt"])
        for status, lines in ended[:2]:
            self.assertEqual((status, sorted(lines[:-1])), (1, wanted))
        self.assertEqual(ended[2:], [(0, ["4 public functions with 6 clauses; 0 differences"]), (2, [])])

    def said(self, *words: str) -> tuple[int, list[str]]:
        """The status, and what is written to standard output."""
        told = io.StringIO()
        with contextlib.redirect_stdout(told), contextlib.redirect_stderr(io.StringIO()):
            try:
                status = clauses.main(list(words))
            except SystemExit as ended:
                status = int(str(ended.code))
        return status, told.getvalue().splitlines()


if __name__ == "__main__":
    unittest.main()

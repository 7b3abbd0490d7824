"""Tests that the files which docs/CHANGING.md names are there, and that its list for a command is whole."""
import os
import pathlib
import re
import unittest

TOP = pathlib.Path(__file__).resolve().parents[1]
PAGE = (TOP / "docs" / "CHANGING.md").read_text()
COMMAND = PAGE.partition("## A command\n")[2].partition("\n## ")[0]
FOLDERS = ("crates", "clients", "hostile", "tests", "packaging", "bench", "docs", "examples", ".ci")
ENDINGS = {".rt", ".antt", ".py", ".rs", ".md", ".1", ".completion", ""}
# By what a command is named in a source, and the files that are its own, or tell of it for another reason.
VERIFY = r"WholeTask::Verify|\(Verify |\b[vV]erifying\b|\bverify_answer\b|[\"']verify[\"' ]|verify ID"
GATEWAY = r"WholeTask::Gateway|\(Gateway |\b[fF]etching\b|fetch_ranges\b|[\"']gateway[\"' ]|gateway CAPACITY"
OWN = {
    VERIFY: r"crates/wal_run/proofs/verify/.*|crates/wal_challenge/.*|docs/OPERATING\.md|tests/test_blocks\.py|"
    r"clients/python/walrus/(audit|network/.*)\.py",
    GATEWAY: r"crates/wal_run/(specs/Fetching\.antt|proofs/(Fetches\.antt|fetch/.*)|src/fetch\.rt)|"
    r"crates/wal_gateway/.*|crates/wal_words/proofs/task/pair_task/Answers\.antt|"
    r"docs/(OPERATING|SPEED)\.md|bench/gets\.py|hostile/(gets|checks|forms)\.py|tests/(test_gateway|gateways)\.py|"
    r"clients/(go/.*|python/walrus/network/.*)|packaging/(build|test)|examples/gateway|tests/test_(style|wheel)\.py",
}
NOT_MEANT = ("docs/CHANGING.md", "docs/DECISIONS.md", "tests/test_changing.py")


def texts() -> dict[str, str]:
    """The text of each file that may name a command."""
    found = {}
    for folder in FOLDERS:
        for at, below, names in os.walk(TOP / folder):
            below[:] = [name for name in below if name not in ("out", "__pycache__", "must-fail", "data")]
            for path in (pathlib.Path(at, name) for name in names):
                name = str(path.relative_to(TOP))
                if path.suffix in ENDINGS and name not in NOT_MEANT and not path.is_symlink():
                    found[name] = path.read_text(errors="replace")
    return found


class Files(unittest.TestCase):
    def test_each_file_that_is_named_is_there(self) -> None:
        named = re.findall(r"`([\w./]+/[\w./]+)`", PAGE)
        self.assertGreater(len(named), 60)
        self.assertEqual([name for name in named if not (TOP / name).exists()], [])

    def test_each_file_that_a_command_touches_is_named(self) -> None:
        named = set(re.findall(r"`([\w./]+)`", COMMAND))
        files = texts()
        for pattern, own in OWN.items():
            with self.subTest(pattern=pattern):
                found = sorted(name for name, text in files.items() if re.search(pattern, text))
                self.assertGreater(len(found), 25)
                self.assertEqual([name for name in found if name not in named and not re.fullmatch(own, name)], [])


if __name__ == "__main__":
    unittest.main()

"""Checks of the client, the examples and scripts of docs/ by Debian's mypy, black and flake8: python3 -m unittest."""
import os
import pathlib
import subprocess
import unittest

from test_pages import SECONDS, TOP

CLIENT = TOP / "clients" / "python"
MODULES = sorted(file for file in CLIENT.glob("*.py") if not file.name.startswith("test_"))
MODULES += sorted(it for it in (CLIENT / "walrus").rglob("*.py") if "network" not in it.parts)
NAMES = ("network", "spread", "bad_encoding", "one_shard", "bundle", "journal", "challenge", "gateway")
EXAMPLES = [TOP / "examples" / name for name in NAMES]
DOCS = [TOP / "docs" / f"{name}.py" for name in ("clauses", "definitions", "tables")]


def says(name, *words):
    """What a tool says of these files, nothing where all is well."""
    tool = pathlib.Path("/usr/bin", name)
    if not tool.exists():
        raise unittest.SkipTest(f"{name} is not here")
    variables = {**os.environ, "MYPYPATH": str(CLIENT)}
    ran = subprocess.run([tool, *words], capture_output=True, text=True, env=variables, timeout=5 * SECONDS)
    return (ran.stdout + ran.stderr).strip() if ran.returncode else ""


class Style(unittest.TestCase):
    def test_types(self):
        words = "--strict", "--no-error-summary", "--scripts-are-modules", "--cache-dir", os.devnull
        self.assertEqual(says("mypy", *words, *MODULES, *EXAMPLES, *DOCS), "")

    def test_forms(self):
        self.assertEqual(says("black", "--quiet", "--diff", "--check", "-l", "120", CLIENT, *EXAMPLES, *DOCS), "")

    def test_faults(self):
        self.assertEqual(says("flake8", "--max-line-length", "120", CLIENT, *EXAMPLES, *DOCS), "")


if __name__ == "__main__":
    unittest.main()

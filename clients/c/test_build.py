"""Tests of clients/c/build on sources that were not proved: python3 -m unittest."""

import os
import pathlib
import shutil
import subprocess
import tempfile
import unittest

from called import C, TOP

LEFT_OUT = 77


@unittest.skipUnless(shutil.which("rt"), "rt is not on PATH")
@unittest.skipUnless(shutil.which("cc"), "there is no C compiler cc")
class Refused(unittest.TestCase):
    """It builds nothing if a crate is not proved in its present state."""

    def setUp(self) -> None:
        folder = tempfile.TemporaryDirectory()
        self.addCleanup(folder.cleanup)
        self.top = pathlib.Path(folder.name)
        ignored = shutil.ignore_patterns("out", "__pycache__", "specs", "proofs", "must-fail", "data")
        shutil.copytree(TOP / "crates", self.top / "crates", ignore=ignored)
        shutil.copytree(C, self.top / "clients" / "c", ignore=ignored)
        shutil.copy2(TOP / "crates.txt", self.top)
        (self.top / ".git").mkdir()
        self.libraries = {}  # empty stand-ins for the libraries of the crates
        for crate in (self.top / "crates").glob("*_*/"):
            library = self.libraries[crate.name] = crate / "out" / "rlib" / f"{crate.name}.rlib"
            library.mkdir(parents=True)
            (library / "format").touch()

    def said(self, **variables: str) -> str:
        words = [self.top / "clients" / "c" / "build"]
        ran = subprocess.run(words, env={**os.environ, **variables}, capture_output=True, text=True, timeout=60)
        self.assertEqual(ran.returncode, LEFT_OUT, ran.stdout + ran.stderr)
        self.assertFalse((self.top / "clients" / "c" / "out").exists())
        return ran.stderr

    def test_no_library(self) -> None:
        shutil.rmtree(self.top / "crates" / "wal_gf" / "out")
        self.assertIn("wal_gf has no library", self.said())

    def test_an_older_library(self) -> None:
        """Of a crate that depends on one whose source was changed."""
        changed = self.top / "crates" / "wal_lanes" / "src" / "lib.rt"
        for file in self.top.rglob("*"):
            os.utime(file, (100, 100))
        os.utime(changed, (200, 200))
        for library in self.libraries.values():
            os.utime(library, (300, 300))
        os.utime(self.libraries["wal_tree"], (150, 150))
        self.assertIn("the library of wal_tree is older than a source", self.said())

    def test_no_compiler(self) -> None:
        self.assertIn("there is no C compiler nowhere", self.said(CC="nowhere"))


if __name__ == "__main__":
    unittest.main()

"""Runs the tests of the clients in other languages, where their toolchains are here: python3 -m unittest.

Node, Go and Cargo are taken from PATH, and no package is loaded. What stands on the library wants what
`./walrus --library` builds in clients/c/out."""

import os
import pathlib
import shutil
import subprocess
import sys
import tempfile
import unittest

CLIENTS = pathlib.Path(__file__).resolve().parent
sys.path[:0] = [str(CLIENTS.parent / "tests")]

from worked import SIX_WORDS  # noqa: E402

ARCHIVE = pathlib.Path(os.environ.get("WALRUS_LIBRARY_DIR") or CLIENTS / "c" / "out") / "libwalrus.a"
SECONDS = 300  # for the tests of one language, on a busy machine
WORKED = "e02bba4bcbf5e38690b9d44c477647094b390c35d101726424629de2f5ab48fa"
needs_library = unittest.skipUnless(ARCHIVE.exists(), "the library is not built")


def needs(name: str):
    return unittest.skipUnless(shutil.which(name), f"{name} is not here")


class Clients(unittest.TestCase):
    def setUp(self) -> None:
        self.folder = tempfile.TemporaryDirectory()
        self.addCleanup(self.folder.cleanup)

    def run_in(self, folder: pathlib.Path, *words: object, **variables: str) -> str:
        """What a command says, which must end with status 0."""
        kept = {**os.environ, "GOPROXY": "off", **variables}
        told = list(map(str, words))
        ran = subprocess.run(told, cwd=folder, env=kept, capture_output=True, text=True, timeout=SECONDS)
        self.assertEqual(ran.returncode, 0, f"{told}: {(ran.stdout + ran.stderr)[-4000:]}")
        return ran.stdout + ran.stderr

    def test_small_clients_are_small(self) -> None:
        for client in ("js/walrus.mjs", "go/walrus.go"):
            self.assertLess(len((CLIENTS / client).read_text(encoding="utf-8").splitlines()), 200, client)

    @needs("node")
    def test_javascript(self) -> None:
        said = self.run_in(CLIENTS / "js", "node", "--test", "walrus.test.mjs")
        self.assertIn("# fail 0", said)

    @needs("go")
    def test_go(self) -> None:
        self.assertEqual(self.run_in(CLIENTS / "go", "gofmt", "-l", ".") if shutil.which("gofmt") else "", "")
        self.run_in(CLIENTS / "go", "go", "vet", ".")
        self.assertRegex(self.run_in(CLIENTS / "go", "go", "test", "."), r"(?m)^ok\s")

    @needs("cargo")
    @needs_library
    def test_rust(self) -> None:
        words = "cargo", "test", "--offline", "--target-dir", self.folder.name
        said = self.run_in(CLIENTS / "rust", *words, WALRUS_LIBRARY_DIR=str(ARCHIVE.parent.resolve()))
        self.assertRegex(said, r"test result: ok\. [1-9]\d* passed; 0 failed")

    @needs("go")
    @needs_library
    def test_library_in_go(self) -> None:
        file = pathlib.Path(self.folder.name, "file")
        file.write_bytes(SIX_WORDS)
        flags = f"-L{ARCHIVE.parent.resolve()} -Wl,-rpath,{ARCHIVE.parent.resolve()}"
        said = self.run_in(CLIENTS / "go" / "library", "go", "run", ".", file, CGO_LDFLAGS=flags)
        self.assertEqual(said, f"{WORKED} is read from two of four shards: 12 bytes\n")


if __name__ == "__main__":
    unittest.main()

"""Tests of how the library and the program are found, by the package and by the small client, and installed by pip.

The library is the one that WALRUS_LIBRARY names, or that of the checkout; the program the one that WALRUS names, or
that of the checkout. Tests of one that is missing are skipped. Expected values come from the independent
tests/worked.py."""

import asyncio
import os
import pathlib
import subprocess
import sys
import tempfile
import unittest

TOP = pathlib.Path(__file__).resolve().parents[2]
sys.path[:0] = [str(TOP / "tests"), str(TOP / "clients" / "python")]

import walrus  # noqa: E402
from test_walrus_library import LIBRARIES, PROGRAMS, SECONDS  # noqa: E402
from walrus import Code, client as walrus_client  # noqa: E402
from walrus.client import in_process as walrus_library  # noqa: E402
from worked import HONEST, SECOND, SECONDARY, SIX_WORDS  # noqa: E402

DEBIAN = pathlib.Path("/usr/bin/python3")


@unittest.skipUnless(LIBRARIES, "the library is not built")
class SmallClient(unittest.TestCase):
    def test_small_client_over_the_library(self) -> None:
        """The library in this process does what the program does for the small client."""
        found = walrus_library.find(str(LIBRARIES[0]))
        self.assertIsInstance(found, walrus_library.InProcess)
        made = asyncio.run(found.encode(SIX_WORDS, 1, 2))
        self.assertEqual((made.identifier, made.metadata), (SECOND.id, SECOND.metadata))
        self.assertEqual(made.slivers[1][1], SECOND.sliver(SECONDARY, 2))
        parts = [SIX_WORDS[:5], memoryview(SIX_WORDS)[5:]]
        self.assertEqual(asyncio.run(found.output("id", 1, data=parts)), HONEST.id.hex().encode() + b"\n")
        with self.assertRaises(walrus_client.Refused) as caught:
            asyncio.run(found.output("read", SECOND.id.hex(), data=b""))
        self.assertEqual((caught.exception.status, caught.exception.text), (4, b"no metadata\n"))
        self.assertEqual((type(caught.exception), caught.exception.code), (walrus_client.TooFew, Code.NO_METADATA))


class Finding(unittest.TestCase):
    def said(self, python: pathlib.Path, code: str, **variables: str) -> str:
        """Return what Python prints in an unrelated folder, with only these variables of the project."""
        kept = {name: value for name, value in os.environ.items() if not name.startswith(("WALRUS", "PYTHON"))}
        kept |= {"PATH": "/usr/bin:/bin", **variables}
        ran = subprocess.run([python, "-c", code], env=kept, capture_output=True, text=True, timeout=SECONDS, cwd="/")
        self.assertEqual(ran.returncode, 0, ran.stderr)
        return ran.stdout.strip()

    def test_what_is_no_library_and_no_program(self) -> None:
        with tempfile.NamedTemporaryFile(suffix=".so") as file:
            with self.assertRaisesRegex(walrus.NotFound, "is not the library walrus"):
                walrus_library.find(file.name)
            with self.assertRaisesRegex(walrus.NotFound, "is not the library walrus"):
                walrus.Library(file.name)
            with self.assertRaisesRegex(walrus.NotFound, "is no program"):
                walrus.Program(file.name)

    @unittest.skipUnless(DEBIAN.exists() and LIBRARIES + PROGRAMS, "Debian's Python or what is built is not here")
    def test_which_paths_name_a_library(self) -> None:
        named = ["libwalrus.so", "/usr/lib/libwalrus.so.0", "out/walrus", "walrus.sock", "/opt/a.so/walrus"]
        self.assertEqual([*map(walrus_library.is_library, named)], [True, True, False, False, False])

    def test_pip_installs_it(self) -> None:
        """Into a virtual environment, from the checkout and without a network; the wheel includes the library."""
        with tempfile.TemporaryDirectory() as folder:
            made = subprocess.run([DEBIAN, "-m", "venv", folder], capture_output=True, text=True, timeout=SECONDS)
            if made.returncode:
                self.skipTest("Debian's python3-venv is not here")
            python = pathlib.Path(folder, "bin", "python")
            words = [python, "-m", "pip", "install", "--quiet", "--no-index", TOP / "clients" / "python"]
            named = {"WALRUS_LIBRARY": str(LIBRARIES[0].resolve())} if LIBRARIES else {}
            subprocess.run(words, env={**os.environ, **named}, check=True, timeout=SECONDS, capture_output=True)
            code = f"import walrus; print(walrus.engine(), walrus.identifier({SIX_WORDS!r}, 1).hex())"
            if LIBRARIES:
                where, name = self.said(python, code).split()
                self.assertTrue(where.startswith(f"Library('{os.path.realpath(folder)}/lib/"), where)
            else:
                where, name = self.said(python, code, WALRUS=os.path.abspath(PROGRAMS[0])).split()
                self.assertEqual(where, f"Program({os.path.abspath(PROGRAMS[0])!r})")
            self.assertEqual(name, HONEST.id.hex())


if __name__ == "__main__":
    unittest.main()

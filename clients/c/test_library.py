"""Tests of the library that C calls: python3 -m unittest.

Each row of words and input that is tested on the program is tested on the library too. A C program calls the library
with different room, from eight threads, and while memory is refused. ./walrus --library builds the library.
"""

import os
import pathlib
import random
import re
import shutil
import struct
import subprocess
import sys
import tempfile
import types
import unittest
from unittest import mock

from called import C, LIBRARY, TOP, Library, needs_library

sys.path += [str(TOP / "tests"), str(TOP / "hostile")]

import rows  # noqa: E402
import test_bundle  # noqa: E402
import test_challenge  # noqa: E402
import test_gateway  # noqa: E402
import test_image  # noqa: E402
import test_member  # noqa: E402
import test_refused_memory  # noqa: E402
import test_replaying  # noqa: E402
import test_rows  # noqa: E402
import test_serving  # noqa: E402
import test_unpack  # noqa: E402
import test_verify  # noqa: E402
from test_pages import needs_program  # noqa: E402
from test_rooms import cases  # noqa: E402

COMPILER = shutil.which("cc")
OF_ROWS = (test_rows, test_bundle, test_member, test_challenge, test_verify, test_gateway, test_image, test_unpack)
OF_ROWS += (test_replaying, test_serving)
FLAGS = ("-std=c11", "-O1", "-g", "-Wall", "-Wextra", "-Werror", "-pedantic", f"-I{C}", "-pthread")
ARCHIVE = LIBRARY.parent / "libwalrus.a"
WRAPPED = [f"-Wl,--wrap={name}" for name in ("malloc", "realloc", "free")]
SECONDS = 600
needs_compiler = unittest.skipUnless(COMPILER, "there is no C compiler cc")


def in_library(module: types.ModuleType, name: str, tests: type[unittest.TestCase]) -> type[unittest.TestCase]:
    """Return the same tests of rows, but with the library called in place of the program."""

    def begin(self: unittest.TestCase) -> None:
        library = Library()
        for place in (rows, module):
            if hasattr(place, "run"):
                patch = mock.patch.object(place, "run", library.answer)
                patch.start()
                self.addCleanup(patch.stop)
        tests.setUp(self)

    return type(f"Library{name}", (tests,), {"setUp": begin})


def load_tests(loader: unittest.TestLoader, own: unittest.TestSuite, _pattern: str | None) -> unittest.TestSuite:
    """Return the tests of this module, and the tests of rows with the library."""
    suite = unittest.TestSuite([own])
    for module in OF_ROWS:
        for name, tests in vars(module).items():
            if isinstance(tests, type) and issubclass(tests, rows.Rows) and tests is not rows.Rows:
                made = needs_library(in_library(module, name, tests))
                suite.addTests(loader.loadTestsFromTestCase(made))
    return suite


@needs_library
class Words(unittest.TestCase):
    """Words that are malformed, or match no command."""

    def test_words_end_with_a_zero_byte(self) -> None:
        library = Library()
        for words in (b"id", b"id\0001", b"\xff\0", b"id\0\xc3\0", b"x" * 70000):
            with self.subTest(words=words[:20]):
                self.assertEqual(library.call(words, b"", 100), (11, b"", 0))

    def test_words_that_ask_for_nothing(self) -> None:
        library = Library()
        nothing: list[list[str]] = [
            [],
            [""],
            ["id"],
            ["id", "0"],
            ["id", "1", ""],
            ["", "id", "1"],
            ["i\u00e4d", "1"],
            ["id 1"],
        ]
        for words in nothing:
            with self.subTest(words=words):
                self.assertEqual(library.answer(words, b"x"), (2, test_rows.USAGE))


@needs_library
@needs_program
class Program(unittest.TestCase):
    """The library gives the same answers as the program, in the cases of tests/test_refused_memory.py."""

    def test_the_same_bytes(self) -> None:
        library = Library()
        for words, data, status in cases(library):
            with self.subTest(words=words):
                self.assertEqual(library.answer(words, data), rows.run(words, data))


@needs_library
@needs_compiler
class Calls(unittest.TestCase):
    """C programs that call the library."""

    folder: pathlib.Path
    file: pathlib.Path
    small: pathlib.Path
    count: int

    @classmethod
    def setUpClass(cls) -> None:
        folder = tempfile.TemporaryDirectory()
        cls.addClassCleanup(folder.cleanup)
        cls.folder = pathlib.Path(folder.name)
        cls.file = cls.folder / "cases"
        found = cases(Library())
        cls.file.write_bytes(b"".join(cls.packed(*one) for one in found))
        cls.count = len(found)
        cls.small = cls.folder / "small"
        least: dict[str, tuple[list[str], bytes, int]] = {}
        for one in sorted(found, key=lambda it: len(it[1])):
            least.setdefault(one[0][0], one)
        del least["sample"]  # it takes long even without input
        cls.small.write_bytes(b"".join(cls.packed(*one) for one in least.values()))

    @staticmethod
    def packed(words: list[str], data: bytes, status: int) -> bytes:
        told = b"".join(word.encode() + b"\0" for word in words)
        return struct.pack("<3Q", status, len(told), len(data)) + told + data

    def built(self, name: str, *flags: str | pathlib.Path) -> pathlib.Path:
        """Compile calls.c, link it with the archive, and return the program."""
        made = self.folder / name
        subprocess.run([str(COMPILER), *FLAGS, *flags, "-o", made, C / "calls.c", ARCHIVE], check=True)
        return made

    def calls(self, *words: str | pathlib.Path) -> int:
        """Run a program, check that all of its calls gave the right results, and return their number."""
        ran = subprocess.run(words, capture_output=True, text=True, timeout=SECONDS)
        self.assertEqual(ran.returncode, 0, ran.stdout[-2000:] + ran.stderr[-2000:])
        found = re.fullmatch(r"(\d+) calls of (\d+) cases are as they should be\n", ran.stdout)
        assert found is not None, ran.stdout
        return int(found[1])

    def test_each_room(self) -> None:
        """No room, one byte, half, one too few, enough and more; with the address sanitizer if it is available."""
        flags = ["-fsanitize=address,undefined"] if self.sanitizes() else []
        self.assertGreaterEqual(self.calls(self.built("rooms", *flags), "rooms", self.file), 5 * self.count)

    def sanitizes(self) -> bool:
        """Return whether the compiler has the sanitizer's library."""
        made = self.folder / "tried"
        words = [str(COMPILER), "-fsanitize=address,undefined", "-xc", "-", "-o", made]
        ran = subprocess.run(words, input=b"int main(void) { return 0; }\n", capture_output=True)
        return ran.returncode == 0 and subprocess.run([made], capture_output=True).returncode == 0

    def test_eight_threads(self) -> None:
        self.assertEqual(self.calls(self.built("threads"), "threads", self.file), (2 + 8 * 3) * self.count)

    def test_refused_memory(self) -> None:
        """Each request for memory of a call is refused, or 600 of them; after the call no memory is held."""
        made = self.built("memory", "-DREFUSES", *WRAPPED)
        self.assertGreater(self.calls(made, "memory", self.file), 20 * self.count)

    @unittest.skipUnless(shutil.which("valgrind"), "there is no valgrind")
    def test_under_valgrind(self) -> None:
        """Each command once, with its smallest input."""
        checks = ["valgrind", "--quiet", "--error-exitcode=9", "--leak-check=full", "--errors-for-leak-kinds=all"]
        self.assertGreater(self.calls(*checks, self.built("plain"), "rooms", self.small), 40)

    def test_the_example(self) -> None:
        """It is built with the flags of walrus.pc, spreads a file and reads it back."""
        blob, made = self.folder / "blob", self.folder / "spread"
        blob.write_bytes(random.Random(1).randbytes(100_000))
        flags = [f"-I{C}", f"-L{LIBRARY.parent}", "-lwalrus"]
        if shutil.which("pkg-config"):
            variables = {**os.environ, "PKG_CONFIG_PATH": str(LIBRARY.parent)}
            told = subprocess.run(
                ["pkg-config", "--cflags", "--libs", "walrus"],
                env=variables,
                capture_output=True,
                text=True,
                check=True,
            )
            flags = told.stdout.split()
        subprocess.run([str(COMPILER), "-Wall", "-Werror", "-o", made, C / "spread.c", *flags], check=True)
        variables = {**os.environ, "LD_LIBRARY_PATH": str(LIBRARY.parent)}
        ran = subprocess.run([made, blob], env=variables, capture_output=True, text=True, timeout=SECONDS)
        name = Library().answer(["id", "1"], blob.read_bytes())[1].decode().strip()
        self.assertRegex(ran.stdout, rf"^{name}: 100000 bytes in \d+ of envelopes, read back\n$", ran.stderr)


@needs_library
class Exports(unittest.TestCase):
    @unittest.skipUnless(shutil.which("nm"), "there is no nm, which tells what a library exports")
    def test_the_header_has_each_export(self) -> None:
        told = subprocess.run(["nm", "-D", "--defined-only", LIBRARY], capture_output=True, text=True, check=True)
        names = {line.split()[-1].partition("@")[0] for line in told.stdout.splitlines()} - {"WALRUS_0"}
        declared = set(
            re.findall(r"\b(walrus_\w+)\(", re.sub(r"/\*.*?\*/", "", (C / "walrus.h").read_text(), flags=re.S))
        )
        self.assertEqual(names, declared)

    @unittest.skipUnless(shutil.which("nm"), "there is no nm, which tells what a library asks for")
    def test_it_takes_memory_from_malloc_alone(self) -> None:
        """And it uses little else of the C library."""
        told = subprocess.run(["nm", "-D", "--undefined-only", LIBRARY], capture_output=True, text=True, check=True)
        names = {line.split()[-1].partition("@")[0] for line in told.stdout.splitlines()}
        self.assertEqual(names & test_refused_memory.GIVERS, {"malloc", "realloc"})
        self.assertLessEqual({"free"}, names)
        self.assertEqual(
            {name for name in names if re.search("pthread|mutex|fork|exec|open|socket|write|read", name)}, set()
        )


@needs_library
@unittest.skipUnless(shutil.which("make"), "there is no make")
class Installed(unittest.TestCase):
    def test_what_is_installed(self) -> None:
        """The header, the libraries, walrus.pc and the manual page."""
        with tempfile.TemporaryDirectory() as folder:
            words = ["make", "-C", str(C), "install", f"DESTDIR={folder}", "PREFIX=/opt/walrus"]
            subprocess.run(words, check=True, capture_output=True, timeout=SECONDS)
            top = pathlib.Path(folder, "opt", "walrus")
            found = sorted(str(it.relative_to(top)) for it in top.rglob("*") if not it.is_dir())
            wanted = [
                "include/walrus.h",
                "lib/libwalrus.a",
                "lib/libwalrus.so",
                "lib/libwalrus.so.0",
                "lib/pkgconfig/walrus.pc",
            ]
            self.assertEqual(found, [*wanted, "share/man/man3/walrus.3"])
            self.assertIn("libdir=/opt/walrus/lib\n", (top / "lib" / "pkgconfig" / "walrus.pc").read_text())


if __name__ == "__main__":
    unittest.main()

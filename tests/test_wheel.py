"""Tests of the wheel that pip makes of the checkout, in environments of their own: python3 -m unittest."""

import os
import pathlib
import subprocess
import tempfile
import tomllib
import unittest

from test_pages import PROGRAM, TOP, needs_program

DEBIAN = pathlib.Path("/usr/bin/python3")  # which has aiohttp and cryptography
SECONDS = 120  # of a process, on a busy machine
VERSION = (TOP / "VERSION").read_text().strip()
IMPORTS = """import importlib, pathlib, pkgutil, sys, {package} as package
left_out = ("__main__", "walrus.network", "libwalrus")
for found in pkgutil.walk_packages(package.__path__, "{package}."):
    is_other = "{package}" == "walrus" and found.name.startswith("walrus.network.")
    is_other or found.name.endswith(left_out) or importlib.import_module(found.name)
print(*{{it.__file__ for name, it in sys.modules.items() if name.startswith("walrus")}})
"""
PAGES = """import pathlib, walrus.network.gateway
from walrus.network.gateway.app import PAGES
folder = pathlib.Path(walrus.network.gateway.__file__).parent
print([name for name in PAGES.values() if not (folder / name).stat().st_size])
"""
READS = """import walrus
encoded = walrus.encode(b"from an environment of its own", 1)
metadata, slivers = encoded.metadata, encoded.slivers
print(bytes(walrus.read(encoded.identifier, [metadata, slivers[0][0], slivers[2][0]])).decode())
"""
PUBLISHES = """import asyncio, contextlib, os
from walrus import client; from walrus.client import in_process as library
from walrus.serving import ProcessShard
async def main():
    async with contextlib.AsyncExitStack() as stack:
        walrus = client.Walrus.find(os.environ["WALRUS"])
        shards = [await stack.enter_async_context(ProcessShard(walrus, 1, number)) for number in range(4)]
        encoded = await walrus.encode(b"published and fetched", 1)
        await client.publish(shards, encoded, 9)
        print((await client.fetch(shards[1:], encoded.identifier, library.find())).decode())
asyncio.run(main())
"""
TYPED = """import walrus
from walrus import client; from walrus.format import frames
from walrus.network.settings.services import Settings
reveal_type(walrus.encode)
reveal_type(client.fetch)
reveal_type(frames.write_frame)
reveal_type(Settings.read)
"""


class Environment(unittest.TestCase):
    """A folder that `python3 -m venv` made, with the wheel."""

    options: tuple[str, ...] = ()
    python: pathlib.Path

    @classmethod
    def setUpClass(cls) -> None:
        folder = tempfile.TemporaryDirectory()
        cls.addClassCleanup(folder.cleanup)
        made = subprocess.run([DEBIAN, "-m", "venv", *cls.options, folder.name], capture_output=True)
        if made.returncode:
            raise unittest.SkipTest("Debian's python3-venv is not here")
        cls.python = pathlib.Path(folder.name, "bin", "python")
        words = [cls.python, "-m", "pip", "install", "--quiet", "--no-index", TOP]
        subprocess.run(words, check=True, timeout=SECONDS)

    def said(self, *words: str, **variables: str) -> str:
        """What a command of the environment says in a folder that is nowhere near."""
        kept = {name: it for name, it in os.environ.items() if not name.startswith(("WALRUS", "PYTHON"))}
        told = [self.python.with_name(words[0]), *words[1:]]
        ran = subprocess.run(told, env=kept | variables, capture_output=True, text=True, timeout=SECONDS, cwd="/")
        self.assertEqual(ran.returncode, 0, ran.stderr)
        return ran.stdout

    def must_be_whole(self, package: str) -> None:
        """Each module of a package is there with all that it imports, of the environment and nowhere else."""
        for file in self.said("python", "-c", IMPORTS.format(package=package)).split():
            self.assertTrue(file.startswith(f"{self.python.parents[1]}/"), file)


class Wheel(Environment):
    """The client and the library, in an environment that has no package beside them."""

    def test_it_has_all_that_it_imports(self) -> None:
        self.must_be_whole("walrus")

    def test_commands(self) -> None:
        self.assertIn("publish", self.said("walrus-client", "--help"))
        self.assertIn("publish", self.said("python", "-m", "walrus.client", "--help"))

    def test_what_the_network_lacks_is_told(self) -> None:
        ran = subprocess.run([self.python.with_name("walrus-net"), "status"], capture_output=True, text=True, cwd="/")
        self.assertEqual((ran.returncode, ran.stdout), (1, ""))
        lacks = r"^walrus-net: (aiohttp|cryptography), which the network needs, is not installed: "
        self.assertRegex(ran.stderr, lacks + r".* or pip install \1\n$")

    @needs_program
    def test_calls(self) -> None:
        self.assertEqual(self.said("python", "-c", READS, WALRUS=PROGRAM), "from an environment of its own\n")

    @needs_program
    def test_client(self) -> None:
        self.assertEqual(self.said("python", "-c", PUBLISHES, WALRUS=PROGRAM), "published and fetched\n")

    def test_types(self) -> None:
        """What uses the package is checked by its types, as py.typed says that it has some."""
        mypy = pathlib.Path("/usr/bin/mypy")
        if not mypy.exists():
            self.skipTest("mypy is not here")
        words = ["--strict", "--no-error-summary", "--cache-dir", os.devnull, "--ignore-missing-imports"]
        told = [mypy, *words, "--python-executable", self.python, "-c", TYPED]
        ran = subprocess.run(told, capture_output=True, text=True, timeout=SECONDS, cwd="/")
        self.assertEqual((ran.returncode, ran.stderr), (0, ""), ran.stdout)
        self.assertEqual(ran.stdout.count('Revealed type is "def ('), 4, ran.stdout)

    def test_metadata(self) -> None:
        self.assertIn(f"Version: {VERSION}\n", self.said("python", "-m", "pip", "show", "walrus-blobs"))


@unittest.skipIf(
    subprocess.run([DEBIAN, "-c", "import aiohttp, cryptography"], capture_output=True).returncode,
    "Debian's python3-aiohttp or python3-cryptography is not here",
)
class Network(Environment):
    """The network, in an environment that sees Debian's packages: it takes aiohttp and cryptography of these."""

    options = ("--system-site-packages",)

    def test_it_has_all_that_it_imports(self) -> None:
        self.must_be_whole("walrus.network")

    def test_pages(self) -> None:
        self.assertEqual(self.said("python", "-c", PAGES), "[]\n")

    def test_commands(self) -> None:
        self.assertIn("gateway", self.said("walrus-net", "--help"))


class Version(unittest.TestCase):
    def test_version_is_one(self) -> None:
        """What cannot read the file VERSION has what it says."""
        cargo = tomllib.loads((TOP / "clients" / "rust" / "Cargo.toml").read_text())
        self.assertEqual(cargo["package"]["version"], VERSION)
        described = subprocess.run([TOP / "clients" / "c" / "describe", "a", "b"], capture_output=True, text=True)
        self.assertIn(f"\nVersion: {VERSION}\n", described.stdout)


if __name__ == "__main__":
    unittest.main()

"""Tests of python3 -m walrus.client: python3 -m unittest, in this folder, with the program WALRUS or ./walrus."""
import asyncio
import contextlib
import io
import json
import os
import pathlib
import pty
import sys
import tempfile
import unittest

import example_tools
from walrus import client, files as walrus_files, front as walrus_front, loop

HERE = pathlib.Path(__file__).resolve().parent
SLOW = 30.0  # seconds until anything must have ended, on a busy machine
loop.wait_without_threads()


class Manifests(unittest.TestCase):
    def test_both_ways(self):
        names = {"a": bytes(32), "b/c d": bytes([7]) * 32, "b/\udcff": bytes([8]) * 32}
        places = {name: walrus_files.Place(identifier) for name, identifier in names.items()}
        blob = walrus_files.write_manifest(places)
        self.assertEqual(walrus_files.read_manifest(blob), places)
        self.assertEqual(json.loads(blob)["files"]["b/c d"], "07" * 32)

    def test_what_is_none(self):
        wrong = [b"", b"\xff", b"[]", b"{}", b'{"files": []}', b'{"files": {"a": "00"}}', b'{"files": {"a": 1}}']
        for blob in wrong + [b"[" * 100_000]:
            with self.assertRaisesRegex(ValueError, "this blob is no manifest of a folder"):
                walrus_files.read_manifest(blob)

    def test_names_that_lead_elsewhere(self):
        for name in ("../a", "/a", "a/../../b", "", ".", "a//b", "a/", "a\0b"):
            blob = json.dumps({"files": {name: "00" * 32}}).encode()
            with self.assertRaisesRegex(ValueError, "the manifest has a name that is refused"):
                walrus_files.read_manifest(blob)


class Words(unittest.TestCase):
    def test_wrong_ones(self):
        places = "a:1 b:2 c:3 d:4"
        wrong = [
            "",
            "publish",
            "publish x a:1 b:2",
            f"fetch 00 {places}",
            f"fetch {'00' * 32} host",
            "publish x a b c d",
        ]
        for line in [*wrong, f"publish --format 3 x {places}", "publish x a:1 b:2 c:3 d:65536"]:
            with contextlib.redirect_stderr(io.StringIO()) as told, self.assertRaises(SystemExit) as caught:
                walrus_files.read_words(line.split())
            self.assertEqual((caught.exception.code, told.getvalue()[:6]), (2, "usage:"), line)

    def test_right_ones(self):
        given = walrus_files.read_words(f"fetch {'aB' * 32} [::1]:1 b:2 c:3 d:4".split())
        self.assertEqual((given.identifier, given.addresses[0], given.faults), (b"\xab" * 32, ("::1", 1), 1))


class Commands(unittest.IsolatedAsyncioTestCase):
    """The command as users call it, with four shards behind fronts."""

    async def asyncSetUp(self):
        asyncio.get_running_loop().set_debug(False)  # debugging is slow
        self.walrus = example_tools.find_walrus()
        stack = await self.enterAsyncContext(contextlib.AsyncExitStack())
        self.folder = pathlib.Path(stack.enter_context(tempfile.TemporaryDirectory()))
        fronts = [walrus_front.Front(self.walrus.path, 1, number, "--pages", "256") for number in range(4)]
        for front in fronts:
            stack.push_async_callback(front.close)
        self.places = [f"127.0.0.1:{(await front.open()).port}" for front in fronts]

    async def run_command(self, *words: object, terminal: bool = False) -> tuple[int | None, bytes, str]:
        """Run the command; return its status, output and standard error, which may be a terminal."""
        pipe, (ours, theirs) = asyncio.subprocess.PIPE, pty.openpty()
        told = [sys.executable, "-m", "walrus.client", *map(str, words)]
        variables = {**os.environ, "WALRUS": self.walrus.path}
        streams = {"stdout": pipe, "stderr": theirs if terminal else pipe}
        process = await asyncio.create_subprocess_exec(*told, cwd=HERE, env=variables, **streams)  # type: ignore
        os.close(theirs)
        async with asyncio.timeout(SLOW):
            said, errors = await process.communicate()
        shown = os.read(ours, 100_000) if terminal else errors
        os.close(ours)
        return process.returncode, said, shown.decode()

    async def run_here(self, *words: object) -> bytes:
        """Call the command's function and return its output."""
        return await walrus_files.run(walrus_files.read_words([str(word) for word in words]))

    async def test_a_file(self):
        file = self.folder / "file"
        file.write_bytes(example_tools.SIX_WORDS)
        for form in (1, 2):
            said = await self.run_here("publish", "--format", form, file, *self.places)
            identifier = await self.walrus.output("id", 1, "--format", form, data=example_tools.SIX_WORDS)
            self.assertEqual(said, identifier)
            fetched = await self.run_here("fetch", said.decode().strip(), *self.places)
            self.assertEqual(fetched, example_tools.SIX_WORDS)

    async def test_a_folder(self):
        """Files come back with their names, and if standard error is a terminal it shows the progress."""
        files = {"a": b"", "b/c d": b"some blob", "b/e/f": bytes(5_000)}
        for name, content in files.items():
            place = self.folder / "folder" / name
            place.parent.mkdir(parents=True, exist_ok=True)
            place.write_bytes(content)
        (self.folder / "folder" / "link").symlink_to("/etc/passwd")
        status, said, told = await self.run_command("publish", self.folder / "folder", *self.places, terminal=True)
        self.assertEqual((status, len(said)), (0, 65))
        self.assertIn("2 of 3: ", told)
        self.places[1] = "127.0.0.1:9"  # one shard is lost meanwhile
        words = "--folder", self.folder / "new", said.decode().strip(), *self.places
        self.assertEqual(await self.run_command("fetch", *words), (0, b"", ""))
        found = {it.relative_to(self.folder / "new").as_posix(): it for it in (self.folder / "new").rglob("*")}
        self.assertEqual({name: it.read_bytes() for name, it in found.items() if it.is_file()}, files)
        status, said, told = await self.run_command("fetch", *words)
        self.assertEqual((status, said), (1, b""))
        self.assertRegex(told, "^walrus.client: .*File exists: .*new'\n$")

    async def test_what_is_refused_is_a_sentence(self):
        large = self.folder / "large"
        with large.open("wb") as file:
            file.truncate(client.LARGEST_BLOB + 1)
        with self.assertRaisesRegex(ValueError, "large has more than 16 MiB, and a blob has no more: cut it"):
            await self.run_here("publish", self.folder, *self.places)
        with self.assertRaisesRegex(ValueError, "nowhere: there is no such file"):
            await self.run_here("publish", self.folder / "nowhere", *self.places)
        with self.assertRaisesRegex(
            client.Refused, "^no metadata .*; shard 0: nothing of it; .*; shard 3: nothing of it$"
        ):
            await self.run_here("fetch", "00" * 32, *self.places)
        status, said, told = await self.run_command("publish", HERE / "liars.py", *["127.0.0.1:9"] * 4)
        self.assertEqual((status, said, told.count("\n")), (1, b"", 1))
        self.assertRegex(told, "^walrus.client: 0 shards acknowledge, of 3 needed; shard 0: connection refused; ")


if __name__ == "__main__":
    unittest.main()

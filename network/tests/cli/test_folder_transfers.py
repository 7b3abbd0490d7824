"""walrus-net with folders, at a gateway of this test that may lie: what it stores, what it writes, and where."""
import asyncio
import os
import pathlib
import socket
import stat
import tempfile
import unittest
import unittest.mock
from typing import Any, Optional, Union

from aiohttp import web
from support.folder_case import Files, manifest_of, site
from support.harness import HERE, lacking
from walrus import client
from walrus.network.cli import folder_store
from walrus.network.cli.transfers import PART
from walrus.network.files.manifest import MARK, Manifest, Place
from walrus.network.peers.engine import find_program


@unittest.skipIf("program" in lacking(), "the program walrus is not here")
class Trees(unittest.IsolatedAsyncioTestCase):
    async def asyncSetUp(self) -> None:
        made = tempfile.TemporaryDirectory(prefix="walrus-trees-")
        self.addCleanup(made.cleanup)
        self.top = pathlib.Path(made.name)
        self.tree, self.out, self.walrus = self.top / "tree", self.top / "out", client.Walrus(find_program())
        self.files, self.asked, self.puts, self.lie = dict[str, bytes](), list[str](), list[str](), None
        self.lie: Optional[bytes]
        self.pause, self.beside, self.least, self.hangs, self.refused = 0.0, 0, 0, False, b"no body begins so"
        app = web.Application(client_max_size=2**30)
        app.add_routes([web.get("/v1/status", self.status), web.get("/v1/blobs/{name}", self.give)])
        app.add_routes([web.put("/v1/blobs", self.take), web.get("/v1/status/{name}", self.status_of)])
        runner = web.AppRunner(app)
        await runner.setup()
        self.addAsyncCleanup(runner.cleanup)
        await web.TCPSite(runner, "127.0.0.1", 0, shutdown_timeout=0.1).start()
        self.url = "http://%s:%s" % runner.addresses[0][:2]

    async def status(self, _: web.Request) -> web.Response:
        return web.json_response({"epoch": 3, "moving": False, "faults": 1})

    async def status_of(self, request: web.Request) -> web.Response:
        if request.match_info["name"] not in self.files:
            return web.json_response({"error": {"status": 404, "text": "none"}}, status=404)
        told = {"certificate": {"epoch": 3, "count": 4}, "invalid": False, "endEpoch": 8}
        return web.json_response(told | ({"held": True} if "held" in request.query else {}))

    async def give(self, request: web.Request) -> web.Response:
        name = request.match_info["name"]
        self.asked.append(name)
        if name not in self.files:
            return web.json_response({"error": {"status": 404, "text": "no such blob"}}, status=404)
        if self.hangs and len(self.files[name]) > PART:
            begun = web.StreamResponse(headers={"Content-Length": str(len(self.files[name]))})
            await begun.prepare(request)
            await begun.write(self.files[name][:PART])
            await asyncio.sleep(600)
        return web.Response(body=self.files[name])

    async def take(self, request: web.Request) -> web.Response:
        body = await request.read()
        self.beside += 1
        while self.beside < self.least:  # the first ones wait for one another
            await asyncio.sleep(0.02)
        self.least = 0
        if body.startswith(self.refused):
            return web.json_response({"error": {"status": 503, "text": "too few shards answered"}}, status=503)
        await asyncio.sleep(self.pause)
        name = (await self.add(body)) if self.lie is None else self.lie.hex()
        self.puts.append(name)
        told = {"blobId": name, "size": len(body), "pieces": 1, "endEpoch": 8, "alreadyCertified": False}
        return web.json_response(told | {"certificate": {"epoch": 3, "count": 4}})

    async def add(self, blob: bytes) -> str:
        name = (await self.walrus.output("id", 1, "--format", 1, data=blob)).decode().strip()
        self.files[name] = blob
        return name

    async def run_net(self, *words: Union[str, pathlib.Path], status: int = 0) -> str:
        """Returns what walrus-net prints; checks its exit status, and that a failure is one line."""
        environment = {**os.environ, "WALRUS_GATEWAY": self.url, "WALRUS": find_program()}
        line = [str(HERE.parent / "walrus-net"), *map(str, words)]
        process = await asyncio.create_subprocess_exec(*line, env=environment, stdout=-1, stderr=-1)
        out, error = await process.communicate()
        self.assertEqual(process.returncode, status, error.decode())
        self.assertEqual(error.count(b"\n"), bool(status), error)
        return (out + error).decode()

    def write(self, files: Files) -> None:
        for path, data in files.items():
            (self.tree / path).parent.mkdir(parents=True, exist_ok=True)
            (self.tree / path).write_bytes(data)

    def found(self, top: pathlib.Path) -> dict[str, bytes]:
        return {str(it.relative_to(top)): it.read_bytes() for it in top.rglob("*") if it.is_file()}

    async def store(self) -> str:
        return (await self.run_net("store", self.tree, "--epochs", "5")).split()[0]

    async def test_a_folder_goes_and_comes_back_equal(self) -> None:
        files = site()
        self.write(files)
        name = await self.store()
        self.assertEqual(self.puts[-1], name)  # the manifest comes last
        self.assertEqual([it.path for it in Manifest(self.files[name])], sorted(files, key=str.encode))
        await self.run_net("fetch", name, "--output", self.out)
        self.assertEqual(self.found(self.out), files)
        mask = os.umask(0)
        os.umask(mask)
        self.assertEqual(stat.S_IMODE((self.out / "style.css").stat().st_mode), 0o666 & ~mask)
        asked = len(self.asked)
        await self.run_net("fetch", name, "--output", self.out)  # all is there: the manifest alone is fetched
        self.assertEqual(self.asked[asked:], [name])
        (self.out / "style.css").write_bytes(b"x" * len(files["style.css"]))
        (self.out / "film.webm").unlink()
        (self.out / "own").write_bytes(b"mine")
        await self.run_net("fetch", name, "--output", self.out)
        self.assertEqual(self.found(self.out), {**files, "own": b"mine"})
        part = self.top / "part"
        await self.run_net("fetch", name, "--output", part, "--only", "pictures")
        self.assertEqual(self.found(part), {it: data for it, data in files.items() if it.startswith("pictures/")})
        await self.run_net("fetch", name, "--output", part, "--only", "film.webm")
        self.assertEqual((part / "film.webm").read_bytes(), files["film.webm"])
        await self.run_net("fetch", name, "--output", part, "--only", "picture", status=4)
        self.assertEqual((await self.run_net("fetch", name)).encode(), self.files[name])
        puts = len(self.puts)
        self.assertEqual(await self.store(), name)
        self.assertEqual(self.puts[puts:], [name])  # nothing else is sent again
        self.write({"new": b"new"})
        self.assertNotEqual(await self.store(), name)
        self.assertEqual(len(self.puts), puts + 3)  # a pack and a manifest
        self.assertNotIn(hash(files["film.webm"]), [hash(self.files[it]) for it in self.puts[puts:]])

    async def test_files_go_side_by_side(self) -> None:
        files = {str(number): bytes([number]) * 600_000 for number in range(6)}
        self.write(files)
        self.least = folder_store.WIDTH
        async with asyncio.timeout(120):
            name = await self.store()
        self.assertEqual((self.puts[-1], len(self.puts)), (name, 7))

    async def test_a_part_that_is_refused_lets_those_under_way_be_stored(self) -> None:
        """They would begin anew, and be charged twice."""
        self.write({str(number): bytes([number]) * (folder_store.SMALL + 1) for number in range(4)})
        self.pause, self.least, self.refused = 0.5, 4, b"\2"
        await self.run_net("store", self.tree, "--epochs", "5", status=4)
        self.assertEqual({it[0] for it in self.files.values()}, {0, 1, 3})

    async def test_a_part_that_fails_ends_the_others_which_leave_nothing(self) -> None:
        files = {str(number): bytes([number]) * 2 * PART for number in range(folder_store.WIDTH)}
        self.write(files)
        name = await self.store()
        del self.files[await self.add(files["3"])]
        self.hangs = True
        async with asyncio.timeout(60):
            self.assertIn("no such blob", await self.run_net("fetch", name, "--output", self.out, status=4))
        self.assertEqual(self.found(self.out), {})

    async def test_a_file_that_changes_meanwhile_never_becomes_the_contents_of_an_equal_one(self) -> None:
        self.write({"a": b"0", "b": b"0", "large": bytes(600_000)})
        self.pause = 0.5  # while the large file is sent, all small ones are read already

        async def change() -> None:
            while not self.beside:
                await asyncio.sleep(0.02)
            self.write({"a": b"1"})

        changing = asyncio.create_task(change())
        said = await self.run_net("store", self.tree, "--epochs", "5", status=1)
        await changing
        self.assertIn("changed while it was stored: store the folder again", said)
        self.assertEqual(len(self.puts), 1)
        self.assertEqual([it.path for it in Manifest(self.files[await self.store()])], ["a", "b", "large"])

    async def test_a_terminal_shows_how_far_it_is(self) -> None:
        self.write(site())
        self.pause = 1.5
        outer, inner = os.openpty()
        environment = {**os.environ, "WALRUS_GATEWAY": self.url, "WALRUS": find_program()}
        line = [str(HERE.parent / "walrus-net"), "store", str(self.tree), "--epochs", "5"]
        process = await asyncio.create_subprocess_exec(*line, env=environment, stdout=-1, stderr=inner)
        self.assertEqual(await process.wait(), 0)
        os.close(inner)
        self.assertRegex(os.read(outer, 65_536), rb"tree \[#+ *\] 0\.\d MB, ")
        os.close(outer)

    async def test_what_no_folder_has_is_named_and_nothing_is_sent(self) -> None:
        odd = {b"a\xff": "no UTF-8", b"a\nb": "control", b"a\\b": "backslash"}
        for name, said in odd.items():
            self.write({"first": b"1"})
            place = os.path.join(os.fsencode(self.tree), name)
            with open(place, "wb"):
                pass
            self.assertIn(said, await self.run_net("store", self.tree, "--epochs", "5", status=1))
            os.unlink(place)
        kinds: dict[str, Any] = {"link": lambda it: it.symlink_to("first"), "pipe": os.mkfifo}
        kinds["socket"] = lambda it: socket.socket(socket.AF_UNIX).bind(str(it))
        kinds["device"] = lambda it: os.mknod(it, stat.S_IFCHR | 0o600, os.makedev(1, 3))
        for name, make in kinds.items():
            try:
                make(self.tree / name)
            except PermissionError:  # only root can make devices
                continue
            said = await self.run_net("store", self.tree, "--epochs", "5", status=1)
            self.assertIn(f"'{name}' is a {name}", said)
            (self.tree / name).unlink()
        self.assertEqual(self.puts, [])
        self.lie = bytes(32)
        self.assertIn("this gateway lies", await self.run_net("store", self.tree, "--epochs", "5", status=1))
        self.tree.joinpath("first").unlink()
        self.lie = None
        self.assertEqual(self.files[await self.store()], MARK)

    async def test_a_liar_writes_nothing_that_was_not_named(self) -> None:
        files = site()
        self.write(files)
        name = await self.store()
        good = dict(self.files)
        film = next(it for it, data in good.items() if data == files["film.webm"])
        pack = next(it for it, data in good.items() if files["style.css"] in data)
        for lied in (name, film, pack):
            for lie in (good[lied] + b"x", bytes([good[lied][0] ^ 1]) + good[lied][1:]):
                self.files = {**good, lied: lie}
                status = 3 if lied == film and len(lie) > len(good[film]) else 1
                out = self.top / f"out-{len(self.asked)}"
                await self.run_net("fetch", name, "--output", out, status=status)
                written = self.found(out) if out.exists() else {}
                self.assertEqual({it for it in written if written[it] != files.get(it)}, set())
        self.files = good
        await self.run_net("fetch", name, "--output", self.out)
        self.assertEqual(self.found(self.out), files)

    async def test_a_manifest_of_an_enemy_writes_nothing_elsewhere(self) -> None:
        own = await self.add(b"owned")
        outside = self.top / "outside"
        outside.mkdir()
        line = Place("x", "a/b", 5, bytes.fromhex(own)).line()
        for path in (b"../outside/x", b"/tmp/x", b"a/../../outside/x", b"a//b", b".", b"..", b"a\\..\\x", b"a\0b"):
            name = await self.add(MARK + line.replace(b"x\t", path + b"\t", 1))
            self.assertIn("malformed", await self.run_net("fetch", name, "--output", self.out, status=3))
        self.out.mkdir(exist_ok=True)
        (self.out / "link").symlink_to(outside)
        name = await self.add(manifest_of(Place("link/x", "a/b", 5, bytes.fromhex(own))))
        self.assertIn("in the way", await self.run_net("fetch", name, "--output", self.out, status=1))
        self.assertEqual([*outside.iterdir()], [])
        for length, offset in ((4, None), (6, None), (6, 0), (5, 1)):
            name = await self.add(manifest_of(Place("y", "a/b", length, bytes.fromhex(own), offset)))
            await self.run_net("fetch", name, "--output", self.out, status=3)
            self.assertFalse((self.out / "y").exists())
        alone: dict[str, Any] = {"status": 4}
        self.assertIn("no folder", await self.run_net("fetch", own, "--output", self.out / "z", "--only", "y", **alone))

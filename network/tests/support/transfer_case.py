"""What the tests of walrus-net share: a gateway of their own, which returns what each test wants, true or false."""
import asyncio
import contextlib
import os
import pathlib
import random
import signal
import tempfile
import unittest
from typing import Any, Union
from unittest import mock

from aiohttp import web

from support.harness import HERE
from walrus import client
from walrus.network.peers.engine import find_program

DRAWN = random.Random(41)
PIECE = 16_777_216
MARK = b"\x00walrus list \x00\x00\x01"
LIE = b"lie"
TOLD = """import atexit, os, pathlib, re
def tell():
    told = re.search(r"VmHWM:\\s+(\\d+) kB", pathlib.Path("/proc/self/status").read_text())
    pathlib.Path(os.environ["PEAK"]).write_text(told[1])
atexit.register(tell)
"""  # Python runs this before a command, which so reports its peak resident memory when it ends


@unittest.skipUnless(os.access(find_program(), os.X_OK), f"the program {find_program()} is not here")
class TransferCase(unittest.IsolatedAsyncioTestCase):
    """A gateway that returns `files` by name, and gives what is stored the name `named`."""

    async def asyncSetUp(self) -> None:
        asyncio.get_running_loop().set_debug(False)
        signal.signal(signal.SIGINT, signal.default_int_handler)  # what a shell starts with & ignores interrupts
        made = tempfile.TemporaryDirectory(prefix="walrus-transfers-")
        self.addCleanup(made.cleanup)
        self.folder, self.walrus = pathlib.Path(made.name), client.Walrus(find_program())
        self.out, self.files, self.named, self.bodies = self.folder / "out", dict[str, bytes](), "", list[bytes]()
        self.lists = dict[str, bytes]()  # of pieces, by the identifier of the file
        self.members, self.stalls, self.resumes, self.paths = list[str](), False, False, list[str]()
        self.program, self.came, self.said = find_program(), 0, ""  # bytes of what is being stored; what it says of it
        self.starts, self.gone, self.whole = list[int](), False, False  # where each answer began; whether the gateway
        # goes in its midst, or hears no ranges
        self.missing = 404  # the status for a name that no file has
        self.pages, self.asked = list[dict[str, Any]](), list[str]()  # of a list; after what each was asked for
        app = web.Application(client_max_size=2**30)
        app.add_routes([web.get("/v1/status", self.status), web.get("/v1/blobs/{name}", self.give)])
        app.add_routes([web.get("/v1/blobs", self.give_page), web.get("/v1/lists/{name}", self.give_list)])
        app.add_routes([web.put("/v1/blobs", self.take), web.post("/v1/bundles", self.take)])
        app.add_routes([web.post("/v1/uploads", self.begin), web.get("/v1/uploads/1", self.look)])
        app.add_routes([web.patch("/v1/uploads/1", self.take)])
        self.runner = web.AppRunner(app)
        await self.runner.setup()
        self.addAsyncCleanup(self.runner.cleanup)
        await self.listen(0)
        host, self.port = self.runner.addresses[0][:2]
        self.url = f"http://{host}:{self.port}"

    async def listen(self, port: int) -> None:
        self.site = web.TCPSite(self.runner, "127.0.0.1", port, shutdown_timeout=0.1)
        await self.site.start()

    async def status(self, _: web.Request) -> web.Response:
        told = {"name": "node", "shards": [0], "next": [], "state": "answers", "said": self.said}
        status = {"epoch": 0, "moving": False, "faults": 1, "blobs": {}, "nodes": [told] * 9_000, "recent": []}
        status["ledger"] = {"place": 1, "away": 0.0, "stale": False, "said": ""}
        return web.json_response(status)

    async def give(self, request: web.Request) -> web.StreamResponse:
        data = self.files.get(request.match_info["name"])
        if data is None:
            told = {"error": {"status": self.missing, "text": f"no such blob{self.said}"}}
            return web.json_response(told, status=self.missing)
        start = int(request.headers.get("Range", "bytes=0-")[6:-1]) if not self.whole else 0
        self.starts.append(start)
        if start and start >= len(data):
            return web.Response(status=416)
        data = data[start:]
        response = web.StreamResponse(status=206 if start else 200, headers={"Content-Length": str(len(data))})
        await response.prepare(request)
        with contextlib.suppress(ConnectionError):  # a client that takes no more of a lie
            await response.write(data[: len(data) // 2])
        if self.gone:
            assert request.transport and self.site._server
            self.site._server.close()  # nothing listens there any more
            request.transport.close()
        while self.stalls:
            await asyncio.sleep(0.1)
        with contextlib.suppress(ConnectionError):  # the client that was interrupted has gone
            await response.write(data[len(data) // 2 :])  # noqa: E203
        return response

    async def give_list(self, request: web.Request) -> web.Response:
        listed = self.lists.get(request.match_info["name"].lower())
        return web.Response(status=404) if listed is None else web.Response(body=listed)

    async def give_page(self, request: web.Request) -> web.Response:
        self.asked.append(request.query["after"])
        return web.json_response(self.pages[len(self.asked) - 1])

    async def begin(self, _: web.Request) -> web.Response:
        return web.Response(status=201 if self.resumes else 404, headers={"Location": "/v1/uploads/1"})

    async def look(self, _: web.Request) -> web.Response:
        return web.json_response({"offset": 0, "complete": False, "endEpoch": 5, "file": None})

    async def take(self, request: web.Request) -> web.Response:
        parts = list[bytes]()
        async for part in request.content.iter_any():
            self.came += len(part)
            parts.append(part)
        self.bodies.append(b"".join(parts))
        self.paths.append(request.path)
        told = {"blobId": self.named, "size": 0, "pieces": 1, "endEpoch": 5, "alreadyCertified": False}
        members = [{"id": it, "name": f"x{self.said}", "size": 1} for it in self.members]
        return web.json_response(told | {"certificate": {"epoch": 0, "count": 4}, "members": members})

    async def id(self, blob: bytes, form: int = 1) -> bytes:
        """Returns the identifier of a blob; of a list, the gateway gives it from here on."""
        name = (await self.walrus.output("id", 1, "--format", form, data=blob)).decode().strip()
        self.lists |= {name: blob} if blob.startswith(MARK) else {}
        return bytes.fromhex(name)

    async def start(self, *words: Union[str, pathlib.Path], out: int = -1) -> asyncio.subprocess.Process:
        environment = {**os.environ, "WALRUS_GATEWAY": self.url, "WALRUS": self.program}
        pipes = {"stdin": asyncio.subprocess.PIPE, "stdout": out, "stderr": asyncio.subprocess.PIPE}
        line = [str(HERE.parent / "walrus-net"), *map(str, words)]
        return await asyncio.create_subprocess_exec(*line, env=environment, **pipes)

    async def run_net(self, *words: Union[str, pathlib.Path], data: bytes = b"", status: int = 0) -> tuple[bytes, str]:
        """Returns what walrus-net writes and prints; checks its exit status, and that a failure is one line."""
        process = await self.start(*words)
        out, error = await process.communicate(data)
        self.assertEqual(process.returncode, status, error.decode())
        self.assertEqual(error.count(b"\n"), bool(status), error)
        return out, error.decode()

    async def peak_of(self, *words: Union[str, pathlib.Path], data: bytes = b"", status: int = 0) -> int:
        """Returns the peak resident memory of walrus-net, in bytes, while it does this."""
        (self.folder / "sitecustomize.py").write_text(TOLD)
        told = self.folder / "peak"
        environment = {"PYTHONPATH": str(self.folder), "PEAK": str(told), "XDG_STATE_HOME": str(self.folder)}
        with mock.patch.dict(os.environ, environment):
            await self.run_net(*words, data=data, status=status)
        return int(told.read_text()) * 1_024

    def left(self) -> list[str]:
        return sorted(path.name for path in self.folder.iterdir())


__all__ = ["TransferCase"]

"""What may go wrong: malformed requests, uploads that break off, nodes that die or lie, false blobs."""
import asyncio
import json
import random
import re
from typing import Any
from unittest import mock

from support.harness import FOUR, HERE, ODD
from support.http_case import DRAWN, GatewayCase
from walrus import client
from walrus.network.files import file_list
from walrus.network.files.file_list import File
from walrus.network.gateway import app
from walrus.network.gateway.read import reader as reading
from walrus.network.ledger.entries import ATTEST, entry_key
from walrus.network.peers.engine import find_program
from walrus.network.service import connections
from walrus.network.settings.gateway_options import Options

import example_tools  # noqa: E402


class Trouble(GatewayCase):
    options = Options(seconds=1, challenge=0, patience=60, most=40_000_000, connections=100)

    async def test_requests_that_are_wrong(self) -> None:
        await self.start()
        data = DRAWN.randbytes(3_000)
        self.name = (await self.put(data))["blobId"]
        told = set(
            re.findall(
                r"^  (/\S*):$",
                (
                    HERE.parents[1] / "clients" / "python" / "walrus" / "network" / "gateway" / "openapi.yaml"
                ).read_text(),
                re.MULTILINE,
            )
        )
        assert self.gateway.runner and self.gateway.runner.app
        found = {it.canonical.replace("{name}", "{id}") for it in self.gateway.runner.app.router.resources()}
        self.assertEqual(found - app.PAGES.keys(), told - app.PAGES.keys())
        await self.broken_uploads()
        await self.wrong_queries()
        await self.refused(413, "/v1/blobs?epochs=1", "-X", "PUT", "-H", "Content-Length: 40000001")
        await self.refused(415, "/v1/blobs?epochs=1", "-T", __file__, "-H", "Content-Encoding: gzip")
        await self.refused(400, "/v1/blobs?epochs=1", "-T", __file__, "-H", "Content-Range: bytes 0-1/5")
        for first in range(0, 200, 50):
            await asyncio.gather(*(self.strange(number) for number in range(first, first + 50)))
        self.assertTrue((await self.get(self.name))[2] == data)
        with mock.patch.object(connections, "FIRST", 0.2):
            self.assertEqual(await self.say(b"", wait=True), b"")  # a silent connection is closed
        served = [await asyncio.open_connection("127.0.0.1", self.port) for _ in range(150)]
        async with asyncio.timeout(60):
            while sum(reader.at_eof() or bool(reader.exception()) for reader, _ in served) < 50:
                await asyncio.sleep(0.05)
        for _, writer in served:
            writer.transport.abort()
        await asyncio.sleep(0.2)
        self.assertEqual((await self.get(self.name))[0], 200)

    async def wrong_queries(self) -> None:
        """The number of epochs must be given and is bounded; other query parameters are refused."""
        numbers = ("", "?epochs=0", "?epochs=-1", "?epochs=x", "?epochs=", "?epochs=1000000", "?epochs=101")
        for path in (*numbers, "?epochs=1&epochs=2", "?epochs=1&epochs=1"):
            await self.refused(400, "/v1/blobs" + path, "-T", __file__)
        self.assertIn("1 to 100", (await self.refused(400, "/v1/blobs?epochs=101", "-T", __file__))["text"])
        self.assertIn("?epochs=N", (await self.refused(400, "/v1/bundles", "-F", "a=@" + __file__))["text"])
        for path in ("?epoch=7", "?epochs=7&force=1", "?Epochs=7"):
            self.assertIn("takes epochs", (await self.refused(400, "/v1/blobs" + path, "-T", __file__))["text"])
        for path in (f"/v1/blobs/{self.name}?epochs=1", "/v1/status?verbose", "/metrics?x=1"):
            self.assertIn("takes none", (await self.refused(400, path))["text"])
        with mock.patch.object(self.gateway.options, "epochs", 99_999):
            before = len(self.network.ledger.blobs)
            self.assertIn("65535", (await self.refused(400, "/v1/blobs?epochs=65537", "-T", __file__))["text"])
            self.assertEqual(len(self.network.ledger.blobs), before)

    async def say(self, data: bytes, wait: bool = False) -> bytes:
        """Sends bytes, and returns all that comes back until the gateway closes, or after the end of input."""
        reader, writer = await asyncio.open_connection("127.0.0.1", self.port)
        try:
            async with asyncio.timeout(120):
                writer.write(data)
                heard = asyncio.create_task(reader.read(-1))
                if not wait:
                    await asyncio.wait({heard}, timeout=0.7)  # at the end of input a reply that is under way is dropped
                    writer.write_eof()
                return await heard
        except ConnectionError:
            return b""
        finally:
            writer.transport.abort()

    async def broken_uploads(self) -> None:
        """An upload that breaks off, stalls or lies about its length leaves no file, and the gateway continues."""
        head = b"PUT /v1/blobs?epochs=2 HTTP/1.1\r\nHost: localhost:%d\r\n" % self.port
        before = len(self.network.ledger.blobs)
        for text in (
            b"Content-Length: 1000\r\n\r\n" + bytes(500),
            b"Transfer-Encoding: chunked\r\n\r\n5\r\nhello\r\n",
            b"Transfer-Encoding: chunked\r\n\r\n5\r\nhello\r\nfffff",
            b"Transfer-Encoding: chunked\r\n\r\nzz\r\nhello\r\n0\r\n\r\n",
            b"Content-Length: 5\r\nTransfer-Encoding: chunked\r\n\r\n5\r\nhello\r\n0\r\n\r\n",
            b"Content-Length: -5\r\n\r\n",
            b"Content-Length: 5, 6\r\n\r\nhello!",
        ):
            said = await self.say(head + text)
            self.assertIn(said[:12], (b"", b"HTTP/1.1 400", b"HTTP/1.0 400"), text)
        with mock.patch.object(reading, "SILENCE", 0.3):
            said = await self.say(head + b"Content-Length: 1000\r\n\r\n" + bytes(10), wait=True)
            self.assertEqual(said[:12], b"HTTP/1.1 408")
        with mock.patch.object(reading, "GRACE", 1.0):
            self.assertEqual((await self.drip(head + b"Content-Length: 100000\r\n\r\n"))[:12], b"HTTP/1.1 408")
        self.assertEqual(len(self.network.ledger.blobs), before)

    async def drip(self, head: bytes) -> bytes:
        """Returns the reply to an upload of a byte every tenth of a second."""
        reader, writer = await asyncio.open_connection("127.0.0.1", self.port)
        writer.write(head)
        heard = asyncio.create_task(reader.readuntil(b"\r\n\r\n"))
        for _ in range(200):
            writer.write(b"1")
            await asyncio.wait({heard}, timeout=0.1)
            if heard.done():
                break
        writer.transport.abort()
        return heard.result() if heard.done() else b""

    async def strange(self, number: int) -> None:
        """No request, however wrong, causes an internal error of the gateway, or is left unanswered."""
        kinds = [b"GET", b"HEAD", b"PUT", b"POST", b"OPTIONS", b"get", b"\xff", b""]
        paths = [
            "/v1/blobs",
            f"/v1/blobs/{self.name}",
            f"/v1/status/{self.name}",
            "/v1/blobs/%00%ff",
            "//",
            "*",
            "",
            "/..%2f..",
        ]
        paths += [
            f"/v1/challenges/{self.name}/node-0",
            "/v1/challenges/x/%f0",
            "/v1/bundles",
            f"/v1/bundles/{self.name}/0",
            "http://[::1/",
            "/metrics?\x7f",
            "/page.css/",
        ]
        names = [
            "Range",
            "If-None-Match",
            "If-Match",
            "If-Range",
            "Content-Length",
            "Transfer-Encoding",
            "Host",
            "Expect",
        ]
        names += [
            "Connection",
            "Content-Encoding",
            "Content-Type",
            "Upgrade",
            "Accept-Encoding",
            "X" * 9_000,
            "",
            "a b",
        ]
        texts = [
            b"bytes=0-1",
            b"bytes=" + b"0-0," * 3_000,
            b"9" * 400,
            b"-1",
            b"gzip",
            b"chunked",
            b"\x00",
            b'"',
            b'W/"',
            b"*",
        ]
        texts += [b"100-continue", b"\xff\xfe", b"close", b"websocket", b"bytes=-" + b"9" * 29, b"0", b"bytes=1-\xb2"]
        drawn = random.Random(number)
        path = drawn.choice(paths).encode("latin-1")
        text = b"%s %s HTTP/%s\r\n" % (
            drawn.choice(kinds[: 3 if number % 2 else 8]),
            path,
            drawn.choice([b"1.1", b"1.0", b"9"]),
        )
        for _ in range(drawn.randrange(4)):
            text += b"%s: %s\r\n" % (drawn.choice(names).encode(), drawn.choice(texts))
        text += b"\r\n" + drawn.randbytes(drawn.choice([0, 0, 9]))
        if number % 3 == 0:
            place = drawn.randrange(len(text))
            text = text[:place] + drawn.randbytes(1) + text[place + drawn.randrange(3) :]  # noqa: E203
        said = await self.say(text)
        statuses = {int(it) for it in re.findall(rb"^HTTP/1\.[01] (\d+)", said, re.MULTILINE)}
        right = {100, 200, 201, 204, 206, 304, 400, 404, 405, 408, 411, 412, 413, 414, 415, 416, 417, 421, 431}
        self.assertLessEqual(statuses, right, (text, said[:300]))

    async def test_nodes_that_die_and_lie(self) -> None:
        await self.start()
        self.enterContext(mock.patch.object(file_list, "PIECE", 1_000_000))
        data = DRAWN.randbytes(2_500_000)
        told, _ = await asyncio.gather(
            self.slow_put(data), self.kill_at("node-3", lambda: len(self.network.ledger.blobs))
        )
        name = told["blobId"]
        self.assertEqual((told["size"], told["pieces"], "newlyCreated" in told), (len(data), 3, True))
        await self.local.start_node("node-3", ODD, {"ODD_LIES": "1"})
        self.gateway.reader.cache.entries.clear()
        self.gateway.reader.cache.size = 0
        read = asyncio.create_task(self.get(name, "--limit-rate", "1M"))
        await self.kill_at("node-0", lambda: self.gateway.reader.bytes['way="out"'])
        status, _, body = await read
        self.assertEqual((status, body == data), (200, True))
        self.assertTrue(await self.challenged(name, "node-1", True))
        self.assertTrue(await self.challenged(name, "node-0", False))
        self.assertTrue(await self.challenged(name, "node-3", False))
        await self.local.start_node("node-0")
        await self.bad_blobs()
        small = (await self.put(b"small"))["blobId"]
        for node in ("node-0", "node-1", "node-2"):
            await self.local.end(node, kill=True)
        error = await self.refused(503, f"/v1/blobs/{small}")
        self.assertRegex(error["text"], "needed slivers|too little")
        self.assertIn("shards", error)
        status, _, _ = await self.curl("/v1/blobs?epochs=2", data=b"another")
        self.assertEqual(status, 503)
        for node in ("node-0", "node-1", "node-2"):
            await self.local.start_node(node)
        self.assertEqual((await self.get(small))[2], b"small")
        await self.declared()

    async def declared(self) -> None:
        """A blob that is declared invalid is refused, whatever its bytes; nodes that attest it falsely may stop."""
        declared = (await self.network.store(b"declared", 5)).identifier
        for node in FOUR[:3]:
            async with self.local.network(node) as it:
                await it.recorders.post(entry_key(node, ATTEST, 0, declared.hex()))
        self.assertTrue(await self.network.until(lambda it: it.invalid(declared)))
        self.assertTrue((await self.refused(410, f"/v1/blobs/{declared.hex()}"))["invalid"])
        told = json.loads((await self.curl(f"/v1/status/{declared.hex()}"))[2])
        self.assertEqual((told["invalid"], told["attested"]), (True, FOUR[:3]))

    async def kill_at(self, node: str, moment: Any) -> None:
        """Kills a node once something has begun."""
        async with asyncio.timeout(60):
            while not moment():
                await asyncio.sleep(0.05)
        await self.local.end(node, kill=True)

    async def slow_put(self, data: bytes) -> Any:
        """Stores a file whose last bytes are sent once a node is gone."""
        reader, writer = await asyncio.open_connection("127.0.0.1", self.port)
        writer.write(
            b"PUT /v1/blobs?epochs=5 HTTP/1.1\r\nHost: localhost:%d\r\nConnection: close\r\nContent-Length: %d\r\n\r\n"
            % (self.port, len(data))
        )
        writer.write(data[:-1_000])
        async with asyncio.timeout(60):
            while "node-3" in self.local.processes:
                await asyncio.sleep(0.1)
        writer.write(data[-1_000:])
        head, _, body = (await reader.read(-1)).partition(b"\r\n\r\n")
        writer.close()
        self.assertEqual(head[:12], b"HTTP/1.1 201", body)
        return json.loads(body)

    async def challenged(self, name: str, node: str, holds: bool) -> bool:
        """Whether one of some challenges finds that a node holds its part, or, unless `holds`, that it lacks it."""
        for _ in range(20):
            _, _, body = await self.curl(f"/v1/challenges/{name}/{node}", "-X", "PUT")
            if json.loads(body)["holds"] == holds:
                return True
        return False

    async def bad_blobs(self) -> None:
        """Badly encoded blobs and false lists have a status of their own; a blob that is not certified is not found."""
        encoded = await example_tools.encode_badly(client.Walrus(find_program()))
        bad = (await self.network.publish(encoded, 9)).identifier.hex()
        for _ in range(2):
            self.assertTrue((await self.refused(410, f"/v1/blobs/{bad}"))["invalid"])
        piece = (await self.network.store(b"piece", 5)).identifier
        false = await self.network.store(File(4, piece).listed(), 5)
        await self.refused(410, f"/v1/blobs/{false.identifier.hex()}")
        await self.network.register(bytes(range(32)), 9)
        await self.refused(404, f"/v1/blobs/{bytes(range(32)).hex()}")
        _, _, body = await self.curl(f"/v1/status/{bytes(range(32)).hex()}")
        self.assertEqual(json.loads(body)["needed"], 3)

"""Clients with many connections or requests, and clients that disconnect or read no reply."""
import asyncio
import contextlib
from unittest import mock

from aiohttp import web
from support.harm_case import HarmCase
from walrus.network.gateway.read import reader as reading
from walrus.network.gateway.resources import turns
from walrus.network.service import connections


class Crowds(HarmCase):
    async def test_a_network_of_ipv6_counts_as_one_address(self) -> None:
        made = connections.Counted.__new__(connections.Counted)
        made.proxies = {"2001:db8:9::9"}
        found = []
        for peer in ("2001:db8:1:2::3", "2001:db8:1:2:9::4", "2001:db8:1:3::3", "192.0.2.7", "::ffff:192.0.2.7"):
            transport = mock.Mock()
            transport.get_extra_info.return_value = (peer, 1)
            found.append(made.whom(transport))
        self.assertEqual(found[0], found[1])
        self.assertEqual(found[3], found[4])
        self.assertEqual(len({it for it, _ in found}), 3)
        self.assertEqual({most for _, most in found}, {connections.EACH})

    async def is_ended(self, writer: asyncio.StreamWriter, data: bytes, times: int) -> bool:
        """Whether a connection is closed while more data arrives on it."""
        with contextlib.suppress(OSError):
            for _ in range(times):
                writer.write(data)
                await writer.drain()
                await asyncio.sleep(0.002)
            return False
        return True

    async def test_what_comes_while_a_request_is_answered_is_bounded(self) -> None:
        await self.start(requests=0)
        goes_on = asyncio.Event()
        self.addCleanup(goes_on.set)

        async def wait(*_: object) -> web.Response:
            await goes_on.wait()
            return web.Response()

        self.enterContext(mock.patch.object(self.gateway.reader, "answer", wait))
        asked = f"GET /v1/blobs/{'0' * 64} HTTP/1.1\r\nHost: 127.0.0.1:{self.port}\r\n".encode()
        put = b"PUT /v1/blobs?epochs=1 HTTP/1.1\r\nContent-Length: 60000\r\n\r\n" + bytes(60_000)
        for head, data in ((b"Connection: upgrade\r\nUpgrade: h2c\r\n", bytes(16_384)), (b"", put)):
            _, writer = await self.connect(asked + head + b"\r\n")
            self.assertTrue(await self.is_ended(writer, data, 400))
        long = b"".join(b"H%d: %b\r\n" % (it, b"h" * 5_000) for it in range(5))  # 64 requests may wait
        _, writer = await self.connect(asked + b"\r\n")
        self.assertTrue(await self.is_ended(writer, asked + long + b"\r\n", 40))
        reader, writer = await self.connect(asked + b"".join(b"H%d: h\r\n" % it for it in range(64)) + b"\r\n")
        self.assertIn(b" 400 ", await reader.readline())

    async def test_of_one_who_asks_and_goes_away_few_requests_are_answered(self) -> None:
        """Requests continue without their clients for as long as what they wait for; few of a client are answered."""
        alice = self.token("alice")
        self.token("anyone", "read")
        await self.start(connections=8)
        goes_on, asked = asyncio.Event(), list[str]()
        self.addCleanup(goes_on.set)

        async def wait(request: web.Request, _: bytes) -> web.Response:
            asked.append(turns.owner_of(request))
            await goes_on.wait()
            return web.Response()

        self.enterContext(mock.patch.object(self.gateway.reader, "answer", wait))
        path = f"/v1/blobs/{'0' * 64}"
        for _ in range(24):
            _, writer = await self.connect(f"GET {path} HTTP/1.1\r\nHost: 127.0.0.1:{self.port}\r\n\r\n".encode())
            await asyncio.sleep(0.05)
            writer.transport.abort()
        async with asyncio.timeout(30):
            status, headers, told = await self.ask("GET", path)
        self.assertEqual((status, headers["retry-after"], len(asked)), (429, "5", 8), told)
        task = asyncio.create_task(self.ask("GET", path, headers=alice))
        async with asyncio.timeout(30):
            while asked[-1] != "token alice":
                await asyncio.sleep(0.01)
        goes_on.set()
        self.assertEqual((await task)[0], 200)
        self.assertEqual(((await self.ask("GET", path))[0], self.gateway.guard.crowd.counts), (200, {}))

    async def test_who_takes_no_reply_is_let_go(self) -> None:
        self.enterContext(mock.patch.multiple(connections, GRACE=0.5, LEAST=10**9))
        self.enterContext(mock.patch.object(reading, "SILENCE", 0.5))  # deadline for replies that are sent in parts
        await self.start()
        for size in (9_000_000, 30_000):
            text = mock.patch.object(self.gateway.watch, "status_text", lambda: b'"' + b"x" * size + b'"')
            asked = f"GET /v1/status HTTP/1.1\r\nHost: 127.0.0.1:{self.port}\r\n".encode()
            with text:
                opened = [await self.connect(asked + it + b"\r\n") for it in (b"", b"Connection: close\r\n")]
                async with asyncio.timeout(20):  # after 30 s an idle connection ends anyway
                    while not self.gateway.each:
                        await asyncio.sleep(0.01)
                    while self.gateway.each:
                        await asyncio.sleep(0.02)
            for _, writer in opened:
                writer.transport.abort()

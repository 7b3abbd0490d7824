"""What gateways and recorders receive before they answer: handshakes, heads and bodies, in small pieces."""
import asyncio
import collections
import contextlib
import os
import ssl
import tracemalloc
from typing import Any
from unittest import mock

from aiohttp import streams

from support.slow_requests_case import Coming
from walrus.network.deploy.local import make_certificate
from walrus.network.service import connections
from walrus.network.service.certificates import make_authority
from walrus.network.service.connections import Server


class Bodies(Coming):
    async def test_chunks_of_a_byte_take_little_memory(self) -> None:
        """Otherwise each unanswered connection takes some 2 MB, even of clients that may store nothing."""
        await self.start(requests=0)
        self.enterContext(mock.patch.object(self.gateway.reader, "answer", self.wait))
        asked, chunked = f"GET /v1/blobs/{'0' * 64}", "Transfer-Encoding: chunked"
        behind = self.head(asked) + self.head("PUT /v1/blobs?epochs=1", chunked)
        for count, said in ((3, self.head(asked, chunked)), (6, behind)):
            tracemalloc.start()
            try:
                for _ in range(3):
                    await self.connect(said + b"1\r\nx\r\n" * 40_000)
                await self.paused(count)
                found = tracemalloc.take_snapshot().filter_traces([tracemalloc.Filter(True, streams.__file__)])
            finally:
                tracemalloc.stop()
            self.assertLess(sum(it.size for it in found.traces), 3 * 150_000)

    async def test_a_file_in_chunks_of_a_byte_comes_whole(self) -> None:
        await self.start()
        data = os.urandom(30_000)

        async def store(*words: Any) -> Any:
            await self.goes_on.wait()
            return await self.store(*words)

        self.enterContext(mock.patch.object(self.gateway.publisher.writer, "store", store))
        chunks = b"".join(b"1\r\n%c\r\n" % byte for byte in data) + b"0\r\n\r\n"
        chunked = self.head("PUT /v1/blobs?epochs=1", "Transfer-Encoding: chunked")
        reader, writer = await self.connect(chunked + chunks)
        await self.paused(1)
        self.goes_on.set()
        async with asyncio.timeout(60):
            self.assertIn(b" 201 ", await reader.readline())
            self.assertTrue(self.stored == [data])
            writer.write(self.head("GET /livez", "Connection: close"))
            self.assertIn(b"HTTP/1.1 200 OK", await reader.read())  # what follows is read again
        unread = self.head("GET /livez", "Transfer-Encoding: chunked") + b"1\r\nx\r\n" * 5_000 + b"0\r\n\r\n"
        reader, writer = await self.connect(unread + self.head("GET /livez", "Connection: close"))
        async with asyncio.timeout(20):
            self.assertEqual((await reader.read()).count(b"HTTP/1.1 200 OK"), 2)


class Heads(Coming):
    async def test_a_head_that_stays_half_sent_ends_soon(self) -> None:
        self.enterContext(mock.patch.object(connections, "FIRST", 0.5))
        await self.start()
        whole = self.head("GET /livez")
        for said in (whole[:-2], whole + whole[:-2], b"G", whole + b"G"):
            reader, _ = await self.connect(said)
            async with asyncio.timeout(20):
                self.assertEqual((await reader.read()).count(b" 200 OK"), said.startswith(whole))
        await self.until(lambda: not self.gateway.each)

    async def test_a_head_that_stays_half_sent_takes_little(self) -> None:
        """Otherwise each connection takes a megabyte with the fields of a head, and as much for what follows a body."""
        await self.start(requests=0)
        self.enterContext(mock.patch.object(self.gateway.reader, "answer", self.wait))
        asked, field = f"GET /v1/blobs/{'0' * 64}", b"H: " + b"h" * 8_000 + b"\r\n"
        chunked = self.head(asked, "Transfer-Encoding: chunked") + b"1\r\nx\r\n0\r\n"
        for said in (self.head(asked)[:-2], self.head(asked) + self.head(asked)[:-2], chunked):
            reader, writer = await self.connect(said)
            await asyncio.sleep(0.1)
            for _ in range(12):
                writer.write(field)
            async with asyncio.timeout(20):
                with contextlib.suppress(ConnectionError):
                    self.assertEqual(await reader.read(), b"")
        await self.until(lambda: not self.served())
        self.goes_on.set()
        reader, _ = await self.connect(self.head("GET /livez", "Connection: close")[:-2] + field * 7 + b"\r\n")
        self.assertIn(b" 200 OK", await reader.readline())  # such a head is accepted


class Handshakes(Coming):
    """A gateway over TLS, and recorders, at which clients come from several addresses of this machine."""

    async def start_tls(self, seconds: float) -> None:
        """Starts the gateway with this deadline for handshakes."""
        make_authority(self.folder / "authority-web")
        make_certificate(self.folder, "web", by="authority-web")
        with mock.patch.object(connections, "HANDSHAKE", seconds):
            await self.start(tls_certificate=str(self.folder / "web.crt"), tls_key=str(self.folder / "web.key"))

    async def come(self, host: str, port: int) -> tuple[asyncio.StreamReader, asyncio.StreamWriter]:
        reader, writer = await asyncio.open_connection("127.0.0.1", port, local_addr=(host, 0))
        self.addCleanup(writer.transport.abort)
        return reader, writer

    async def check(self, served: Server, port: int, context: ssl.SSLContext, asked: bytes) -> None:
        """Few of the clients that complete no handshake wait, and a client from elsewhere completes its own."""
        served.most = 8
        reader, early = await self.come("127.0.0.4", port)
        opened = [await self.come("127.0.0.2", port) for _ in range(30)]
        await self.until(lambda: sum(it.at_eof() or bool(it.exception()) for it, _ in opened) == 23)
        self.assertEqual(collections.Counter(served.coming.values()), {"127.0.0.2": 7, "127.0.0.4": 1})
        await early.start_tls(context, server_hostname="127.0.0.1")
        early.write(asked)
        async with asyncio.timeout(60):
            self.assertIn(b" 200 OK", await reader.readline())
        self.assertEqual(collections.Counter(served.coming.values()), {"127.0.0.2": 7})

    async def test_at_a_gateway_few_of_an_address_wait(self) -> None:
        await self.start_tls(60.0)
        trusting = ssl.create_default_context(cafile=str(self.folder / "authority-web.crt"))
        await self.check(self.gateway, self.port, trusting, self.head("GET /livez"))

    async def test_at_a_recorder_few_of_an_address_wait(self) -> None:
        self.port = int(self.local.told()["recorders"][0].rpartition(":")[2])
        await self.check(self.services[0], self.port, self.context("publisher"), self.head("GET /v1/status"))

    async def test_of_a_handshake_that_does_not_come_nothing_is_left(self) -> None:
        await self.start_tls(0.3)
        opened = [await self.come("127.0.0.2", self.port) for _ in range(4)]
        opened[0][1].write(b"GET / HTTP/1.1\r\n\r\n")
        opened[1][1].write_eof()
        opened[2][1].transport.abort()
        await self.until(lambda: opened[3][0].at_eof() and not self.gateway.coming)
        self.assertEqual((self.served(), self.gateway.each), ([], {}))

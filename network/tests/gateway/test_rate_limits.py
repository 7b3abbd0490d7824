"""Rate limits for clients of a gateway, and slow clients."""
import asyncio
import contextlib
import os
import time
import types
import unittest
from typing import AsyncIterator
from unittest import mock

import aiohttp
from support.guard_case import GuardCase
from support.harness import usage_of
from walrus.network.cli import transfers
from walrus.network.gateway.auth import rate_limits as limits_module
from walrus.network.gateway.auth.rate_limits import Bucket, Limits
from walrus.network.gateway.read import reader as reading
from walrus.network.gateway.write import writer as chunks
from walrus.network.service import connections
from walrus.network.service.names import is_address, is_inner
from walrus.wire.fairness import key_of


class Impatient(GuardCase):
    async def test_too_many_requests(self) -> None:
        clock = mock.Mock(return_value=1_000.0)  # only for the limits
        self.enterContext(mock.patch.object(limits_module, "time", types.SimpleNamespace(monotonic=clock)))
        await self.start(requests=5)
        self.token("anyone", "read")
        alice, bob = self.token("alice"), self.token("bob")
        found = [await self.ask("GET", "/v1/status", headers=alice) for _ in range(14)]
        self.assertEqual([status for status, _, _ in found], [200] * 10 + [429] * 4)  # two seconds' worth
        _, headers, told = found[-1]
        self.assertEqual((headers["retry-after"], told["error"]["status"]), ("1", 429))
        clock.return_value += 1
        self.assertEqual((await self.ask("GET", "/v1/status", headers=bob))[0], 200)
        wrong = {"Authorization": "Bearer wrong"}
        statuses = [(await self.ask("GET", "/v1/status", headers=wrong))[0] for _ in range(14)]
        self.assertEqual(statuses, [401] * 4 + [429] * 10)  # bob had the first one of his address
        limits = Limits(
            5, 0
        )  # a token has its limit whatever addresses it comes from, and an address whatever it shows
        self.assertEqual(
            [limits.admit([f"address {it}", "token alice"]) > 0 for it in range(12)], [False] * 10 + [True] * 2
        )
        self.assertEqual(
            [limits.admit(["address 1.2.3.4", f"token {it}"]) > 0 for it in range(12)], [False] * 10 + [True] * 2
        )
        for other in range(100_000):
            limits.bucket("requests", str(other))
        self.assertLess(len(limits.buckets), 70_000)

    async def test_bytes_are_paced_in_both_directions(self) -> None:
        await self.start(rate=4_000_000, requests=0)
        begun = time.monotonic()  # in all: rate that is unused while the machine is busy may be used later
        self.assertEqual(await self.put(bytes(12_000_000)), 201)  # 8 MB are there at first
        self.assertGreater(time.monotonic() - begun, 0.9)
        [name] = self.files
        _, _, body = await self.ask("GET", f"/v1/blobs/{name}")
        self.assertEqual(body, self.files[name])
        self.assertGreater(time.monotonic() - begun, 3.9)
        self.enterContext(mock.patch.object(self.gateway.watch, "status_text", lambda: b'"' + b"x" * 12_000_000 + b'"'))
        self.assertEqual((await self.ask("GET", "/v1/status"))[0], 200)
        self.assertGreater(time.monotonic() - begun, 6.9)

    async def test_who_moves_too_many_bytes_waits_and_is_not_refused(self) -> None:
        """As `walrus-net store FOLDER` does, with several requests at once."""
        await self.start(rate=4_000_000, requests=0)
        begun = time.monotonic()
        asked = [asyncio.create_task(self.put(bytes(4_000_000))) for _ in range(4)]
        async with asyncio.timeout(120):
            while len(self.stored) < 4:
                asked.append(asyncio.create_task(self.status_of("/v1/status")))
                await asyncio.sleep(0.1)
        self.assertEqual({*await asyncio.gather(*asked[4:])}, {200})
        self.assertEqual(await asyncio.gather(*asked[:4]), [201] * 4)
        self.assertGreater(time.monotonic() - begun, 1.9)  # 8 MB are there at first

    async def test_an_upload_that_was_refused_half_sent_is_sent_again(self) -> None:
        """On a connection of its own: on the one before, the rest of the first body is still awaited."""
        await self.start(requests=1)

        async def slowly() -> AsyncIterator[bytes]:
            for _ in range(30):
                await asyncio.sleep(0.1)
                yield bytes(9_999)

        async with aiohttp.ClientSession(self.url) as session:
            works = [transfers.patiently(lambda: transfers.put(session, slowly(), 1)) for _ in range(3)]
            self.assertEqual([it["size"] for it in await asyncio.gather(*works)], [299_970] * 3)

    async def status_of(self, path: str) -> int:
        return (await self.ask("GET", path))[0]

    async def test_a_slow_reader_holds_up_nobody(self) -> None:
        self.enterContext(mock.patch.multiple(reading, SILENCE=600.0, GRACE=600.0))  # so that the slow ones stay
        await self.start(requests=0)
        self.files["1" * 64] = bytes(16_000_000)

        async def seconds() -> float:
            """Returns the processor time of this process for some reads; the clock may show more on a busy machine."""
            begun = time.process_time()
            for _ in range(20):
                self.assertEqual((await self.ask("GET", f"/v1/blobs/{'1' * 64}"))[2], self.files["1" * 64])
            return time.process_time() - begun

        alone, slow = await seconds(), []
        for _ in range(50):
            reader, writer = await asyncio.open_connection("127.0.0.1", self.port)
            writer.write(f"GET /v1/blobs/{'1' * 64} HTTP/1.1\r\nHost: x\r\n\r\n".encode())
            self.assertIn(b"200", await reader.readline())
            slow.append((reader, writer))
        sent = self.gateway.reader.bytes
        async with asyncio.timeout(300):  # for less than they may be slow
            self.assertLess(await seconds(), 5 * alone)
        self.assertLess(sent['way="out"'], (20 + 20 + 25) * 16_000_000)  # no slow client has received all it is sent
        self.assertEqual([bool(reader.exception()) for reader, _ in slow], [False] * 50)
        for _, writer in slow:
            writer.transport.abort()

    async def test_forms_that_come_take_no_memory(self) -> None:
        await self.start(requests=0)
        head = b"POST /v1/bundles?epochs=1 HTTP/1.1\r\nHost: localhost:%d\r\nContent-Length: 16000000\r\n" % self.port
        head += b"Content-Type: multipart/form-data; boundary=x\r\n\r\n"
        head += b'--x\r\nContent-Disposition: form-data; name="f"\r\n\r\n'
        part, moved, (before, _) = bytes(1_000_000), self.gateway.reader.bytes, usage_of(os.getpid())
        forms = [await asyncio.open_connection("127.0.0.1", self.port) for _ in range(12)]
        for _, writer in forms:
            for data in (head, *[part] * 8):
                writer.write(data)
                await writer.drain()
        async with asyncio.timeout(120):
            while moved['way="in"'] < 12 * 8_000_000:
                await asyncio.sleep(0.02)
        self.assertLess(usage_of(os.getpid())[0] - before, 12 * 8_000_000 // 2)
        for _, writer in forms:
            writer.transport.abort()

    async def test_a_form_waits_for_memory(self) -> None:
        await self.start()
        memory = self.gateway.reader.memory
        with mock.patch.object(chunks.bundles, "join", mock.AsyncMock(return_value=b"bundle")) as join:
            async with memory.share(memory.size):
                sending = asyncio.create_task(self.ask("POST", "/v1/bundles?epochs=1", data=self.form(b"1")))
                async with asyncio.timeout(120):
                    while not memory.waiting:
                        await asyncio.sleep(0.02)
                self.assertEqual(join.call_count, 0)
            self.assertEqual(((await sending)[0], self.stored, memory.taken), (201, [b"bundle"], 0))

    async def test_one_address_does_not_have_all_connections(self) -> None:
        self.enterContext(mock.patch.object(connections, "EACH", 20))
        await self.start()
        opened = [await asyncio.open_connection("127.0.0.1", self.port) for _ in range(30)]
        left = list[tuple[asyncio.StreamReader, asyncio.StreamWriter]](opened)
        async with asyncio.timeout(120):
            while len(left) > 20:
                await asyncio.sleep(0.02)
                left = [it for it in opened if not it[0].at_eof() and not it[0].exception()]
            for reader, writer in left:  # and these get what they ask for
                writer.write(b"GET /livez HTTP/1.1\r\nHost: x\r\n\r\n")
                self.assertIn(b"200", await reader.readline())
        self.assertEqual(len(left), 20)
        for _, writer in opened:
            writer.transport.abort()
        async with asyncio.timeout(120):
            while self.gateway.each:
                await asyncio.sleep(0.02)
        self.assertEqual(((await self.ask("GET", "/livez"))[0], len(self.gateway.each)), (200, 1))

    async def test_requests_that_wait_on_one_connection_are_bounded(self) -> None:
        await self.start(requests=0)
        for count, most in ((50, 50), (5_000, 64)):
            reader, writer = await asyncio.open_connection("127.0.0.1", self.port)
            writer.write(b"GET /livez HTTP/1.1\r\nHost: x\r\n\r\n" * count)
            said = b""
            with contextlib.suppress(OSError):
                async with asyncio.timeout(120):
                    while said.count(b"HTTP/1.1 200 ") < count and (more := await reader.read(65_536)):
                        said += more
            found = said.count(b"HTTP/1.1 200 ")
            self.assertTrue(found == count if count == most else found <= most, f"{found} of {count}")
            writer.transport.abort()


class Parts(unittest.TestCase):
    def test_a_bucket(self) -> None:
        with mock.patch.object(time, "monotonic", side_effect=[0.0, 0.0, 0.0, 1.0, 1.0, 100.0, 100.0]):
            it = Bucket(10)
            it.take(25)
            self.assertEqual(it.wait(), 0.5)
            self.assertEqual(it.wait(1), 0.0)
            it.take(5)
            self.assertEqual(it.wait(20), 0.0)
            self.assertEqual(it.wait(21), 0.1)

    def test_addresses(self) -> None:
        self.assertEqual(key_of("2001:db8:1:2:3::4"), key_of("2001:db8:1:2::9"))
        self.assertNotEqual(key_of("2001:db8:1:2::4"), key_of("2001:db8:1:3::4"))
        self.assertEqual(
            (key_of("::ffff:192.0.2.7"), key_of("fe80::1%eth0"), key_of("x")), ("192.0.2.7", "fe80::/64", "x")
        )
        inner = "127.0.0.1", "10.1.2.3", "192.168.1.5", "172.16.0.1", "100.64.0.1", "169.254.1.1", "fe80::1%eth0", "::1"
        self.assertEqual([it for it in (*inner, "fd00::1", "::ffff:10.0.0.1") if not is_inner(it)], [])
        self.assertEqual([it for it in ("8.8.8.8", "2606:4700::1", "::ffff:8.8.8.8", "x", "") if is_inner(it)], [])
        hosts = "1.2.3.4", "1.2.3.4:80", "[::1]", "[fd00::1]:80"
        self.assertEqual([it for it in hosts if not is_address(it)], [])
        names = "", "x", "1.2.3.4.example", "1.2.3:80", "1.2.3.4:x", "1.2.3.4@example", "[x]", "[::1]x", "localhost:80"
        names += "[]", "[]:80", ":80", "[", "]", "[[]]", ":"
        self.assertEqual([it for it in names if is_address(it)], [])

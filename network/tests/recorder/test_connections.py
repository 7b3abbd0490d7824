"""Clients that hold many connections to a recorder, send half requests, or follow without reading."""
import asyncio
import contextlib
import socket
import time
import zlib
from unittest import mock

import aiohttp
from support.ledger_case import LedgerCase, registration
from walrus.network.ledger import follower
from walrus.network.ledger.entries import OPERATOR, entry_key
from walrus.network.recorder import appender as recorder, server
from walrus.network.recorder.etcd import Batch
from walrus.network.service import connections


class Connections(LedgerCase):
    async def test_halves_of_bodies_and_slow_ones(self) -> None:
        host, _, port = self.local.told()["recorders"][0].rpartition(":")
        head = "POST /v1/entries HTTP/1.1\r\nHost: x\r\nContent-Length: 5000\r\n\r\n[".encode()
        opened = []
        self.enterContext(mock.patch.object(server, "REQUEST", 600.0))
        self.enterContext(mock.patch.object(connections, "FIRST", 600.0))
        for sent in (head, head[:20], b"", b"GET / HTTP/1.1\r\n" + b"X: y\r\n" * 5_000, b"\x16\x03" * 99):
            for _ in range(8):
                _, writer = await asyncio.open_connection(host, int(port), ssl=self.context("publisher"))
                writer.write(sent)
                opened.append(writer)
        await self.user("publisher", 0).post(registration("publisher", 1), 120)
        self.assertGreaterEqual(self.services[0].connected["publisher"], 24)  # these wait still
        for writer in opened:
            writer.transport.abort()

    async def test_a_body_that_never_ends_is_let_go_with_its_place(self) -> None:
        self.enterContext(mock.patch.multiple(server, EACH=1, REQUEST=0.3))
        [(reader, writer)] = await self.opened("publisher", 1)
        writer.write(b"POST /v1/entries HTTP/1.1\r\nHost: x\r\nContent-Length: 5000\r\n\r\n[")
        async with asyncio.timeout(60):
            self.assertTrue((await reader.readuntil(b"\r\n\r\n")).startswith(b"HTTP/1.1 400 "))
        self.assertEqual((await self.ask("publisher", "GET", "/v1/status"))[0], 200)

    async def opened(self, name: str, count: int) -> list[tuple[asyncio.StreamReader, asyncio.StreamWriter]]:
        """Opens this number of connections to a recorder."""
        host, _, port = self.local.told()["recorders"][0].rpartition(":")
        context, opened = self.context(name), list[tuple[asyncio.StreamReader, asyncio.StreamWriter]]()
        for _ in range(count):
            with contextlib.suppress(OSError):
                opened.append(await asyncio.open_connection(host, int(port), ssl=context))
                self.addCleanup(opened[-1][1].transport.abort)
        return opened

    async def answered(self, opened: list[tuple[asyncio.StreamReader, asyncio.StreamWriter]], status: int) -> int:
        """Returns how many of these connections get this answer."""
        found = 0
        for reader, writer in opened:
            with contextlib.suppress(OSError, asyncio.IncompleteReadError, TimeoutError):
                writer.write(b"GET /v1/status HTTP/1.1\r\nHost: x\r\n\r\n")
                async with asyncio.timeout(60):
                    head = await reader.readuntil(b"\r\n\r\n")
                    await reader.readexactly(int(head.lower().partition(b"content-length: ")[2].split()[0]))
                found += head.startswith(f"HTTP/1.1 {status} ".encode())
        return found

    async def test_no_name_has_all_connections_and_one_too_many_is_ended(self) -> None:
        await self.newcomer("mallory")
        recorder, connected = self.recorders[0], self.services[0].connected
        await self.user(OPERATOR, 0).post(registration(OPERATOR, 1))
        many = await self.opened("mallory", server.OF_NAME + 20)
        self.assertEqual(await self.answered(many, 200), server.OF_NAME)
        self.assertEqual(sum(not reader.at_eof() and not reader.exception() for reader, _ in many), server.OF_NAME)
        await self.user(OPERATOR, 0).post(entry_key(OPERATOR, "expel", "mallory"))
        self.assertIn("mallory", recorder.ledger.expelled)
        self.assertEqual(await self.answered(many, 403), server.OF_NAME)
        async with asyncio.timeout(120):
            while connected["mallory"]:
                await asyncio.sleep(0.05)
        self.assertEqual(await self.answered(await self.opened("mallory", 20), 403), server.OF_OTHERS)

    async def test_connections_of_many_names_are_bounded_too(self) -> None:
        with mock.patch.object(server, "CONNECTIONS", 20):
            opened = await self.opened("publisher", 30)
            self.assertLessEqual(await self.answered(opened, 200), 20)
            async with asyncio.timeout(120):
                while self.services[0].connected.total() > 20:
                    await asyncio.sleep(0.05)
            self.assertGreaterEqual(sum(reader.at_eof() or bool(reader.exception()) for reader, _ in opened), 10)

    async def test_who_follows_holds_no_more_of_the_ledger_than_is_kept_for_all(self) -> None:
        asked = self.recorders[0]
        await asked.refresh()
        chain = asked.chain
        for _ in range(20):
            batch = Batch(chain, ["x" * 16_000] * (recorder.MOST_BATCH // 16_000))
            after = asked.head(batch.after)
            self.assertEqual(await asked.etcd.append(asked.head(chain), after, batch), (after, []))
            chain = batch.after
        read = await asked.etcd.batches(1)
        self.assertTrue(0 < sum(it.size for it in read) <= recorder.RECENT)

    async def test_what_is_packed_stays_so(self) -> None:
        """A compressed body, which could be a thousand times longer, counts as malformed JSON and takes no memory."""
        for packing in ("deflate", "gzip"):
            body = zlib.compress(b" " * 400_000 + b"[]", 9, 15 if packing == "deflate" else 31)
            headers = {"Content-Encoding": packing}
            said = await self.ask("publisher", "POST", "/v1/entries", data=body, headers=headers)
            self.assertEqual((said[0], "not JSON" in said[1]["error"]), (400, True))

    async def test_who_follows_and_reads_nothing_is_let_go_and_holds_up_nobody(self) -> None:
        for service in self.services:
            for listening in service.listening:
                listening.setsockopt(socket.SOL_SOCKET, socket.SO_SNDBUF, 4_096)  # what the system holds for a client
        host, _, port = self.local.told()["recorders"][0].rpartition(":")
        user, texts = self.user("publisher", 0), [registration("publisher", number) for number in range(6_000)]
        begun = time.monotonic()
        await asyncio.gather(*(user.post(text, 100) for text in texts[:600]))
        usual = time.monotonic() - begun  # with nobody idle, on a machine as busy as this one is
        idle = list[asyncio.StreamWriter]()
        with mock.patch.object(server, "REQUEST", 2.0):
            for _ in range(8):
                narrow = socket.socket()
                narrow.setsockopt(socket.SOL_SOCKET, socket.SO_RCVBUF, 4_096)
                narrow.connect((host, int(port)))
                words = {"ssl": self.context("publisher"), "server_hostname": host, "limit": 1}
                _, writer = await asyncio.open_connection(sock=narrow, **words)
                writer.write(b"GET /v1/entries?after=0 HTTP/1.1\r\nHost: x\r\n\r\n")
                writer.transport.pause_reading()  # type: ignore[attr-defined]
                idle.append(writer)
            begun = time.monotonic()
            async with self.following(user) as view:
                for served in self.services[0].runner.server.connections:  # type: ignore[union-attr]
                    served.transport.set_write_buffer_limits(0)  # what the recorder holds for a client
                places = await asyncio.gather(*(user.post(text, 300) for text in texts[600:]))
                self.assertTrue(await view.until(lambda _: view.chain.place >= max(places), 60))
            self.assertLess(time.monotonic() - begun, 50 + 20 * usual)
            for _ in range(200):
                if not self.services[0].busy["publisher"]:
                    break
                await asyncio.sleep(0.1)
        self.assertEqual(self.services[0].busy["publisher"], 0)  # none of them is answered any more
        self.assertLess(self.recorders[0].size, recorder.RECENT)
        for writer in idle:
            writer.transport.abort()


class Addresses(LedgerCase):
    async def test_an_address_that_takes_no_connection_hides_no_other_one(self) -> None:
        """As when a name also has an IPv6 address, and a firewall drops packets to that one."""
        port = int(self.local.told()["recorders"][0].rpartition(":")[2])
        with socket.create_server(("127.0.0.2", port), backlog=0), contextlib.ExitStack() as stack:
            for _ in range(4):
                filling = stack.enter_context(socket.socket())
                filling.setblocking(False)
                filling.connect_ex(("127.0.0.2", port))
            words = {"port": port, "family": socket.AF_INET, "proto": 0, "flags": socket.AI_NUMERICHOST}
            found = mock.AsyncMock(return_value=[{"host": f"127.0.0.{it}", **words} for it in (2, 1)])
            stack.enter_context(mock.patch.object(aiohttp.ThreadedResolver, "resolve", found))
            stack.enter_context(mock.patch.object(follower, "CONNECT", 1.0, create=True))
            self.assertGreater(await self.user("publisher", 0).post(registration("publisher", 1)), 1)
            resolver = follower.Resolver("alpha")
            first = [(await resolver.resolve("recorder"))[0]["host"] for _ in range(4)]
        self.assertEqual(first, ["127.0.0.2", "127.0.0.1"] * 2)

"""How far clients of one address can make all others wait at a port: for turns, connections and handshakes."""
import asyncio
import collections
import contextlib
import pathlib
import ssl
import tempfile
import unittest
from typing import Any, Callable
from unittest import mock

from walrus import client
from walrus.format import frames
from walrus.format.frames import answer
from walrus.network.service import certificates
from walrus.wire import fairness, port


class Places(unittest.IsolatedAsyncioTestCase):
    async def test_who_gives_up_costs_those_behind_no_turn(self) -> None:
        """Otherwise a waiter would be passed over again and again if others of its origin, before it, gave up."""
        asyncio.get_running_loop().set_debug(False)
        places, order = fairness.Fair(1), list[str]()

        async def have(whom: str) -> None:
            await places.acquire(whom)
            order.append(whom)

        await have("x")
        waiting = [asyncio.create_task(have(whom)) for whom in "aaaaabbb"]
        await asyncio.sleep(0)
        for it in (*waiting[:2], waiting[3]):
            it.cancel()
        for _ in range(5):
            places.release()
        await asyncio.gather(*waiting, return_exceptions=True)
        self.assertEqual((order, places.waiting), ([*"xababb"], {}))

    async def test_of_who_gives_up_nothing_is_kept_while_others_have_their_places(self) -> None:
        places = fairness.Fair(1)
        await places.acquire("x")
        for _ in range(3):
            with self.assertRaises(TimeoutError):
                async with asyncio.timeout(0.01):
                    await places.acquire("a")
        self.assertEqual(places.waiting, {})


class Ports(unittest.IsolatedAsyncioTestCase):
    """A port whose clients come from several addresses of this machine."""

    async def asyncSetUp(self) -> None:
        asyncio.get_running_loop().set_debug(False)
        self.order, self.goes_on = list[int](), asyncio.Semaphore(0)
        bounds = port.Bounds(connections=8, kept=20_000_000)  # for two turns
        self.made = port.Port(self.reply, client.Shape(1), bounds)
        self.made.say = lambda text: None
        self.place = await self.made.listen("127.0.0.1", 0)
        self.addAsyncCleanup(self.made.close_port)

    async def reply(self, shard: int, request: bytes) -> port.Said:
        self.order.append(shard)
        await self.goes_on.acquire()
        return port.Said([client.envelope(answer(client.DONE), shard)])

    async def ask(self, number: int, host: str) -> tuple[asyncio.StreamReader, asyncio.StreamWriter]:
        """Send a request over a new connection."""
        streams = await asyncio.open_connection("127.0.0.1", self.place, local_addr=(host, 0))
        self.addCleanup(streams[1].transport.abort)
        streams[1].write(client.envelope(client.write_frame(client.Read(bytes(32))), number))
        return streams

    async def until(self, holds: Callable[[], object]) -> None:
        async with asyncio.timeout(60):
            while not holds():
                await asyncio.sleep(0.01)

    async def test_of_who_has_many_addresses_of_a_network_a_line_a_minute_is_told(self) -> None:
        said = list[str]()
        self.made.say = said.append
        for host in ("2001:db8:1:2::3", "2001:db8:1:2::4", "2001:db8:1:3::3", "192.0.2.1", "192.0.2.2"):
            client_ = port.Connection(mock.Mock(), (host, 1))
            self.made.tell(f"client {client_} is cut off", "Fault", client_)
        self.assertEqual(len(said), 4)

    async def test_nobody_waits_behind_all_that_one_address_asks(self) -> None:
        for number in range(6):
            await self.ask(number, "127.0.0.2")
            await self.until(lambda: len(self.order) + sum(map(len, self.made.turns.waiting.values())) > number)
        for number in (6, 7):
            await self.ask(number, "127.0.0.3")
            await self.until(lambda: len(self.made.turns.waiting.get("127.0.0.3", ())) > number - 6)
        for count in range(3, 9):
            self.goes_on.release()
            await self.until(lambda: len(self.order) == count)
        self.assertEqual(self.order, [0, 1, 2, 6, 3, 7, 4, 5])  # one of each, in turn

    async def test_who_has_many_connections_gives_way_before_others(self) -> None:
        self.goes_on = asyncio.Semaphore(99)
        reader, _ = await self.ask(1, "127.0.0.3")
        self.assertEqual(await client.take_envelope(reader, 99), (1, answer(client.DONE)))
        many = [await self.ask(2, "127.0.0.2") for _ in range(12)]  # each has a reply, and later than the first one
        for it, _ in many:
            with contextlib.suppress(OSError, EOFError):
                await client.take_envelope(it, 99)
        self.assertEqual(len(self.made.connections), 8)
        self.assertEqual(sum(it.whom == "127.0.0.3" for it in self.made.connections), 1)


class Handshakes(Ports):
    """The same over TLS."""

    async def asyncSetUp(self) -> None:
        await super().asyncSetUp()
        await self.made.close_port()
        folder = pathlib.Path(self.enterContext(tempfile.TemporaryDirectory()))
        certificates.make_authority(folder / "authority")
        certificates.make(folder / "node", folder / "authority", "node", ["node"])
        context = ssl.create_default_context(ssl.Purpose.CLIENT_AUTH)
        context.load_cert_chain(folder / "node.crt", folder / "node.key")
        self.trusting = ssl.create_default_context(cafile=str(folder / "authority.crt"))
        self.place = await self.made.listen("127.0.0.1", 0, context)

    async def come(self, host: str, **words: Any) -> tuple[asyncio.StreamReader, asyncio.StreamWriter]:
        streams = await asyncio.open_connection("127.0.0.1", self.place, local_addr=(host, 0), **words)
        self.addCleanup(streams[1].transport.abort)
        return streams

    async def ask(self, number: int, host: str) -> tuple[asyncio.StreamReader, asyncio.StreamWriter]:
        streams = await self.come(host, ssl=self.trusting, server_hostname="node")
        streams[1].write(client.envelope(client.write_frame(client.Read(bytes(32))), number))
        return streams

    async def test_of_who_completes_no_handshake_few_wait_and_nobody_else_gives_way(self) -> None:
        self.goes_on = asyncio.Semaphore(99)
        first, _ = await self.ask(1, "127.0.0.3")
        self.assertEqual(await client.take_envelope(first, 99), (1, answer(client.DONE)))
        _, early = await self.come("127.0.0.4")
        opened = [await self.come("127.0.0.2") for _ in range(30)]
        await self.until(lambda: sum(reader.at_eof() or bool(reader.exception()) for reader, _ in opened) == 23)
        self.assertEqual(collections.Counter(it.whom for it in self.made.coming), {"127.0.0.2": 7, "127.0.0.4": 1})
        self.assertEqual(len(self.made.connections), 1)
        await early.start_tls(self.trusting, server_hostname="node")
        await self.until(lambda: len(self.made.connections) == 2)
        second, _ = await self.ask(2, "127.0.0.2")
        self.assertEqual(await client.take_envelope(second, 99), (2, answer(client.DONE)))
        self.assertFalse(first.at_eof())

    async def test_of_a_handshake_that_does_not_come_nothing_is_left(self) -> None:
        self.enterContext(mock.patch.object(port, "HANDSHAKE", 0.2))
        opened = [await self.come("127.0.0.2") for _ in range(4)]
        opened[0][1].write(b"GET / HTTP/1.1\r\n\r\n")
        opened[1][1].write_eof()
        opened[2][1].transport.abort()
        await self.until(lambda: opened[3][0].at_eof() and not self.made.coming)
        self.assertEqual((len(self.made.connections), self.made.kept), (0, 0))

    async def test_long_requests_that_come_with_the_end_of_a_handshake_are_answered(self) -> None:
        """They are longer than what a connection receives ahead of its reader."""
        self.goes_on, came, goes = asyncio.Semaphore(99), ssl.MemoryBIO(), ssl.MemoryBIO()
        tls, (reader, writer) = self.trusting.wrap_bio(came, goes, server_hostname="node"), await self.come("127.0.0.2")

        async def step(take: Callable[[], object]) -> object:
            while True:
                try:
                    return take()
                except ssl.SSLWantReadError:
                    writer.write(goes.read())
                    came.write(await reader.read(65_536))

        await step(tls.do_handshake)
        sliver = client.write_frame(frames.Sliver(bytes(32), 0, 0, bytes(60_000)))
        tls.write(b"".join(client.envelope(sliver, number) for number in (1, 2)))
        async with asyncio.timeout(60):
            for number in (1, 2):
                said = await step(lambda: tls.read(17))
                self.assertEqual(said, client.envelope(answer(client.DONE), number))
        self.assertEqual(self.order, [1, 2])

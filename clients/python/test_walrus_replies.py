"""Tests of what the client accepts as a reply, and of shards that lie: python3 -m unittest, in this folder."""
import asyncio
import contextlib
import unittest
from collections.abc import Iterable

import example_tools
import liars
from walrus import client, loop as walrus_loop
from walrus.format import frames

walrus_loop.wait_without_threads()

SLOW = 30.0  # seconds until anything must have ended, on a busy machine
NAME = bytes(range(32))


class SaidShard(client.Shard):
    """A shard with predetermined output."""

    def __init__(self, said: bytes) -> None:
        super().__init__(0, 1, 0.2)
        self.said = said

    async def open(self) -> client.Streams:
        if not self.streams:
            reader, transport = asyncio.StreamReader(), SentTransport()
            reader.feed_data(self.said)
            loop = asyncio.get_running_loop()
            protocol = asyncio.StreamReaderProtocol(reader, loop=loop)
            self.streams = reader, asyncio.StreamWriter(transport, protocol, reader, loop)
            self.sent = transport.sent
        return self.streams


class SentTransport(asyncio.Transport):
    """Records what is sent."""

    def __init__(self) -> None:
        super().__init__()
        self.sent: list[bytes] = []

    def write(self, data: bytes | bytearray | memoryview) -> None:
        self.sent.append(bytes(data))

    def is_closing(self) -> bool:
        return True

    def abort(self) -> None:
        pass


def shard_that_says(*payloads: bytes, rest: bytes = b"") -> SaidShard:
    return SaidShard(b"".join(map(client.envelope, payloads)) + rest)


class Replies(unittest.IsolatedAsyncioTestCase):
    done, clash = frames.write_frame(client.Answer(0, 1, 0)), frames.write_frame(frames.Texts(b"a", b"b"))
    read = frames.write_frame(client.Read(NAME))
    sliver, other = (frames.write_frame(frames.Sliver(NAME, 0, 0, bytes([it]) * 6)) for it in (1, 2))

    async def test_a_reply_ends_with_an_answer_or_a_clash(self):
        shard = shard_that_says(self.sliver, self.done, self.clash)
        self.assertEqual(await shard.ask(self.read), [({0x11: self.sliver}, client.Answer(0, 1, 0))])
        self.assertEqual(await shard.ask(self.read, self.read), [({}, client.Clash(self.clash))])
        self.assertEqual(b"".join(shard.sent), client.envelope(self.read) * 3)

    async def test_of_each_kind_the_first_is_kept(self):
        shard = shard_that_says(self.sliver, self.other, self.sliver, self.done)
        self.assertEqual((await shard.ask(self.read))[0].kept, {0x11: self.sliver})

    async def test_shards_that_do_not_reply(self):
        faults = {
            b"": "no whole reply within 0.2 s",
            client.envelope(b"\x11") * 9: "its reply does not end",
            bytes.fromhex("5700000000ffff") + bytes(99): "no whole reply within 0.2 s",
            bytes.fromhex("57000100000000"): "it says that it is shard 1: are the shards in their order?",
            bytes.fromhex("570000ffffffff"): "too long",
            b"HTTP/1.1 400": "no envelope",
            client.envelope(b"\x30"): "its answer is malformed",
            client.envelope(b"\x30\x10" + bytes(8)): "its answer is malformed",
        }
        for said, fault in faults.items():
            shard = SaidShard(said)
            for _ in range(2):  # it is not asked again
                with self.assertRaises(ConnectionError) as caught:
                    await shard.ask(self.read)
                self.assertEqual(str(caught.exception), fault)
            self.assertEqual(b"".join(shard.sent), client.envelope(self.read))

    async def test_what_answers_a_store_is_short(self):
        """Otherwise a lying node could put several longest payloads into memory for each small blob that it is sent."""
        clash, head = frames.write_frame(frames.Texts(b"a" * 65, b"b" * 65)), client.HEAD.pack(client.MARK, 0, 134)
        for request in ([b"a blob"], frames.write_frame(client.Ack(NAME))):
            self.assertEqual((await shard_that_says(clash).ask(request))[0].end, client.Clash(clash))
            with self.assertRaisesRegex(ConnectionError, "^too long$"):
                await SaidShard(head).ask(request)

    async def test_who_stops_waiting_leaves_the_shard_in_step(self):
        shard = SaidShard(b"")
        with self.assertRaises(TimeoutError):
            await asyncio.wait_for(shard.ask(self.read), 0.05)
        assert shard.streams
        shard.streams[0].feed_data(client.envelope(self.sliver) + client.envelope(self.done) * 2)
        self.assertEqual((await shard.ask(self.read))[0].kept, {})
        self.assertEqual(shard.fault, "")

    def test_words(self):
        said = [client.in_words(client.Answer(code, 3, 1)) for code in (0, 2, 6, 9, 10, 11, 13, 14, 15)]
        wanted = ["done", "unverified", "full, 3 pages needed, 1 free", "malformed: bad field", "no room in the ledger"]
        self.assertEqual(said, wanted + ["held", "counted 3", "quorum of 3", "past"])
        self.assertEqual(client.in_words(client.Clash(self.clash)), "clash")


class Liars(unittest.IsolatedAsyncioTestCase):
    """Shards that lie, together with shards that reply honestly."""

    async def asyncSetUp(self):
        asyncio.get_running_loop().set_debug(False)  # debugging is slow
        self.walrus = example_tools.find_walrus()
        self.stack = await self.enterAsyncContext(contextlib.AsyncExitStack())

    async def ports(self, encoded: client.Encoded, faults: int, ways: Iterable[str]) -> list[int]:
        """Return the ports of all shards: the first ones lie in these ways, the others have the blob."""
        shape, ways = client.Shape(faults), list(ways)
        served: list[liars.Served] = [liars.Liar(number, shape, way) for number, way in enumerate(ways)]
        served += [liars.Honest(number, shape, encoded) for number in range(len(ways), shape.shards)]
        return [(await self.stack.enter_async_context(shard)).port for shard in served]

    async def test_f_liars_of_each_way(self):
        encoded = await self.walrus.encode(b"some blob", 2)
        for way in liars.Liar.WAYS:
            ports = await self.ports(encoded, 2, [way] * 2)
            with self.subTest(way=way):
                async with asyncio.timeout(SLOW), liars.connect(ports, 2, 1.0) as shards:
                    signers, certified = await client.publish(shards, encoded, until=1)
                    self.assertEqual((signers[-5:], certified[-5:]), ([2, 3, 4, 5, 6],) * 2)
                async with asyncio.timeout(SLOW), liars.connect(ports, 2, SLOW) as shards:
                    self.assertEqual(await client.fetch(shards, encoded.identifier, self.walrus), b"some blob")

    async def test_six_of_nineteen_that_pad(self):
        """Eighteen payloads of 8 MB, or of the longest length for this f, were too long for one read."""
        encoded = await self.walrus.encode(b"some blob", 6)
        for way in liars.Liar.PADS:
            ports = await self.ports(encoded, 6, [way] * 6)
            async with asyncio.timeout(SLOW), liars.connect(ports, 6, SLOW) as shards:
                self.assertEqual(await client.fetch(shards, encoded.identifier, self.walrus), b"some blob")

    async def test_silent_ones_cost_one_deadline(self):
        """One after the other they would take more seconds than the test allows."""
        encoded = await self.walrus.encode(b"some blob", 10)
        ports = await self.ports(encoded, 10, ["silent"] * 10)
        async with asyncio.timeout(SLOW), liars.connect(ports, 10, 3.1) as shards:
            self.assertEqual((await client.publish(shards, encoded, until=1)).signers, [*range(10, 31)])
            self.assertEqual(await client.fetch(shards, encoded.identifier, self.walrus), b"some blob")

    async def test_false_slivers_do_not_hold_up_a_read(self):
        """One shard lies and another never replies: the others are enough, and are read before any deadline."""
        encoded = await self.walrus.encode(b"some blob", 2)
        ports = await self.ports(encoded, 2, ["repeat", "silent"])
        async with asyncio.timeout(SLOW), liars.connect(ports, 2, 10 * SLOW) as shards:
            self.assertEqual(await client.fetch(shards, encoded.identifier, self.walrus), b"some blob")

    async def test_the_load(self):
        """A short run of the load that `liars.py` makes for a minute."""
        self.assertGreater(await liars.try_load(self.walrus, 4), 0)


if __name__ == "__main__":
    unittest.main()

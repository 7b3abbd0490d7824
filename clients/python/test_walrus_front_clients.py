"""Tests of the front and its clients: python3 -m unittest, in this folder. They use WALRUS, or ./walrus at the top."""
import asyncio
import contextlib
import socket
import unittest
from unittest import mock

import example_tools
import liars
from walrus import client, front as walrus_front, loop
from walrus.format import frames
from walrus.wire import port as walrus_port

loop.wait_without_threads()

SLOW = 30.0  # seconds until anything must have ended, on a busy machine
DONE = client.Answer(0, 9, 0)


class Connections(unittest.IsolatedAsyncioTestCase):
    """A front in this process."""

    async def asyncSetUp(self):
        asyncio.get_running_loop().set_debug(False)  # debugging is slow
        self.walrus, self.told, self.kept = example_tools.find_walrus(), list[str](), list[client.Streams]()
        self.stack = await self.enterAsyncContext(contextlib.AsyncExitStack())

    async def open(self, faults: int = 1, **bounds: float) -> walrus_front.Front:
        known = walrus_port.Bounds(**{"seconds": SLOW, **bounds})  # type: ignore[arg-type]
        front = walrus_front.Front(self.walrus.path, faults, 2, "--pages", "64", bounds=known)
        front.say = self.told.append
        self.stack.push_async_callback(front.close)
        return await front.open()

    async def connect(self, front: walrus_front.Front) -> client.Shard:
        shard = client.SocketShard(2, front.shape.faults, ("127.0.0.1", front.port), SLOW)
        return await self.stack.enter_async_context(shard)

    async def send(self, front: walrus_front.Front, data: bytes) -> client.Streams:
        reader, writer = await asyncio.open_connection("127.0.0.1", front.port)
        self.kept.append((reader, writer))  # a reader without a reference ends its connection
        self.stack.callback(writer.transport.abort)
        writer.write(data)
        return reader, writer

    async def test_side_by_side(self):
        front, encoded = await self.open(), await self.walrus.encode(example_tools.SIX_WORDS, 1)
        await self.send(front, client.envelope(b"\x22")[:7])  # part of a request, which delays no other client
        one, two = await self.connect(front), await self.connect(front)
        parts = [client.RegisterEntry(encoded.identifier, 9), encoded.metadata, *encoded.slivers[2]]
        self.assertEqual(await example_tools.codes(one, *parts, client.Ack(encoded.identifier)), [0, 0, 0, 0, 13])
        [reply] = await two.ask(client.write_frame(client.Read(encoded.identifier)))
        self.assertEqual(list(reply.kept.values()), [encoded.metadata, encoded.slivers[2][0]])
        self.assertEqual(await front.close(), 0)
        with self.assertRaises(ConnectionError):
            await two.ask(client.write_frame(client.Read(encoded.identifier)))

    async def test_what_is_no_request_is_not_forwarded(self):
        """It is answered as the shard would, and logged once; it does not use up the bytes that a process accepts."""
        front = await self.open()
        begun = front.forwarded
        shard = await self.connect(front)
        rubbish = b"\xff" * 4_000_000
        replies = await shard.ask(*[rubbish] * 8, b"", b"\x20", bytes(8_389_632), b"\x11" * 40)
        ends = [reply.end for reply in replies]
        self.assertEqual(ends[:10], [client.Answer(9, 2, 0)] * 8 + [client.Answer(9, 1, 0)] * 2)
        self.assertEqual(ends[10:], [client.Answer(9, 7, 0), client.Answer(9, 3, 33)])
        self.assertEqual(front.forwarded, begun)
        self.assertEqual(len(self.told), 1)
        self.assertRegex(self.told[0], r"client 127\.0\.0\.1:\d+ sends what is no request: malformed: bad kind")
        entry = client.write_frame(client.RegisterEntry(bytes(32), 9))
        self.assertEqual((await shard.ask(entry))[0].end, DONE)
        self.assertEqual(front.forwarded, begun + 7 + len(entry))

    async def test_lengths_are_bounded_by_f(self):
        front = await self.open(33)
        shard = await self.connect(front)
        [longest, longer] = await shard.ask(bytes(515_469), bytes(515_470))
        self.assertEqual((longest.end, longer.end), (client.Answer(9, 2, 0), client.Answer(9, 7, 0)))
        self.assertEqual(front.forwarded, 7)

    async def test_a_client_that_is_cut_off_is_named(self):
        front = await self.open(seconds=1.0)
        for sent in (b"", b"GET / HTTP/1.1\r\n\r\n", client.envelope(bytes(99))[:-1]):  # the first one is only idle
            reader, _ = await self.send(front, sent)
            async with asyncio.timeout(SLOW):
                with contextlib.suppress(ConnectionError):
                    self.assertEqual(await reader.read(), b"")
        await asyncio.sleep(0.1)
        self.assertRegex(self.told[0], r"client 127\.0\.0\.1:\d+ is cut off: what it sends is no envelope")
        self.assertRegex(
            self.told[1], r"client 127\.0\.0\.1:\d+ is cut off: no whole request, or no reply taken, in 1 s"
        )
        self.assertEqual((len(self.told), front.connections), (2, {}))

    async def test_who_does_not_read_is_cut_off(self):
        front = await self.open(seconds=1.0)
        encoded = await self.walrus.encode(bytes(40_000), 1)
        shard = await self.connect(front)
        parts = [client.RegisterEntry(encoded.identifier, 9), encoded.metadata, *encoded.slivers[2]]
        self.assertEqual(await example_tools.codes(shard, *parts), [0] * 4)
        request = client.envelope(client.write_frame(client.Read(encoded.identifier)))
        _, writer = await self.send(front, request * 1_000)
        writer.transport.pause_reading()  # type: ignore[attr-defined]
        async with asyncio.timeout(SLOW):
            while not self.told:
                await asyncio.sleep(0.1)
        self.assertIn("no reply taken", self.told[0])
        again = await self.connect(front)
        self.assertEqual(await example_tools.codes(again, client.Read(encoded.identifier)), [0])

    async def test_connections_are_bounded_and_who_comes_is_served(self):
        """Three waiting clients take all connections; one that had replies is cut off last, and connects again."""
        front = await self.open(connections=3)
        shard = await self.connect(front)
        entry = client.RegisterEntry(bytes(32), 9)
        self.assertEqual(await example_tools.codes(shard, entry), [0])
        for _ in range(5):
            await self.send(front, b"\x57")
        async with asyncio.timeout(SLOW):
            while not self.told:
                await asyncio.sleep(0.1)
        self.assertLessEqual(len(front.connections), 3)
        self.assertRegex(self.told[0], r"^3 connections: 127\.0\.0\.1:\d+, which waits longest, is cut off for 127")
        late = await self.connect(front)
        self.assertEqual(await example_tools.codes(late, entry), [0])
        self.assertEqual(await example_tools.codes(shard, entry), [0])

    async def test_what_is_kept_for_all_is_bounded(self):
        """Of two clients that each send half of a request of a megabyte, only the first one is cut off."""
        front = await self.open(kept=1_500_000)
        shard = await self.connect(front)
        entry = client.RegisterEntry(bytes(32), 9)
        self.assertEqual(await example_tools.codes(shard, entry), [0])
        half = client.HEAD.pack(client.MARK, 2, 8_000_000) + bytes(1_048_576)
        first, _ = await self.send(front, half)
        async with asyncio.timeout(SLOW):
            while front.kept < 1_048_576:
                await asyncio.sleep(0.05)
            second, _ = await self.send(front, half)
            with contextlib.suppress(ConnectionError):
                self.assertEqual(await first.read(), b"")
            while front.kept < 1_048_576:
                await asyncio.sleep(0.05)
        self.assertRegex(
            self.told[0], r"^client 127\.0\.0\.1:\d+ is cut off: too much memory is used, by this client for longest"
        )
        self.assertEqual((front.kept, second.at_eof(), len(front.connections)), (1_048_576, False, 2))
        self.assertEqual(await example_tools.codes(shard, entry), [0])

    async def test_bytes_are_counted(self):
        front = walrus_front.Front("nothing", 1, 0)
        front.say = self.told.append
        for size in (536_870_911, 1, 99, 322_122_447, 161_061_273, 53_687_092):
            front.count(size)
        self.assertEqual([line.split(" of")[0] for line in self.told], ["50 %", "80 %", "95 %"])
        self.assertEqual(front.forwarded, 1_073_741_823)

    async def test_a_shard_that_is_let_lie(self):
        front = await self.open()
        front.alter = lambda said: said[:-1] + bytes([said[-1] ^ 1])
        shard = await self.connect(front)
        self.assertEqual((await shard.ask(client.write_frame(client.Read(bytes(32)))))[0].end, client.Answer(0, 0, 1))


class Leaving(unittest.IsolatedAsyncioTestCase):
    async def test_who_has_left_waits_for_a_turn_among_those_of_its_address(self):
        asyncio.get_running_loop().set_debug(False)  # debugging is slow

        async def reply(shard: int, request: bytes) -> walrus_port.Said:
            return walrus_port.Said([b""])

        port = walrus_port.Port(reply, client.Shape(1), walrus_port.Bounds())
        port.say, (left, connection) = list[str]().append, socket.socketpair()
        with left:
            left.sendall(client.envelope(client.write_frame(client.Read(bytes(32)))))
        connection.setblocking(False)
        with mock.patch.object(port.turns, "acquire", wraps=port.turns.acquire) as acquire:
            await port.connect(connection, ("192.0.2.7", 999))
        acquire.assert_awaited_once_with("192.0.2.7")


class OfOneF(unittest.IsolatedAsyncioTestCase):
    async def test_clients_that_lie_send_what_they_say(self):
        """The load sends requests that a front must withstand: two of five are no envelope or too long."""
        shape, sent = client.Shape(1), liars.false_requests(bytes(32))
        self.assertIsNotNone(frames.refuse(shape, client.split(sent[0])[0][1]))
        self.assertRaises(client.Fault, client.split, sent[1])
        self.assertIsNone(frames.refuse(shape, client.split(sent[2])[0][1]))
        self.assertNotEqual(sent[3][0], client.MARK)
        self.assertGreater(client.HEAD.unpack(sent[4][:7])[2], shape.longest)


if __name__ == "__main__":
    unittest.main()

"""What a port keeps in memory of its clients, and a client of a store that nobody waits for any more."""
import asyncio
import contextlib
import gc
import types
import unittest
import weakref
from typing import AsyncIterator
from unittest import mock

from support.wire_case import Taken
from walrus import client
from walrus.format import frames
from walrus.network.gateway.write import resumable, writer as chunks
from walrus.network.peers import seats
from walrus.network.service import task_groups
from walrus.wire import connection, port


class Counted(bytearray):
    """Bytes of which it can be seen whether anybody has them still."""


class Idle(unittest.IsolatedAsyncioTestCase):
    async def test_of_an_idle_client_neither_request_nor_reply_is_in_memory(self) -> None:
        made = list["weakref.ref[Counted]"]()

        def counted(size: int) -> Counted:
            made.append(weakref.ref(part := Counted(size)))
            return part

        async def reply(shard: int, request: bytes) -> port.Said:
            return port.Said([counted(400_000)])

        served = port.Port(reply, client.Shape(1), port.Bounds())
        self.addAsyncCleanup(served.close_port)
        self.enterContext(mock.patch.object(served, "place", lambda size: memoryview(counted(size))))
        own = await connection.connect("127.0.0.1", await served.listen("127.0.0.1", 0))
        self.addCleanup(own.transport.abort)
        for _ in range(2):
            own.write(client.envelope(client.write_frame(client.Read(bytes(32)))))
            self.assertEqual(await own.readexactly(400_000), bytes(400_000))
        for _ in range(500):
            if not any(it() for it in made):
                break
            await asyncio.sleep(0.01)
        self.assertEqual([it() is None for it in made], [True] * 4)
        self.assertEqual((len(served.connections), served.kept), (1, 0))

    async def test_of_a_client_that_is_cut_off_a_request_counts_until_it_has_its_answer(self) -> None:
        """Who comes for it waits meanwhile, before more than may be is in memory."""
        sliver, goes_on, asked = client.write_frame(frames.Sliver(bytes(32), 0, 0, bytes(600_000))), asyncio.Event(), 0

        async def reply(shard: int, request: bytes) -> port.Said:
            nonlocal asked
            asked += 1
            await goes_on.wait()
            return port.Said([client.envelope(b"\x30" + bytes(9))])

        served = port.Port(reply, client.Shape(1), port.Bounds(connections=1, kept=1_000_000))
        served.say = list[str]().append
        self.addAsyncCleanup(served.close_port)
        number = await served.listen("127.0.0.1", 0)
        first = await connection.connect("127.0.0.1", number)
        self.addCleanup(first.transport.abort)
        first.write(client.envelope(sliver))
        while not asked:
            await asyncio.sleep(0.01)
        second = await connection.connect("127.0.0.1", number)
        self.addCleanup(second.transport.abort)
        second.write(client.envelope(sliver))
        with contextlib.suppress(OSError):
            self.assertEqual(await first.read(1), b"")
        most, least = served.kept, served.kept
        for _ in range(50):
            await asyncio.sleep(0.01)
            most, least = max(most, served.kept), min(least, served.kept)
        self.assertGreaterEqual(least, len(sliver))
        self.assertLessEqual(most, 1_000_000)
        self.assertEqual((asked, len(served.connections)), (1, 1))
        goes_on.set()
        self.assertEqual(await second.readexactly(17), client.envelope(b"\x30" + bytes(9)))
        for _ in range(500):
            if not served.kept:
                break
            await asyncio.sleep(0.01)
        self.assertEqual((asked, served.kept, len(served.asking)), (2, 0, 0))


class Cancelled(unittest.IsolatedAsyncioTestCase):
    async def test_of_a_store_that_nobody_waits_for_nothing_is_in_memory(self) -> None:
        accepted = asyncio.Queue[connection.Wire]()
        loop = asyncio.get_running_loop()
        server = await loop.create_server(lambda: Taken(accepted.put_nowait), "127.0.0.1", 0)
        self.addCleanup(server.close)
        known = types.SimpleNamespace(
            seconds=60, connect=lambda _: connection.connect(*server.sockets[0].getsockname())
        )
        seat = seats.Seat(known, "node-0", 0, 1)  # type: ignore[arg-type]
        sliver = Counted(8_000_000)
        seen = weakref.ref(sliver)
        storing = asyncio.create_task(seat.exchange([[b"\x62", sliver]]))
        del sliver
        node = await accepted.get()
        self.addCleanup(node.transport.abort)
        self.assertEqual(len(await node.readexactly(1_000_000)), 1_000_000)
        self.assertIsNotNone(seen())
        storing.cancel()
        with self.assertRaises(asyncio.CancelledError):
            await storing
        del storing
        for _ in range(500):
            if not seen():
                break
            await asyncio.sleep(0.01)
        self.assertIsNone(seen())
        with contextlib.suppress(OSError):
            while await node.read(65_536):
                pass
        self.assertEqual((node.ended, seat.idle, seat.fault), (True, [], ""))


class Failing(unittest.IsolatedAsyncioTestCase):
    """Of what failed nothing is in memory. An error that leads to its task by the frame of who waited is a cycle, which
    Python finds late."""

    def setUp(self) -> None:
        self.seen = list["weakref.ref[Counted]"]()
        gc.disable()
        self.addCleanup(gc.enable)

    async def store(self, blob: bytes = b"blob", until: int = 0) -> None:
        self.seen.append(weakref.ref(encoded := Counted(blob)))
        await asyncio.sleep(0)
        raise client.Failed(f"{len(encoded)} bytes are not certified", {})

    async def all_gone(self, count: int) -> None:
        await asyncio.sleep(0)  # the loop has the step that raised
        self.assertEqual([it() for it in self.seen], [None] * count)

    async def test_a_store(self) -> None:
        async def stream() -> AsyncIterator[bytes]:
            yield b"blob"

        writer = chunks.Writer(mock.Mock(ledger=mock.Mock(writing_epoch=0)), mock.Mock(), 1)
        with mock.patch.object(writer, "store_blob", self.store), contextlib.suppress(client.Failed):
            await writer.store(stream(), 1)
        await self.all_gone(1)

    async def test_an_upload_of_two_pieces(self) -> None:
        async def stream() -> AsyncIterator[bytes]:
            yield b"blobblob"

        made = resumable.Uploads.__new__(resumable.Uploads)
        made.publisher = mock.Mock(writer=mock.Mock(store_blob=self.store))
        upload = mock.Mock(whole=lambda: [], room=lambda: 4, piece=lambda number: b"blob", about={"until": 1})
        upload.add = mock.AsyncMock(side_effect=[0, 1])
        with contextlib.suppress(client.Failed):  # `assertRaises` would clear the frames
            await made.take(upload, stream())
        await self.all_gone(2)

    async def test_several_at_once(self) -> None:
        with contextlib.suppress(client.Failed):
            await task_groups.several(iter([self.store() for _ in range(4)]), 4)
        await self.all_gone(4)

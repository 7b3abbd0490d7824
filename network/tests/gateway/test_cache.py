"""The cache of a gateway, and pieces that are read before they are needed."""
import asyncio
import contextlib
import gc
import traceback
import tracemalloc
import unittest
import weakref
from unittest import mock

from support.http_case import PIECE
from walrus import client
from walrus.client.program import refusal
from walrus.engines.codes import Code
from walrus.network.files import file_list
from walrus.network.gateway.http import errors
from walrus.network.gateway.read.reader import Pace, Reader
from walrus.network.gateway.resources.cache import EXTRA, TIMES, Cache
from walrus.network.settings.gateway_options import Options


class Seen:
    """An object that a call holds, and that must be freed once the call has ended."""


class Caches(unittest.IsolatedAsyncioTestCase):
    """A cache with room for two blobs that are being read."""

    async def asyncSetUp(self) -> None:
        asyncio.get_running_loop().set_debug(False)
        self.reads: list[bytes] = []
        self.gate = asyncio.Event()
        self.gate.set()
        self.cache = Cache(self.read, 2 * (PIECE + EXTRA), 4)

    async def read(self, identifier: bytes, size: int) -> bytes:
        self.reads.append(identifier)
        await self.gate.wait()
        if identifier == b"bad":
            raise ValueError("no blob")
        if code := {b"never": Code.REJECT, b"never a bundle": Code.BAD_INDEX}.get(identifier):
            raise refusal(3, b"in other words\n", {}, code)
        return identifier * 1_000

    async def want(self, identifier: bytes) -> bytes:
        async with self.cache.use(identifier) as blob:
            return blob

    async def test_many_cause_one_reading(self) -> None:
        self.gate.clear()
        tasks = [asyncio.create_task(self.want(b"a")) for _ in range(200)]
        await asyncio.sleep(0)
        tasks[0].cancel()
        self.gate.set()
        found = await asyncio.gather(*tasks, return_exceptions=True)
        self.assertEqual(found[1:], [b"a" * 1_000] * 199)
        self.assertEqual(self.reads, [b"a"])

    async def test_a_failure_is_told_to_all_and_not_kept(self) -> None:
        found = await asyncio.gather(*(self.want(b"bad") for _ in range(5)), return_exceptions=True)
        self.assertEqual([str(it) for it in found], ["no blob"] * 5)
        with self.assertRaises(ValueError):
            await self.want(b"bad")
        self.assertEqual((self.reads, self.cache.size, len(self.cache.entries)), ([b"bad"] * 2, 0, 0))

    async def test_what_is_no_blob_is_known(self) -> None:
        lengths = []
        for _ in range(20):
            with self.assertRaises(client.Refused) as raised:
                await self.want(b"never")
            lengths.append(len(traceback.extract_tb(raised.exception.__traceback__)))
        self.assertEqual((self.reads, self.cache.size), ([b"never"], EXTRA))
        for _ in range(2):
            with self.assertRaises(client.NoBundle):
                await self.want(b"never a bundle")
        self.assertEqual(self.reads, [b"never", b"never a bundle"])
        self.assertEqual(set(lengths[1:]), {lengths[1]})  # it does not keep what was raised before

    async def test_with_a_refusal_nothing_stays_of_what_was_read_nor_of_who_asked(self) -> None:
        """Otherwise requests for members of a blob that is no bundle fill the memory, with a column for each number."""
        seen = list["weakref.ref[Seen]"]()

        async def read(identifier: bytes, size: int) -> bytes:
            column = Seen()
            seen.append(weakref.ref(column))
            raise refusal(3, b"in other words\n", {}, Code.BAD_INDEX)

        async def ask() -> None:
            request = Seen()
            seen.append(weakref.ref(request))
            with contextlib.suppress(client.NoBundle):  # and not assertRaises, which clears the frames itself
                await self.want(b"never a bundle")

        with mock.patch.object(self.cache, "read", read):
            for _ in range(2):
                await asyncio.create_task(ask())
        gc.collect()
        self.assertEqual([it() for it in seen], [None] * 3)

    async def test_what_is_small_takes_the_room_of_its_memory(self) -> None:
        async def read(identifier: bytes, size: int) -> bytes:
            return b"little"

        self.enterContext(mock.patch.object(self.cache, "read", read))
        tracemalloc.start()
        self.addCleanup(tracemalloc.stop)
        for it in range(5_000):
            await self.want(f"{it:08}".encode())
        self.assertLess(tracemalloc.get_traced_memory()[0], 2 * self.cache.room / TIMES)

    async def test_its_size_stays_in_bounds_and_who_waits_is_served(self) -> None:
        names = [f"{it:08}".encode() for it in range(5_000)]
        for name in names:
            await self.want(name)
            self.assertLessEqual(self.cache.size, self.cache.room)
        self.assertEqual(self.cache.size, sum(entry.size for entry in self.cache.entries.values()))
        self.assertLess(len(self.cache.entries), 5_000)
        self.gate.clear()
        tasks = [asyncio.create_task(self.want(name)) for name in (b"1", b"2", b"3", b"4")]
        await asyncio.sleep(0.01)
        self.assertEqual(self.reads[-2:], [b"1", b"2"])  # two fill the room
        self.gate.set()
        self.assertEqual(await asyncio.gather(*tasks), [it * 1_000 for it in (b"1", b"2", b"3", b"4")])

    async def test_a_blob_that_is_dropped_as_soon_as_it_was_read_leaves_its_room(self) -> None:
        """Nobody wants it any more, and a request for another one comes before the cache hears of the read's end."""
        loop, faults, self.cache.room = asyncio.get_running_loop(), mock.Mock(), PIECE + EXTRA
        loop.set_exception_handler(faults)

        def drop() -> None:
            self.cache.freed.clear()
            self.assertTrue(self.cache.make_room())

        async def read(identifier: bytes, size: int) -> bytes:
            await self.gate.wait()
            loop.call_soon(drop)
            return b"blob"

        self.gate.clear()
        with mock.patch.object(self.cache, "read", read):
            wanting = asyncio.create_task(self.want(b"a"))
            await asyncio.sleep(0.01)
            wanting.cancel()
            self.gate.set()
            await asyncio.sleep(0.05)
        self.assertEqual((faults.mock_calls, self.cache.size, len(self.cache.entries)), ([], 0, 0))
        self.assertTrue(self.cache.freed.is_set())

    async def test_what_is_used_stays(self) -> None:
        async with self.cache.use(b"used") as blob:
            for it in range(4_000):
                await self.want(str(it).encode() * 4)
            self.assertIn(b"used", self.cache.entries)
            self.assertEqual(blob, b"used" * 1_000)
        self.assertEqual(self.reads.count(b"used"), 1)


class Ahead(unittest.IsolatedAsyncioTestCase):
    async def test_only_a_piece_that_stands_is_read_ahead(self) -> None:
        first, later = bytes([1] * 32), bytes([2] * 32)
        for certified, invalid, ahead in ((True, False, True), (False, False, False), (True, True, False)):
            ledger = mock.Mock(blobs={first, later})
            ledger.certificate = lambda name: (0, 4) if name == first or certified else None
            ledger.invalid = lambda name: name == later and invalid
            network, sent = mock.Mock(ledger=ledger, fetch=mock.AsyncMock(return_value=bytes(7))), list[bool]()
            reader = Reader(network, Options())
            self.addAsyncCleanup(reader.cache.close)
            response = mock.Mock(write=mock.AsyncMock(side_effect=lambda _: sent.append(later in reader.cache.entries)))
            with mock.patch.object(file_list, "PIECE", 7):
                sending = reader.send_span(Pace(), response, file_list.File(14, first + later), (6, 8), "somebody", [])
                try:
                    await sending
                except errors.Problem as problem:
                    self.assertIn(problem.status, (404, 410))
            self.assertEqual((sent[0], len(sent)), (ahead, 1 + ahead), (certified, invalid))
            self.assertEqual([it.args[0] for it in network.fetch.call_args_list], [first, later][: 1 + ahead])

    async def test_a_length_is_asked_for_where_memory_is_short(self) -> None:
        """The length that a list gives for its last piece is not trusted. For the largest blob, none is asked for."""
        network = mock.Mock(fetch=mock.AsyncMock(return_value=bytes(7)))
        reader = Reader(network, Options())
        with mock.patch.object(reader.lengths, "of_blob", mock.AsyncMock(return_value=7)) as asked:
            async with reader.memory.share(reader.memory.size - PIECE):
                whole = asyncio.create_task(reader.fetch(bytes([1] * 32), PIECE))
                await asyncio.sleep(0.05)
                self.assertEqual((asked.call_count, network.fetch.call_count, whole.done()), (0, 0, False))
                whole.cancel()
                self.assertEqual(await reader.fetch(bytes([2] * 32), 1), bytes(7))
                asked.assert_awaited_once_with(bytes([2] * 32))
            self.assertEqual(await reader.fetch(bytes([1] * 32), PIECE), bytes(7))
            self.assertEqual((asked.call_count, reader.memory.taken), (1, 0))

"""The disk of a gateway's cache: what was read leaves it room, and goes when others fill it."""
import asyncio
import concurrent.futures
import os
import unittest
from unittest import mock

from support.guard_case import GuardCase
from walrus.network.files.sealed import is_away
from walrus.network.gateway.http import errors
from walrus.network.gateway.read import reader as reading
from walrus.network.gateway.read.reader import Reader
from walrus.network.settings.gateway_options import Options


class Disk:
    """A disk of `size` bytes. `room` is what is free on it without the blobs in a cache."""

    def __init__(self, reader: Reader, size: int, room: int):
        self.reader, self.size, self.room = reader, size, room

    def free(self) -> int:
        tasks = [it.task for it in self.reader.cache.entries.values() if it.task.done() and not it.task.exception()]
        return self.room - sum(len(it.result()) for it in tasks if is_away(it.result()))

    def statvfs(self, place: object) -> mock.Mock:
        return mock.Mock(f_frsize=1, f_blocks=self.size, f_bavail=self.free())


class Short(unittest.IsolatedAsyncioTestCase):
    """A reader of blobs of 1 MB, or of 9 bytes if they begin with a zero, over a disk of 100 MB. Of these 20 MB are
    free, and 5 MB are the reserve."""

    async def asyncSetUp(self) -> None:
        self.network = mock.Mock(fetch=self.fetch)
        self.network.walrus.pool = concurrent.futures.ThreadPoolExecutor(2)
        self.addCleanup(self.network.walrus.pool.shutdown)
        self.reader = Reader(self.network, Options())
        self.addAsyncCleanup(self.reader.close)
        self.disk = Disk(self.reader, 100_000_000, 20_000_000)
        self.enterContext(mock.patch.object(os, "statvfs", self.disk.statvfs))

    async def fetch(self, name: bytes, *_: object) -> bytes:
        return bytes(1_000_000 if name[0] else 9)

    async def want(self, number: int) -> None:
        async with self.reader.cache.use(bytes([number] * 32)):
            pass

    def kept(self) -> list[int]:
        return [name[0] for name in self.reader.cache.entries]

    async def test_what_was_read_leaves_twice_the_reserve_free(self) -> None:
        async with self.reader.cache.use(bytes([1] * 32)):
            for number in (0, *range(2, 40)):
                await self.want(number)
                self.assertGreaterEqual(self.disk.free(), 10_000_000)
            self.assertEqual(self.kept(), [1, 0, *range(31, 40)])  # what is used, or in memory, stays
        self.assertFalse(self.reader.is_short)
        self.assertEqual(self.reader.cache.size, sum(it.size for it in self.reader.cache.entries.values()))

    async def test_a_disk_that_others_fill_gets_all_that_nobody_uses(self) -> None:
        async with self.reader.cache.use(bytes([1] * 32)):
            for number in range(6):
                await self.want(number)
            self.disk.room = 9_000_000
            with mock.patch.object(reading, "LOOK", 0.01):
                self.reader.keeping = asyncio.create_task(self.reader.keep_room())
                async with asyncio.timeout(60):
                    while not self.reader.is_short:
                        await asyncio.sleep(0.01)
            self.reader.keeping.cancel()
            await asyncio.wait([self.reader.keeping])
            self.assertEqual(self.kept(), [0, 1])
            await self.want(7)  # reads go on
            with mock.patch.object(self.reader, "stands", return_value=True):
                self.reader.read_ahead([(bytes([8] * 32), 1_000_000, 0, 1_000_000)])
            self.assertEqual(len(self.reader.ahead), 0)
        self.disk.room = 20_000_000
        await self.want(9)
        self.assertEqual((self.kept(), self.reader.is_short), ([0, 1, 7, 9], False))

    async def test_a_large_disk_is_short_only_if_less_than_the_reserve_and_the_room_of_the_cache_is_free(self) -> None:
        room = self.reader.options.room
        self.disk.size, self.disk.room = 10**12, 5 * 10**10 + room + 5_000_000
        for number in range(1, 6):
            await self.want(number)
        await self.reader.make_room()
        self.assertEqual((self.kept(), self.reader.is_short), ([1, 2, 3, 4, 5], False))
        with mock.patch.multiple(self.reader, stands=mock.Mock(return_value=True), must_stand=mock.Mock()):
            self.reader.read_ahead([(bytes([6] * 32), 1_000_000, 0, 1_000_000)])
            self.assertEqual(len(self.reader.ahead), 1)
            await asyncio.wait(self.reader.ahead)
        self.assertEqual((self.kept(), self.reader.is_short), ([2, 3, 4, 5, 6], False))
        self.disk.room -= 6_000_000
        await self.reader.make_room()
        self.assertEqual((self.kept(), self.reader.is_short), ([], True))

    async def test_a_blob_for_which_there_is_no_room_is_refused_in_words(self) -> None:
        full = OSError(28, "No space left on device")
        with mock.patch.object(reading, "put_away", side_effect=full), self.assertRaises(errors.Problem) as raised:
            await self.want(1)
        self.assertEqual(raised.exception.status, 503)
        self.assertIn("cannot put what is read on its disk ([Errno 28] No space", str(raised.exception))
        await self.want(1)


class Looks(GuardCase):
    async def test_a_gateway_looks_at_its_disk(self) -> None:
        self.enterContext(mock.patch.object(reading, "LOOK", 0.01))
        with mock.patch.object(Reader, "make_room", mock.AsyncMock(side_effect=OSError(5, "an error"))) as made:
            await self.start()
            async with asyncio.timeout(60):
                while made.await_count < 2:  # an error does not end it
                    await asyncio.sleep(0.01)
            await self.gateway.reader.close()
            assert self.gateway.reader.keeping
            await asyncio.wait([self.gateway.reader.keeping])

"""What a folder costs of a share, however storing it ends, and where it waits until all of it has arrived."""
import asyncio
import os
import pathlib
import tempfile
import threading
import types
import unittest
import weakref
from typing import Any, AsyncIterator, Optional
from unittest import mock

from walrus import client
from walrus.network.gateway.auth import shares
from walrus.network.gateway.auth.shares import Charge, Shares
from walrus.network.gateway.auth.tokens import Token
from walrus.network.gateway.http.errors import Problem
from walrus.network.gateway.resources import spool as pieces
from walrus.network.gateway.write import folder_upload
from walrus.network.gateway.write.folder_upload import Costs, Storing
from walrus.network.service.task_groups import several

PIECE = 1_000


class Writer:
    """Stores nothing: it reads what arrives, and then returns, or fails, or waits for ever."""

    def __init__(self) -> None:
        self.network = types.SimpleNamespace(ledger=types.SimpleNamespace(writing_epoch=0))
        self.waiting = 0

    async def store(self, stream: AsyncIterator[bytes], epochs: int, stored: list[bytes]) -> dict[str, Any]:
        size, last = 0, b""
        async for part in stream:
            size, last = size + len(part), part
        if last.endswith(b"fails"):
            while not self.waiting:
                await asyncio.sleep(0)
            raise client.Failed("it is told to fail", {})
        if last.endswith(b"waits"):
            self.waiting += 1
            await asyncio.Event().wait()
        return {"blobId": "00" * 32, "size": size, "alreadyCertified": last.endswith(b"there"), "endEpoch": epochs}


class Costing(unittest.IsolatedAsyncioTestCase):
    async def asyncSetUp(self) -> None:
        asyncio.get_running_loop().set_debug(False)
        folder = tempfile.TemporaryDirectory()
        self.addCleanup(folder.cleanup)
        for module in (folder_upload, shares):
            self.enterContext(mock.patch.object(module, "PIECE", PIECE))
        self.shares = Shares(pathlib.Path(folder.name, "used"))
        self.addCleanup(self.shares.close)

    def storing(self, most: Optional[int] = None) -> Storing:
        token = mock.Mock(spec=Token, bounds={"bytes": most, "blobs": None})
        token.name = "one"
        self.costs = Costs(Charge(self.shares, token, 0))
        return Storing(Writer(), self.costs, 5, [])  # type: ignore[arg-type]

    async def parts(self, *parts: bytes) -> AsyncIterator[bytes]:
        for part in parts:
            yield part

    def used(self) -> tuple[int, int]:
        """Returns what was taken of a share once all is over."""
        self.costs.settle(False, False)
        return self.shares.used("one", 0)

    async def test_where_one_file_fails_what_the_others_did_not_store_is_given_back(self) -> None:
        storing = self.storing()
        files = [self.parts(b"x" * 1_500, b"y" * 600 + b"waits"), self.parts(b"fails"), self.parts(b"x" * 300)]
        with self.assertRaises(client.Failed):
            await several((storing.store(it) for it in files), 3)
        self.assertEqual(self.used(), (2_000 + 300, 2 + 1))  # two whole pieces of the first, and the last one

    async def test_who_breaks_off_is_given_back_what_is_not_stored(self) -> None:
        storing = self.storing()
        task = asyncio.create_task(storing.store(self.parts(b"x" * 1_500, b"waits")))
        while not storing.writer.waiting:  # type: ignore[attr-defined]
            await asyncio.sleep(0)
        self.assertEqual(self.shares.used("one", 0), (1_505, 3))  # two pieces and their list
        task.cancel()
        with self.assertRaises(asyncio.CancelledError):
            await task
        self.assertEqual(self.used(), (1_000, 1))

    async def test_what_is_beyond_a_share_costs_nothing_of_it(self) -> None:
        storing = self.storing(1_500)
        await storing.store(self.parts(b"x" * 900))
        with self.assertRaises(Problem):
            await storing.store(self.parts(b"x" * 500, b"y" * 400))
        self.assertEqual(self.used(), (900, 1))

    async def test_a_part_that_is_refused_makes_no_piece_whole(self) -> None:
        storing = self.storing(1_500)
        await storing.store(self.parts(b"x" * 900))
        with self.assertRaises(Problem):
            await storing.store(self.parts(b"x" * 500, b"y" * 600))
        self.assertEqual(self.used(), (900, 1))

    async def test_a_part_of_a_single_file_that_is_refused_makes_no_piece_whole(self) -> None:
        self.storing(1_950)
        charge = Charge(self.shares, self.costs.token, 0)
        for size in (1_400, 500):
            charge.add(size)
        with self.assertRaises(Problem):
            charge.add(200)
        charge.settle(False, False)
        self.assertEqual(self.shares.used("one", 0), (1_000, 1))  # and not the second one, which never came whole

    async def test_what_was_there_costs_nothing(self) -> None:
        storing = self.storing()
        await storing.store(self.parts(b"x" * 1_500, b"there"))
        self.assertEqual((storing.is_new, self.used()), (False, (0, 0)))


class Spooled(unittest.IsolatedAsyncioTestCase):
    """The bytes of a folder as they arrive, over a disk that is slow."""

    async def asyncSetUp(self) -> None:
        asyncio.get_running_loop().set_debug(False)
        self.enterContext(mock.patch.object(pieces, "AHEAD", 10))
        self.spool = folder_upload.Spool(0.0)

    def held(self, name: str) -> tuple[threading.Event, threading.Event]:
        """Blocks a system call from here on. Returns an event that is set once it is made, and one that releases it."""
        made, goes_on, call = threading.Event(), threading.Event(), getattr(os, name)

        def slow(*words: Any) -> Any:
            made.set()
            goes_on.wait(120)
            return call(*words)

        self.enterContext(mock.patch.object(pieces.os, name, slow))
        self.addCleanup(goes_on.set)
        return made, goes_on

    async def test_what_came_is_read_wherever_parts_and_files_end(self) -> None:
        for part in (b"", b"first ", b"part", b" and a long part behind it", b"."):
            await self.spool.add(part)
        end = self.spool.end
        await self.spool.add(b"which goes ag")  # some of it is on the disk
        self.spool.cut(end)
        await self.spool.add(b" End")
        self.spool.cut(end + 1)  # all of it is in memory
        await self.spool.add(b"Over")
        await self.spool.flush()
        whole = b"first part and a long part behind it. Over"
        self.assertEqual((self.spool.end, await self.spool.read((len(whole), 0))), (len(whole), whole))
        self.assertEqual(await self.spool.read((4, 38), (6, 0), (0, 5)), b"Overfirst ")

    async def test_a_slow_disk_holds_up_nobody_else(self) -> None:
        for name, work in (
            ("pwrite", lambda: self.spool.add(b"longer than ten bytes" * 9)),
            ("pread", lambda: self.spool.read((21, 168))),
        ):
            made, goes_on = self.held(name)
            task = asyncio.create_task(work())
            while not made.is_set():
                await asyncio.sleep(0.001)
            self.assertFalse(task.done())  # and this test goes on
            goes_on.set()
            await task
        self.assertEqual(task.result(), b"longer than ten bytes")

    async def test_its_file_stays_as_long_as_a_thread_is_at_it(self) -> None:
        made, goes_on = self.held("pwrite")
        task = asyncio.create_task(self.spool.add(b"longer than ten bytes"))
        while not made.is_set():
            await asyncio.sleep(0.001)
        task.cancel()
        with self.assertRaises(asyncio.CancelledError):
            await task
        assert self.spool.file is not None
        file = weakref.ref(self.spool.file)
        self.spool.close()
        await asyncio.sleep(0.01)
        self.assertIsNotNone(file())  # else it is closed, and another file may have its number, and be written to
        goes_on.set()
        while file():
            await asyncio.sleep(0.001)

    async def test_a_slow_disk_holds_up_no_other_upload(self) -> None:
        async def parts(*parts: bytes) -> AsyncIterator[bytes]:
            for part in parts:
                yield part

        async def split(*sent: bytes) -> list[bytes]:
            return [bytes(await pieces.in_memory(it)) async for it in pieces.split(parts(*sent), 30)]

        files, entered, goes_on = tempfile.TemporaryFile, threading.Event(), threading.Event()
        self.addCleanup(goes_on.set)

        def slow(*words: Any, **options: Any) -> Any:
            entered.set()
            goes_on.wait(20)
            return files(*words, **options)

        self.enterContext(mock.patch.object(tempfile, "TemporaryFile", slow))
        long = asyncio.create_task(split(b"longer than ten bytes", b", and so than the next piece"))
        while not entered.is_set():
            await asyncio.sleep(0.001)
        self.assertEqual((await split(b"10 bytes, ", b""), long.done()), ([b"10 bytes, "], False))
        goes_on.set()
        self.assertEqual(await long, [b"longer than ten bytes, and so ", b"than the next piece"])

    async def test_what_stays_in_memory_goes_through_no_thread(self) -> None:
        with mock.patch.object(pieces, "DISK", None), mock.patch.object(pieces, "in_thread", None):
            for sent in ([], [b""], [b"ten", b" bytes", b"."]):
                spool = pieces.Spool()
                for part in sent:
                    await spool.add(part)
                self.assertEqual(await spool.whole(), b"".join(sent))
                spool.close()

"""What a shard reports and stores while its disk takes long to sync, or fails to."""
import asyncio
import contextlib
import io
import os
import pathlib
import sqlite3
import tempfile
import threading
import types
import unittest
from typing import Any
from unittest import mock

from walrus.format.frames import METADATA, PRIMARY
from walrus.network.node.disk.store import Store
from walrus.network.node.node import Node


class Slow(unittest.IsolatedAsyncioTestCase):
    """A store on a disk whose syncs take long, or fail."""

    async def asyncSetUp(self) -> None:
        asyncio.get_running_loop().set_debug(False)
        self.folder = pathlib.Path(self.enterContext(tempfile.TemporaryDirectory(prefix="walrus-slow-")))
        self.syncs, self.goes_on, self.fault = list[int](), threading.Semaphore(0), None  # type: Any, Any, Any
        self.enterContext(mock.patch("os.fdatasync", self.sync))
        self.enterContext(mock.patch("walrus.network.node.disk.group_commit.LATER", 99.0))
        self.told = list[Exception]()
        self.store = Store(self.folder / "a.db", fail=self.told.append)
        self.store.begin(0, 0)

        async def end() -> None:
            for _ in range(9):
                self.goes_on.release()
            self.store.close()

        self.addAsyncCleanup(end)

    def sync(self, file: Any) -> None:
        self.syncs.append(file.fileno())
        self.goes_on.acquire()
        if self.fault:
            raise self.fault

    def put(self, number: int) -> "asyncio.Future[bool]":
        self.store.put(1, 0, bytes([number]) * 32, METADATA, b"metadata", None)
        written = self.store.written()
        assert written
        return written

    async def begun(self, count: int) -> None:
        """Wait until `count` syncs have begun."""
        async with asyncio.timeout(60):
            while len(self.syncs) < count:
                await asyncio.sleep(0.001)

    async def test_the_log_is_brought_into_the_database_by_the_thread_that_syncs_it(self) -> None:
        def sizes() -> tuple[int, int]:
            return (self.folder / "a.db").stat().st_size, (self.folder / "a.db-wal").stat().st_size

        before, each = sizes()[0], 60_000
        for count in range(100):
            self.store.stage("INSERT INTO contents VALUES (NULL, ?, NULL)", bytes([count]) * each)
        self.assertTrue(self.store.flush())
        await self.begun(1)
        self.assertEqual((sizes()[0], sizes()[1] > 100 * each), (before, True))  # the loop only wrote to the log
        self.goes_on.release()
        self.assertTrue(await self.store.durable())
        later = asyncio.create_task(self.store.asked(lambda base: base.execute("SELECT count(*) FROM held").fetchone()))
        await self.store.calm()
        self.assertGreater(sizes()[0], 100 * each)
        self.assertEqual(await later, (0,))
        self.goes_on.release()
        self.assertTrue(await self.put(1))
        self.assertLess(sizes()[1], each)  # it began anew
        self.assertEqual(self.store.base.execute("SELECT count(*) FROM contents").fetchone(), (101,))

    async def test_where_memory_lacks_to_bring_the_log_in_the_node_goes_on_and_does_it_later(self) -> None:
        """Python raises `MemoryError` then, which is no `sqlite3.Error`."""
        lacking: Any = types.SimpleNamespace(execute=mock.Mock(side_effect=MemoryError))
        self.store.bring(lacking)
        lacking.execute.assert_called_once()
        for _ in range(9):
            self.goes_on.release()
        with mock.patch("walrus.network.node.disk.group_commit.LONG", 1), mock.patch(
            "sqlite3.connect", side_effect=MemoryError
        ):
            self.assertTrue(await asyncio.wait_for(self.put(1), 60))
            await asyncio.wait_for(self.store.calm(), 60)
        self.assertTrue(await asyncio.wait_for(self.put(2), 60))

    async def test_nothing_is_told_before_a_thread_has_synced_it_and_others_go_on_meanwhile(self) -> None:
        first = self.put(1)
        await self.begun(1)
        self.assertEqual((first.done(), self.store.sizes(1, 0, bytes([1]) * 32)), (False, {METADATA: 8}))
        self.assertIs(self.store.written(), first)  # if nothing new is staged, such as for a part that is sent again
        second, third = self.put(2), self.put(3)
        self.assertTrue(self.store.flush())
        fourth = self.put(4)
        self.assertTrue(self.store.flush())
        await asyncio.sleep(0.05)
        self.assertEqual((len(self.syncs), first.done(), second.done()), (1, False, False))
        self.goes_on.release()
        self.assertTrue(await first)
        await self.begun(2)
        self.assertEqual((second is third, second.done(), fourth.done()), (True, False, False))
        self.goes_on.release()
        self.assertEqual(await asyncio.gather(second, fourth), [True, True])  # with one sync
        self.assertEqual((len(self.syncs), self.told), (2, []))
        self.assertTrue(os.path.samestat(os.fstat(self.syncs[0]), os.stat(self.folder / "a.db-wal")))

    async def test_behind_a_sync_that_fails_nothing_is_told_to_be_there(self) -> None:
        file = self.store.files.write(bytes(32), b"before")[0]
        self.store.put(1, 0, bytes(32), PRIMARY, b"before", file)
        self.assertTrue(self.store.flush())
        self.goes_on.release()
        self.assertTrue(await self.store.durable())
        self.store.expire([bytes(32)])
        first, self.fault = self.put(1), OSError(5, "Input/output error")
        await self.begun(2)
        second = self.put(2)
        self.assertTrue(self.store.flush())
        self.goes_on.release()
        self.assertEqual(await asyncio.gather(first, second), [False, False])
        self.fault = None
        self.assertFalse(await self.put(3))
        self.assertEqual(len(self.syncs), 2)
        self.assertRegex(str(self.told[0]), "the log of .* is not synced: Input/output error; look at the disk before")
        self.assertTrue(self.store.files.path(file).exists())  # as the database on the disk may still name it

    async def test_a_node_ends_by_a_sync_that_fails(self) -> None:
        node: Any = types.SimpleNamespace(failed=asyncio.get_running_loop().create_future())
        self.store.fail, self.fault = types.MethodType(Node.fail, node), OSError(5, "Input/output error")
        self.goes_on.release()
        self.assertFalse(await self.put(1))
        with self.assertRaisesRegex(OSError, "is not synced"):
            await asyncio.wait_for(node.failed, 60)

    async def test_what_is_staged_while_others_are_synced_shares_a_commit_and_a_sync(self) -> None:
        first = self.put(1)
        await self.begun(1)
        ran = list[str]()
        self.store.base.set_trace_callback(ran.append)
        later = list["asyncio.Future[bool]"]()
        for number in range(2, 6):
            later.append(self.put(number))
            await asyncio.sleep(0.01)  # longer than `SOON`
        self.assertNotIn("COMMIT", ran)
        self.goes_on.release()
        await self.begun(2)
        self.goes_on.release()
        self.assertEqual(await asyncio.wait_for(asyncio.gather(first, *later), 60), [True] * 5)
        self.assertEqual((ran.count("COMMIT"), len(self.syncs)), (1, 2))

    async def test_what_is_committed_is_synced_though_what_is_staged_behind_it_is_lost(self) -> None:
        first = self.put(1)
        await self.begun(1)
        second = self.put(2)
        self.assertTrue(self.store.flush())
        third, base = self.put(3), self.store.base

        def execute(words: str, *values: Any) -> sqlite3.Cursor:
            if words == "COMMIT":
                raise sqlite3.OperationalError("database or disk is full")
            return base.execute(words, *values)

        refusing = types.SimpleNamespace(execute=execute, in_transaction=True)
        with mock.patch.object(self.store, "base", refusing), contextlib.redirect_stderr(io.StringIO()):
            self.goes_on.release()
            self.assertEqual((await first, await third), (True, False))
        self.goes_on.release()
        self.assertTrue(await asyncio.wait_for(second, 60))
        self.assertEqual(len(self.syncs), 2)

    async def test_who_waits_as_the_store_is_closed_is_told(self) -> None:
        store = Store(self.folder / "b.db", fail=self.told.append)
        store.begin(0, 0)
        first = store.written()
        assert first
        await self.begun(1)
        store.begin(0, 1)
        second = asyncio.create_task(store.durable())
        await asyncio.sleep(0)
        self.goes_on.release()
        store.close()
        self.assertEqual(await asyncio.wait_for(asyncio.gather(first, second), 60), [False, False])
        again = Store(self.folder / "b.db")
        self.assertEqual((again.holding(0, 0), again.holding(0, 1)), (1, 2))
        again.close()

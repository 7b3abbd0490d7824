"""What a shard does if its disk is full, its memory is short, or what it judges by is lost."""
import asyncio
import collections
import ctypes
import os
import pathlib
import sqlite3
import threading
import time
import types
import unittest
from typing import Any
from unittest import mock

import pytest
from support.harness import lacking
from support.shard_case import LARGE, ShardCase
from walrus import client
from walrus.format import kinds
from walrus.format.frames import code_of
from walrus.network.node import judge, shard
from walrus.network.node.judge import Busy, Unjudged
from walrus.network.node.node import Node

pytestmark = pytest.mark.alone


@unittest.skipIf(lacking(), f"{lacking()} is not here (network/install)")
class Trouble(ShardCase):
    def lose(self) -> None:
        assert self.store
        self.store.lose(sqlite3.OperationalError("it is told to lose this"))

    async def test_a_full_disk_refuses_and_loses_nothing_that_it_has(self) -> None:
        assert self.store
        metadata, primary, _ = await self.put(b"first")
        self.enterContext(mock.patch("walrus.network.node.shard.SMALL", 99_999))
        self.store.base.execute("PRAGMA max_page_count = 1")
        parts = await self.parts(bytes(9_000))
        codes = [code_of(await self.shard.put(part)) for part in parts]
        self.assertIn(shard.FULL, codes)
        self.assertEqual(await self.read(primary[1:33]), [metadata, primary])
        self.store.base.execute("PRAGMA max_page_count = 99999")
        codes = {code_of(await self.shard.put(part)) for part in parts}
        self.assertLessEqual(codes, {client.DONE, client.HELD})
        self.assertTrue(self.shard.settled(parts[1][1:33]))

    async def test_the_disk_with_less_room_counts_that_of_the_database_or_that_of_the_files(self) -> None:
        assert self.store
        [metadata, *_], self.shard.reserve = await self.parts(b"first"), 0.05
        for full in (self.store.path.parent, self.store.files.folder):
            use = collections.defaultdict(lambda: types.SimpleNamespace(total=10**11, free=2 * 10**10))
            use[full] = types.SimpleNamespace(total=10**13, free=4 * 10**11)  # below its reserve
            with mock.patch("walrus.network.node.disk.store.shutil.disk_usage", use.__getitem__):
                self.assertEqual((self.shard.free_pages(), self.store.disk(0.05)), (0, use[full]))
                self.assertEqual(code_of(await self.shard.put(metadata)), shard.FULL)
        self.assertEqual(code_of(await self.shard.put(metadata)), client.DONE)

    async def test_a_fault_that_cannot_be_reported_leaves_nothing_half_rolled_back(self) -> None:
        assert self.store
        self.store.begin(0, 7)
        written = self.store.written()
        assert written
        self.store.base.execute("PRAGMA max_page_count = 1")
        with mock.patch("sys.stderr", mock.Mock(write=mock.Mock(side_effect=OSError(28, "No space left on device")))):
            with self.assertRaises(OSError):
                self.store.state("name", "x" * 99_999)
        self.store.base.execute("PRAGMA max_page_count = 99999")
        self.assertEqual((self.store.losses, await asyncio.wait_for(written, 60)), (1, False))
        self.store.state("name", "y")
        self.assertTrue(await asyncio.wait_for(self.store.durable(), 60))
        self.assertEqual(self.store.losses, 1)

    async def test_a_file_that_the_disk_does_not_take_is_refused(self) -> None:
        assert self.store
        metadata, primary, secondary = await self.parts(bytes(LARGE))
        self.assertEqual(code_of(await self.shard.put(metadata)), client.DONE)
        with mock.patch("os.fsync", side_effect=OSError(28, "No space left on device")):
            self.assertEqual(code_of(await self.shard.put(primary)), shard.FULL)
        self.assertEqual(self.files(), [])
        self.assertEqual(code_of(await self.shard.put(primary)), client.DONE)

    async def test_of_a_blob_that_comes_whole_all_is_stored_or_nothing(self) -> None:
        assert self.store
        sync, left = os.fsync, [3]  # the sync of the folder of both files fails

        def full(file: int) -> None:
            left[0] -= 1
            if not left[0]:
                raise OSError(28, "No space left on device")
            sync(file)

        whole = await self.whole(LARGE)
        with mock.patch("os.fsync", full):
            self.assertEqual(code_of(await self.shard.put_whole(whole)), shard.FULL)
        await self.left(0)
        self.assertEqual(self.shard.lacks(whole.identifier), [0, 1, 2])
        with mock.patch.object(self.store, "note", lambda *_: self.lose()):
            self.store.recorded = True
            self.assertEqual(code_of(await self.shard.put_whole(whole)), shard.FULL)
        await self.left(0)
        self.assertEqual(code_of(await self.shard.put_whole(whole)), 13)
        self.assertTrue(self.store.flush())
        self.open()
        self.assertEqual(await self.read(whole.identifier), [bytes(it) for it in whole.parts[:2]])
        self.assertEqual(await self.shard.put_whole(whole), [])  # it is held already

    async def test_what_is_written_beside_the_judge_goes_if_the_blob_is_refused(self) -> None:
        assert self.store
        wrong, unjudged, right = [await self.whole(size) for size in (LARGE, LARGE + 250, LARGE + 500)]
        wrong.parts[2][-1] ^= 1
        files = self.store.files
        with mock.patch.object(judge, "SHORT", 0):
            with mock.patch.object(files, "write", side_effect=files.write) as write:
                self.assertEqual(code_of(await self.shard.put_whole(wrong)), kinds.UNVERIFIED)
                await self.left(0)
                with mock.patch.object(type(self.judges.engine), "run", side_effect=Unjudged("walrus serve ended")):
                    with self.assertRaises(Unjudged):
                        await self.shard.put_whole(unjudged)
                await self.left(0)
                self.assertEqual(code_of(await self.shard.put_whole(right)), 13)
                self.assertEqual((write.call_count, len(self.files())), (3, 2))

    async def test_of_small_blobs_that_come_at_once_each_has_its_own_judgement(self) -> None:
        assert self.store
        wholes, count = [await self.whole(250 * size) for size in (1, 2, 3, 4)], self.judges.count
        wholes[1].parts[2][-1] ^= 1
        self.ledger.blobs.expire(9)
        for whole in wholes[:3]:
            self.apply("x", "register", whole.identifier.hex(), 10)
        said = await asyncio.gather(*map(self.shard.put_whole, wholes))
        self.assertEqual([*map(code_of, said)], [13, kinds.UNVERIFIED, 13, shard.UNREGISTERED])
        self.assertEqual(self.judges.count - count, len(wholes))
        self.assertTrue(self.store.flush())
        self.open()
        for whole in (wholes[0], wholes[2]):
            self.assertEqual(await self.read(whole.identifier), [bytes(it) for it in whole.parts[:2]])
        for whole in (wholes[1], wholes[3]):
            self.assertEqual(self.shard.lacks(whole.identifier), [0, 1, 2])

    async def test_a_request_is_after_its_judgement_as_it_came(self) -> None:
        whole = await self.whole(250)
        request = whole.memory[whole.start :][: whole.end - whole.start]  # noqa: E203
        came = bytes(request)
        self.assertEqual(code_of(await self.shard.put_whole(whole)), 13)
        self.assertEqual(bytes(request), came)  # by its kind `Node.reply` waits for the disk

    async def test_a_blob_over_which_no_judgement_comes_spoils_no_other(self) -> None:
        assert self.store
        wholes, serve = [await self.whole(250 * size) for size in (1, 2, 3)], judge.serve

        def judged(engine: Any, faults: int, number: int, pages: int, data: Any, *rest: int) -> Any:
            if bytes(wholes[1].parts[1]) in bytes(data):
                raise Unjudged("walrus serve ended")
            return serve(engine, faults, number, pages, data, *rest)

        with mock.patch("walrus.network.node.judge.serve", judged):
            said = await asyncio.gather(*map(self.shard.put_whole, wholes), return_exceptions=True)
        self.assertIsInstance(said[1], Unjudged)
        self.assertEqual([code_of(it) for it in said[::2] if isinstance(it, list)], [13, 13])
        self.assertEqual(code_of(await self.shard.put_whole(wholes[1])), 13)

    async def test_a_part_is_not_stored_where_what_it_rests_on_is_lost(self) -> None:
        for blob in (b"lost", bytes(LARGE)):
            metadata, primary, _ = await self.parts(blob)
            self.assertEqual(code_of(await self.shard.put(metadata)), client.DONE)
            work = self.judges.work

            async def lose(step: Any, *words: Any, **more: Any) -> Any:
                said = await work(step, *words, **more)
                self.lose()
                return said

            with mock.patch.object(self.judges, "work", lose):
                self.assertEqual(code_of(await self.shard.put(primary)), shard.FULL)
            assert self.store
            self.assertTrue(self.store.flush())
            await self.left(0)
            self.assertEqual([code_of(await self.shard.put(it)) for it in (primary, metadata)], [3, client.DONE])

    async def test_a_part_is_not_put_where_the_note_of_its_answer_is_lost(self) -> None:
        metadata, *_ = await self.parts(b"unnoted")
        assert self.store
        self.store.recorded = True
        with mock.patch.object(self.store, "note", lambda *_: self.lose()):
            self.assertEqual(code_of(await self.shard.put(metadata)), shard.FULL)
        self.assertEqual(code_of(await self.shard.put(metadata)), client.DONE)

    async def test_a_fault_of_the_system_fails_that_request_alone(self) -> None:
        metadata, primary, _ = await self.put(bytes(LARGE))
        identifier = primary[1:33]
        with mock.patch.object(type(self.judges.engine), "run", side_effect=OSError(11, "no process can be had")):
            with self.assertRaises(OSError):
                await self.read(identifier)
        read = open

        def busy(path: Any, *words: Any, **more: Any) -> Any:
            if "parts" in str(path):
                raise OSError(24, "Too many open files")
            return read(path, *words, **more)

        with mock.patch("builtins.open", busy), self.assertRaises(OSError):
            await self.read(identifier)
        self.assertEqual(await self.read(identifier), [metadata, primary])
        self.assertEqual(self.damaged, [])

    async def test_a_node_that_ends_by_several_faults_at_once_says_the_first(self) -> None:
        node: Any = types.SimpleNamespace(failed=asyncio.get_running_loop().create_future())
        fault = sqlite3.DatabaseError("database disk image is malformed")
        Node.fail(node, ExceptionGroup("", [ExceptionGroup("", [fault])]))
        self.assertIs(node.failed.exception(), fault)

    async def test_who_finds_no_memory_waits_and_is_told_to_come_again(self) -> None:
        metadata, primary, _ = await self.put(b"first")
        need = judge.need_of(3_000)
        self.judges.room = judge.Room(need)
        self.assertEqual(await asyncio.gather(*(self.read(primary[1:33]) for _ in range(9))), [[metadata, primary]] * 9)
        async with self.judges.room.take(need):
            waiting = asyncio.create_task(self.read(primary[1:33]))
            await asyncio.sleep(0.1)
            self.assertFalse(waiting.done())
        self.assertEqual(await waiting, [metadata, primary])
        with mock.patch.object(judge.Room.take, "__defaults__", None), self.assertRaises(Busy):
            async with self.judges.room.take(need), self.judges.room.take(1, 0.05):
                pass
        self.assertEqual(self.judges.room.free, need)

    async def test_what_a_large_judgement_had_goes_back_to_the_system_and_of_a_small_one_stays(self) -> None:
        def resident() -> int:
            return int(pathlib.Path("/proc/self/statm").read_text().split()[1]) * os.sysconf("SC_PAGESIZE")

        def judged() -> bytes:
            had = [bytearray(b"x" * 1_000_000) for _ in range(60)]
            return b"y" * (100_000 + len(had))  # allocated after it

        ctypes.CDLL(None).malloc_trim(0)
        before = resident()
        kept = [await self.judges.ask(2_000_000, judged)]
        self.assertLess(resident() - before, 20_000_000)
        kept.append(await self.judges.ask(1_000, judged))
        self.assertGreater(resident() - before, 40_000_000)
        self.assertEqual([*map(len, kept)], [100_060] * 2)

    async def test_as_many_judge_at_once_as_there_are_processors(self) -> None:
        count = len(os.sched_getaffinity(0))
        together, lock, under_way, most = threading.Barrier(count + 1), threading.Lock(), 0, 0

        def step(waits: bool) -> None:
            nonlocal under_way, most
            with lock:
                under_way += 1
                most = max(most, under_way)
            if waits:
                together.wait(30)  # until that many are here at once
            else:
                time.sleep(0.01)
            with lock:
                under_way -= 1

        self.judges.room = judge.Room(10_000_000_000)
        loop = asyncio.get_running_loop()
        at_once = [asyncio.create_task(self.judges.ask(100_000, step, True)) for _ in range(count)]
        await loop.run_in_executor(None, together.wait, 30)
        await asyncio.gather(*at_once)
        await asyncio.gather(*(self.judges.ask(100_000, step, False) for _ in range(5 * count)))
        self.assertEqual(most, count)

    async def test_where_memory_is_wanting_one_after_the_other_goes_on(self) -> None:
        self.judges.keep(1)
        metadata, primary, _ = await self.put(b"first")
        tried, run = list[bool](), judge.judge

        def wanting(*words: Any) -> Any:
            tried.append(self.judges.kept is not None)
            if self.judges.kept is not None:
                raise MemoryError
            return run(*words)

        with mock.patch.object(judge, "judge", wanting):
            replies = await asyncio.gather(*(self.read(primary[1:33]) for _ in range(3)))
        self.assertEqual(replies, [[metadata, primary]] * 3)
        self.assertEqual(sorted(tried), [False] * 3 + [True] * 3)
        self.assertIsNotNone(self.judges.kept)

"""Followers and recorders of the ledger on a full disk: what they keep in memory is bounded, and they go on later."""
import asyncio
import collections
import contextlib
import functools
import io
import pathlib
import random
import sqlite3
import tempfile
import time
import types
import unittest
import zlib
from typing import Any
from unittest import mock

from support.harness import lacking
from support.ledger_case import Plain
from support.recorder_case import RecorderCase
from support.rules_case import COMMITTEES, RulesCase, random_entries
from walrus.network.deploy.local import Local
from walrus.network.ledger import state
from walrus.network.ledger.entries import OPERATOR, Chain, entry_key
from walrus.network.ledger.follower import News, View
from walrus.network.ledger.rules import Ledger
from walrus.network.ledger.state import HELD, State
from walrus.network.recorder.appender import Recorder
from walrus.network.recorder.etcd import Batch, Failed
from walrus.network.service.database import ROOM

SOME = 100  # entries that may wait here


class Full(sqlite3.Connection):
    """A connection whose commits fail while `full`, and are counted."""

    full, commits = False, 0

    def execute(self, words: str, *values: Any) -> sqlite3.Cursor:
        Full.commits += words == "COMMIT"
        if words == "COMMIT" and Full.full:
            super().execute("ROLLBACK")
            raise sqlite3.OperationalError("database or disk is full")
        return super().execute(words, *values)


class FullCase(unittest.IsolatedAsyncioTestCase):
    async def asyncSetUp(self) -> None:
        asyncio.get_running_loop().set_debug(False)
        Full.full, Full.commits, connect = False, 0, sqlite3.connect
        self.folder = self.enterContext(tempfile.TemporaryDirectory(prefix="walrus-full-"))
        self.enterContext(contextlib.redirect_stderr(io.StringIO()))
        with mock.patch.object(state.sqlite3, "connect", lambda *it, **to: connect(*it, **to, factory=Full)):
            self.kept = State(f"{self.folder}/kept")
        self.addCleanup(self.end)

    def end(self) -> None:
        Full.full = False
        self.kept.close()

    def free(self, size: int) -> Any:
        """Pretend that `size` bytes of the disk are free."""
        return mock.patch(
            "walrus.network.service.database.shutil.disk_usage", lambda _: types.SimpleNamespace(free=size)
        )


class Followers(FullCase, RulesCase):
    async def test_no_more_is_heard_than_may_wait_and_all_of_it_once_there_is_room(self) -> None:
        self.enterContext(mock.patch.multiple(state, HELD=SOME, LATER=0.0, REST=0))
        recorders: Any = types.SimpleNamespace(said="")
        view, entries, ledger = (
            View(recorders, self.kept),
            random_entries(random.Random(7), COMMITTEES),
            Ledger(Plain()),
        )

        async def hear() -> None:
            chain = Chain(0, bytes(32))
            for place in range(0, len(entries), 40):
                some = entries[place : place + 40]  # noqa: E203
                chain = chain.behind([it.text for it in some])
                await view.enter(News(chain, some, len(entries), "ab"))
                await asyncio.sleep(0)

        Full.full = True
        hearing = asyncio.create_task(hear())
        async with asyncio.timeout(60):
            while not hearing.done() and not recorders.said:
                await asyncio.sleep(0.01)
        self.assertEqual((len(self.kept.fresh), hearing.done()), (3 * 40, False))
        self.assertEqual(recorders.said, f"the disk does not take {self.folder}/kept")
        Full.full = False
        await asyncio.wait_for(hearing, 60)
        for entry in entries:
            ledger.apply(entry)
        self.same(ledger, self.kept.ledger)
        self.kept.again = 0.0
        self.assertTrue(self.kept.settle())

    async def test_who_has_heard_all_hears_over_a_full_disk_that_there_is_nothing_more(self) -> None:
        """Otherwise a gateway that lacks nothing would take the ledger to be away, and stop reads."""
        self.enterContext(mock.patch.multiple(state, HELD=SOME, LATER=0.0, REST=0))
        view = View(mock.Mock(said=""), self.kept)
        texts = [entry_key(OPERATOR, "begin", 0, 1, "a,b,c,d")]
        texts += [entry_key("x", "register", f"{number:064}", 5) for number in range(SOME + 5)]
        start, Full.full = Chain(0, bytes(32)), True
        chain, entries = start.behind(texts), start.followed(texts)
        await asyncio.wait_for(view.enter(News(chain, entries, len(entries), "ab")), 60)
        self.assertEqual((self.kept.takes_more(), view.caught_up), (False, True))
        heard = view.heard_at
        await asyncio.wait_for(view.enter(News(chain, [], len(entries), "ab")), 60)
        self.assertGreater(view.heard_at, heard)
        more = [entry_key("x", "register", f"{SOME + 5:064}", 5)]
        with self.assertRaises(TimeoutError):
            await asyncio.wait_for(view.enter(News(chain.behind(more), chain.followed(more), len(entries), "ab")), 2)
        self.assertEqual((view.chain, len(self.kept.fresh)), (chain, len(entries)))

    async def test_over_a_disk_that_is_known_to_be_full_nothing_is_tried(self) -> None:
        entries = Chain(0, bytes(32)).followed([entry_key(OPERATOR, "begin", 0, 1, "a,b,c,d")])
        self.kept.ledger.apply(entries[0])
        self.kept.apply, Full.full = mock.Mock(side_effect=self.kept.ledger.apply), True
        chain = Chain(0, bytes(32)).behind(it.text for it in entries)
        self.kept.save(chain, entries)
        tried = Full.commits, self.kept.apply.call_count
        for room, tries in ((0, 0), (ROOM - 1, 0), (ROOM, 1)):
            self.kept.again = 0.0
            with self.free(room):
                self.assertFalse(self.kept.settle())
            self.assertEqual((Full.commits, self.kept.apply.call_count), (tried[0] + tries, tried[1] + tries))
        Full.full, self.kept.again = False, 0.0
        with mock.patch(
            "walrus.network.service.database.shutil.disk_usage", side_effect=OSError(5, "Input/output error")
        ):
            self.assertTrue(self.kept.settle())
        with self.free(0):
            self.kept.save(chain)
        self.assertTrue(self.kept.whole)

    async def test_a_fault_that_cannot_be_reported_leaves_nothing_half_applied(self) -> None:
        entries = Chain(0, bytes(32)).followed([entry_key(OPERATOR, "begin", 0, 1, "a,b,c,d")])
        self.kept.ledger.apply(entries[0])
        Full.full = True
        with mock.patch("sys.stderr", mock.Mock(write=mock.Mock(side_effect=OSError(28, "No space left on device")))):
            with self.assertRaises(OSError):
                self.kept.save(Chain(0, bytes(32)).behind(it.text for it in entries), entries)
        self.assertEqual((self.kept.whole, self.kept.ledger.now), (False, tuple("abcd")))
        Full.full, self.kept.again = False, 0.0
        self.assertTrue(self.kept.settle())

    async def test_a_checkpoint_waits_for_room(self) -> None:
        self.enterContext(mock.patch.object(state, "LATER", 0.01))
        pieces, self.kept.fault = [zlib.compress(it) for it in State().written()], "database or disk is full"
        with self.free(0):
            taking = asyncio.create_task(self.kept.take(pieces))
            await asyncio.sleep(0.1)
            self.assertEqual((Full.commits, taking.done()), (0, False))
        await asyncio.wait_for(taking, 60)

    async def test_what_may_wait_is_applied_again_in_a_moment(self) -> None:
        """Otherwise a node, gateway or recorder answers nobody in the meantime, again and again."""
        texts, count = [entry_key(OPERATOR, "begin", 0, 1, "a,b,c,d")], HELD + state.DROPPED
        for number in range(count // 4):
            name = number.to_bytes(32, "little").hex()
            texts += [entry_key("x", "register", name, 5), *(entry_key(it, "ack", 0, name) for it in "abc")]
        entries = Chain(0, bytes(32)).followed(texts)
        for entry in entries:
            self.kept.ledger.apply(entry)
        Full.full, begun = True, time.process_time()
        self.kept.save(Chain(0, bytes(32)).behind(texts), entries)
        self.assertFalse(self.kept.whole)
        self.assertLess(time.process_time() - begun, 1.0)


class Recorders(FullCase, RecorderCase):
    async def asyncSetUp(self) -> None:
        await RecorderCase.asyncSetUp(self)
        await FullCase.asyncSetUp(self)
        self.enterContext(mock.patch.multiple(state, HELD=SOME, LATER=0.0, REST=0))

    async def test_a_recorder_reads_and_appends_no_more_than_may_wait(self) -> None:
        writer = await self.recorder(entry_key(OPERATOR, "begin", 0, 1, "a,b,c,d"), entry_key("a", "past", 0))
        for number in range(20):
            texts = [entry_key("x", "register", f"{number:032}{it:032}", 5) for it in range(20)]
            self.assertTrue(await writer.step(Batch(writer.chain, texts)))
        reader, Full.full = Recorder(self.etcd, self.kept), True
        with self.assertRaisesRegex(Failed, f"the disk does not take {self.folder}/kept: database or disk is full"):
            await reader.catch_up()
        self.assertEqual(
            (len(self.kept.fresh), reader.chain.place), (2 + 5 * 20, 2 + 5 * 20)
        )  # not the two batches that are read at once
        Full.full = False
        await reader.catch_up()
        self.assertEqual((reader.chain, reader.ledger.posted), (writer.chain, collections.Counter(x=400)))
        Full.full, top = True, self.etcd.top
        for number in range(SOME):
            await reader.step(Batch(reader.chain, [entry_key("y", "register", f"{number:064}", 5)]))
        more, reader.seen = Batch(reader.chain, [entry_key("y", "register", f"{SOME:064}", 5)]), 0.0
        with self.assertRaises(Failed):
            await reader.step(more)
        self.assertEqual((await reader.step(), reader.fresh), (True, True))  # as it has read all that etcd has
        self.assertEqual((self.etcd.top, reader.chain.place), (reader.head(reader.chain), 402 + SOME))
        self.assertNotEqual(self.etcd.top, top)
        await writer.catch_up()
        self.assertTrue(await writer.step(more))
        reader.seen = 0.0
        with self.assertRaises(Failed):
            await reader.step()
        self.assertEqual((reader.fresh, reader.chain.place), (False, 402 + SOME))
        Full.full = False
        await reader.catch_up()
        self.assertEqual((reader.fresh, reader.chain), (True, writer.chain))


@unittest.skipIf(lacking(), f"{lacking()} is not here (network/install)")
class Services(unittest.IsolatedAsyncioTestCase):
    async def test_a_service_goes_on_where_its_lines_cannot_be_written(self) -> None:
        """Such as with `network/up`, where they go to files on the disk of the databases."""
        asyncio.get_running_loop().set_debug(False)
        folder = self.enterContext(tempfile.TemporaryDirectory(prefix="walrus-full-"))
        local, full = Local(pathlib.Path(folder)), self.enterContext(open("/dev/full", "wb"))
        self.addAsyncCleanup(local.close)
        await local.found()
        await local.add_node("node-0")
        with mock.patch.object(local, "spawn", functools.partial(local.spawn, stderr=full)):
            await local.start_recorder("recorder-0")  # reports that etcd is away
            await local.start_node("node-0")  # reports after 5 s that the ledger is away
        self.assertEqual([it.returncode for it in local.processes.values()], [None, None])

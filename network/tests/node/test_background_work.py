"""A node's work besides its replies, if it takes long or the disk fails: checks of pages, sweeps and scrubs. And votes,
each of which it posts once."""
import asyncio
import contextlib
import io
import pathlib
import shutil
import sqlite3
import tempfile
import types
import unittest
from typing import Any
from unittest import mock

from support.ledger_case import FOUNDED, registration
from walrus import client
from walrus.format.frames import METADATA, PRIMARY, SECONDARY, answer, code_of
from walrus.network.ledger.entries import ACK, Entry
from walrus.network.ledger.follower import Refused
from walrus.network.ledger.rules import Ledger
from walrus.network.node import scrub
from walrus.network.node.disk import store
from walrus.network.node.disk.store import Store
from walrus.network.node.judge import Busy
from walrus.network.node.node import Node
from walrus.network.node.scrub import Scrub
from walrus.network.node.shard import DECLINED

NAMES = [bytes([number]) * 32 for number in range(10)]


class Pages(unittest.IsolatedAsyncioTestCase):
    async def test_a_start_checks_what_names_parts_and_reads_no_content(self) -> None:
        """So it takes no longer if more bytes are held; a torn page of contents is found when it is read."""
        folder = pathlib.Path(self.enterContext(tempfile.TemporaryDirectory(prefix="walrus-pages-")))
        store = Store(folder / "whole.db")
        store.begin(0, 0)
        for name in NAMES:
            store.put(1, 0, name, METADATA, bytes(9_000), None)
        pages = dict(store.base.execute("SELECT name, rootpage FROM sqlite_master").fetchall())
        store.close()
        for table in ("held", "contents"):
            path = pathlib.Path(shutil.copy(folder / "whole.db", folder / f"{table}.db"))
            with open(path, "r+b") as file:
                file.seek(4_096 * (pages[table] - 1))
                file.write(b"\xa5" * 4_096)
        with self.assertRaises(sqlite3.DatabaseError):
            Store(folder / "held.db")
        store = Store(folder / "contents.db")
        self.addCleanup(store.close)
        self.assertEqual(store.sizes(1, 0, NAMES[0]), {METADATA: 9_000})
        with self.assertRaises(sqlite3.DatabaseError):
            store.parts(1, 0, NAMES[0], [METADATA])

    async def test_a_torn_page_that_is_written_ends_the_node(self) -> None:
        """Otherwise it would store nothing, and wait for ever for what must be on the disk."""
        self.enterContext(contextlib.redirect_stderr(io.StringIO()))
        path = pathlib.Path(self.enterContext(tempfile.TemporaryDirectory(prefix="walrus-pages-"))) / "a.db"
        store = Store(path)
        store.begin(0, 0)
        for name in NAMES:
            store.put(1, 0, name, METADATA, bytes(9_000), None)
        self.assertTrue(await store.durable())
        store.expire(NAMES[:5])
        store.close()
        with open(path, "r+b") as file:
            file.seek(32)
            free = int.from_bytes(file.read(4), "big")  # the first free page
            file.seek(4_096 * (free - 1))
            file.write(b"\xa5" * 4_096)
        told = list[Exception]()
        store = Store(path, fail=told.append)
        self.addCleanup(store.close)
        with self.assertRaises(sqlite3.DatabaseError):
            store.put(1, 0, NAMES[0], METADATA, bytes(9_000), None)
        self.assertEqual([type(it) for it in told], [sqlite3.DatabaseError])


class DiskCase(unittest.IsolatedAsyncioTestCase):
    """A disk with some blobs of one shard, and a scrub of it."""

    async def asyncSetUp(self) -> None:
        asyncio.get_running_loop().set_debug(False)
        self.said = self.enterContext(contextlib.redirect_stderr(io.StringIO()))
        folder = self.enterContext(tempfile.TemporaryDirectory(prefix="walrus-chores-"))
        self.store = Store(pathlib.Path(folder) / "a.db")
        self.addCleanup(self.store.close)
        self.store.begin(0, 0)
        for name in NAMES:
            for part in (METADATA, PRIMARY, SECONDARY):
                self.store.put(1, 0, name, part, b"content", None)
        self.node: Any = types.SimpleNamespace(name="a", store=self.store, sides={}, caught_up=False)
        self.node.ledger = types.SimpleNamespace(blobs=types.SimpleNamespace(over=lambda count: [], base=None))
        self.node.state = types.SimpleNamespace(base=None)
        self.node.settings = types.SimpleNamespace(scrub=0, scrub_rate=10**9, reserve=0.0, grace=3_600.0)
        self.enterContext(mock.patch.object(scrub, "PAUSE", 0.05))
        self.scrub = Scrub(self.node)

    def held(self) -> int:
        """Return how many parts the disk has."""
        [(held, contents)] = self.store.base.execute("SELECT (SELECT count(*) FROM held), count(*) FROM contents")
        self.assertEqual(held, contents)
        return int(held)

    async def until(self, holds: Any) -> None:
        async with asyncio.timeout(30):
            while not holds():
                await asyncio.sleep(0.005)

    def begin(self, work: Any) -> None:
        task = asyncio.create_task(work)

        async def end() -> None:
            task.cancel()
            await asyncio.gather(task, return_exceptions=True)

        self.addAsyncCleanup(end)


class Sweeps(DiskCase):
    async def test_what_a_move_let_go_goes_step_by_step_behind_its_turn_and_nobody_sees_it(self) -> None:
        """Otherwise many badly encoded blobs of one publisher make all nodes stand still at the same time."""
        self.store.begin(1, 0)
        for name in NAMES[1:]:
            self.store.forget(1, 1, name)
        with mock.patch.object(store, "BATCH", 4):
            self.assertFalse(self.store.sweep())  # as the present committee still has it
            self.assertEqual([len(self.store.sizes(1, epoch, NAMES[1])) for epoch in (0, 1)], [3, 1])
            self.store.turn(1)
            self.assertEqual(self.held(), 30)
            self.store.begin(2, 0)
            self.store.forget(1, 2, NAMES[1])  # again, before it is swept
            self.assertEqual([len(self.store.sizes(1, epoch, NAMES[1])) for epoch in (1, 2)], [1, 1])
            self.store.put(1, 2, NAMES[2], PRIMARY, b"anew", None)
            left = list[int]()
            while self.store.sweep():
                left.append(self.held())
        self.assertEqual(left, [27, 23, 19, 15, 13])
        self.assertEqual([len(self.store.sizes(1, 2, name)) for name in NAMES], [3, 1, 2] + [1] * 7)

    async def test_what_a_full_disk_does_not_take_is_swept_later(self) -> None:
        self.store.turn(1)  # now the shard is no longer here
        stage, full = self.store.stage, [sqlite3.OperationalError("database or disk is full")]

        def staged(words: str, *values: object) -> sqlite3.Cursor:
            if words.startswith("DELETE") and full:
                raise full.pop()
            return stage(words, *values)

        with mock.patch.object(self.store, "stage", staged):
            self.begin(self.scrub.sweep_always())
            await self.until(lambda: not self.held())

    async def test_a_sweep_that_is_not_committed_waits_before_it_is_tried_again(self) -> None:
        """Otherwise it deletes the same again and again, and each time others lose what they have staged."""
        self.store.turn(1)
        self.assertTrue(await self.store.durable())
        base = self.store.base

        def execute(words: str, *values: Any) -> sqlite3.Cursor:
            if words == "COMMIT":
                raise sqlite3.OperationalError("database or disk is full")
            return base.execute(words, *values)

        refusing = types.SimpleNamespace(execute=execute, in_transaction=True)
        swept = mock.Mock(side_effect=self.store.sweep)
        with mock.patch.object(scrub, "PAUSE", 0.2), mock.patch.object(self.store, "sweep", swept):
            with mock.patch.object(self.store, "base", refusing):
                self.begin(self.scrub.sweep_always())
                await self.until(lambda: swept.called)  # once all folders were compared
                await asyncio.sleep(0.5)
            self.assertIn(swept.call_count, (1, 2, 3))
            await self.until(lambda: not self.held())


class Expiry(DiskCase):
    async def test_expired_blobs_are_dropped_a_few_at_a_time(self) -> None:
        """Otherwise a node on a busy machine stops for half a second, again and again, after an epoch change."""
        self.node.ledger, over = mock.Mock(epoch=1), [*NAMES, *(bytes([9, it]) * 16 for it in range(150))]
        self.node.ledger.blobs.over, self.node.state.base = lambda count: over[:count], self.node.ledger.blobs.base
        self.node.ledger.blobs.drop = lambda dropped: over.__delitem__(slice(len(dropped)))
        with mock.patch.object(self.store, "expire", wraps=self.store.expire) as expire:
            await self.scrub.expire()
        self.assertEqual((over, self.held()), ([], 0))
        self.assertLessEqual(max(len(it.args[0]) for it in expire.call_args_list), 50)


class Loading(DiskCase):
    async def test_rows_of_expired_blobs_are_dropped_once_no_checkpoint_is_being_loaded(self) -> None:
        """Entries that are being applied keep nobody waiting, as there may be many of them."""
        over, dropped, blobs = [NAMES[:2], []], list[list[bytes]](), self.node.ledger.blobs
        blobs.over, blobs.drop = lambda count: over.pop(0), dropped.append
        self.node.ledger.epoch, self.node.state.entering, blobs.base = 1, True, object()  # which reads meanwhile
        dropping = asyncio.create_task(self.scrub.expire())
        await asyncio.sleep(0.2)
        self.assertEqual((dropped, dropping.done()), ([], False))
        blobs.base = self.node.state.base
        await asyncio.wait_for(dropping, 30)
        self.assertEqual(dropped, [NAMES[:2]])

    async def test_a_node_that_still_reads_the_ledger_does_not_say_that_it_is_away(self) -> None:
        made = mock.MagicMock(turn=mock.AsyncMock(), until=mock.AsyncMock(return_value=False), watched=asyncio.sleep)
        made.follow.return_value = 0
        for entering, silence, made.recorders.pieces, why in (
            (True, 9.0, [], "is still being read"),
            (False, 1.0, [], "is still"),
            (False, 9.0, [b"of a checkpoint that is coming"], "is still"),
            (False, 9.0, [], "is away"),
        ):
            made.state.entering, made.silence.return_value = entering, silence
            with mock.patch("ssl.create_default_context", side_effect=EOFError), self.assertRaises(EOFError):
                await Node.open(made)
            self.assertIn(f": the ledger {why}", self.said.getvalue().splitlines()[-1])


class Scrubs(DiskCase):
    async def scrubbed(self, fails: int) -> list[bytes]:
        """Return the blobs that a scrub has checked; the check of the second one fails `fails` times."""
        found = list[bytes]()

        async def check(identifier: bytes) -> tuple[int, bool]:
            if identifier == NAMES[1] and self.tried < fails:
                self.tried += 1
                raise Busy("9 of 9 bytes are taken")
            found.append(identifier)
            return 21, True

        self.tried, self.node.sides = 0, {0: {0: types.SimpleNamespace(holding=1, epoch=0, check=check)}}
        self.enterContext(mock.patch.object(scrub, "PAUSE", 0.001))
        self.scrub.now.set()
        self.begin(self.scrub.run())
        await self.until(lambda: self.scrub.figures.begun and not self.scrub.figures.running)
        return found

    async def test_a_blob_whose_check_fails_is_checked_again(self) -> None:
        self.assertEqual((await self.scrubbed(2), self.scrub.figures.blobs), (NAMES, 10))
        self.assertNotIn("passes over", self.said.getvalue())

    async def test_a_blob_whose_check_always_fails_is_named_and_holds_up_no_other(self) -> None:
        self.assertEqual((await self.scrubbed(10**9), self.scrub.figures.blobs), ([NAMES[0], *NAMES[2:]], 9))
        self.assertEqual(self.tried, scrub.TRIES)
        self.assertIn(f"the scrub passes over {NAMES[1].hex()}", self.said.getvalue())


class Words(unittest.IsolatedAsyncioTestCase):
    async def asyncSetUp(self) -> None:
        asyncio.get_running_loop().set_debug(False)
        self.ledger, self.name = Ledger(), (1).to_bytes(32, "big")
        self.enter(FOUNDED)
        self.enter(registration("x", 1))
        self.posted, self.waits = mock.AsyncMock(side_effect=Refused("the same was posted before")), True
        self.node: Any = types.SimpleNamespace(name="node-0", ledger=self.ledger, until=mock.AsyncMock())
        self.node.store = mock.Mock(losses=0, durable=mock.AsyncMock(return_value=True))
        self.node.port, self.node.sides = mock.Mock(give_way=lambda: self.waits), {}
        self.node.recorders = types.SimpleNamespace(post=self.posted)

    def enter(self, text: str) -> None:
        self.assertTrue(self.ledger.apply(Entry(self.ledger.revision + 1, text)))

    def say(self, name: str) -> None:
        self.enter(f"{name}/ack/0/{self.name.hex()}")

    async def vouched(self) -> list[bytes]:
        shard: Any = types.SimpleNamespace(epoch=0, answer=mock.AsyncMock(return_value=[answer(13, 1)]))
        return await Node.vouch(self.node, ACK, shard, client.write_frame(client.Ack(self.name)))

    async def test_who_asks_for_a_word_that_the_ledger_has_hears_it_and_nothing_is_posted(self) -> None:
        self.waits = False
        self.say("node-0")
        self.assertEqual(await self.vouched(), [answer(13, 1)])
        self.say("node-1")
        self.say("node-2")
        self.assertEqual(await self.vouched(), [answer(14, 3)])
        self.posted.assert_not_awaited()

    async def test_a_word_that_is_refused_as_the_ledger_has_it_meanwhile_is_said(self) -> None:
        self.assertEqual(code_of(await self.vouched()), DECLINED)

        async def post(text: str) -> None:
            self.say("node-0")
            raise Refused("the same was posted before")

        self.node.recorders.post = post
        self.assertEqual(await self.vouched(), [answer(13, 1)])

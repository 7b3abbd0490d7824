"""What a shard holds as committees change."""
import asyncio
import contextlib
import io
import sqlite3
import types
import unittest
from typing import Any
from unittest import mock

from support.harness import lacking
from support.shard_case import LARGE, NodeCase
from walrus import client
from walrus.format.frames import code_of
from walrus.network.ledger.entries import OPERATOR, entry_key
from walrus.network.node import handover, recovery, shard
from walrus.network.node.node import Node


@unittest.skipIf(lacking(), f"{lacking()} is not here (network/install)")
class Committees(NodeCase):
    async def test_what_stays_is_a_row_and_what_ends_goes(self) -> None:
        assert self.store
        stays, ends = await self.certified(bytes(LARGE)), await self.certified(bytes(LARGE + 1), until=1)
        files = {it: it.stat().st_ino for it in self.files()}
        self.apply(OPERATOR, "begin", 1, 1, "a,b,c,e")
        later = self.side(1)
        self.assertEqual(later.holding, self.shard.holding)
        self.assertEqual([later.settled(stays), self.shard.settled(stays)], [True, True])
        ask = client.write_frame(client.Read(stays))
        self.assertEqual(await later.answer(ask), await self.shard.answer(ask))
        self.assertEqual(len(await later.answer(client.write_frame(client.Read(ends)))), 1)
        self.assertEqual(len(await self.shard.answer(client.write_frame(client.Read(ends)))), 3)
        news = await self.parts(b"news")
        self.assertEqual(code_of(await self.shard.put(news[0])), shard.DECLINED)
        self.assertEqual([code_of(await later.put(it)) for it in news], [client.DONE] * 3)
        self.assertEqual([later.settled(news[1][1:33]), self.shard.settled(news[1][1:33])], [True, False])
        for poster in "abc":
            self.apply(poster, "ready", 1)
        self.apply("a", "finish", 1)
        self.store.turn(1)
        self.store.expire([ends])
        self.assertTrue(self.store.flush())
        await self.left(2)
        left = {it: node for it, node in files.items() if it.name.startswith(stays.hex())}
        self.assertEqual(({it: it.stat().st_ino for it in self.files()}, len(left)), (left, 2))
        with self.assertRaises(ConnectionError):
            await self.shard.answer(ask)

    async def test_who_asks_while_the_committee_turns_hears_that_of_now(self) -> None:
        assert self.store
        parts = await self.put(bytes(LARGE))
        self.apply(OPERATOR, "begin", 1, 1, "a,b,c,e")
        node, asked, over = self.node({0: {0: self.shard}, 1: {0: self.side(1)}}), asyncio.Event(), asyncio.Event()
        node.reply, node.route = types.MethodType(Node.reply, node), types.MethodType(Node.route, node)
        ask = self.judges.ask

        async def wait(*words: Any) -> Any:
            asked.set()
            await over.wait()
            return await ask(*words)

        with mock.patch.object(self.judges, "ask", wait):
            reading = asyncio.create_task(node.reply(0, client.write_frame(client.Read(parts[1][1:33]))))
            await asked.wait()
            for poster in "abc":
                self.apply(poster, "ready", 1)
            self.apply("a", "finish", 1)
            self.store.turn(1)
            del node.sides[0]
            over.set()
            said = [bytes(payload) for _, payload in client.split(b"".join((await reading).parts))]
        self.assertEqual(said[:2], [bytes(it) for it in parts[:2]])

    async def test_a_blob_that_comes_whole_late_is_not_for_the_committee_before(self) -> None:
        assert self.store
        whole = await self.whole(LARGE)
        async with self.store.alone(self.shard.holding, whole.identifier):
            storing = asyncio.create_task(self.shard.put_whole(whole))
            await asyncio.sleep(0)
            self.apply(OPERATOR, "begin", 1, 1, "a,b,c,e")
        self.assertEqual(code_of(await storing), shard.DECLINED)
        later = self.side(1)
        self.assertEqual([it.lacks(whole.identifier) for it in (self.shard, later)], [[0, 1, 2]] * 2)
        self.assertEqual(code_of(await later.put_whole(whole)), 13)

    async def test_where_the_ledger_was_saved_before_a_turn_what_is_held_is_held(self) -> None:
        assert self.store
        parts = await self.put(b"held")
        later = self.store.begin(1, 0)
        self.store.turn(1)
        self.assertIsNone(self.store.holding(0, 0))
        before = self.side(0)  # as after a restart with a ledger that has not heard of the epoch change
        self.assertEqual(before.holding, later)
        said = await before.answer(client.write_frame(client.Read(parts[1][1:33])))
        self.assertEqual(said[:-1], parts[:2])

    async def test_what_the_next_committee_forgets_this_one_has_still(self) -> None:
        assert self.store
        name = await self.certified(b"both")
        self.apply(OPERATOR, "begin", 1, 1, "a,b,c,e")
        later = self.side(1)
        self.store.forget(later.holding, 1, name)
        self.assertEqual([it.vouches("ack", name) for it in (self.shard, later)], [True, False])
        self.store.turn(1)
        self.assertEqual([self.store.sweep() for _ in range(2)], [True, False])
        self.assertTrue(self.store.flush())
        self.assertEqual(self.store.counts()["blobs"], 1)
        [(left,)] = self.store.base.execute("SELECT count(*) FROM contents")
        self.assertEqual(left, 1)

    async def test_what_a_shard_held_that_is_here_no_more_is_swept(self) -> None:
        assert self.store
        for number in range(5):
            await self.certified(bytes([number]) * LARGE)
        self.store.turn(1)
        with mock.patch("walrus.network.node.disk.store.BATCH", 2):
            self.assertEqual([self.store.sweep() for _ in range(9)], [True] * 4 + [False] * 5)
        self.store.flush()
        await self.left(0)
        self.assertEqual(self.store.counts()["bytes"], 0)

    async def test_what_is_lost_while_others_are_filled_is_lacking(self) -> None:
        blobs = {parts[1][1:33]: parts for parts in [await self.parts(b"first"), await self.parts(b"second")]}

        async def fill(node: Node, filled: shard.Shard, identifier: bytes) -> None:
            for part in blobs[identifier]:
                await filled.put(part)
            if identifier == [*blobs][1] and not lost:
                lost.append(True)
                assert self.store
                self.store.lose(sqlite3.OperationalError("it is told to lose this"))

        lost = list[bool]()
        nothing = mock.AsyncMock(return_value=b"")
        self.enterContext(mock.patch.object(recovery, "find_metadata", nothing))
        with mock.patch.object(recovery, "fill", fill), mock.patch.object(recovery, "LANES", 1):
            left = [await recovery.settle(self.node({0: {0: self.shard}}), 0, [*blobs]) for _ in range(2)]
        self.assertEqual(left, [2, 0])

    async def test_a_handover_goes_on_below_the_reserve(self) -> None:
        names = [await self.lacks(size) for size in (700, LARGE)]
        self.apply(OPERATOR, "begin", 1, 1, "a,b,c,e")
        later = self.side(1)
        later.reserve = 1.0
        refused = await self.parts(b"new")
        self.assertEqual(code_of(await later.put(refused[0])), shard.FULL)
        node = self.node({0: {0: self.shard}, 1: {0: later}})
        node.port.tell = mock.Mock()
        with self.free(0.1):  # of the disk, all of which is reserve: its last fifth is for notes
            self.assertEqual(await recovery.settle(node, 1, names), 2)
        self.assertEqual((node.port.tell.call_count, [it.asked for it in self.seats]), (1, [[], [], [], []]))
        with self.free(0.3):
            await handover.move(node)
        self.assertEqual([later.settled(it) for it in names], [True, True])
        self.assertEqual(node.posted, [entry_key("a", "ready", 1)])

    async def test_what_the_disk_loses_behind_ready_is_recovered_while_the_handover_is_under_way(self) -> None:
        """It may last for weeks, and those that leave delete what they hold at its end."""
        lost, open_one = await self.lacks(700), await self.lacks(800, certified=False)
        self.apply(OPERATOR, "begin", 1, 1, "a,b,c,d")
        node = self.node({0: {0: self.shard}, 1: {0: self.side(1)}})
        self.assertNotIn(1, (await handover.survey(node))[0])  # what it lacks before that, `move` recovers
        self.apply("a", "ready", 1)
        new = await self.lacks(LARGE)
        self.assertEqual((await handover.survey(node))[0][1], {lost: True, new: False})
        node.settings, node.until, said = types.SimpleNamespace(heal=0.0), mock.AsyncMock(), io.StringIO()
        with contextlib.redirect_stderr(said):
            healing = asyncio.create_task(handover.heal(node))
            async with asyncio.timeout(60):
                while not all(node.sides[1][0].settled(it) for it in (lost, new)):
                    await asyncio.sleep(0.01)
            healing.cancel()
        self.assertIn(f"1 blobs are lacking on the disk that this node has vouched for, {lost.hex()}:", said.getvalue())
        self.assertEqual((self.ledger.moving, node.sides[1][0].settled(open_one)), (True, False))

    async def test_who_has_no_shard_yet_is_not_ready(self) -> None:
        name = await self.certified(b"owed")
        self.apply(OPERATOR, "begin", 1, 1, "a,b,c,e")
        self.assertEqual([*self.ledger.must_hold()], [name])
        node = self.node({0: {0: self.shard}})  # `begin` is not on the disk yet
        await handover.move(node)
        self.assertEqual(node.posted, [])

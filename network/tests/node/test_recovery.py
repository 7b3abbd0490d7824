"""What a node recovers, and what it does not: if it has no room, may not store it, or would delay others."""
import asyncio
import functools
import sqlite3
import types
import unittest
from typing import Any
from unittest import mock

from support.harness import lacking
from support.ledger_case import Listed
from support.shard_case import LARGE, NodeCase
from walrus import client
from walrus.format.frames import METADATA, PRIMARY, answer
from walrus.network.ledger.entries import ATTEST, OPERATOR
from walrus.network.node import handover, recovery

import example_tools

AWAY, COUNTED = [answer(*client.LEDGER_AWAY)], [answer(13, 1)]


@unittest.skipIf(lacking(), f"{lacking()} is not here (network/install)")
class Left(NodeCase):
    async def test_what_the_disk_has_no_room_for_is_not_fetched(self) -> None:
        """Two and a half pages are free; each sliver of a blob of 30,000 bytes takes more than two."""
        large, small = await self.lacks(30_000), await self.lacks(700)
        node = self.node({0: {0: self.shard}})
        node.port.tell, self.shard.reserve = mock.Mock(), 1.0
        asked = self.enterContext(mock.patch.object(client, "recover", wraps=client.recover))
        with self.free(0.2 + 2.5 * 4096 / 10**12):
            left = [await recovery.settle(node, 0, [large, small]) for _ in range(2)]
        self.assertEqual((left, self.shard.settled(small)), ([1, 1], True))
        self.assertEqual({it.args[1].identifier for it in asked.call_args_list}, {small})
        said = [it.args[0] for it in node.port.tell.call_args_list]
        self.assertEqual(said, ["a: the disk has no room for the missing blobs (network/OPERATING.md)"] * 2)
        with self.free(0.3):
            self.assertEqual(await recovery.settle(node, 0, [large, small]), 0)

    async def test_what_a_disk_could_not_read_for_a_moment_is_taken_back_and_nobody_is_asked(self) -> None:
        """Otherwise storage that fails briefly under more than f nodes leaves blobs unreadable, with no byte lost."""
        assert self.store
        metadata, primary, _ = await self.put(bytes(range(250)) * (LARGE // 250))
        name, node = primary[1:33], self.node({0: {0: self.shard}})
        with mock.patch.object(self.store.files, "read", return_value=b""):
            self.assertEqual(await self.read(name), [metadata])
            for seat in self.seats:
                seat.fails = True
            self.assertEqual(await recovery.settle(node, 0, [name]), 1)
        self.assertFalse(self.shard.settled(name))
        asked = [[*it.asked] for it in self.seats]
        self.assertEqual(await recovery.settle(node, 0, [name]), 0)
        self.assertEqual((await self.read(name), [it.asked for it in self.seats]), ([metadata, primary], asked))

    async def test_in_a_move_nothing_is_recovered_for_a_committee_that_takes_nothing_more(self) -> None:
        assert self.store
        names, held = [await self.lacks(LARGE) for _ in range(2)], (await self.put(bytes(LARGE)))[1][1:33]
        self.others[held] = await self.walrus.encode(bytes(LARGE), 1)
        await self.shard.put(self.others[names[0]].metadata)
        self.apply(OPERATOR, "begin", 1, 1, "a,b,c,e")
        node = self.node({0: {0: self.shard}, 1: {0: self.side(1)}})
        await recovery.settle(node, 0, names)
        self.assertEqual([it.asked for it in self.seats], [[]] * 4)
        self.enterContext(mock.patch.object(self.shard, "check"))  # which would find it sound
        for part in (METADATA, PRIMARY):  # it takes parts that replace wrong ones
            self.store.mark(self.shard.holding, held, part, True)
            await recovery.settle(node, 0, [*names, held])
            self.assertTrue(self.shard.settled(held))
        self.assertEqual(await recovery.settle(node, 1, [*names, held]), 0)

    async def test_a_move_that_begins_meanwhile_ends_what_is_recovered_for_the_committee_before(self) -> None:
        name, find = await self.lacks(LARGE), recovery.find_metadata

        async def begin(*words: Any) -> bytes:
            found = await find(*words)
            if not self.ledger.moving:
                self.apply(OPERATOR, "begin", 1, 1, "a,b,c,e")
            return found

        fill = mock.AsyncMock()
        with mock.patch.object(recovery, "find_metadata", begin), mock.patch.object(recovery, "fill", fill):
            await recovery.settle(self.node({0: {0: self.shard}}), 0, [name])
        fill.assert_not_called()

    async def test_who_settles_many_blobs_lets_others_have_turns(self) -> None:
        """Otherwise many registered blobs block each node that is new or lost its disk, until systemd kills it."""
        looks = most = 0

        def look(*_: object) -> bool:
            nonlocal looks, most
            looks += 1
            most = max(most, looks)
            return False

        async def nothing(*_: object) -> bytes:
            return b""

        async def turns() -> None:
            nonlocal looks
            while True:
                looks = 0
                await asyncio.sleep(0)

        names, turning = [it.to_bytes(32, "big") for it in range(1_000)], asyncio.create_task(turns())
        shard = mock.Mock(settled=look, wants=lambda it: not look(it), vouches=look, holding=1, epoch=0)
        node, blobs = self.node({0: {0: shard}}), dict.fromkeys(names, types.SimpleNamespace(until=9))
        node.ledger = types.SimpleNamespace(certificate=look, writing_epoch=0, blobs=blobs, voted=look)
        with mock.patch.multiple(recovery, PAGE=100, find_metadata=nothing, fill=nothing):
            self.assertEqual(await recovery.settle(node, 0, names), 1_000)
            await handover.acknowledge(node, names)
        turning.cancel()
        self.assertLessEqual(most, 200)  # two for each blob of a page

    async def test_blobs_that_are_not_owed_are_passed_over_in_steps(self) -> None:
        """Otherwise a node reads all live blobs without a certificate in one go, in each round of a handover."""
        turned, node, name = 0, self.node({0: {0: self.shard}}), await self.lacks(60)
        for number in range(500):
            self.apply("x", "register", f"{number:064x}", 9)

        async def turns() -> None:
            nonlocal turned
            while True:
                turned += 1
                await asyncio.sleep(0)

        turning = asyncio.create_task(turns())
        with mock.patch.object(recovery, "PAGE", 50), mock.patch.object(self.store, "settled", return_value=set()):
            found = [it async for it in recovery.lacking(node, 0, self.ledger.blobs.owed(0, 0))]
        turning.cancel()
        self.assertEqual(([[it.identifier for it in some] for some in found], turned >= 10), ([[name]], True))
        self.assertEqual([*self.ledger.blobs.owed(0, 0)], [name])

    async def test_where_very_many_are_lacking_all_are_recovered_and_none_is_waited_for(self) -> None:
        names, node, some = [await self.lacks(60) for _ in range(5)], self.node({0: {0: self.shard}}), self.ledger.blobs
        node.until, node.settings = mock.AsyncMock(), types.SimpleNamespace(heal=3_600)
        self.enterContext(mock.patch.object(some, "page", functools.partial(some.page, count=1)))
        self.enterContext(mock.patch.multiple(recovery, PAGE=1, MANY=2))
        self.enterContext(mock.patch.object(handover, "MANY", 2))
        self.assertEqual(await handover.survey(node), ({0: dict.fromkeys(sorted(names)[:2], False)}, []))
        healing = asyncio.create_task(handover.heal(node))
        async with asyncio.timeout(60):
            while not all(map(self.shard.settled, names)):
                await asyncio.sleep(0.01)
        healing.cancel()
        self.assertEqual((node.progress.of, node.progress.blobs), (5, 5))

    async def test_what_was_there_and_is_lost_meanwhile_is_lacking(self) -> None:
        """A client stores a blob while a node looks at what it holds, and then the disk loses the blob."""
        assert self.store
        names = sorted([await self.lacks(700), await self.lacks(700)])
        usual, node, late = self.store.settled, self.node({0: {0: self.shard}}), self.others[names[0]]

        async def settled(holding: int, epoch: int, *ends: bytes) -> set[bytes]:
            assert self.store
            if ends[0] == names[1]:
                self.store.lose(sqlite3.OperationalError("it is told to lose this"))
            found = await usual(holding, epoch, *ends)
            for part in (late.metadata, *late.slivers[0]) if ends[0] == names[0] else ():
                await self.shard.put(part)
            return found

        self.enterContext(mock.patch.object(recovery, "PAGE", 1))
        for _ in range(2):  # first while the other one is recovered, then while it is there
            with mock.patch.object(self.store, "settled", settled):
                self.assertGreater(await recovery.settle(node, 0, Listed(names)), 0)
            self.assertEqual([self.shard.settled(it) for it in names], [False, True])
        self.assertEqual(await recovery.settle(node, 0, names), 0)

    async def test_a_proof_that_the_ledger_was_away_to_hear_of_is_attested_later(self) -> None:
        bad = await example_tools.encode_badly(self.walrus)
        name, self.others[bad.identifier] = bad.identifier, bad
        self.apply("x", "register", name.hex(), 9)
        target = client.Symbol(name, client.SECONDARY, 2)  # a row that is badly encoded
        _, self.proofs[name] = await client.recover([self.seats[1], self.seats[3]], target, self.walrus)
        for poster in "bcd":
            self.apply(poster, "ack", 0, name.hex())
        self.apply(OPERATOR, "begin", 1, 1, "a,b,c,e")
        node = self.node({1: {0: self.side(1)}})
        node.until, node.settings = mock.AsyncMock(), types.SimpleNamespace(heal=0.01)
        node.vouch = mock.AsyncMock(side_effect=[AWAY, AWAY, COUNTED])
        self.assertEqual(await recovery.settle(node, 1, self.ledger.must_hold()), 0)
        self.assertEqual(node.vouch.await_count, 1)
        healing = asyncio.create_task(handover.heal(node))
        async with asyncio.timeout(60):
            while node.vouch.await_count < 3 or node.unattested:
                await asyncio.sleep(0.01)
        healing.cancel()
        self.assertEqual([it.args[0] for it in node.vouch.await_args_list], [ATTEST] * 3)

"""What a node recovers for its shard from others."""
import asyncio
import sqlite3
import unittest
from unittest import mock

from support.harness import lacking
from support.shard_case import LARGE, NodeCase
from walrus import client
from walrus.format.frames import PRIMARY, SECONDARY
from walrus.network.ledger.entries import ATTEST
from walrus.network.node import handover, judge, recovery, scrub, shard
from walrus.network.node.node import Node
import example_tools


@unittest.skipIf(lacking(), f"{lacking()} is not here (network/install)")
class Recovery(NodeCase):
    async def test_of_the_others_each_is_asked_once_and_no_more_of_them_than_will_do(self) -> None:
        name, node = await self.lacks(LARGE), self.node({0: {0: self.shard}})
        self.assertEqual(await recovery.settle(node, 0, [name]), 0)
        self.assertTrue(self.shard.settled(name))
        # the first one sent the metadata, two others an opening of each sliver; the third symbol of one is its own
        self.assertEqual([seat.asked for seat in self.seats], [[1], [2], [2], []])
        progress = node.progress
        self.assertEqual((progress.of, progress.blobs, progress.bytes), (1, 1, 5 * 500), progress)
        self.assertEqual(progress.of_bytes, progress.bytes)

    async def test_who_recovers_the_same_at_once_asks_for_it_once(self) -> None:
        name, node = await self.lacks(LARGE), self.node({0: {0: self.shard}})
        left = await asyncio.gather(*(recovery.settle(node, 0, [name]) for _ in range(2)))
        self.assertEqual(left, [0, 0])
        self.assertEqual([seat.asked.count(2) for seat in self.seats], [0, 1, 1, 0])  # for openings of both slivers

    async def test_where_one_fails_another_is_asked_at_once(self) -> None:
        for number, how in ((1, "fails"), (2, "fails"), (1, "clashes"), (2, "clashes")):
            name = await self.lacks(700)
            setattr(self.seats[number], how, True)
            async with asyncio.timeout(60):
                left = await recovery.settle(self.node({0: {0: self.shard}}), 0, [name])
            self.assertEqual((left, self.shard.lacks(name)), (0, []))  # from two of three, and its own symbol
            setattr(self.seats[number], how, False)

    async def test_a_shard_that_another_node_had_before_counts_itself_in_place_of_that_one(self) -> None:
        self.seats[0].name, self.seats[3].fails = "e", True
        name = await self.lacks(700)
        self.assertEqual(await recovery.settle(self.node({0: {0: self.shard}}), 0, [name]), 0)

    async def test_each_sliver_that_is_there_has_a_symbol_of_the_other_one(self) -> None:
        assert self.store
        name = await self.lacks(700)
        self.seats[1].fails = self.seats[2].fails = True
        self.assertEqual(await recovery.settle(self.node({0: {0: self.shard}}), 0, [name]), 1)
        self.assertEqual(self.shard.lacks(name), [PRIMARY, SECONDARY])
        self.seats[1].fails = False
        self.assertEqual(await recovery.settle(self.node({0: {0: self.shard}}), 0, [name]), 0)
        self.store.mark(self.shard.holding, name, SECONDARY, True)
        self.enterContext(mock.patch.object(self.shard, "check"))  # which would find it sound
        self.seats[1].fails = True
        self.assertEqual(await recovery.settle(self.node({0: {0: self.shard}}), 0, [name]), 0)

    async def test_who_is_silent_holds_up_nothing_that_the_others_have(self) -> None:
        """Neither slivers nor a proof of bad encoding, for which all that reply are heard."""
        self.enterContext(mock.patch("walrus.client.shards.LEAST", 2.0))
        self.enterContext(mock.patch("walrus.client.shards.MOST", 2.0))
        bad = await example_tools.encode_badly(self.walrus)
        name = bad.identifier
        self.apply("x", "register", name.hex(), 9)
        for poster in "bcd":
            self.apply(poster, "ack", 0, name.hex())
        self.others[name] = bad
        target = client.Symbol(name, client.SECONDARY, 2)  # a row that is badly encoded
        _, self.proofs[name] = await client.recover([self.seats[1], self.seats[3]], target, self.walrus)
        names = [await self.lacks(LARGE) for _ in range(2 * recovery.LANES)]
        self.seats[1].asked, self.seats[1].silent = [], True
        async with asyncio.timeout(60):
            self.assertEqual(await recovery.settle(self.node({0: {0: self.shard}}), 0, [*names, name]), 0)
        self.assertTrue(self.shard.vouches(ATTEST, name))
        self.assertLessEqual(len(self.seats[1].asked), recovery.LANES)  # for the first ones

    async def test_certified_blobs_come_first_and_of_these_large_ones(self) -> None:
        names = [await self.lacks(size, certified) for size, certified in ((900, False), (90, True), (900, True))]
        names.append(await self.lacks(2_000, False))
        order = list[bytes]()

        async def fill(node: Node, filled: shard.Shard, identifier: bytes) -> None:
            order.append(identifier)

        with mock.patch.object(recovery, "fill", fill), mock.patch.object(recovery, "LANES", 1):
            await recovery.settle(self.node({0: {0: self.shard}}), 0, names)
        self.assertEqual(order, [names[2], names[1], names[3], names[0]])

    async def test_many_blobs_are_recovered_at_once_and_no_more_than_there_are_lanes(self) -> None:
        names, under_way, most = [await self.lacks(60) for _ in range(12)], 0, 0

        async def fill(node: Node, filled: shard.Shard, identifier: bytes) -> None:
            nonlocal under_way, most
            under_way += 1
            most = max(most, under_way)
            await asyncio.sleep(0.05)
            under_way -= 1

        with mock.patch.object(recovery, "fill", fill):
            self.assertEqual(await recovery.settle(self.node({0: {0: self.shard}}), 0, names), 12)
        self.assertEqual(most, recovery.LANES)

    async def test_what_fails_with_one_blob_leaves_the_others_alone(self) -> None:
        fill = recovery.fill
        for fault in (sqlite3.OperationalError("disk I/O error"), IndexError("of what another node replied")):
            names = [await self.lacks(size) for size in (700, 60)]

            async def fail(node: Node, filled: shard.Shard, identifier: bytes) -> None:
                if identifier == names[0]:
                    raise fault
                await fill(node, filled, identifier)

            with mock.patch.object(recovery, "fill", fail):
                self.assertEqual(await recovery.settle(self.node({0: {0: self.shard}}), 0, names), 1)
            self.assertTrue(self.shard.settled(names[1]))

    async def test_a_torn_database_is_not_taken_for_the_fault_of_one_blob(self) -> None:
        name, torn = await self.lacks(700), sqlite3.DatabaseError("database disk image is malformed")
        with mock.patch.object(recovery, "fill", mock.AsyncMock(side_effect=torn)):
            with self.assertRaises(sqlite3.DatabaseError) as raised:
                await recovery.settle(self.node({0: {0: self.shard}}), 0, [name])
        self.assertIs(raised.exception, torn)

    async def test_what_was_recovered_before_a_kill_is_not_recovered_again(self) -> None:
        names, fill = [await self.lacks(700) for _ in range(2)], recovery.fill

        async def end(node: Node, filled: shard.Shard, identifier: bytes) -> None:
            if node.progress.blobs:
                raise judge.Clash
            await fill(node, filled, identifier)
            await node.store.durable()

        with mock.patch.object(recovery, "fill", end), mock.patch.object(recovery, "LANES", 1):
            with self.assertRaises(judge.Clash):
                await recovery.settle(self.node({0: {0: self.shard}}), 0, names)
        self.open()
        self.assertEqual([self.shard.settled(it) for it in names].count(True), 1)
        node = self.node({0: {0: self.shard}})
        self.assertEqual((await recovery.settle(node, 0, names), node.progress.of, node.progress.blobs), (0, 1, 1))

    async def test_where_the_system_gives_no_descriptor_a_node_goes_on_later(self) -> None:
        assert self.store
        name, node = await self.lacks(700), self.node({0: {0: self.shard}})
        node.caught_up, node.settings.heal, node.wrong = True, 0.05, asyncio.Queue()
        self.enterContext(mock.patch.object(handover, "LATEST", 0.05))
        self.enterContext(mock.patch.object(scrub, "PAUSE", 0.05))
        stray, aside = (self.store.files.folder / it / "nobody" for it in ("00", "unnamed"))
        stray.write_bytes(b"x")
        with mock.patch.object(self.store, "path", self.path / "none"):
            works = handover.heal(node), Node.mend(node), scrub.Scrub(node).sweep_always()
            tasks = [asyncio.create_task(work) for work in works]
            node.wrong.put_nowait(name)
            await asyncio.sleep(0.5)
            self.assertEqual([it.done() for it in tasks], [False] * 3)
            with self.assertRaises(sqlite3.OperationalError):
                self.store.reader()
        for _ in range(200):
            if self.shard.settled(name) and aside.exists():
                break
            await asyncio.sleep(0.05)
        self.assertEqual((self.shard.settled(name), stray.exists(), aside.exists()), (True, False, True))
        for task in tasks:
            task.cancel()
        await asyncio.gather(*tasks, return_exceptions=True)

    async def test_a_late_node_gives_its_word_for_all_that_it_holds(self) -> None:
        names = [await self.certified(b"held", of="bcd"), await self.certified(b"said"), await self.lacks(700)]
        names.append((await self.put(b"unsaid by all"))[1][1:33])
        node = self.node({0: {0: self.shard}})
        lacks, unsaid = await handover.survey(node)
        self.assertEqual((lacks, unsaid), ({0: {names[2]: False}}, sorted([names[0], names[3]])))
        await handover.acknowledge(node, names)
        self.assertEqual(sorted(node.vouched), sorted([names[0], names[3]]))

"""What one participant may have all others wait for at a turn of the epoch: many blobs that end, figures, halves."""
import asyncio
import contextlib
import pathlib
import sqlite3
import tempfile
import threading
import time
import types
import unittest
from typing import Any
from unittest import mock

from support.ledger_case import FOUNDED, Listed, registration
from walrus.network.ledger import state
from walrus.network.ledger.entries import Chain, Entry
from walrus.network.ledger.follower import News, Recorders, View
from walrus.network.ledger.state import State
from walrus.network.node import figures, recovery, scrub
from walrus.network.node.disk.store import Store
from walrus.network.node.figures import NodePort
from walrus.network.node.node import Node, mend_of
from walrus.network.node.scrub import Scrub
from walrus.network.peers.seats import FIGURES
from walrus.network.settings.services import Settings
from walrus.wire import port

BEGUN = "operator/begin/1/1/node-0,node-1,node-2,node-3"
OVER = ["node-0/ready/1", "node-1/ready/1", "node-2/ready/1", "node-0/finish/1"]


class TurnCase(unittest.IsolatedAsyncioTestCase):
    async def asyncSetUp(self) -> None:
        asyncio.get_running_loop().set_debug(False)
        self.folder = pathlib.Path(self.enterContext(tempfile.TemporaryDirectory(prefix="walrus-harm-")))


class Turns(TurnCase):
    """A node's disk and its ledger."""

    async def asyncSetUp(self) -> None:
        await super().asyncSetUp()
        self.store, self.state = Store(self.folder / "a.db"), State(str(self.folder / "a.ledger"), 2)
        self.addCleanup(self.store.close)
        self.node = self.made()

    def made(self) -> Any:
        """A node over that disk and that ledger."""
        made: Any = types.SimpleNamespace(ledger=self.state.ledger, store=self.store, sides={}, shards=lambda epoch: {})
        made.name, made.judges, made.turned = "node-0", types.SimpleNamespace(least=1), None
        made.state = self.state
        made.scrub = types.SimpleNamespace(left=asyncio.Event(), node=made)
        made.scrub.expire = types.MethodType(Scrub.expire, made.scrub)
        for name in ("apply", "begins_anew", "turn", "epochs"):
            setattr(made, name, types.MethodType(getattr(Node, name), made))
        return made

    def start(self, name: str) -> None:
        """Has another node over that disk, and over a ledger by its name."""
        self.state.close()
        self.state = State(str(self.folder / name), 2)
        self.addCleanup(self.state.close)
        self.node = self.made()

    async def enter(self, texts: list[str]) -> None:
        """Enters what comes next, and saves it."""
        entries = (self.state.chain or Chain(0, bytes(32))).followed(texts)
        await self.node.apply(entries)
        self.state.save((self.state.chain or Chain(0, bytes(32))).behind(texts), entries)

    def held(self, names: list[bytes]) -> list[bool]:
        """Whether the disk has something of each of these blobs."""
        return [bool(self.store.sizes(1, 1, name)) for name in names]

    async def test_others_are_served_and_the_ledger_is_heard_while_many_blobs_expire(self) -> None:
        self.enterContext(mock.patch.object(scrub, "AT_ONCE", 50))
        ends = [registration("x", it, 1) for it in range(1_000)]
        stays = [registration("x", it) for it in (7_000, 7_001)]
        await self.enter([FOUNDED, *ends, *stays])
        names = [bytes.fromhex(it.split("/")[2]) for it in (*ends[:3], ends[-1], *stays)]
        for name in names:
            self.store.put(1, 0, name, 0, b"metadata", None)
        await self.enter([BEGUN])  # for which nothing ends
        self.assertEqual((self.store.counts()["blobs"], self.state.blobs.over(9)), (6, []))
        await self.enter(OVER)
        self.assertEqual((self.node.epochs(), {*self.node.sides}, len(self.state.blobs)), ([1], {1}, 2))
        self.assertTrue(self.node.scrub.left.is_set())
        found, usual = list[int](), self.store.expire

        def expire(some: list[bytes], before: int) -> None:
            found.append(len(some))
            usual(some, before)

        with mock.patch.object(self.store, "expire", expire):
            expiring = asyncio.create_task(self.node.scrub.expire())
            while len(found) < 3:
                await asyncio.sleep(0)
            await self.enter([registration("x", 8_000)])
            self.assertEqual((expiring.done(), len(self.state.blobs)), (False, 3))
            await expiring
        self.assertEqual((found, self.state.blobs.over(9)), ([50] * 20, []))
        self.assertEqual(self.held(names), [False] * 4 + [True] * 2)

    async def test_what_is_over_goes_behind_a_start_too_and_anew_it_begins_without_parts(self) -> None:
        ends = [registration("x", it, 1) for it in range(3)]
        names = [bytes.fromhex(it.split("/")[2]) for it in ends]
        await self.enter([FOUNDED, *ends])
        for name in names:
            self.store.put(1, 0, name, 0, b"metadata", None)
        await self.enter([BEGUN, *OVER])
        self.start("a.ledger")
        await self.node.turn()
        self.assertEqual((sorted(self.state.blobs.over(9)), self.held(names)), (names, [True] * 3))
        killed = "killed.ledger", "killed-too.ledger"
        for name in killed:
            with contextlib.closing(sqlite3.connect(self.folder / name)) as copy:
                self.state.base.execute("COMMIT")
                self.state.base.backup(copy)
                self.state.base.execute("BEGIN IMMEDIATE")
        await self.enter([registration("x", 1)])
        self.assertEqual((self.held(names), names[1] in self.state.blobs), ([True, False, True], True))
        self.store.put(1, 1, names[1], 0, b"metadata", None)
        await self.enter([registration("x", 1, 7)])
        await self.node.scrub.expire()
        self.assertEqual((self.held(names), self.state.blobs.over(9)), ([False, True, False], []))
        for name in killed:  # which have not kept that it was registered anew
            self.start(name)
            await self.node.turn()
            if name == killed[0]:
                await self.node.scrub.expire()
            await self.enter([registration("x", 1)])
            self.assertEqual((self.held(names), names[1] in self.state.blobs), ([False, True, False], True))

    async def test_for_all_that_is_registered_anew_together_the_disk_is_waited_for_once(self) -> None:
        """Else who registers again all that has just ended has each node wait for its disk so often, and hear late."""
        ends, first = [registration("x", it, 1) for it in range(40)], registration("x", 50, 1)
        names = [bytes.fromhex(it.split("/")[2]) for it in (*ends, first)]
        await self.enter([FOUNDED, *ends, first])
        for name in names:
            self.store.put(1, 0, name, 0, b"metadata", None)
        await self.enter([BEGUN])
        anew = [registration("x", it) for it in (*range(40), 50)]
        with mock.patch.object(self.store, "persist", mock.AsyncMock(side_effect=self.store.persist)) as persisted:
            await self.enter([*OVER, *anew[:-1]])  # the last entry of a turn, and what comes behind it
            self.assertEqual(persisted.await_count, 2)
            self.assertEqual(self.held(names), [False] * 40 + [True])
            self.store.put(1, 1, names[0], 0, b"metadata", None)
            await self.enter([registration("x", 0, 6), anew[-1]])
            self.assertEqual(persisted.await_count, 3)
        self.assertEqual(self.held(names), [True] + [False] * 40)

    async def test_others_get_turns_while_many_blobs_are_registered_anew(self) -> None:
        """Else one entry after the other of a publisher would hold up all nodes that hold the blobs, at once."""
        ends = [registration("x", it, 1) for it in range(200)]
        names = [bytes.fromhex(it.split("/")[2]) for it in ends]
        await self.enter([FOUNDED, *ends])
        for name in names:
            self.store.put(1, 0, name, 0, b"metadata", None)
        await self.enter([BEGUN, *OVER])
        turns, found, usual = 0, list[tuple[int, int]](), self.store.expire

        def expire(some: list[bytes], before: int) -> None:
            found.append((len(some), turns))
            usual(some, before)

        async def count() -> None:
            nonlocal turns
            while True:
                turns += 1
                await asyncio.sleep(0)

        counting = asyncio.create_task(count())
        with mock.patch.object(self.store, "expire", expire):
            await self.enter([registration("x", it) for it in range(200)])
        counting.cancel()
        self.assertEqual([size for size, _ in found], [scrub.AT_ONCE] * (200 // scrub.AT_ONCE))
        self.assertEqual(len({turn for _, turn in found}), len(found))
        self.assertEqual(self.held(names), [False] * 200)
        for name in names:
            self.store.put(1, 1, name, 0, b"metadata", None)
        self.store.turn(2)  # as if its shard went to another node
        left = 200
        while self.store.sweep():
            left, before = self.store.counts()["blobs"], left
            self.assertLessEqual(before - left, scrub.AT_ONCE)
        self.assertEqual(left, 0)

    async def test_a_turn_costs_a_ledger_the_same_however_many_blobs_end_with_it(self) -> None:
        self.enterContext(mock.patch.object(state, "DROPPED", 10))
        steps = dict[tuple[int, int], int]()
        for tail in (0, 2):
            for count in (50, 5_000):
                kept, chain = State(tail=tail), Chain(0, bytes(32))

                def enter(texts: list[str]) -> int:
                    """Enters and saves what comes next; the hundreds of steps of SQLite that it took."""
                    nonlocal chain
                    took, entries = list[None](), chain.followed(texts)
                    chain = chain.behind(texts)
                    kept.base.set_progress_handler(lambda: took.append(None), 100)
                    for entry in entries:
                        self.assertIsNotNone(kept.ledger.apply(entry))
                    kept.save(chain, entries)
                    kept.base.set_progress_handler(None, 1)
                    return len(took)

                enter([FOUNDED, *(registration("x", it, 1) for it in range(count)), registration("y", count), BEGUN])
                enter(OVER[:-1])
                steps[tail, count] = enter(OVER[-1:])
                self.assertEqual(([*kept.blobs], +kept.ledger.posted), ([count.to_bytes(32, "big")], {"y": 1}))
                for _ in range(4):
                    enter([])
                self.assertEqual(len(kept.blobs.over(count)), count if tail else count - 50)
                kept.close()
        for tail in (0, 2):
            self.assertLess(steps[tail, 5_000], 2 * steps[tail, 50] + 10, steps)

    async def test_of_what_is_held_a_handover_asks_the_ledger_nothing(self) -> None:
        owed, asked = [it.to_bytes(32, "big") for it in range(100)], mock.Mock()
        self.node.ledger, self.node.sides = asked, {1: {0: types.SimpleNamespace(holding=1)}}
        with mock.patch.object(self.store, "settled", mock.AsyncMock(return_value={*owed})):
            self.assertEqual(await recovery.settle(self.node, 1, Listed(owed)), 0)
        self.assertEqual(asked.mock_calls, [])


class Figures(TurnCase):
    async def test_who_asks_for_figures_keeps_nobody_waiting_while_all_is_counted(self) -> None:
        store, goes_on, ran = Store(self.folder / "a.db"), threading.Event(), list[str]()
        self.addCleanup(store.close)
        self.addCleanup(goes_on.set)
        made: Any = mock.MagicMock(store=store, settings=Settings("node-0", *[""] * 2, [], *[""] * 3))
        told = NodePort(made, port.Bounds())
        store.begin(0, 0)
        store.put(1, 0, bytes(32), 0, b"metadata", None)
        store.base.set_trace_callback(ran.append)
        await told.expect(FIGURES)  # before it is the turn of who asks
        self.assertEqual(told.held, {"blobs": 1, "bytes": 8, "wrong": 0})
        self.assertEqual([it for it in ran if "total(" in it], [])
        store.put(1, 0, bytes(31) + b"a", 0, b"metadata", None)
        reader, told.due = store.reader, 0.0
        self.enterContext(mock.patch.object(figures, "MOMENT", 0.05))
        with mock.patch.object(store, "reader", lambda: goes_on.wait() and reader()):
            for _ in range(3):
                await told.count()
                self.assertEqual(told.held["blobs"], 1)  # the last figures, until others are there
            goes_on.set()
            while told.counting:
                await told.count()
        self.assertEqual((told.held["blobs"], told.due > time.monotonic()), (2, True))

    async def test_a_count_that_fails_is_made_again(self) -> None:
        asked = mock.AsyncMock(side_effect=[sqlite3.DatabaseError("a page is torn"), {"blobs": 1}])
        told = NodePort(mock.MagicMock(store=mock.Mock(asked=asked)), port.Bounds())
        for held in ({}, {"blobs": 1}):
            told.due = 0.0
            await told.count()
            self.assertEqual(told.held, held)


class Torn(unittest.TestCase):
    def test_of_a_node_s_two_databases_the_one_is_named_that_is_torn(self) -> None:
        settings: Any = types.SimpleNamespace(database="/x/a.db")
        state = mock.Mock()
        state.name = "/x/a.ledger"
        node: Any = types.SimpleNamespace(state=state)
        for running in (node, None):
            self.assertRegex(mend_of(settings, running), "^the database /x/a.db is torn, or its disk does not read it")
        state.must_be_whole.side_effect = sqlite3.DatabaseError("its pages do not fit together")
        self.assertRegex(mend_of(settings, node), "^the copy of the ledger /x/a.ledger is torn: start the node again")


class Halves(TurnCase):
    async def test_who_ends_in_the_midst_of_a_batch_hears_all_of_it_again(self) -> None:
        """Such as a node that is told to end while its disk is full, or many blobs expire. Else registrations would
        count twice there, and what has expired would stay."""
        path, chain = str(self.folder / "a.ledger"), Chain(0, bytes(32))
        first, second = [FOUNDED, registration("x", 1)], [registration("x", 2), registration("x", 3)]
        state = State(path)
        view = View(mock.Mock(spec=Recorders), state)
        await view.enter(News(chain.behind(first), chain.followed(first), 4, "ab"))
        self.assertTrue(state.settle())
        chain, apply = chain.behind(first), view.apply

        async def half(entries: list[Entry]) -> None:
            await apply(entries[:1])
            state.entries()  # as somebody asks who restores a ledger
            raise asyncio.CancelledError

        with mock.patch.object(view, "apply", half), self.assertRaises(asyncio.CancelledError):
            await view.enter(News(chain.behind(second), chain.followed(second), 4, "ab"))
        state.close()
        left = State(path)
        self.addCleanup(left.close)
        self.assertEqual((left.chain, len(left.ledger.blobs), left.ledger.posted["x"]), (chain, 1, 1))

"""Nodes that recover blobs that few others hold while one node is silent: they wait for it as rarely as possible."""
import asyncio
import collections
import contextlib
import itertools
import struct
import types
import unittest
from typing import Any, Sequence
from unittest import mock

from walrus import client
from walrus.format.frames import PRIMARY, SECONDARY, answer, part_of
from walrus.network.node import recovery
from walrus.network.node.judge import Room
from walrus.network.peers.seats import Seat

FAULTS, TURNS = 2, 5_000  # faulty shards; turns of the event loop for an answer, even if slow
SHAPE = client.Shape(FAULTS)
METADATA = bytes([client.METADATA]) + struct.pack(">HQ", FAULTS, 30) + bytes(64 * SHAPE.shards)
NAMES = [it.to_bytes(32, "big") for it in range(96)]
OWNERS = ["c", "d", "a", "a", "b", "e", "e"]  # the node of each shard: c and d lack everything, e is silent
FIND = recovery.find_metadata
FULL, SILENT = (2, 3, 4), (5, 6)


async def turns(count: int) -> None:
    for _ in range(count):
        await asyncio.sleep(0)


def sliver(identifier: bytes, axis: int, index: int) -> bytes:
    return bytes([client.SLIVER]) + identifier + struct.pack(">BHI", axis, index, 2 * SHAPE.symbols[axis])


class Walrus:
    """Recovers a sliver once there are as many openings as that takes."""

    async def run(self, *words: Any, data: Any = b"") -> tuple[int, bytes]:
        payloads = {bytes(it) for _, it in client.split(b"".join(data) if isinstance(data, list) else bytes(data))}
        axis = client.AXES.index(words[2])
        held, needed = sum(it[0] == client.OPENING for it in payloads), SHAPE.symbols[axis]
        if held < needed:
            return 4, b"short %d of %d\n" % (held, needed)
        return 0, client.envelope(sliver(bytes.fromhex(words[1]), axis, words[3]))

    def code(self, status: int, text: bytes) -> client.Code:
        return client.Code.of(status, text)


class Shard:
    """A shard that knows only which slivers of each blob it has."""

    epoch, title, ledger = 0, "a shard", types.SimpleNamespace(faults=FAULTS)

    def __init__(self, number: int):
        self.number = self.holding = number
        self.held = collections.defaultdict[bytes, set[int]](set)

    def lacks(self, identifier: bytes) -> list[int]:
        return sorted({PRIMARY, SECONDARY} - self.held[identifier])

    def settled(self, identifier: bytes) -> bool:
        return not self.lacks(identifier)

    def wants(self, identifier: bytes) -> bool:
        return not self.settled(identifier)

    def vouches(self, kind: str, identifier: bytes) -> bool:
        return False

    def free_pages(self, part: float) -> int:
        return 1_000

    async def put(self, payload: bytes, mends: bool) -> None:
        self.held[payload[1:33]].add(part_of(payload))

    async def answer(self, request: bytes) -> list[bytes]:
        """Return the opening of another shard's sliver that this shard's sliver of the other axis contains."""
        identifier, axis = request[1:33], request[33]
        if (SECONDARY if axis == client.PRIMARY else PRIMARY) not in self.held[identifier]:
            return [answer(2)]
        opening = bytes([client.OPENING]) + request[1:36] + struct.pack(">HI", self.number, 2)
        return [opening.ljust(36 + 7 + 32 * SHAPE.levels + 2, b"o"), answer(client.DONE)]


class Other(Seat):
    """A shard of another node, as the recovering node sees it."""

    def __init__(self, case: "Silent", number: int):
        super().__init__(mock.Mock(seconds=60), OWNERS[number], number, FAULTS)
        self.case, self.late = case, number in SILENT  # it was late for an earlier blob

    async def exchange(self, requests: Sequence[Any]) -> list[client.Reply]:
        if self.number in SILENT:
            self.case.waits.set()
            self.case.waited += 1
            await turns(TURNS)
            if not self.case.answers:
                raise ConnectionError("no whole reply")
        replies = list[client.Reply]()
        for request in map(bytes, requests):
            *found, end = await self.case.shards[self.number].answer(request)
            kept = {SHAPE.keeps(it, request, self.number): it for it in found}
            replies.append(client.Reply(kept, client.Answer(*struct.unpack(">BII", end[1:]))))
        self.late = False
        return replies


class Silent(unittest.IsolatedAsyncioTestCase):
    """Certified blobs that f+1 shards hold; f others acknowledged them and are silent now."""

    async def asyncSetUp(self) -> None:
        asyncio.get_running_loop().set_debug(False)
        self.shards, self.waits, self.waited = [Shard(number) for number in range(7)], asyncio.Event(), 0
        self.answers = False
        for number in FULL:
            for name in NAMES:
                self.shards[number].held[name] = {PRIMARY, SECONDARY}
        self.enterContext(mock.patch.object(recovery, "find_metadata", mock.AsyncMock(return_value=METADATA)))
        self.enterContext(
            mock.patch("walrus.client.shards.LEAST", 60.0)
        )  # no other is late, however slow this machine is
        self.enterContext(mock.patch("walrus.client.shards.MOST", 60.0))

    def node(self, number: int) -> Any:
        """Return what recovery needs of the node that has a shard."""
        made: Any = types.SimpleNamespace(name=OWNERS[number], sides={0: {number: self.shards[number]}})
        made.ledger = types.SimpleNamespace(now=OWNERS, next=(), faults=FAULTS, certificate=lambda it: True)
        seats = [Other(self, it) for it in range(7)]
        made.peers = types.SimpleNamespace(seats=lambda owners, faults: seats)
        made.store = mock.Mock(losses=0, settled=mock.AsyncMock(return_value=set()), durable=mock.AsyncMock())
        made.store.alone, made.store.wrong = lambda *_: contextlib.nullcontext(), lambda *_: set()
        made.port, made.judges, made.repairs = types.SimpleNamespace(shape=SHAPE), Walrus(), Room(10**9)
        return made

    async def settle(self, node: Any) -> None:
        """Let a node recover until nothing is missing."""
        while await recovery.settle(node, 0, NAMES):
            pass

    async def test_before_it_is_waited_for_all_is_there_that_the_others_have(self) -> None:
        node = self.node(0)
        first = asyncio.create_task(recovery.settle(node, 0, NAMES))
        async with asyncio.timeout(60):
            await self.waits.wait()
        self.assertEqual([self.shards[0].lacks(it) for it in NAMES], [[PRIMARY]] * len(NAMES))
        self.assertEqual((node.progress.of, node.progress.blobs), (len(NAMES), 0))
        first.cancel()  # as if the node were killed
        await asyncio.wait([first])
        for name in NAMES:
            self.shards[1].held[name] = {SECONDARY}  # the other node has recovered as much meanwhile
        node, waited = self.node(0), self.waited
        self.assertEqual(await recovery.settle(node, 0, NAMES), 0)
        self.assertEqual((node.progress.of, node.progress.blobs, self.waited), (len(NAMES), len(NAMES), waited))

    async def test_who_has_not_replied_in_time_is_late_from_then_on(self) -> None:
        node = self.node(0)
        seats = node.peers.seats(OWNERS, FAULTS)
        for seat in seats:
            seat.late = False
        self.assertEqual(await recovery.settle(node, 0, NAMES[:1]), 1)
        self.assertEqual([seat.number for seat in seats if seat.late], [*SILENT])

    async def test_what_it_alone_has_is_heard_of_it_once_all_others_had_their_turn(self) -> None:
        node, self.answers = self.node(0), True
        for name in NAMES:
            self.shards[1].held[name] = {SECONDARY}
        for name in NAMES[:2]:
            self.shards[4].held[name], self.shards[5].held[name] = set(), {PRIMARY, SECONDARY}
        settling = asyncio.create_task(recovery.settle(node, 0, NAMES))
        async with asyncio.timeout(60):
            await self.waits.wait()
            self.assertEqual(node.progress.blobs, len(NAMES) - 2)
            self.assertEqual((await settling, node.progress.blobs), (0, len(NAMES)))

    async def test_of_all_that_is_lacking_so_much_is_listed_at_once(self) -> None:
        """And it does not return 0 as long as one of the first blobs is missing."""
        node, listed, recover_all = self.node(0), list[int](), recovery.recover_all

        async def listing(node: Any, work: list[recovery.Lack], progress: recovery.Progress) -> int:
            listed.append(len(work))
            self.assertEqual((progress.of, progress.blobs), (len(NAMES), max(0, 24 * len(listed) - 25)))
            return await recover_all(node, work, progress)

        for name in NAMES[1:]:
            self.shards[1].held[name] = {SECONDARY}
        for number in FULL:
            self.shards[number].held[NAMES[0]] = set()
        with mock.patch.multiple(recovery, PAGE=8, MANY=20, recover_all=listing):
            self.assertEqual(await recovery.settle(node, 0, NAMES), 1)
        self.assertEqual((listed, node.progress.blobs), ([24] * 4, len(NAMES) - 1))

    async def test_what_nobody_has_holds_up_nothing_that_is_certified(self) -> None:
        """Otherwise a node that lost its disk stays empty if it had acknowledged many blobs that no other node has."""
        node, certified = self.node(0), NAMES[:2]
        node.ledger.certificate, node.store.parts = certified.__contains__, lambda *_: []

        async def find(node: Any, shard: Any, identifier: bytes, *late: bool) -> bytes:
            return METADATA if identifier in certified else await FIND(node, shard, identifier, *late)

        for number, name in itertools.product(FULL, NAMES[2:]):
            self.shards[number].held[name] = set()
        for name in certified:
            self.shards[1].held[name] = {SECONDARY}
        with mock.patch.object(recovery, "find_metadata", find):
            settling = asyncio.create_task(recovery.settle(node, 0, NAMES))
            async with asyncio.timeout(60):
                await self.waits.wait()
                self.assertEqual([*map(self.shards[0].settled, certified)], [True] * 2)
                self.assertEqual(await settling, len(NAMES) - 2)
        self.assertLessEqual(self.waited, len(SILENT) * recovery.LANES)

    async def test_who_says_nothing_is_not_waited_for_before_it_is_late(self) -> None:
        node, is_over = self.node(0), asyncio.Event()
        seats, node.store.parts = node.peers.seats(OWNERS, FAULTS), lambda *_: []

        async def exchange(requests: Sequence[Any]) -> list[client.Reply]:
            await is_over.wait()
            raise ConnectionError("no whole reply")

        for number in SILENT:
            seats[number].late, seats[number].exchange = False, exchange
        self.enterContext(mock.patch.multiple("walrus.client.shards", LEAST=0.01, MOST=0.01))
        async with asyncio.timeout(30):
            self.assertEqual(await FIND(node, self.shards[0], NAMES[0]), b"")
        self.assertEqual([(seats[it].late, len(seats[it].exchanges)) for it in SILENT], [(True, 1)] * 2)
        is_over.set()

    async def test_nodes_that_recover_the_same_not_in_step_do_not_wait_for_it_blob_by_blob(self) -> None:
        async def later() -> None:
            await self.waits.wait()
            await turns(TURNS // 2)
            await self.settle(self.node(1))

        async with asyncio.timeout(60):
            await asyncio.gather(self.settle(self.node(0)), later())
        self.assertEqual([it.settled(name) for it in self.shards[:2] for name in NAMES], [True] * 2 * len(NAMES))
        self.assertLess(self.waited, len(NAMES))

"""How a gateway announces badly encoded blobs, over shards and a ledger in memory."""
import asyncio
import unittest
from typing import Any
from unittest import mock

from walrus import client
from walrus.format import frames
from walrus.network.gateway.read import announcer
from walrus.network.gateway.read.announcer import Announcer
from walrus.network.gateway.resources.memory import Memory

BAD, PROOF = b"b" * 32, b"\x13proof"


class Shard:
    """A shard that notes its requests, and accepts them unless it is set not to."""

    def __init__(self, number: int, said: list[tuple[int, bytes]], refuses: str = ""):
        self.number, self.said, self.refuses, self.taken = number, said, refuses, set[bytes]()


async def take_steps(shard: Shard, steps: Any) -> tuple[int, str]:
    for _, payload, _ in steps:
        shard.said.append((shard.number, payload))
    if shard.refuses:
        return 0, shard.refuses
    shard.taken |= {payload for _, payload, _ in steps}
    return len(steps), ""


class Announced(unittest.IsolatedAsyncioTestCase):
    async def asyncSetUp(self) -> None:
        asyncio.get_running_loop().set_debug(False)
        self.said, self.invalid, self.targets = list[tuple[int, bytes]](), set[bytes](), list[client.Symbol]()
        self.seats = [Shard(number, self.said) for number in range(4)]
        self.ledger = mock.Mock(faults=1, now=tuple("abcd"), writing=tuple("abcd"), blobs={BAD})
        self.ledger.owners, self.ledger.invalid = (lambda _: tuple("abcd")), (lambda name: name in self.invalid)
        network = mock.Mock(ledger=self.ledger, until=self.until)
        network.peers.seats = lambda *_: self.seats
        self.outcomes: Any = lambda target: (3, PROOF) if (target.axis, target.index) == (0, 3) else (0, b"sliver")
        self.announcer = Announcer(network, Memory(2**30))
        for name, fake in (("recover", self.recover), ("take_steps", take_steps)):
            self.enterContext(mock.patch.object(client, name, fake))
        self.enterContext(mock.patch.object(announcer, "PAUSE", 0.01))

    async def recover(self, _: Any, target: client.Symbol, __: Any) -> tuple[int, bytes]:
        self.targets.append(target)
        status, frame = self.outcomes(target)
        if status == 4:
            raise client.TooFew(4, b"short 1 of 2\n", {}, client.Code.TOO_FEW)
        return status, frame

    async def until(self, holds: Any, _: float) -> bool:
        """Makes the ledger show what three shards attest."""
        attest = frames.write_frame(frames.Attest(BAD))
        if sum(attest in it.taken for it in self.seats) >= 3:
            self.invalid.add(BAD)
        return bool(holds(self.ledger))

    async def all_done(self) -> dict[str, Any]:
        async with asyncio.timeout(120):
            while self.announcer.tasks:
                await asyncio.sleep(0.01)
        return dict(self.announcer.findings[0])

    async def test_all_have_the_proof_before_any_attests(self) -> None:
        self.announcer.hear(BAD)
        self.announcer.hear(BAD)
        self.assertEqual(len(self.announcer.tasks), 1)
        found = await self.all_done()
        self.assertEqual((found["blob"], found["invalid"]), (BAD.hex(), True))
        self.assertEqual(found["said"], "shards 0 1 2 3 attest it")
        proofs, words = self.said[:4], self.said[4:]
        self.assertEqual([payload for _, payload in proofs], [PROOF] * 4)
        self.assertEqual({payload for _, payload in words}, {frames.write_frame(frames.Attest(BAD))})
        self.assertEqual({it for it, _ in words}, {0, 1, 2, 3})
        self.announcer.hear(BAD)  # the ledger declares it invalid by now
        self.assertEqual((self.announcer.tasks, self.announcer.counts), ({}, {"declared": 1}))

    async def test_each_sliver_is_tried_until_one_shows_it(self) -> None:
        self.outcomes = lambda target: (4, b"") if target.axis else (3, PROOF) if target.index == 1 else (0, b"sliver")
        self.announcer.hear(BAD)
        self.assertTrue((await self.all_done())["invalid"])
        self.assertEqual(self.targets[-1], client.Symbol(BAD, 0, 1))
        self.assertEqual(len({*self.targets}), len(self.targets))

    async def test_without_a_proof_nothing_is_said(self) -> None:
        self.outcomes = lambda _: (0, b"sliver")
        self.announcer.hear(BAD)
        found = await self.all_done()
        self.assertEqual((found["invalid"], found["said"]), (False, "too little is heard for a proof"))
        self.assertEqual((self.said, len(self.targets)), ([], 5 * 8))  # each of the slivers, five times
        self.assertEqual(self.announcer.counts, {"not declared": 1})

    async def test_who_is_away_is_asked_again(self) -> None:
        self.seats[0].refuses = self.seats[1].refuses = "it is away"
        self.announcer.hear(BAD)
        async with asyncio.timeout(120):
            while len(self.said) < 8:
                await asyncio.sleep(0.001)
        self.seats[1].refuses = ""
        found = await self.all_done()
        self.assertEqual((found["invalid"], found["said"]), (True, "shards 1 2 3 attest it; shard 0: it is away"))

    async def test_what_waits_is_bounded(self) -> None:
        with mock.patch.object(announcer, "WAITING", 3):
            for number in range(10):
                self.announcer.hear(bytes([number]) * 32)
            self.assertEqual(len(self.announcer.tasks), 3)
            await self.announcer.close()
        self.assertEqual((self.announcer.tasks, self.said), ({}, []))

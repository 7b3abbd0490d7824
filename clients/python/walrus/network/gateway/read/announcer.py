"""Announcing badly encoded blobs: if a read ends in a rejection, the gateway recovers a proof, gives it to the shards
of the writing committee and has them attest, so that the ledger declares the blob invalid."""
import asyncio
import collections
import random
import sys
import time
from typing import Any, Optional, Sequence


from walrus import client
from walrus.format import frames
from walrus.network.gateway.http.errors import Problem
from walrus.network.gateway.resources.memory import Memory, reading_needs
from walrus.network.peers.network import Network
from walrus.network.peers.seats import Seat
from walrus.network.service.task_groups import all_of


TRIES, PAUSE = 5, 10.0  # the most tries for a blob, and seconds between two of them
WAITING, TOLD = 64, 10  # the most blobs that wait for their turn; the most findings that are kept
HEARD = 20.0  # seconds to wait until the ledger shows what was attested


class Announcer:
    """Announces badly encoded blobs, one at a time. `findings` has the outcomes of the last ones, newest first."""

    def __init__(self, network: Network, memory: Memory):
        self.network, self.memory, self.turn = network, memory, asyncio.Lock()
        self.tasks, self.findings = dict[bytes, "asyncio.Task[None]"](), collections.deque[dict[str, Any]](maxlen=TOLD)
        self.counts: "collections.Counter[str]" = collections.Counter()

    def hear(self, identifier: bytes) -> None:
        """Begins to announce a blob of which a read ended in a rejection, unless that is done or too many wait."""
        if identifier in self.tasks or self.network.ledger.invalid(identifier) or len(self.tasks) >= WAITING:
            return
        task = self.tasks[identifier] = asyncio.create_task(self.announce(identifier))
        task.add_done_callback(lambda _: self.tasks.pop(identifier, None))

    async def close(self) -> None:
        tasks = [*self.tasks.values()]
        for task in tasks:
            task.cancel()
        await asyncio.gather(*tasks, return_exceptions=True)

    async def announce(self, identifier: bytes) -> None:
        """Tries to have a blob declared invalid, and records and logs the outcome."""
        said = ""
        for number in range(TRIES):
            await asyncio.sleep(PAUSE * bool(number))
            try:
                async with self.turn:
                    said = await self.declare(identifier)
            except (client.Refused, client.Failed, OSError, Problem) as fault:
                said = str(fault)
            if self.network.ledger.invalid(identifier) or identifier not in self.network.ledger.blobs:
                break
        invalid = self.network.ledger.invalid(identifier)
        self.counts["declared" if invalid else "not declared"] += 1
        told = {"blob": identifier.hex(), "invalid": invalid, "said": said, "time": round(time.time(), 3)}
        self.findings.appendleft(told)
        outcome = "the ledger declares it invalid" if invalid else "it is not declared invalid"
        print(f"{identifier.hex()} was badly encoded, and {outcome}: {said}", file=sys.stderr, flush=True)

    async def declare(self, identifier: bytes) -> str:
        """Gives a proof to the shards, has them attest, and waits until the ledger declares the blob invalid, or for
        `HEARD` seconds. Returns the shards' replies in words."""
        network, ledger = self.network, self.network.ledger
        async with self.memory.share(sum(reading_needs(client.LARGEST_BLOB))):
            proof = await self.prove(identifier)
        if not proof:
            return "too little is heard for a proof"
        seats = self.seats(ledger.writing)
        attest = frames.write_frame(frames.Attest(identifier))
        words = dict[int, str]()
        for step in (("store the proof", proof, (client.DONE, client.HELD)), ("attest", attest, client.COUNTS)):
            said = await all_of(client.take_steps(seat, [step]) for seat in seats)
            words = {it.number: words.get(it.number) or text for it, (_, text) in zip(seats, said)}  # first refusals
        await network.until(lambda it: it.invalid(identifier), HEARD)
        attested = [str(number) for number, text in words.items() if not text]
        refused = [f"shard {number}: {text}" for number, text in words.items() if text]
        return "; ".join([f"shards {' '.join(attested) or 'none'} attest it", *refused])

    async def prove(self, identifier: bytes) -> bytes:
        """Returns a proof, or nothing: tries slivers in random order, as it is not known which was badly encoded."""
        ledger = self.network.ledger
        for owners in dict.fromkeys((ledger.owners(ledger.home_epoch(identifier)), ledger.now, ledger.writing)):
            seats = self.seats(owners)
            targets = [client.Symbol(identifier, axis, it.number) for axis in (1, 0) for it in seats]
            for target in random.sample(targets, len(targets)):
                if proof := await self.recover(seats, target):
                    return proof
        return b""

    async def recover(self, seats: Sequence[Seat], target: client.Symbol) -> Optional[bytes]:
        """Returns a proof if the symbols of this sliver that seats return show that it was badly encoded; else None."""
        try:
            status, frame = await client.recover(seats, target, self.network.walrus)
        except client.Refused:  # too few symbols of this sliver are heard
            return None
        return frame if status == 3 else None

    def seats(self, owners: Sequence[str]) -> list[Seat]:
        return self.network.peers.seats(owners, self.network.ledger.faults)

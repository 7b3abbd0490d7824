"""Whether blobs are held: a certificate says that shards held a blob once, so a writer asks nodes before it skips one.

A blob counts as held if 2f+1 shards of the committee that answers for it say so: even if f of them lie, f+1 have it, as
many as a read needs. So many answer if up to f are silent."""
import asyncio
import collections
import itertools
import time
from typing import Optional, Sequence


from walrus.network.ledger.rules import Ledger

from .seats import ASKED, HELD, HOLDS, Peers

PATIENCE, FRESH = 3.0, 10.0  # seconds for a node to answer; for which what it said of further blobs is used


class Holders:
    """Asks nodes which blobs they hold, each about up to `ASKED` blobs in one exchange: those that wait for an answer,
    and the ones that were registered after them. These are likely to be asked for next, as when a folder is stored
    again, and what was said of them is then used once."""

    def __init__(self, peers: Peers, ledger: Ledger):
        self.peers, self.ledger = peers, ledger
        self.known = dict[bytes, float]()  # further blobs that are held, and until when that is used
        self.waiting = dict[bytes, "asyncio.Future[bool]"]()
        self.asking: Optional["asyncio.Task[None]"] = None

    async def have(self, identifier: bytes) -> bool:
        """Returns whether enough shards say that they hold a blob."""
        if self.known.pop(identifier, 0.0) > time.monotonic():
            return True
        waiting = self.waiting.get(identifier) or asyncio.get_running_loop().create_future()
        self.waiting[identifier] = waiting
        if self.asking is None or self.asking.done():
            self.asking = asyncio.create_task(self.ask_all())
        return await asyncio.shield(waiting)

    async def ask_all(self) -> None:
        """Asks until no blob waits any more. If that fails, those that wait count as not held."""
        while self.waiting:
            await asyncio.sleep(0)  # whoever asks at the same time joins
            wanted = dict(itertools.islice(self.waiting.items(), ASKED))
            for name in wanted:
                del self.waiting[name]
            counts = collections.Counter[bytes]()
            try:
                counts = await self.ask([*wanted])
            finally:
                for name, waiting in wanted.items():
                    waiting.set_result(counts[name] >= self.ledger.quorum)
            now = time.monotonic()
            self.known = {name: end for name, end in self.known.items() if end > now}
            held = (name for name, count in counts.items() if count >= self.ledger.quorum and name not in wanted)
            self.known |= dict.fromkeys(held, now + FRESH)

    async def ask(self, wanted: Sequence[bytes]) -> "collections.Counter[bytes]":
        """Returns how many shards hold each blob: of those wanted enough to decide, and of others what came by then."""
        ledger, counts = self.ledger, collections.Counter[bytes]()
        near = ledger.blobs.behind(wanted[-1], ASKED - len(wanted))
        homes = ledger.homes([*wanted, *near])
        shards = {epoch: collections.Counter(ledger.owners(epoch)) for epoch in {*homes.values()}}
        nodes = dict.fromkeys(itertools.chain.from_iterable(shards.values()))
        request = HELD + b"".join(homes)
        tasks = {asyncio.create_task(self.peers.answered(it, request, PATIENCE)): it for it in nodes}

        def is_open(name: bytes) -> bool:
            more = sum(shards[homes[name]][it] for it in tasks.values())
            return counts[name] < ledger.quorum <= counts[name] + more

        try:
            while any(map(is_open, wanted)):
                done, _ = await asyncio.wait(tasks, return_when=asyncio.FIRST_COMPLETED)
                for task in done:
                    node, said = tasks.pop(task), b"" if task.exception() else task.result()
                    for name, told in zip(homes, said[1:] if said[:1] == HELD else b""):
                        counts[name] += shards[homes[name]][node] if told == HOLDS else 0
        finally:
            for task in tasks:
                task.cancel()
            await asyncio.gather(*tasks, return_exceptions=True)
        return counts

    async def close(self) -> None:
        if self.asking:
            self.asking.cancel()
            await asyncio.gather(self.asking, return_exceptions=True)

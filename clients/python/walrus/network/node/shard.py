"""A shard of one epoch. Each reply is the judge's, given what the ledger says about a blob and the disk has of it."""
import asyncio
import contextlib
import dataclasses
import errno
import sqlite3
import sys
from typing import AsyncIterator, Callable, Collection, Iterable, Mapping, NamedTuple, Optional, Sequence


from walrus import client
from walrus.client import Data
from walrus.format import frames
from walrus.format.frames import METADATA, PRIMARY, PROOF, SECONDARY, answer, code_of, joined, part_of
from walrus.network.ledger.entries import ACK, ATTEST
from walrus.network.ledger.live_blob import shards_in
from walrus.network.ledger.rules import Ledger
from walrus.network.node.disk.store import Part, Store
from walrus.network.peers.parts import name_of

from . import judge
from .judge import Found, Judges
from .whole_blob import Whole


SMALL = 65_536  # bytes of the longest content that is kept in SQLite
LAST = 0.2  # of the reserve, kept from all parts: else a full disk could not note even that blobs have expired
UNREGISTERED, DECLINED, FULL, NO_MEMORY = 1, 5, 6, 7
ALL = METADATA, PRIMARY, SECONDARY, PROOF
WANTING = errno.ENOSPC, errno.EDQUOT, errno.EIO, errno.EROFS  # faults of a disk that does not take a part
NAMES = "metadata", "primary sliver", "secondary sliver", "proof"
Parts = Mapping[int, Data]
Writing = Optional[asyncio.Task[dict[int, str]]]  # writes long parts to files; the files that have no row yet


def pages(sizes: Iterable[int]) -> int:
    """Return the number of disk pages of 4 KiB that parts of these sizes take at most."""
    return sum(it // 4096 + 1 for it in sizes)


class Past(ConnectionError):
    """The shard's committee no longer serves."""


class Judged(NamedTuple):
    """Requests, the judge's reply to each, and the wrong parts; revision and losses when it was asked; bytes judged."""

    requests: Sequence[Data]
    replies: list[list[bytes]]
    wrong: list[int]
    revision: int
    losses: int
    size: int


def entries_of(ledger: Ledger, epoch: int, identifier: bytes) -> list[bytes]:
    """Return the ledger's entries about a blob for the judge of a shard; empty if it is not live in that epoch."""
    blob = ledger.blobs.get(identifier)
    if blob is None or blob.until <= epoch:
        return []
    found = blob.quorum(ATTEST, ledger.quorum)
    invalid = min(found[0], epoch) if found else epoch  # when it was declared invalid, or this epoch
    said: list[frames.Frame] = [client.RegisterEntry(identifier, blob.until - epoch)]
    said += [client.AckEntry(it, identifier) for it in shards_in(blob.votes[ACK].get(epoch, 0))]
    said += [frames.AttestEntry(it, identifier) for it in shards_in(blob.votes[ATTEST].get(invalid, 0))]
    return [client.write_frame(it) for it in said]


@dataclasses.dataclass(eq=False)
class Shard:
    """A shard of one epoch. `damaged` is called with each blob of which a part is found wrong on the disk."""

    number: int
    epoch: int
    holding: int
    ledger: Ledger
    store: Store
    judges: Judges
    damaged: Callable[[bytes], None]
    reserve: float = 0

    @property
    def title(self) -> str:
        return f"shard {self.number} of epoch {self.epoch}"

    def vouches(self, kind: str, identifier: bytes) -> bool:
        """Return whether the shard holds the metadata with both slivers (for ACK) or with a proof (for ATTEST)."""
        needed = {METADATA, PRIMARY, SECONDARY} if kind == ACK else {METADATA, PROOF}
        return needed <= set(self.store.sizes(self.holding, self.epoch, identifier))

    def settled(self, identifier: bytes) -> bool:
        return self.vouches(ACK, identifier) or self.vouches(ATTEST, identifier)  # by slivers, or by a proof

    def lacks(self, identifier: bytes) -> list[int]:
        """Return the parts that the shard needs to be settled for a blob; none if it has a proof of bad encoding."""
        sizes = self.store.sizes(self.holding, self.epoch, identifier)
        return [part for part in (METADATA, PRIMARY, SECONDARY) if part not in sizes and PROOF not in sizes]

    def wants(self, identifier: bytes) -> bool:
        """Return whether the shard lacks parts of a blob that it may store. Once the next committee takes what is new,
        it may only replace wrong parts."""
        if self.epoch != self.ledger.writing_epoch and not self.store.wrong(self.holding, identifier):
            return False
        return not self.settled(identifier)

    def must_serve(self) -> None:
        """Raise `Past` if the committee no longer serves: what was judged meanwhile is neither sent nor stored then."""
        if self.epoch not in (self.ledger.epoch, self.ledger.writing_epoch):
            raise Past(f"the committee of {self.title} serves no more")

    async def judged(self, identifier: bytes, request: bytes, wanted: Collection[int], wrong: bool = False) -> Judged:
        """Return the judge's reply to a request given these parts, with those known to be wrong if `wrong`. The caller
        must hold the blob's lock (`Store.alone`)."""
        told = entries_of(self.ledger, self.epoch, identifier)
        held = self.store.parts(self.holding, self.epoch, identifier, wanted, wrong) if told else []
        return await self.ask([request], sum(it.size for it in held), self.over, request, told, held)

    async def ask(self, requests: Sequence[Data], held: int, step: Callable[..., Found], *words: object) -> Judged:
        """Return the result of a step of the judge, for these requests and `held` further bytes of parts."""
        self.must_serve()
        revision, losses, size = self.ledger.revision, self.store.losses, held + sum(map(len, requests))
        found = await self.judges.ask(size, step, *words)
        self.must_serve()
        return Judged(requests, *found, revision, losses, size)

    def over(self, request: bytes, told: list[bytes], held: Sequence[Part]) -> Found:
        """Return the judge's reply to a request, given entries and parts, and which of the parts are wrong."""
        given, requests = [-1] * len(told), list[Data](told)
        for part in held:
            payload = self.store.files.read(part.file, part.size) if part.file else part.payload
            if payload and payload[0] in judge.PARTS and part_of(payload) == part.part and len(payload) == part.size:
                given.append(part.part)
                requests.append(payload)
                del payload
        requests.append(request)
        replies = judge.judge(self.judges.engine, self.ledger.faults, self.number, requests)
        codes = dict(zip(given, map(code_of, replies)))
        wrong = [it.part for it in held if codes.get(it.part) != client.DONE]
        return replies[-1:], wrong if METADATA not in wrong else [METADATA]  # without it the others cannot be judged

    async def sure(self, identifier: bytes, request: bytes) -> Judged:
        """Return the judge's reply given the sound parts alone: wrong ones are marked, and left out from then on."""
        wanted = {*judge.parts_for(request, client.Shape(self.ledger.faults).shards)}
        while (judged := await self.judged(identifier, request, wanted)).wrong:
            self.mark(identifier, judged.wrong)
            wanted -= {*judged.wrong, *(ALL if METADATA in judged.wrong else ())}
        return judged

    def mark(self, identifier: bytes, wrong: Sequence[int]) -> None:
        """Mark parts as wrong, which are not what was stored, and have them recovered."""
        words = " and ".join(NAMES[part] for part in wrong)
        print(f"{self.title}: the {words} of {identifier.hex()} went wrong on the disk", file=sys.stderr, flush=True)
        with contextlib.suppress(sqlite3.Error):
            for part in wrong:
                self.store.mark(self.holding, identifier, part, True)
        self.damaged(identifier)

    def note(self, judged: Judged) -> list[bytes]:
        """Return the last reply. If the run is recorded, stage all requests and replies for the store's history."""
        for request, reply in zip(judged.requests, judged.replies) if self.store.recorded else ():
            said = joined(reply, self.number)
            self.store.note(judged.revision, self.epoch, self.number, bytes(request), said)
        return judged.replies[-1]

    async def answer(self, request: bytes) -> list[bytes]:
        """Return the reply to a request that stores and deletes nothing."""
        async with self.store.alone(self.holding, request[1:33]):
            return self.note(await self.sure(request[1:33], request))

    async def put(self, payload: bytes, mends: bool = False) -> list[bytes]:
        """Stage a part for the store's next commit, and return the reply. A proof, or a part that repairs the shard
        (`mends`), may use the disk's reserve except for the last fifth (`LAST`)."""
        identifier, part = name_of(payload), part_of(payload)
        async with self.store.alone(self.holding, identifier):
            if self.epoch != self.ledger.writing_epoch and part not in self.store.wrong(self.holding, identifier):
                return [answer(DECLINED)]
            judged = await self.sure(identifier, payload)
            parts = {part: payload} if code_of(judged.replies[0]) == client.DONE else {}
            fits = pages(map(len, parts.values())) <= self.free_pages(LAST if mends or part == PROOF else 1.0)
            async with self.written(identifier, parts if fits else {}) as files:
                return await self.keep(identifier, judged, parts if fits else None, files)

    async def put_whole(self, whole: Whole) -> list[bytes]:
        """Stage all parts of a blob of which nothing is held; long ones are written to files while the judge works.
        Return the reply to the request for an acknowledgement, or to the first part that is not accepted. Return an
        empty list if the shard has some of the blob already: its parts are then stored one by one."""
        identifier, parts, requests = whole.identifier, dict(zip(ALL, whole.parts)), [*whole.parts, whole.wish]
        async with self.store.alone(self.holding, identifier):
            if self.epoch != self.ledger.writing_epoch:
                return [answer(DECLINED)]  # the next committee began with what was held then
            if self.store.sizes(self.holding, self.epoch, identifier):
                return []
            told = entries_of(self.ledger, self.epoch, identifier)
            fits = pages(map(len, requests)) <= self.free_pages()
            async with self.written(identifier, parts if told and fits else {}) as files:
                words = self.judges.engine, self.ledger.faults, self.number, told
                judged = await self.ask(requests, 0, whole.judge, *words)
                for reply in judged.replies[:3]:
                    if code_of(reply) != client.DONE:
                        return reply
                return await self.keep(identifier, judged, parts if fits else None, files)

    @contextlib.asynccontextmanager
    async def written(self, identifier: bytes, parts: Parts) -> AsyncIterator[Writing]:
        """Write long parts to files in a thread while the body runs. Leaving waits until all are written, as they are
        in memory until then, and removes files that got no row. If they are written already, no other task runs in
        between, so the caller has its reply before what was staged for it can be lost."""
        long = {part: it for part, it in parts.items() if len(it) > SMALL}

        async def write() -> dict[int, str]:
            return dict(zip(long, await self.judges.work(self.store.files.write, identifier, *long.values())))

        writing = asyncio.create_task(write()) if long else None
        try:
            yield writing
        finally:
            if writing:
                writing.add_done_callback(self.let_go)  # runs even if the wait below is cancelled
                if not writing.done():
                    await asyncio.wait([writing])

    def let_go(self, writing: "asyncio.Task[dict[int, str]]") -> None:
        """Remove files that got no row in the database."""
        if not writing.cancelled() and not writing.exception():
            self.store.abandon(writing.result().values())

    def free_pages(self, part: float = 1.0) -> int:
        """Return the number of free disk pages beyond `part` of the reserve."""
        disk = self.store.disk(part * self.reserve)
        return min(max(0, int(disk.free - part * self.reserve * disk.total)) // 4096, 2**32 - 1)

    async def keep(self, identifier: bytes, judged: Judged, parts: Optional[Parts], files: Writing) -> list[bytes]:
        """Stage parts that the judge accepted and return its last reply. Return the answer FULL if there is no room for
        them (`parts` is None), if the disk fails, or if staged data was lost since the judge was asked."""
        try:
            names = await asyncio.shield(files) if files else {}
            self.must_serve()
            if parts is not None and self.store.losses == judged.losses:
                wrong = self.store.wrong(self.holding, identifier)
                for part, payload in parts.items():
                    file, old = names.pop(part, None), part in wrong
                    self.store.put(self.holding, self.epoch, identifier, part, payload, file, old)
                reply = self.note(judged)
                if self.store.losses == judged.losses:
                    return reply
        except sqlite3.Error:
            pass  # the store has reported it
        except OSError as fault:
            if fault.errno not in WANTING:
                raise
            self.store.tell(fault)
        return [answer(FULL, pages(map(len, judged.requests)), self.free_pages())]

    async def forget(self, request: bytes) -> list[bytes]:
        """Delete the slivers of an invalid blob, if the judge agrees, and return its reply."""
        identifier = request[1:33]
        async with self.store.alone(self.holding, identifier):
            judged = await self.sure(identifier, request)
            with contextlib.suppress(sqlite3.Error):
                if code_of(judged.replies[0]) == client.DONE:
                    self.store.forget(self.holding, self.epoch, identifier)
            return await self.keep(identifier, judged, {}, None)

    async def check(self, identifier: bytes) -> tuple[int, bool]:
        """Judge all parts held of a blob, also those marked wrong; return their bytes, and whether all are sound."""
        async with self.store.alone(self.holding, identifier):
            if not entries_of(self.ledger, self.epoch, identifier):  # the judge needs a live blob
                return 0, not self.store.wrong(self.holding, identifier)
            judged = await self.judged(identifier, client.write_frame(client.Read(identifier)), ALL, True)
            known = self.store.wrong(self.holding, identifier)
            seen = {it.part for it in self.store.parts(self.holding, self.epoch, identifier, ALL, True)}
            if new := [part for part in judged.wrong if part not in known]:
                self.mark(identifier, new)
            if METADATA not in judged.wrong:
                for part in known & seen - {*judged.wrong}:
                    self.store.mark(self.holding, identifier, part, False)
        return judged.size, not judged.wrong

"""Checkpoints: after an epoch change, or once etcd is nearly full, a recorder writes the state of its ledger to etcd,
and drops the entries before.

Several recorders may do so at once, as all that have the same ledger write the same."""
import asyncio
import contextlib
import hashlib
import sqlite3
import sys
import time
import zlib
from typing import Optional


from walrus.network.ledger.checkpoint import Mark

from .appender import Recorder
from .etcd import Failed

PAUSE, IDLE = 5.0, 30.0  # seconds between two looks; seconds without a new entry until etcd may be defragmented
TRIES = 10  # to put a piece of a checkpoint
GRACE = 60.0  # seconds without a new piece after which a recorder no longer waits for another one to write
FULL = 0.75  # of etcd's quota: the rest has room for what comes while entries are dropped, and for the next checkpoint
LEAST = 100_000  # entries after a checkpoint, and a quarter of the live blobs, from which on another one frees much
SLACK = 67_108_864  # free bytes that etcd may always have in its file


class Keeper:
    """The checkpoints of a recorder's ledger."""

    def __init__(self, recorder: Recorder, patience: float):
        self.recorder, self.etcd, self.patience = recorder, recorder.etcd, patience
        self.said, self.dropped = "", 0  # the last failure; the place up to which this recorder has dropped everything
        self.seen = dict[int, float]()  # when the checkpoint of a place was first seen, by the monotonic clock
        self.found: Optional[tuple[int, int]] = None  # the last checkpoint's place, and how many pieces were put since,
        self.since = 0.0  # while the next one is due; and since when that is so

    async def run(self) -> None:
        while True:
            await asyncio.sleep(PAUSE)
            try:
                await self.look()
                self.said = ""
            except (Failed, sqlite3.OperationalError) as fault:  # etcd fails, or the disk does, such as when it is full
                if str(fault) != self.said:
                    print(f"nothing is dropped from etcd: {fault}; it is tried again", file=sys.stderr, flush=True)
                self.said = str(fault)

    async def look(self) -> None:
        """Takes the next step for the checkpoint in etcd, and defragments etcd when it is idle. A checkpoint:

        - waits for nodes, and is marked as dropped once that is over. Meanwhile no other one is written: the wait would
          begin again at each epoch change, and would never end if epochs are shorter than `patience`;
        - is marked, and each recorder drops what is before it;
        - is the last one until the next one is due, and written."""
        recorder, mark = self.recorder, await self.etcd.mark()
        if mark and not mark.dropped:
            if self.is_over(mark) or await self.is_full():
                await self.etcd.put_mark(mark._replace(dropped=True), mark)
        elif mark and mark.place > self.dropped:
            await self.etcd.drop(mark)  # each recorder does so, as the one that set the mark may have ended since
            await recorder.state.forget_places(mark.place)
            self.dropped = mark.place
        elif await self.is_due(mark) and recorder.state.settle():
            await self.write(mark)
        if time.monotonic() > recorder.appended + IDLE:
            size, used = await self.etcd.sizes()
            if size - used > max(SLACK, used):
                await self.etcd.defragment()

    async def is_due(self, mark: Optional[Mark]) -> bool:
        """Whether the next checkpoint is to be written: the epoch has none yet, or so much was appended since its last
        one that etcd is nearly full. Otherwise nothing could be appended any more, not even what ends the epoch. One
        recorder alone begins, as etcd may have no room for the checkpoints of all: the one that appended the epoch
        change, or the one beside etcd's leader. Others, and that one once it has failed, wait until no piece has come
        for `GRACE` seconds."""
        recorder, place, epoch = self.recorder, mark.place if mark else 0, mark.epoch if mark else 0
        turned, least = recorder.ledger.epoch > epoch, LEAST + len(recorder.ledger.blobs) // 4
        if not turned and (recorder.chain.place - place <= least or not await self.is_full()):
            self.found = None
            return False
        if (found := (place, await self.etcd.count_pieces(place))) != self.found:
            self.found, self.since = found, time.monotonic()
        first = not found[1] and (recorder.turned if turned else await self.etcd.leads())
        return first or time.monotonic() > self.since + GRACE

    def is_over(self, mark: Mark) -> bool:
        """Whether all nodes of both committees have posted that they are past a checkpoint's epoch, which this recorder
        knows once it has read up to its place, or `patience` is over. That counts from when the checkpoint was written,
        and by this recorder's own clock also from when it first saw the checkpoint, as the writer's clock may have been
        ahead."""
        ledger, seen = self.recorder.ledger, self.seen.setdefault(mark.place, time.monotonic())
        late = time.time() > mark.time + self.patience or time.monotonic() > seen + self.patience
        has_read = self.recorder.chain.place >= mark.place
        waited = [it for it in ledger.nodes if it not in ledger.expelled]  # no entry of an expelled name counts
        return late or has_read and all(ledger.past.get(it, 0) >= mark.epoch for it in waited)

    async def is_full(self) -> bool:
        """Whether etcd uses so much of its quota that nodes are not waited for any longer: above the quota nothing
        could be appended, and no checkpoint could be marked as dropped."""
        _, used = await self.etcd.sizes()
        return 0 < FULL * await self.etcd.quota() < used  # a negative quota means none

    async def write(self, before: Optional[Mark]) -> None:
        """Writes a checkpoint of the present ledger. The mark comes last, so that nobody finds half a checkpoint, and
        only if no other recorder has put one meanwhile, which may have dropped what is older."""
        recorder = self.recorder
        chain, epoch, count, digest = recorder.chain, recorder.ledger.epoch, 0, hashlib.sha256()
        pieces = recorder.state.written()

        def pack() -> bytes:
            for piece in pieces:
                digest.update(piece)
                return zlib.compress(piece, 1)
            return b""

        while packed := await asyncio.to_thread(pack):
            await self.put_piece(chain.place, count, packed)
            count += 1
        mark = Mark(chain.place, epoch, chain.digest.hex(), digest.hexdigest(), count, time.time())
        await self.etcd.put_mark(mark, before)

    async def put_piece(self, place: int, number: int, piece: bytes) -> None:
        """Puts a piece of a checkpoint, and retries while etcd is slow: a checkpoint begun anew would have another
        place, and the pieces of this one would stay in etcd until a later checkpoint is over."""
        for _ in range(TRIES - 1):
            with contextlib.suppress(Failed):
                return await self.etcd.put_piece(place, number, piece)
            await asyncio.sleep(PAUSE)
        await self.etcd.put_piece(place, number, piece)

"""Scrubs: everything that a node holds is read and judged once every `scrub` days, at a bounded rate. What is wrong is
recovered from the others, what has expired is removed, and what nothing names is first kept aside for a while. The
position of a scrub is on the disk, and a restart continues from there."""
import asyncio
import contextlib
import dataclasses
import functools
import json
import math
import sqlite3
import sys
import time
from typing import TYPE_CHECKING


from walrus.network.node.disk.store import LAST, MARK

from .recovery import passing

if TYPE_CHECKING:
    from .node import Node

DAY, PAUSE, LOOKED = 86_400.0, 2.0, 60.0  # seconds: a day; until a retry; until the clock is read again
AT_ONCE = 50  # expired blobs that are dropped in one step; 500 held the loop for 0.05 s, and 0.5 s on a busy machine
LEAST = 65_536  # bytes that the rate counts for a blob at least, as anybody may store many small ones
NAMED = "SELECT file FROM contents WHERE file BETWEEN ? AND ? || '~'"
OF_FILE = """SELECT holding, identifier, part FROM held WHERE holding IN (SELECT holding FROM holdings)
    AND identifier = ? AND NOT wrong AND content = (SELECT content FROM contents WHERE file = ?)"""
TRIES = 30  # checks of a blob that may fail, such as for lack of memory or a descriptor, before it is skipped


@dataclasses.dataclass
class Figures:
    """The position of a scrub, when it began and when the last one ended (seconds since 1970), and what it found."""

    running: bool = False
    begun: float = 0.0
    ended: float = 0.0
    holding: int = 0
    after: str = ""
    blobs: int = 0
    bytes: int = 0
    wrong: int = 0
    swept: int = 0
    unnamed: int = 0  # blobs that no entry of the ledger names, kept for `grace` seconds


class Scrub:
    """The scrubs of a node, one after the other."""

    def __init__(self, node: "Node"):
        self.node, self.now, self.left = node, asyncio.Event(), asyncio.Event()
        self.compared = asyncio.Event()  # once the first sweep has compared rows with files
        self.tries = 0  # of the next blob
        told = node.store.state("scrub")
        self.figures: Figures = Figures(**json.loads(told)) if told else Figures(ended=time.time())
        if not told:
            self.note()
        self.left.set()  # a crash may have left files that nothing names

    def note(self) -> None:
        """Stage the position, so that a restart continues from here."""
        with contextlib.suppress(sqlite3.Error):
            self.node.store.state("scrub", json.dumps(dataclasses.asdict(self.figures)))

    async def run(self) -> None:
        """Scrub whenever an operator asks, and when `scrub` days are over; if that setting is 0, only when asked."""
        while True:
            if self.figures.ended > time.time():  # the clock was ahead then
                self.figures.ended = time.time()
                self.note()
            due = self.figures.ended + (self.node.settings.scrub or math.inf) * DAY
            if not self.figures.running and not self.now.is_set() and time.time() < due:
                with contextlib.suppress(TimeoutError):
                    async with asyncio.timeout(LOOKED):
                        await self.now.wait()
                continue
            self.now.clear()
            async with passing(self.node.name, "the scrub goes on later", PAUSE):
                await self.scrub()

    async def scrub(self) -> None:
        """Judge everything held from the position on. It moves past a blob only once that is judged: a check that fails
        is tried again, and a blob is skipped only after so many failures that others would wait too long."""
        figures, store = self.figures, self.node.store
        if not figures.running:
            self.figures = figures = Figures(True, begun=time.time(), ended=figures.ended)
            self.note()
        place = figures.holding, bytes.fromhex(figures.after)
        while following := store.next(*place):
            place, begun = following, time.monotonic()
            (holding, identifier), sides = place, self.node.sides.values()
            shards = [it for side in sides for it in side.values() if it.holding == holding]
            if not shards:
                place = holding, LAST  # of a shard that is no longer here: `sweep` deletes it
            elif self.node.caught_up and identifier not in self.node.ledger.blobs:
                await self.let_go(holding, identifier)
            elif self.tries == TRIES:
                told = f"the scrub passes over {identifier.hex()}, whose check failed {TRIES} times"
                print(f"{self.node.name}: {told}", file=sys.stderr, flush=True)
            else:
                self.tries += 1
                store.unnamed(holding, identifier, False)
                size, fine = await max(shards, key=lambda it: it.epoch).check(identifier)
                figures.blobs, figures.bytes = figures.blobs + 1, figures.bytes + size
                figures.wrong += not fine
                due = begun + max(size, LEAST) / self.node.settings.scrub_rate
                await asyncio.sleep(due - time.monotonic())
            self.tries, figures.holding, figures.after = 0, holding, identifier.hex()
            self.note()
        await self.sweep()
        figures.running, figures.ended, figures.holding, figures.after = False, time.time(), 0, ""
        self.note()
        told = f"read {figures.blobs} blobs with {figures.bytes} bytes, of which {figures.wrong} had something wrong"
        print(f"{self.node.name}: a scrub {told}, and put {figures.swept} files aside", file=sys.stderr, flush=True)

    async def let_go(self, holding: int, identifier: bytes) -> None:
        """Drop a blob that no entry of the ledger has named for `grace` seconds. It expired, and the ledger's row was
        lost before it was dropped; or what was heard of the ledger is false, and the blob is named again later: until
        then its rows and files stay as they are, and nothing else is done with it."""
        store = self.node.store
        since = store.unnamed(holding, identifier, True)
        if time.time() >= since + self.node.settings.grace:
            store.expire([identifier])
        else:
            self.figures.unnamed += 1
        await store.durable()

    async def sweep_always(self) -> None:
        """Sweep and drop expired blobs at the start, and whenever there may be something to drop."""
        while True:
            await self.left.wait()
            self.left.clear()
            async with passing(self.node.name, "expired blobs and unnamed files are removed later", PAUSE):
                await self.recall()
                await self.sweep()
                await self.expire()
                continue
            self.left.set()

    async def recall(self) -> None:
        """Forget of blobs that the ledger names again since when it did not."""
        store, after = self.node.store, (0, b"")
        while self.node.caught_up and (rows := store.unnamed_after(*after, AT_ONCE)):
            after = rows[-1]
            for holding, identifier in rows:
                if identifier in self.node.ledger.blobs:
                    store.unnamed(holding, identifier, False)
            await store.durable()

    async def expire(self) -> None:
        """Drop expired blobs step by step; the ledger keeps their rows until they are off the disk. After a kill the
        disk may be ahead of the ledger: parts held since this epoch are then of a blob that was registered again."""
        store, blobs = self.node.store, self.node.ledger.blobs
        while over := blobs.over(AT_ONCE):
            store.expire(over, self.node.ledger.epoch)
            if not await store.durable():
                raise OSError(f"the disk does not take the removal of {len(over)} expired blobs")
            while blobs.base is not self.node.state.base:  # a thread loads a checkpoint: nobody else may write
                await asyncio.sleep(PAUSE)
            blobs.drop(over)

    def compare(self, digits: str, base: sqlite3.Connection) -> tuple[int, list[tuple[int, bytes, int, str]]]:
        """Put the files for two digits aside that nothing names; return how many they were, and the sound parts whose
        file is missing. Names are read before the files and rows behind them: a file is there as long as its row is."""
        named = {name for name, in base.execute(NAMED, (digits, digits))}
        swept, lost = self.node.store.files.sweep(digits, named)
        found = ((it, row) for it in lost for row in base.execute(OF_FILE, (bytes.fromhex(it[:64]), it)))
        return swept, [(holding, identifier, part, it) for it, (holding, identifier, part) in found]

    async def sweep(self) -> None:
        """Put files aside that nothing names, as a crash may leave them, and delete those that have been aside for
        `grace` seconds, or all if the disk has no room. Drop parts of shards that are no longer here. Mark parts whose
        file is missing, so that they are lacking."""
        store, lost = self.node.store, 0
        for number in range(256):
            swept, rows = await store.asked(functools.partial(self.compare, f"{number:02x}"))
            self.figures.swept, lost = self.figures.swept + swept, lost + len(rows)
            for place, row in enumerate(rows, 1):
                store.stage(MARK, *row)  # by its file: another may have replaced it meanwhile
                if place % AT_ONCE == 0 or place == len(rows):
                    if not await store.durable():
                        raise OSError(f"the disk does not take marks of {len(rows)} missing files")
        disk, settings = store.disk(self.node.settings.reserve), self.node.settings
        grace = settings.grace if disk.free > settings.reserve * disk.total else 0.0
        await store.asked(lambda _: store.files.clear(grace))
        self.compared.set()
        if lost:
            told = f"{lost} files are missing in {store.files.folder}, or its folders cannot be read"
            told += ": was all of it copied or mounted, and who owns it? What is lost is recovered from the others"
            print(f"{self.node.name}: {told}", file=sys.stderr, flush=True)
        while store.sweep():
            if not await store.durable():
                raise OSError("the disk does not take the removal of parts")

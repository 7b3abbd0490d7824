"""An SQLite database with group commit, open in one process at a time, and the files beside it that it names."""
import asyncio
import concurrent.futures
import contextlib
import errno
import functools
import os
import pathlib
import queue
import sqlite3
import sys
import threading
from typing import Any, Callable, Iterable, Optional, TypeVar


from walrus.network.service.database import Database

from .content_files import Files

TORN = """the database {0} is torn, or its disk does not read it. If `cat {0}* > /dev/null` fails, or other nodes report
the same now, keep the database and look at the disks. Otherwise move it and its folder of parts away, together, and
start the node without them: the others fill it (network/OPERATING.md)""".replace(
    "\n", " "
)
THREADS = 4  # for work that may wait long for the disk
Result = TypeVar("Result")
Written = asyncio.Future[bool]  # whether one group of staged statements is on the disk
LONG, LONGEST = 4_194_304, 16_777_216  # bytes of SQLite's log that a thread brings into the database; of it in all
FAULTS = sqlite3.Error, MemoryError  # Python raises the latter where SQLite lacks memory
SOON, LATER = 0.002, 0.5  # seconds until a commit: if a reply waits for it; if nobody does


class Staged(Database):
    """A database with group commit. Staged statements are committed together soon after, and are on the disk once a
    thread has synced SQLite's log. So a slow disk delays nothing else, and what is staged meanwhile shares the next
    commit and sync. What cannot be committed is lost. After a failed sync nobody knows what the disk has: nothing more
    is reported to be there, and `fail` is called, which ends the node.

    The thread also brings SQLite's log into the database, over a connection of its own. Nothing is committed meanwhile,
    as two connections that write at the same moment may damage a database before SQLite 3.51.3."""

    seconds = 5.0  # for a lock of SQLite, while the whole event loop waits

    def __init__(self, path: pathlib.Path, fail: Callable[[Any], object]):
        self.path, self.fail, self.losses = path.resolve(), fail, 0  # how often staged data was lost
        self.pending: Optional[Written] = None  # for what is staged now
        self.flushed: asyncio.TimerHandle  # which commits that
        self.named, self.dropped = list[str](), list[str]()  # files that staged rows name; that lose their row
        self.committed = list[tuple[Written, list[str]]]()  # to sync next; files to remove then
        self.last: Optional[Written] = None  # for the last commit
        self.syncing = list[tuple[Written, list[str]]]()  # what is being synced
        self.syncs = queue.SimpleQueue[Optional[Callable[[], None]]]()  # what the thread is to do
        self.unsynced: Optional[OSError] = None  # why a sync failed, and all later ones do
        self.length = self.brought = 0  # bytes of SQLite's log, and how many of them the database has
        self.bringing: Optional["asyncio.Future[None]"] = None  # the thread brings them in
        self.ended = False  # the database is closed
        try:
            super().__init__(str(self.path), str(self.path.with_suffix(".parts")))
        except BlockingIOError as fault:
            words = "end that one first, or name a database that differs in more than its ending"
            raise OSError(f"{fault.strerror}: {words}") from None
        self.bring_in()
        self.log = self.opened.enter_context(open(f"{self.path}-wal", "rb"))  # kept open: it reports each fault once
        self.files.sync(self.path.parent)  # the folder of the log
        self.pool = concurrent.futures.ThreadPoolExecutor(THREADS, "disk")  # asyncio's may be busy resolving names
        self.syncer = threading.Thread(target=self.work, name="sync", daemon=True)  # cheaper than a pool
        self.syncer.start()

    def open_tables(self) -> None:
        """Set up SQLite's log and the folder of files; any fault here closes the database again."""
        if self.base.execute("PRAGMA journal_mode").fetchone() != ("wal",):
            raise OSError(
                errno.EINVAL, f"SQLite keeps no log on the disk of {self.path}: put the database on another one"
            )
        self.base.execute("PRAGMA synchronous = NORMAL")
        self.base.execute("PRAGMA wal_autocheckpoint = 0")  # which would sync the log and the database in a commit
        self.base.execute("PRAGMA journal_size_limit = 0")  # a log that begins anew has no old rest
        self.base.text_factory = functools.partial(str, encoding="utf-8", errors="replace")
        self.files = Files(self.path.with_suffix(".parts"))

    def bring_in(self) -> None:
        """Checkpoint SQLite's log into the database, and wait until no other process reads the database. The disk may
        lack parts of the log, and after a sync that failed another one proves nothing, as the system takes the pages
        for clean then. So all of it is written again to the database, and synced there."""
        said = False
        while self.base.execute("PRAGMA wal_checkpoint(TRUNCATE)").fetchone()[0]:
            if not said:
                print(f"another process reads {self.path}: waiting until it ends", file=sys.stderr, flush=True)
            said = True

    def stage(self, words: str, *values: object) -> sqlite3.Cursor:
        """Run a statement in the transaction that is committed next; if it fails, all that is staged is lost."""
        try:
            if self.pending is None:
                self.base.execute("BEGIN IMMEDIATE")
                loop = asyncio.get_running_loop()
                self.pending = loop.create_future()
                self.flushed = loop.call_later(LATER, self.commit_soon)
            return self.base.execute(words, values)
        except sqlite3.Error as fault:
            self.lose(fault)
            raise

    def lose(self, fault: Exception) -> None:
        """Roll back what was staged, and report at once to those who wait for it that it is lost."""
        self.losses += 1
        if self.base.in_transaction:
            self.base.execute("ROLLBACK")
        self.abandon(self.named)
        if pending := self.settle():
            pending.set_result(False)
        if type(fault) is sqlite3.DatabaseError:  # pages are torn
            self.fail(fault)
        else:
            self.tell(fault)

    def settle(self) -> Optional[Written]:
        """Forget what was staged, and return its future, or None if nothing was."""
        pending, self.pending, self.named, self.dropped = self.pending, None, [], []
        if pending:
            self.flushed.cancel()
        return pending

    def abandon(self, files: Iterable[str]) -> None:
        """Remove files that nothing names, in a thread."""
        if found := [*files]:
            with contextlib.suppress(RuntimeError):  # no thread can be started: the next call removes them, or a sweep
                asyncio.get_running_loop().run_in_executor(self.pool, self.files.remove, found)

    def commit(self) -> bool:
        """Commit what is staged, without a sync; return whether that worked."""
        try:
            if self.pending:
                self.base.execute("COMMIT")
                self.fault = ""
                if self.length >= LONGEST:  # it did not begin anew, as it does with a transaction behind a whole one
                    self.length = self.brought = 0
                    self.bring(self.base)
        except sqlite3.Error as fault:
            self.lose(fault)
            return False
        dropped = self.dropped
        if pending := self.settle():
            self.last = pending
            self.committed.append((pending, dropped))
        return True

    def flush(self) -> bool:
        """Commit what is staged, and start a sync unless one is under way; return whether the commit worked."""
        done = self.commit()
        if self.committed and not self.syncing:
            self.syncing, self.committed = self.committed, []
            self.syncs.put(functools.partial(self.sync, asyncio.get_running_loop()))
        return done

    def commit_soon(self) -> None:
        """Flush what has waited long enough. If the thread is at work, that is done at the end of its work."""
        if not self.syncing and not self.bringing:
            self.flush()

    def work(self) -> None:
        """Do whatever the thread is asked to, while the database is open."""
        while step := self.syncs.get():
            step()

    def sync(self, loop: asyncio.AbstractEventLoop) -> None:
        """Sync SQLite's log, in the thread. After one fault all syncs fail."""
        try:
            if not self.unsynced:
                os.fdatasync(self.log)
        except OSError as it:
            words = f"the log of {self.path} is not synced: {it.strerror}; look at the disk before it fails again"
            self.unsynced = OSError(it.errno, words)
        loop.call_soon_threadsafe(self.synced, self.unsynced)

    def bring_soon(self) -> bool:
        """Have the thread bring SQLite's log into the database if much of it has come since the last time; return
        whether it does."""
        length = os.fstat(self.log.fileno()).st_size
        self.length, self.brought = length, self.brought if length >= self.length else 0  # else it began anew
        if length - self.brought < LONG:
            return False
        loop, self.brought = asyncio.get_running_loop(), length
        self.bringing = loop.create_future()
        self.base.execute(f"PRAGMA cache_spill = {LONGEST}")  # pages: what is staged meanwhile stays in memory

        def bring() -> None:
            with contextlib.suppress(*FAULTS), contextlib.closing(sqlite3.connect(self.path)) as base:
                self.bring(base)
            loop.call_soon_threadsafe(self.is_brought)

        self.syncs.put(bring)
        return True

    def is_brought(self) -> None:
        """Go on with what came while the log was brought into the database."""
        if self.bringing and not self.ended:
            self.bringing.set_result(None)
            self.bringing = None
            self.base.execute("PRAGMA cache_spill = 1")
            self.flush_due()

    def bring(self, base: sqlite3.Connection) -> None:
        with contextlib.suppress(*FAULTS):  # such as of a full disk: the log stays as it is, and is whole
            base.execute("PRAGMA wal_checkpoint(PASSIVE)").fetchall()

    async def calm(self) -> None:
        """Wait while nothing may be committed."""
        while self.bringing:
            await asyncio.shield(self.bringing)

    def synced(self, fault: Optional[OSError]) -> None:
        """Report a sync to those who wait for it, and flush what was committed or became due meanwhile."""
        some, self.syncing = self.syncing, []
        for written, dropped in some:
            written.set_result(not fault)
            self.abandon(() if fault else dropped)
        if fault:
            self.fail(fault)
        elif not self.ended and self.bring_soon():
            return
        self.flush_due()

    def flush_due(self) -> None:
        if self.committed or self.pending and self.flushed.when() <= asyncio.get_running_loop().time():
            self.flush()

    def written(self) -> Optional[Written]:
        """Commit soon; return a future of whether all that was staged is on the disk, or None if nothing was staged."""
        loop = asyncio.get_running_loop()
        if self.pending and self.flushed.when() > loop.time() + SOON:
            self.flushed.cancel()
            self.flushed = loop.call_later(SOON, self.commit_soon)
        return self.pending or self.last

    async def durable(self) -> bool:
        """Wait for the disk, and return whether all that was staged is on it."""
        written = self.written()
        return written is None or await asyncio.shield(written)

    async def persist(self, stage: Callable[[], None]) -> None:
        """Stage what must be on the disk before the node goes on, and retry each second until it is there. Raises if
        the database is torn, as no retry mends that."""
        while True:
            await self.calm()
            with contextlib.suppress(sqlite3.OperationalError):
                stage()
                if self.flush() and await self.durable():
                    return
            await asyncio.sleep(1)

    def reader(self) -> sqlite3.Connection:
        return sqlite3.connect(f"{self.path.as_uri()}?mode=ro", uri=True)  # quotes what has a meaning in a URI

    async def asked(self, ask: Callable[[sqlite3.Connection], Result]) -> Result:
        """Return the result of a query that may take long, run in a thread with a read-only connection of its own."""

        def read() -> Result:
            with contextlib.closing(self.reader()) as base:
                return ask(base)

        await self.calm()
        self.flush()  # so that the thread sees what is staged
        return await asyncio.get_running_loop().run_in_executor(self.pool, read)

    def close(self) -> None:
        self.ended = True
        self.syncs.put(None)
        self.syncer.join()
        self.commit()  # SQLite syncs it, and brings it into the database, as it closes that
        waiting, self.committed, self.syncing = self.syncing + self.committed, [], []
        self.pool.shutdown()
        super().close()
        for written, _ in waiting:
            written.set_result(False)  # as SQLite does not report whether that sync worked

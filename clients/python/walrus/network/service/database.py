"""An SQLite database that one process at a time may open."""
import asyncio
import concurrent.futures
import contextlib
import fcntl
import pathlib
import shutil
import sqlite3
import sys
from typing import Callable, Optional, Sequence

ROOM = 1_048_576  # bytes that must be free before a disk that was full is tried again


class Database:
    """A database under lock files, its own and those of `others`, or one without files, of this object alone, if `name`
    is empty."""

    seconds = 20.0  # to wait while another process has locked the database
    checked: Sequence[object] = (1,)  # tables whose pages are checked; (1,): all, up to one fault

    def __init__(self, name: str, *others: str):
        self.name, self.fault = name, ""
        self.working: Optional["concurrent.futures.Future[object]"] = None  # a thread's work over `base`
        with contextlib.ExitStack() as opened:
            for it in [name, *others] if name else []:
                try:
                    fcntl.flock(opened.enter_context(open(f"{it}.lock", "ab")), fcntl.LOCK_EX | fcntl.LOCK_NB)
                except BlockingIOError as fault:
                    raise BlockingIOError(fault.errno, f"another process runs over {it}") from None
            base = sqlite3.connect(name, isolation_level=None, timeout=self.seconds, check_same_thread=False)
            self.base = opened.enter_context(contextlib.closing(base))
            self.base.execute("PRAGMA journal_mode = WAL")
            self.open_tables()
            self.opened = opened.pop_all()

    def open_tables(self) -> None:
        """Make the tables unless they are there."""

    def must_be_whole(self) -> None:
        """Raise `DatabaseError` if pages do not fit together. Reads all that are checked, so a start may take long."""
        found = {self.base.execute(f"PRAGMA quick_check({it})").fetchone() for it in self.checked}
        if found != {("ok",)}:
            raise sqlite3.DatabaseError("its pages do not fit together")

    def tell(self, fault: Exception) -> None:
        """Report a write that failed, once until another one works."""
        if str(fault) != self.fault:
            print(f"the disk does not take {self.name}: {fault}; it is tried again", file=sys.stderr, flush=True)
        self.fault = str(fault)

    def is_full(self) -> bool:
        """Return whether a write failed and the disk has no room now, so that another one would fail too."""
        with contextlib.suppress(OSError):  # a disk that does not say so is tried
            return bool(self.fault) and shutil.disk_usage(pathlib.Path(self.name).parent).free < ROOM
        return False

    async def aside(self, work: Callable[[], object]) -> None:
        """Run long work over the connection in a thread. Nothing else may use it meanwhile; `close` waits for it."""
        pool = concurrent.futures.ThreadPoolExecutor(1, "database")
        self.working = pool.submit(work)
        pool.shutdown(wait=False)
        await asyncio.wrap_future(self.working)

    def close(self) -> None:
        concurrent.futures.wait([self.working] if self.working else [])
        self.opened.close()

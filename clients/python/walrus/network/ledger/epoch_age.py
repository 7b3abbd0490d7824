"""How old the present epoch is, by the clock of the machine that saw it begin."""
import sqlite3
import time
from typing import Optional

from .rules import Ledger

TABLE = "CREATE TABLE IF NOT EXISTS begun (one INTEGER PRIMARY KEY CHECK (one = 1), epoch INTEGER, time REAL)"


class Age:
    """When the present epoch was seen to begin, kept in a database, so that it counts over restarts. A clock that is
    set matters at a start only."""

    def __init__(self, base: sqlite3.Connection):
        self.base = base
        self.since: Optional[tuple[int, float]] = None  # the epoch, and when it began, by the monotonic clock
        base.execute(TABLE)
        for epoch, begun in base.execute("SELECT epoch, time FROM begun"):
            self.since = epoch, time.monotonic() - max(0.0, time.time() - begun)

    @property
    def seconds(self) -> float:
        """The age of the epoch; infinite if its beginning was not seen, as the first state here was of that epoch."""
        return time.monotonic() - self.since[1] if self.since else float("inf")

    def note(self, ledger: Ledger) -> None:
        """Notes the time if the ledger has another epoch than before. Before the first committee it has none."""
        epoch = ledger.epoch if ledger.now else -1
        if not self.since or self.since[0] != epoch:
            self.since = epoch, time.monotonic() if self.since else float("-inf")

    def save(self) -> None:
        """Writes the time to the database, for the next start."""
        if self.since:
            begun = max(0.0, time.time() - self.seconds)
            self.base.execute("INSERT OR REPLACE INTO begun VALUES (1, ?, ?)", (self.since[0], begun))

"""Shares of tokens: what each has stored in an epoch, counted in SQLite so that it survives restarts."""
import pathlib
import sqlite3
from typing import Optional


from walrus.network.files.file_list import PIECE
from walrus.network.gateway.http.errors import Problem

from .tokens import Token

NO_BOUND = 2**62
KEPT = 1_000  # epochs before the newest one whose counts are kept, for uploads that began in them
MADE = """CREATE TABLE IF NOT EXISTS used
(name TEXT, epoch INTEGER, bytes INTEGER, blobs INTEGER, PRIMARY KEY (name, epoch)) STRICT, WITHOUT ROWID"""
BEGIN = f"""INSERT OR IGNORE INTO used SELECT ?1, ?2, 0, 0
WHERE NOT EXISTS (SELECT 1 FROM used WHERE name = ?1 AND epoch > ?2 + {KEPT})"""
TAKE = """UPDATE used SET bytes = bytes + ?3, blobs = blobs + ?4
WHERE name = ?1 AND epoch = ?2 AND bytes + ?3 <= ?5 AND blobs + ?4 <= ?6"""


class Shares:
    """The database of the shares of tokens. Gateways that use one database count together."""

    def __init__(self, path: pathlib.Path):
        try:
            self.base = sqlite3.connect(path, isolation_level=None, timeout=5)
            self.base.executescript(f"PRAGMA journal_mode=WAL; PRAGMA synchronous=NORMAL; {MADE}")
        except sqlite3.Error as fault:
            raise Problem(503, f"{path} cannot keep what tokens have used, and so nothing is stored: {fault}") from None

    def close(self) -> None:
        self.base.close()

    def used(self, name: str, epoch: int) -> tuple[int, int]:
        """Returns the bytes and blobs that are counted for a name in an epoch."""
        row = self.base.execute("SELECT bytes, blobs FROM used WHERE name = ? AND epoch = ?", (name, epoch)).fetchone()
        return (int(row[0]), int(row[1])) if row else (0, 0)

    def take(self, token: Token, epoch: int, size: int, blobs: int) -> bool:
        """Adds `size` bytes and `blobs` (negative to give back) to a token's count, and returns True, unless that would
        exceed its share. Raises `Problem` (503) if the database fails."""
        bounds = token.bounds if size > 0 or blobs > 0 else {}
        most = [NO_BOUND if (bound := bounds.get(kind)) is None else bound for kind in ("bytes", "blobs")]
        try:
            self.base.execute(BEGIN, (token.name, epoch))
            self.base.execute("DELETE FROM used WHERE name = ? AND epoch < ?", (token.name, epoch - KEPT))
            return self.base.execute(TAKE, (token.name, epoch, size, blobs, *most)).rowcount == 1
        except sqlite3.Error as fault:
            raise Problem(503, f"what tokens have used cannot be kept, and so nothing is stored: {fault}") from None


class Charge:
    """The charge for one upload: its bytes as they arrive, a blob for each piece, and one for the list of pieces."""

    def __init__(self, shares: Optional[Shares], token: Optional[Token], epoch: int):
        self.shares, self.token, self.epoch = shares, token, epoch
        self.size = self.bytes = self.blobs = 0  # bytes that arrived; bytes and blobs that are counted

    def announce(self, size: int) -> None:
        """Raises `Problem` if a file of this length would exceed the share, before its bytes arrive."""
        self.set_to(size, count_of(size))
        self.set_to(0, 0)

    def add(self, size: int) -> None:
        """Charges for further bytes. Raises `Problem` if that would exceed the share; then they are not counted."""
        self.replace(self.size + size)

    def replace(self, size: int) -> None:
        """Charges for `size` bytes in place of those that arrived so far; raises as `add` does."""
        self.set_to(size, count_of(size))
        self.size = size

    def go_on(self, size: int) -> None:
        """Continues an upload of which `size` bytes arrived, and were charged, before."""
        self.size, self.bytes, self.blobs = size, size, count_of(size)

    def settle_at(self, pieces: int) -> None:
        """Gives back what was charged beyond this number of whole pieces."""
        self.set_to(pieces * PIECE, pieces)

    def settle(self, is_stored: bool, is_new: bool) -> None:
        """Gives back what was not stored: all for a file that was there before, and the last piece of an upload that
        broke off."""
        whole = max(0, self.size - 1) // PIECE  # pieces that may be stored: each only once something follows it
        if not is_stored:
            self.set_to(whole * PIECE, whole)
        elif not is_new:
            self.set_to(0, 0)

    def set_to(self, size: int, blobs: int) -> None:
        """Sets what is counted for this upload to these bytes and blobs; raises as `add` does."""
        if self.shares and self.token and (size, blobs) != (self.bytes, self.blobs):
            if not self.shares.take(self.token, self.epoch, size - self.bytes, blobs - self.blobs):
                self.refuse()
            self.bytes, self.blobs = size, blobs

    def refuse(self) -> None:
        assert self.shares and self.token
        used, name, bounds = self.shares.used(self.token.name, self.epoch), self.token.name, self.token.bounds
        shares = [
            f"{count} of {most} {kind}" for kind, count in zip(bounds, used) if (most := bounds[kind]) is not None
        ]
        raise Problem(403, f"{name} has used {' and '.join(shares)} of epoch {self.epoch}: this exceeds what is left")


def count_of(size: int) -> int:
    """Returns the number of blobs for a file of this length: its pieces, and a list if there are several."""
    pieces = max(1, -(-size // PIECE))
    return pieces + (pieces > 1)

"""The live blobs of a ledger, in SQLite: who registered them, and which shards acknowledged or attested them."""
import collections
import contextlib
import itertools
import random
import sqlite3
from typing import Collection, Iterable, Iterator, Mapping, Optional

from .checkpoint import Row
from .entries import ACK, ATTEST
from .live_blob import Blob, blob_of, shards_in, text_of, without_past

__all__ = ["Blob", "Blobs", "Over", "Owed", "shards_in"]

CACHED = 8_192  # blobs that are kept in memory
# Triggers of SQLite count each poster's blobs by the epoch until which they are kept: an epoch change reads no blob.
COUNT = """INSERT INTO counts VALUES (new.until, new.poster, 1, new.certified NOTNULL, new.invalid NOTNULL)
    ON CONFLICT DO UPDATE SET registered = registered + 1, certified = certified + excluded.certified,
    invalid = invalid + excluded.invalid"""
COUNT_ALL = """INSERT INTO counts SELECT until, poster, count(*), count(certified), count(invalid) FROM blobs
    GROUP BY until, poster"""
MOVE_COUNTS = """INSERT INTO counts SELECT ?, poster, sum(registered), sum(certified), sum(invalid) FROM counts
    WHERE poster = ? AND until > ? GROUP BY poster ON CONFLICT DO UPDATE SET registered = registered +
    excluded.registered, certified = certified + excluded.certified, invalid = invalid + excluded.invalid"""
UNCOUNT = """UPDATE counts SET registered = registered - 1, certified = certified - (old.certified NOTNULL),
    invalid = invalid - (old.invalid NOTNULL) WHERE until = old.until AND poster = old.poster"""
TABLES = (
    """CREATE TABLE IF NOT EXISTS blobs (identifier BLOB PRIMARY KEY, number INTEGER, until INTEGER, poster TEXT,
    votes TEXT, certified INTEGER, invalid INTEGER) WITHOUT ROWID""",
    """CREATE TABLE IF NOT EXISTS counts (until INTEGER, poster TEXT, registered INTEGER, certified INTEGER,
    invalid INTEGER, PRIMARY KEY (until, poster)) WITHOUT ROWID""",
    "CREATE INDEX IF NOT EXISTS of_epoch ON blobs (until)",
    "CREATE INDEX IF NOT EXISTS of_number ON blobs (number, until)",
    f"CREATE TRIGGER IF NOT EXISTS made AFTER INSERT ON blobs BEGIN {COUNT}; END",
    f"CREATE TRIGGER IF NOT EXISTS changed AFTER UPDATE ON blobs BEGIN {UNCOUNT}; {COUNT}; END",
)
DERIVED = "INDEX of_epoch", "INDEX of_number", "TRIGGER made", "TRIGGER changed"  # cheaper made anew for many rows
ALL = "SELECT * FROM blobs WHERE until > ? ORDER BY identifier"
# A row that was changed comes with the number 0, and keeps the one that it has.
PUT = """INSERT INTO blobs VALUES (?, ?, ?, ?, ?, ?, ?) ON CONFLICT DO UPDATE SET
    number = max(number, excluded.number), until = excluded.until, poster = excluded.poster, votes = excluded.votes,
    certified = excluded.certified, invalid = excluded.invalid"""
ENDING = """SELECT identifier FROM blobs WHERE identifier > ? AND until > ? AND until <= ?
    ORDER BY identifier LIMIT ?"""


def ending_of(name: str, *words: object) -> list[bytes]:
    """Returns the same as `Blobs.ending`, by a connection of its own to a database that another thread writes."""
    with contextlib.closing(sqlite3.connect(name)) as base:
        return [it for it, in base.execute(ENDING, words)]


class Blobs(Mapping[bytes, Blob]):
    """Blobs in a database, in the order in which they were registered, some of them also in memory. Changes are written
    to the database when another query needs them. `needed` is the number of shards in a quorum, and `number` that of
    the last blob. A blob that is kept until `epoch` or less is *over*, or expired: this mapping no longer has it, and
    its row is deleted later, so that an epoch change costs the same however many blobs end with it."""

    needed, epoch, number = 1, 0, 0

    def __init__(self, base: Optional[sqlite3.Connection] = None):
        self.base = base or sqlite3.connect(":memory:", isolation_level=None)
        self.make()
        self.kept = dict[bytes, Optional[Blob]]()  # in memory; None if the ledger has no such blob
        self.numbers = dict[bytes, int]()  # of new blobs that the database lacks, and 0 of others that were changed

    def make(self) -> None:
        for words in TABLES:
            self.base.execute(words)

    def __getitem__(self, identifier: bytes) -> Blob:
        if identifier not in self.kept:
            words = "SELECT until, poster, votes FROM blobs WHERE identifier = ?"
            row = self.base.execute(words, (identifier,)).fetchone()
            self.keep(identifier, blob_of(*row) if row else None)
        blob = self.kept[identifier]
        if blob is None or blob.until <= self.epoch:
            raise KeyError(identifier)
        return blob

    def keep(self, identifier: bytes, blob: Optional[Blob]) -> None:
        if len(self.kept) >= CACHED and identifier not in self.kept:
            self.flush()
            for some in [*self.kept][: CACHED // 4 + 1]:
                del self.kept[some]
        self.kept[identifier] = blob

    def __setitem__(self, identifier: bytes, blob: Blob) -> None:
        is_new = identifier not in self
        self.number += is_new
        self.keep(identifier, blob)
        self.numbers.setdefault(identifier, self.number if is_new else 0)

    def flush(self) -> sqlite3.Connection:
        """Writes all changes to the database, and returns it."""
        rows = [self.row(identifier, number) for identifier, number in self.numbers.items()]
        self.base.executemany(PUT, rows)
        self.numbers.clear()
        return self.base

    def row(self, identifier: bytes, number: int) -> Row:
        blob = self[identifier]
        first = [(blob.quorum(kind, self.needed) or (None,))[0] for kind in (ACK, ATTEST)]
        return identifier, number, blob.until, blob.poster, text_of(blob.votes, blob.others), first[0], first[1]

    def names(self, words: str, *values: object) -> list[bytes]:
        """Returns the identifiers of the blobs for which an SQL condition holds."""
        return [it for it, in self.flush().execute(f"SELECT identifier FROM blobs WHERE {words}", values)]

    def ordered(self, by: str) -> Iterator[bytes]:
        words = f"SELECT identifier FROM blobs WHERE until > ? ORDER BY {by}"
        return (it for it, in self.flush().execute(words, (self.epoch,)))

    def __iter__(self) -> Iterator[bytes]:
        return self.ordered("number")

    def __reversed__(self) -> Iterator[bytes]:
        return self.ordered("number DESC")

    def __len__(self) -> int:
        return self.counts()["registered"]

    def page(self, after: bytes, count: int = 1_000) -> list[tuple[bytes, Blob]]:
        """Returns up to `count` blobs after an identifier, in the order of identifiers."""
        words = "SELECT identifier, until, poster, votes FROM blobs WHERE identifier > ? AND until > ?"
        rows = self.flush().execute(f"{words} ORDER BY identifier LIMIT ?", (after, self.epoch, count))
        return [(row[0], blob_of(*row[1:])) for row in rows]

    def expire(self, epoch: int) -> "collections.Counter[str]":
        """Ends all blobs that are kept until this epoch or less; returns each poster's number of live blobs."""
        self.flush().execute("DELETE FROM counts WHERE until <= ?", (epoch,))
        self.epoch = epoch
        return self.posters()

    def release(self, name: str, gone: Collection[str], last: int) -> None:
        """Ends what a poster keeps beyond epoch `last` with that epoch, unless somebody who is not `gone` keeps it for
        longer."""
        for identifier in self.names("poster = ? AND until > ? AND json_array_length(votes) > 2", name, last):
            self[identifier] = self[identifier].without(gone, last)
        base = self.flush()
        base.execute("DROP TRIGGER changed")  # all are counted at once, as they may be many
        base.execute("UPDATE blobs SET until = ? WHERE poster = ? AND until > ?", (last, name, last))
        base.execute(MOVE_COUNTS, (last, name, last))
        base.execute("DELETE FROM counts WHERE poster = ? AND until > ?", (name, last))
        self.make()
        self.forget()

    def over(self, count: int) -> list[bytes]:
        """Returns up to `count` blobs that are over by their own time and still have a row."""
        return self.names("until BETWEEN -? AND ? LIMIT ?", self.epoch, self.epoch, count)

    def is_over(self, identifier: bytes) -> bool:
        """Whether a blob is over by its own time and still has a row."""
        words, is_live = "SELECT 1 FROM blobs WHERE identifier = ? AND until >= -?", identifier in self
        found = not is_live and self.kept[identifier] and self.base.execute(words, (identifier, self.epoch)).fetchone()
        return bool(found)

    def drop(self, identifiers: Iterable[bytes]) -> None:
        """Deletes the rows of those of these blobs that are over."""
        rows = ((identifier, self.epoch) for identifier in identifiers)
        self.base.executemany("DELETE FROM blobs WHERE identifier = ? AND until <= ?", rows)

    def posters(self) -> "collections.Counter[str]":
        """Returns the number of live blobs of each poster."""
        words = "SELECT poster, sum(registered) AS live FROM counts WHERE until > ? GROUP BY poster HAVING live"
        return collections.Counter(dict(self.flush().execute(words, (self.epoch,))))

    def counts(self) -> dict[str, int]:
        """Returns the number of live blobs, and how many of them are certified or declared invalid."""
        words = "SELECT total(registered), total(certified), total(invalid) FROM counts WHERE until > ?"
        found = self.flush().execute(words, (self.epoch,)).fetchone()
        return dict(zip(("registered", "certified", "invalid"), map(int, found)))

    def ending(self, after: bytes, last: int, count: int) -> list[bytes]:
        """Returns up to `count` live blobs after an identifier that are kept until epoch `last` or less, in order."""
        return [it for it, in self.flush().execute(ENDING, (after, self.epoch, last, count))]

    def owed(self, until: int, certified: int) -> "Collection[bytes] | Owed":
        """Returns the blobs kept beyond epoch `until` that were certified in epoch `certified` or before, in order."""
        return Owed(self, until, certified)

    def behind(self, identifier: bytes, count: int) -> list[bytes]:
        """Returns up to `count` certified live blobs that were first registered after this one, in that order."""
        words = "number > (SELECT number FROM blobs WHERE identifier = ?) AND until > ? AND certified NOTNULL"
        return self.names(f"{words} ORDER BY number LIMIT ?", identifier, self.epoch, count)

    def draw(self, drawn: random.Random) -> Optional[bytes]:
        """Returns a live blob at random, or None if there is none."""
        words = "identifier >= ? AND until > ? ORDER BY identifier LIMIT 1"
        found = self.names(words, drawn.randbytes(32), self.epoch) or self.names(words, bytes(32), self.epoch)
        return found[0] if found else None

    def forget(self) -> None:
        """Drops what is in memory, with the changes that are not in the database."""
        self.kept.clear()
        self.numbers.clear()

    def take(self, rows: Iterator[Row]) -> None:
        """Replaces all blobs by these. Blobs that were here and are not among them are live no more, and keep the epoch
        until which they were kept, negated: their parts are dropped when that comes, or by a scrub."""
        self.flush()
        self.forget()
        for name in DERIVED:
            self.base.execute(f"DROP {name}")
        self.base.execute("UPDATE blobs SET until = -abs(until)")
        self.base.executemany(PUT, map(without_past, rows))
        self.make()
        self.base.execute("DELETE FROM counts")
        self.base.execute(COUNT_ALL)


class Owed:
    """The blobs of `Blobs.owed`. Each iteration reads the database page by page, as they may be many."""

    def __init__(self, blobs: Blobs, until: int, certified: int):
        self.blobs, self.values = blobs, (until, certified)

    def __iter__(self) -> Iterator[bytes]:
        return itertools.chain.from_iterable(self.pages(1_000))

    def pages(self, count: int) -> Iterator[list[bytes]]:
        """Yields them in lists, some possibly empty: each one reads `count` rows, also those of blobs not owed."""
        words, after = "SELECT identifier, until > ? AND certified <= ? FROM blobs WHERE identifier > ?", b""
        words += " ORDER BY identifier LIMIT ?"
        while page := self.blobs.flush().execute(words, (*self.values, after, count)).fetchall():
            after = page[-1][0]
            yield [identifier for identifier, is_owed in page if is_owed]


class Over(Blobs):
    """Changes over other blobs, which stay as they are. It answers for single identifiers only, and only up to an epoch
    change."""

    def __init__(self, below: Blobs):
        self.below, self.kept = below, {}

    def __getitem__(self, identifier: bytes) -> Blob:
        return self.kept.get(identifier) or self.below[identifier]

    def __setitem__(self, identifier: bytes, blob: Blob) -> None:
        self.kept[identifier] = blob

    def release(self, name: str, gone: Collection[str], last: int) -> None:
        """Does nothing: nothing is tried over these blobs after that."""

    def expire(self, epoch: int) -> "collections.Counter[str]":
        return collections.Counter()

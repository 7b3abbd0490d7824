"""The state of a ledger in SQLite: its blobs by identifier, and how far it was heard; a restart goes on from there."""
import asyncio
import collections
import contextlib
import copy
import hashlib
import json
import pathlib
import sqlite3
import time
from typing import Any, Callable, Iterable, Iterator, Optional


from walrus.network.service.database import Database

from . import checkpoint
from .blobs import ALL, Blobs
from .entries import Chain, Entry
from .epoch_age import Age
from .rules import Ledger

EACH, LATER = 0.5, 1.0  # seconds between two commits; the same at least after the disk took none, such as when full
HELD = 5_000  # entries that wait for the disk: applying them again takes 0.15 s of a processor, or 1 s if it is busy
REST = 10  # the pause after a failed commit, as a multiple of the time that it took to apply its entries again
PAGES = 32_768  # KiB of the database that are kept in memory
VERSION = 4  # of the tables
DROPPED = 1_000  # rows of blobs that are over, or entries of the tail, that are deleted with a commit at most
TORN = sqlite3.SQLITE_CORRUPT, sqlite3.SQLITE_NOTADB, sqlite3.SQLITE_ERROR  # damaged, no database, or another's
TABLES = """
PRAGMA synchronous = NORMAL;
PRAGMA cache_spill = OFF;
CREATE TABLE IF NOT EXISTS entries (place INTEGER PRIMARY KEY, text TEXT, epoch INTEGER);
CREATE TABLE IF NOT EXISTS digests (place INTEGER PRIMARY KEY, digest BLOB); -- of all up to some of those places
CREATE TABLE IF NOT EXISTS told (one INTEGER PRIMARY KEY CHECK (one = 1), value TEXT);
CREATE TABLE IF NOT EXISTS places (digest BLOB PRIMARY KEY, place INTEGER) WITHOUT ROWID; -- of entries, at a recorder
"""
TELL = "INSERT OR REPLACE INTO told VALUES (1, ?)"
# The state of a ledger beside its blobs, and how each value is made from JSON.
FORMS: dict[str, Callable[[Any], Any]] = dict.fromkeys(("faults", "epoch", "revision", "concentrated"), int)
FORMS |= {"now": tuple, "next": tuple, "calendar": tuple, "ready": frozenset, "expelled": frozenset}
FORMS |= {"posted": collections.Counter, "addressed": collections.Counter, "shares": dict}
FORMS |= {"addresses": lambda told: {name: (host, port) for name, (host, port) in dict(told).items()}, "past": dict}


def short_digest(text: str) -> bytes:
    return hashlib.sha256(text.encode()).digest()[:16]


class State(Database):
    """The state of a ledger in a database that belongs to one process. A restart lacks what was applied since the last
    commit, and nothing is committed while `entering`. With a `tail` it also keeps the entries of that many epochs, the
    present one among them; its owner then drops the rows of blobs that are over."""

    def __init__(self, path: str = "", tail: int = 0, pages: int = PAGES):
        self.tail, self.pages, self.identity = tail, pages, ""
        self.entering = False  # a checkpoint is being loaded, or entries are being applied: a commit would have a part
        self.chain: Optional[Chain] = None
        self.fresh = list[Entry]()  # entries that were applied since the last commit
        self.again = self.due = 0.0  # when to try a full disk again; when to commit what is saved with `soon`
        super().__init__(path)

    def open_tables(self) -> None:
        [(version,)] = self.base.execute("PRAGMA user_version")
        if version != VERSION and self.base.execute("SELECT 1 FROM sqlite_master").fetchone():
            raise ValueError("its tables are of another version")
        self.must_be_whole()  # before the cache of pages is enlarged, as this check would fill it
        self.base.executescript(f"PRAGMA cache_size = -{self.pages}; PRAGMA user_version = {VERSION};{TABLES}")
        self.blobs = Blobs(self.base)
        self.ledger, self.saved = Ledger(self.blobs), 0  # `saved`: the epoch of the last commit
        self.apply: Callable[[Entry], Optional[str]] = self.ledger.apply  # used to apply entries again after a rollback
        self.born = json.dumps(self.fields())
        self.begun = Age(self.base)
        self.base.execute("BEGIN IMMEDIATE")
        self.load()

    def load(self) -> None:
        """Loads what was committed; if nothing was, the state of a ledger before its first entry."""
        row = self.base.execute("SELECT value FROM told").fetchone()
        self.put(json.loads(row[0]) if row else json.loads(self.born) | {"ledger": self.identity})
        self.saved = self.ledger.epoch
        if not row:
            self.chain = None

    @classmethod
    def open(cls, path: str, tail: int = 0, pages: int = PAGES) -> "State":
        """Opens the state in a file; makes a new file if this one is damaged or of another version, and returns a state
        without a file if another process has it. Raises `OSError` for other faults, such as a full disk."""
        try:
            return cls(path, tail, pages)
        except BlockingIOError:
            return cls(pages=pages)
        except (sqlite3.DatabaseError, ValueError, KeyError, TypeError) as fault:
            if getattr(fault, "sqlite_errorcode", sqlite3.SQLITE_CORRUPT) & 0xFF not in TORN:
                raise OSError(f"{path} cannot be opened: {fault}") from fault
            for end in ("", "-wal", "-shm"):
                pathlib.Path(path + end).unlink(missing_ok=True)
            return cls(path, tail, pages)

    def fields(self) -> dict[str, Any]:
        """Returns the state of the ledger beside its blobs, and how far it was heard, as values for JSON."""
        chain, said = self.chain or Chain(0, b""), {name: getattr(self.ledger, name) for name in FORMS}
        told = {"ledger": self.identity, "place": chain.place, "digest": chain.digest.hex()}
        told |= {name: sorted(it) if isinstance(it, frozenset) else copy.copy(it) for name, it in said.items()}
        return told | {"sizes": self.blobs.counts() | {"number": self.blobs.number}}

    def put(self, told: dict[str, Any]) -> None:
        """Replaces the state of the ledger beside its blobs."""
        self.identity, self.chain = told["ledger"], Chain(told["place"], bytes.fromhex(told["digest"]))
        empty: dict[str, Any] = {"posted": {}, "addressed": {}, "shares": {}, "addresses": {}, "past": {}}
        told = empty | told  # a checkpoint leaves out what is empty
        for name, form in FORMS.items():
            setattr(self.ledger, name, form(told[name]))
        blobs, number = self.blobs, told["sizes"]["number"]
        blobs.number, blobs.epoch, blobs.needed = number, self.ledger.epoch, self.ledger.quorum

    def save(self, chain: Chain, entries: Iterable[Entry] = (), soon: bool = False) -> None:
        """Commits the state after these entries, which end with this chain; or leaves that to a later call if the disk
        is full, or if `soon` and the last commit was a moment ago. An epoch change is committed at once. What a crash
        loses is heard again."""
        self.chain = chain
        self.fresh += entries
        self.begun.note(self.ledger)
        if not soon or time.monotonic() >= self.due or self.ledger.epoch != self.saved:
            self.settle()

    def settle(self) -> bool:
        """Commits what was applied, unless the disk has just failed or is still full, as after each failure all of it
        must be applied again. Returns whether the disk has all of it."""
        if time.monotonic() < self.again or self.entering or not (chain := self.chain) or self.is_full():
            return self.whole
        try:
            self.commit()
            self.again, self.due, self.fault = 0.0, time.monotonic() + EACH, ""
            self.fresh.clear()
        except sqlite3.OperationalError as fault:  # everything since the last commit is rolled back
            begun = time.monotonic()
            if self.base.in_transaction:  # SQLite may have rolled back already when COMMIT failed
                self.base.execute("ROLLBACK")
            self.base.execute("BEGIN IMMEDIATE")
            self.enter_again(chain)
            self.again = time.monotonic() + max(LATER, REST * (time.monotonic() - begun))
            self.tell(fault)
        return self.whole

    def takes_more(self) -> bool:
        """Returns whether more entries may be applied: fewer than `HELD` wait for the disk, or it takes them now."""
        return len(self.fresh) < HELD or self.settle()

    def enter_again(self, chain: Optional[Chain]) -> None:
        """Returns to the committed state, and applies the entries again that lead from it to this chain."""
        self.blobs.forget()
        self.load()
        for entry in self.fresh:
            self.apply(entry)
        self.chain = chain

    def commit(self) -> None:
        """Commits what was applied, and deletes some rows that are no longer needed."""
        if self.tail:
            epoch = max(self.saved, self.ledger.epoch - 1)  # the entry that changes the epoch is its last one
            rows = [(it.place, it.text, epoch) for it in self.fresh]
            self.base.executemany("INSERT OR REPLACE INTO entries VALUES (?, ?, ?)", rows)
            words = "DELETE FROM entries WHERE place < (SELECT min(place) FROM entries) + ? AND epoch <= ?"
            self.base.execute(words, (DROPPED, self.ledger.epoch - self.tail))
            self.note(self.chain or Chain(0, b""))
            self.base.execute("DELETE FROM digests WHERE place < (SELECT min(place) FROM entries) - 1")
        else:
            self.blobs.drop(self.blobs.over(DROPPED))
        self.base.execute(TELL, (json.dumps(self.fields()),))
        self.begun.save()
        self.base.execute("COMMIT")
        self.base.execute("BEGIN IMMEDIATE")
        self.saved = self.ledger.epoch

    def note(self, chain: Chain) -> None:
        """Stores the digest of all entries up to a place."""
        self.base.execute("INSERT OR REPLACE INTO digests VALUES (?, ?)", (chain.place, chain.digest))

    @property
    def folder(self) -> Optional[str]:
        return str(pathlib.Path(self.name).absolute().parent) if self.name else None

    async def take(self, pieces: Iterable[bytes], identity: str = "", chain: Optional[Chain] = None) -> None:
        """Replaces the state by a checkpoint; raises `Unfit` if it is not of this ledger and chain, if they are given.
        Retries until the disk takes it, and before that all that was applied: so what others see does not go back."""
        while True:
            if not self.is_full() and self.settle():
                try:
                    return await self.take_now(pieces, identity, chain)
                except sqlite3.OperationalError as fault:  # of a full disk, which is told from damage as in `open`
                    if self.entering or getattr(fault, "sqlite_errorcode", sqlite3.SQLITE_FULL) & 0xFF in TORN:
                        raise
                    self.tell(fault)
            await asyncio.sleep(LATER)

    async def take_now(self, pieces: Iterable[bytes], identity: str, chain: Optional[Chain]) -> None:
        """Does so once, over a committed state, which stays if it fails. A thread writes the checkpoint to the file.
        Until all is there, others read what was committed before, over a second connection. Without a file it is
        written on the event loop. After a cancellation the state is still `entering` and can only be closed."""
        self.entering, fault, base = True, None, self.base
        base.execute("ROLLBACK")  # of nothing
        reader: Optional[sqlite3.Connection] = None
        try:
            if self.name:
                reader = sqlite3.connect(self.name, isolation_level=None)
                reader.executescript("PRAGMA query_only = ON; BEGIN; SELECT * FROM told")
                self.blobs.base = reader
                await self.aside(lambda: self.replace(pieces, identity, chain))
                reader.execute("COMMIT")
            else:
                self.replace(pieces, identity, chain)
        except Exception as it:  # the disk is full, or these pieces are no checkpoint
            fault = it
            if base.in_transaction:
                base.execute("ROLLBACK")
        self.blobs.forget()
        self.load()
        if reader:
            with contextlib.suppress(sqlite3.Error):  # if this fails, the next commit empties SQLite's log
                await self.aside(lambda: base.execute("PRAGMA wal_checkpoint(PASSIVE)").fetchall())
            self.blobs.base = base
            reader.close()
        base.execute("PRAGMA cache_spill = OFF")
        base.execute("BEGIN IMMEDIATE")
        self.entering = False
        if not fault:
            self.begun.note(self.ledger)
        if fault:
            raise fault

    def replace(self, pieces: Iterable[bytes], identity: str, chain: Optional[Chain]) -> None:
        """Replaces everything in the database by a checkpoint, piece by piece."""
        told, base = dict[str, Any](), self.base
        base.execute("PRAGMA cache_spill = ON")
        base.execute("BEGIN IMMEDIATE")
        with checkpoint.checked():
            Blobs(base).take(checkpoint.read(pieces, told))
            with contextlib.closing(State()) as other:
                other.put(told)  # raises if the next start could not read it
            found = Chain(told["place"], bytes.fromhex(told["digest"]))
        if chain and (told["ledger"], found) != (identity, chain) or self.chain and told["epoch"] < self.saved:
            raise checkpoint.Unfit(f"it is of place {found.place} and epoch {told['epoch']}, or of another ledger")
        base.execute("DELETE FROM entries")
        base.execute("DELETE FROM digests")
        base.execute(TELL, (json.dumps(told),))
        self.note(found)
        base.execute("COMMIT")

    def written(self) -> Iterator[bytes]:
        """Returns a checkpoint of the present state, piece by piece; commits in the meantime do not change it."""
        self.settle()
        base = sqlite3.connect(self.name, check_same_thread=False) if self.name else self.base
        rows = base.execute(ALL, (self.ledger.epoch,))
        lines = checkpoint.written(self.fields(), rows if self.name else rows.fetchall())
        return checkpoint.parted(lines, checkpoint.LONGEST)

    def entries(self, after: int = -1, count: int = -1) -> list[Entry]:
        """Returns the entries of the tail after a place, or the first `count` of them."""
        self.settle()
        words = "SELECT place, text FROM entries WHERE place > ? AND epoch > ? ORDER BY place LIMIT ?"
        return [Entry(*row) for row in self.base.execute(words, (after, self.ledger.epoch - self.tail, count))]

    def digest(self, place: int) -> str:
        """Returns the digest of all entries up to a place of the tail, in hexadecimal; an empty text if unknown."""
        self.settle()
        words = "SELECT place, digest FROM digests WHERE place <= ? ORDER BY place DESC LIMIT 1"
        if not (row := self.base.execute(words, (place,)).fetchone()):
            return ""
        words = "SELECT text FROM entries WHERE place > ? AND place <= ? ORDER BY place"
        chain = Chain(*row).behind(text for text, in self.base.execute(words, (row[0], place)))
        return chain.digest.hex() if chain.place == place else ""

    def note_place(self, entry: Entry) -> None:
        """Notes the place of an entry that counts, so that a recorder can answer if it is posted again."""
        self.base.execute("INSERT OR REPLACE INTO places VALUES (?, ?)", (short_digest(entry.text), entry.place))

    def place_of(self, text: str) -> Optional[int]:
        """Returns the noted place of an entry that counted, or None."""
        row = self.base.execute("SELECT place FROM places WHERE digest = ?", (short_digest(text),)).fetchone()
        return int(row[0]) if row else None

    async def forget_places(self, place: int) -> None:
        """Forgets the places up to one, part by part, as others wait meanwhile. It stops if a recorder begins to load a
        checkpoint, as the recorder forgets them after that."""
        for first in range(256):
            if self.entering:
                break
            part = bytes([first]), bytes([first]) + b"\xff" * 16
            self.base.execute("DELETE FROM places WHERE digest BETWEEN ? AND ? AND place <= ?", (*part, place))
            await asyncio.sleep(0)

    @property
    def whole(self) -> bool:
        """Whether the disk has everything that was applied."""
        return not self.fresh and not self.entering

    def close(self) -> None:
        with contextlib.suppress(sqlite3.Error):
            self.settle()
        if self.blobs.base is not self.base:
            self.blobs.base.close()
        super().close()

"""What a node keeps on its disk: the parts of blobs that its shards replied they had stored.

SQLite has the names of all parts and the contents of small ones. A larger content is a file of its own, which is on
the disk before its name is. A *holding* is all that one shard holds, from committee to committee for as long as its
node stays: a handover adds a row to `sides` and touches no part."""
import asyncio
import contextlib
import errno
import pathlib
import shutil
import sqlite3
import sys
import time
import weakref
from typing import Any, Callable, Iterable, NamedTuple, Optional, Sequence


from walrus.client import Data
from walrus.format.frames import METADATA, PRIMARY, PROOF, SECONDARY
from walrus.network.peers.parts import name_of

from .group_commit import Staged


LAST = b"\xff" * 32  # the greatest identifier
VERSION, BATCH = 1, 50  # of the tables; parts or blobs that are deleted at once: others wait meanwhile
SEEN = "epoch <= ? AND (gone IS NULL OR gone > ?)"  # what a shard of an epoch holds
MARK = """UPDATE held SET wrong = 1 WHERE holding = ? AND identifier = ? AND part = ?
    AND content = (SELECT content FROM contents WHERE file = ?)"""  # a part whose file, of this name, is not there
SETTLED = f"max(part = {METADATA}) AND (total(part IN ({PRIMARY}, {SECONDARY})) = 2 OR max(part = {PROOF}))"
TABLES = """
CREATE TABLE IF NOT EXISTS holdings (holding INTEGER PRIMARY KEY) STRICT;
CREATE TABLE IF NOT EXISTS sides (epoch INTEGER, shard INTEGER, holding INTEGER, PRIMARY KEY (epoch, shard))
    WITHOUT ROWID, STRICT;
CREATE TABLE IF NOT EXISTS held (holding INTEGER, identifier BLOB, part INTEGER, epoch INTEGER, gone INTEGER,
    wrong INTEGER, size INTEGER, content INTEGER, PRIMARY KEY (holding, identifier, part, epoch))
    WITHOUT ROWID, STRICT;
CREATE INDEX IF NOT EXISTS going ON held (gone) WHERE gone IS NOT NULL;
CREATE TABLE IF NOT EXISTS contents (content INTEGER PRIMARY KEY, payload BLOB NOT NULL, file TEXT) STRICT;
CREATE UNIQUE INDEX IF NOT EXISTS of_file ON contents (file) WHERE file IS NOT NULL;
CREATE TABLE IF NOT EXISTS unnamed (holding INTEGER, identifier BLOB, since REAL, PRIMARY KEY (holding, identifier))
    WITHOUT ROWID, STRICT;
CREATE TABLE IF NOT EXISTS state (name TEXT PRIMARY KEY, value TEXT) STRICT;
CREATE TABLE IF NOT EXISTS history (place INTEGER PRIMARY KEY AUTOINCREMENT, revision INTEGER, epoch INTEGER,
    shard INTEGER, request BLOB, reply BLOB) STRICT;
"""
# A database of the previous version had a row for a part in each epoch, and all contents in SQLite, where they stay.
OLDER = f"""
BEGIN IMMEDIATE;
ALTER TABLE frames RENAME TO contents;
ALTER TABLE contents RENAME COLUMN frame TO content;
ALTER TABLE contents ADD COLUMN file TEXT;
{TABLES}
INSERT INTO holdings SELECT DISTINCT shard + 1 FROM parts;
INSERT INTO sides SELECT DISTINCT epoch, shard, shard + 1 FROM parts;
INSERT OR IGNORE INTO held SELECT shard + 1, coalesce(identifier, name_of(payload)), part, epoch, NULL, 0,
    length(payload), content FROM parts JOIN contents ON content = frame ORDER BY epoch, place;
DELETE FROM contents WHERE content NOT IN (SELECT content FROM held);
DROP TABLE parts;
COMMIT;
"""


class Part(NamedTuple):
    """A part of a blob: its content, or the name of the file that has it."""

    part: int
    size: int
    payload: bytes
    file: Optional[str]


class Store(Staged):
    """The database of a node's parts."""

    checked = "held", "sides", "holdings", "state"  # not the contents: each is judged whenever it is read

    def __init__(self, path: pathlib.Path, recorded: bool = False, fail: Callable[[Any], object] = sys.exit):
        super().__init__(path, fail)
        self.recorded = recorded
        self.locks: "weakref.WeakValueDictionary[tuple[object, ...], asyncio.Lock]" = weakref.WeakValueDictionary()

    def open_tables(self) -> None:
        """Make the tables, or upgrade those of the previous version; raises if they are torn or of a later one."""
        self.must_belong()
        super().open_tables()
        [(version,)] = self.base.execute("PRAGMA user_version")
        if version > VERSION:
            raise OSError(errno.EINVAL, f"the database {self.path} is of a later version of this package")
        older = self.base.execute("SELECT 1 FROM sqlite_master WHERE name = 'frames'").fetchone()
        self.base.create_function("name_of", 1, name_of, deterministic=True)
        self.base.executescript(f"{OLDER if older else TABLES}; PRAGMA user_version = {VERSION}")
        self.must_be_whole()

    def must_belong(self) -> None:
        """Raise if the database is new beside files of another one, as the first sweep would remove all of them; or if
        it names files, and the folder was not copied or mounted with it."""
        folder, digits = self.path.with_suffix(".parts"), "[0-9a-f]" * 2
        is_there, named = "SELECT 1 FROM sqlite_master", "SELECT 1 FROM contents WHERE file IS NOT NULL"
        if not self.base.execute(is_there).fetchone() and any(folder.glob(f"{digits}/*")):
            words = "put that database back, or move the folder away too (network/OPERATING.md)"
            raise OSError(f"the database {self.path} is new, and {folder} has files of another one: {words}")
        has_names = self.base.execute(f"{is_there} WHERE name = 'of_file'").fetchone()
        if has_names and self.base.execute(named).fetchone() and len([*folder.glob(digits)]) < 256:
            words = "stop the node, and copy or mount all of it; if only some of its folders 00 to ff are lost, make"
            words += " them (mkdir, with the owner of the others); if all of it is lost, move the database away too"
            raise OSError(f"{self.path} names files, and {folder} is not complete: {words} (network/OPERATING.md)")

    def note(self, revision: int, epoch: int, shard: int, request: bytes, reply: bytes) -> None:
        """Stage a request and its reply for the history of a recorded run."""
        with contextlib.suppress(sqlite3.Error):
            self.stage("INSERT INTO history VALUES (NULL, ?, ?, ?, ?, ?)", revision, epoch, shard, request, reply)

    def alone(self, holding: int, identifier: bytes, to: str = "ask") -> asyncio.Lock:
        """Return the lock under which a blob of a holding is judged, or under which other work, named `to`, is done."""
        return self.locks.setdefault((holding, identifier, to), asyncio.Lock())

    def holding(self, epoch: int, shard: int) -> Optional[int]:
        """Return the number of the holding of a shard in an epoch, or None if it has none."""
        row = self.base.execute("SELECT holding FROM sides WHERE epoch = ? AND shard = ?", (epoch, shard)).fetchone()
        return int(row[0]) if row else None

    def begin(self, epoch: int, shard: int) -> int:
        """Stage that a shard begins an epoch, and return its holding: that of the same shard in the epoch before, if it
        was here, or in the epoch after, if the disk was ahead of the ledger at a start; else a new one."""
        if found := self.holding(epoch, shard):
            return found
        holding = self.holding(epoch - 1, shard) or self.holding(epoch + 1, shard)
        holding = holding or self.stage("INSERT INTO holdings VALUES (NULL)").lastrowid or 0
        self.stage("INSERT INTO sides VALUES (?, ?, ?)", epoch, shard, holding)
        return holding

    def parts(self, holding: int, epoch: int, identifier: bytes, wanted: Iterable[int], wrong: int = 0) -> list[Part]:
        """Return which of these parts of a blob a shard holds in an epoch; none at all if its metadata is missing."""
        words = f"SELECT part, size, payload, file FROM held JOIN contents USING (content) WHERE {SEEN}"
        words += " AND holding = ? AND identifier = ? AND wrong <= ? ORDER BY part"
        rows = [Part(*row) for row in self.base.execute(words, (epoch, epoch, holding, identifier, wrong))]
        return [it for it in rows if it.part in wanted] if rows and rows[0].part == METADATA else []

    def sizes(self, holding: int, epoch: int, identifier: bytes) -> dict[int, int]:
        """Return the size in bytes of each sound part that a shard holds of a blob."""
        words = f"SELECT part, size FROM held WHERE {SEEN} AND holding = ? AND identifier = ? AND NOT wrong"
        return dict(self.base.execute(words, (epoch, epoch, holding, identifier)).fetchall())

    async def settled(self, holding: int, epoch: int, first: bytes = b"", last: bytes = LAST) -> set[bytes]:
        """Return the blobs from `first` to `last` for which a shard is settled: it holds the metadata, and both slivers
        or a proof. Reads in a thread."""
        words = "SELECT identifier FROM held WHERE holding = ? AND identifier BETWEEN ? AND ?"
        words += f" AND {SEEN} AND NOT wrong GROUP BY identifier HAVING {SETTLED}"

        return await self.asked(lambda it: {row[0] for row in it.execute(words, (holding, first, last, epoch, epoch))})

    def wrong(self, holding: int, identifier: bytes) -> set[int]:
        """Return the parts of a blob that are marked wrong."""
        words = "SELECT part FROM held WHERE holding = ? AND identifier = ? AND wrong"
        return {row[0] for row in self.base.execute(words, (holding, identifier))}

    def put(
        self,
        holding: int,
        epoch: int,
        identifier: bytes,
        part: int,
        payload: Data,
        file: Optional[str],
        old: bool = True,
    ) -> None:
        """Stage a part that the judge accepted; `file`, if any, has its content. If `old`, it may replace a part that
        is marked wrong, and is then held from the same epoch on."""
        self.named += [file] if file else []
        wrong = "holding = ? AND identifier = ? AND part = ? AND wrong"
        since = self.drop(wrong, holding, identifier, part) if old else []
        words = "INSERT INTO contents (payload, file) VALUES (?, ?)"
        content = self.stage(words, b"" if file else payload, file).lastrowid
        words = "INSERT INTO held VALUES (?, ?, ?, ?, NULL, 0, ?, ?)"
        self.stage(words, holding, identifier, part, min(since, default=epoch), len(payload), content)

    def mark(self, holding: int, identifier: bytes, part: int, wrong: bool) -> None:
        """Stage that a part was found wrong, or is right after all. A wrong part stays until another replaces it."""
        words = "UPDATE held SET wrong = ? WHERE holding = ? AND identifier = ? AND part = ?"
        self.stage(words, int(wrong), holding, identifier, part)

    def forget(self, holding: int, epoch: int, identifier: bytes) -> None:
        """Stage that a shard forgets the slivers of a blob; the shard of the epoch before may still hold them."""
        slivers = f"holding = ? AND identifier = ? AND part IN ({PRIMARY}, {SECONDARY})"
        earlier = "epoch < ? AND (SELECT count(*) FROM sides WHERE sides.holding = held.holding) > 1"
        words = f"UPDATE held SET gone = ? WHERE {slivers} AND {earlier} AND (gone IS NULL OR gone > ?)"
        self.stage(words, epoch, holding, identifier, epoch, epoch)
        self.drop(f"{slivers} AND gone IS NULL", holding, identifier)

    def drop(self, where: str, *values: object) -> list[int]:
        """Stage the deletion of parts and their contents; return the epochs from which on they were held."""
        rows = self.stage(f"DELETE FROM held WHERE {where} RETURNING epoch, content", *values).fetchall()
        for _, content in rows:
            gone = self.stage("DELETE FROM contents WHERE content = ? RETURNING file", content)
            self.dropped += [file for file, in gone.fetchall() if file]
        return [epoch for epoch, _ in rows]

    def turn(self, epoch: int) -> None:
        """Stage that committees before an epoch hold nothing more. No later one sees what they alone held, and `sweep`
        deletes it step by step, as it may be much."""
        self.stage("DELETE FROM sides WHERE epoch < ?", epoch)

    def expire(self, expired: Sequence[bytes], before: float = float("inf")) -> None:
        """Stage the deletion of the parts of expired blobs that have been held since before an epoch."""
        for identifier in expired:
            self.stage("DELETE FROM unnamed WHERE identifier = ?", identifier)
            self.drop("holding IN (SELECT holding FROM sides) AND identifier = ? AND epoch < ?", identifier, before)

    def unnamed(self, holding: int, identifier: bytes, is_so: bool) -> float:
        """Stage that no entry of the ledger names a blob that is held, or that one names it after all. Return since
        when none does, in seconds since 1970."""
        where, now = "holding = ? AND identifier = ?", time.time()
        row = self.base.execute(f"SELECT since FROM unnamed WHERE {where}", (holding, identifier)).fetchone()
        if row and (not is_so or row[0] > now):  # named again, or the clock was ahead: it counts from now on
            self.stage(f"DELETE FROM unnamed WHERE {where}", holding, identifier)
        if is_so and not (row and row[0] <= now):
            self.stage("INSERT INTO unnamed VALUES (?, ?, ?)", holding, identifier, now)
        return min(float(row[0]), now) if row else now

    def unnamed_after(self, holding: int, identifier: bytes, count: int) -> list[tuple[int, bytes]]:
        """Return up to `count` blobs that no entry of the ledger named when they were looked at, after this one."""
        words = "SELECT holding, identifier FROM unnamed WHERE (holding, identifier) > (?, ?) ORDER BY 1, 2 LIMIT ?"
        return self.base.execute(words, (holding, identifier, count)).fetchall()

    def sweep(self) -> bool:
        """Stage the deletion of some parts that every committee here has forgotten, or else of some blobs of a shard
        that is no longer here; return whether there were any."""
        words = "SELECT holding, identifier, part, epoch FROM held WHERE gone <= (SELECT min(epoch) FROM sides) LIMIT ?"
        gone = self.base.execute(words, (BATCH,)).fetchall()
        for it in gone:
            self.drop("holding = ? AND identifier = ? AND part = ? AND epoch = ?", *it)
        words = "SELECT holding FROM holdings WHERE holding NOT IN (SELECT holding FROM sides)"
        row = None if gone else self.base.execute(words).fetchone()
        if row:
            some = f"SELECT DISTINCT identifier FROM held WHERE holding = ? LIMIT {BATCH}"
            if not self.drop(f"holding = ? AND identifier IN ({some})", row[0], row[0]):
                self.stage("DELETE FROM holdings WHERE holding = ?", row[0])
                self.stage("DELETE FROM unnamed WHERE holding = ?", row[0])  # the number may be given again
        return bool(gone or row)

    def state(self, name: str, value: Optional[str] = None) -> str:
        """Return the value of a name, or an empty text; if `value` is given, stage it as the new value."""
        if value is not None:
            self.stage("INSERT OR REPLACE INTO state VALUES (?, ?)", name, value)
            return value
        row = self.base.execute("SELECT value FROM state WHERE name = ?", (name,)).fetchone()
        return str(row[0]) if row else ""

    def next(self, holding: int, identifier: bytes) -> Optional[tuple[int, bytes]]:
        """Return the holding and identifier of the next blob after this one, or None after the last."""
        words = "SELECT holding, identifier FROM held WHERE (holding, identifier) > (?, ?) ORDER BY 1, 2 LIMIT 1"
        row = self.base.execute(words, (holding, identifier)).fetchone()
        return (row[0], row[1]) if row else None

    def disk(self, reserve: float) -> Any:
        """Return the use of the disk that has less room beyond this part of it: the database's, or that of the files,
        whose folder may be on a disk of its own."""
        disks = [shutil.disk_usage(self.path.parent)]
        with contextlib.suppress(OSError):  # what is written to a folder that is away fails by itself
            disks.append(shutil.disk_usage(self.files.folder))
        return min(disks, key=lambda it: it.free - reserve * it.total)

    def counts(self, base: Optional[sqlite3.Connection] = None) -> dict[str, int]:
        """Return how many blobs and bytes are held and how many parts are marked wrong; reads the rows of all parts."""
        words = f"SELECT total(part = {METADATA}), total(size), total(wrong) FROM held"
        return dict(zip(("blobs", "bytes", "wrong"), map(int, (base or self.base).execute(words).fetchone())))

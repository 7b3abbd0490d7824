"""A shard's database that an earlier version made, as a node starts."""
import asyncio
import pathlib
import sqlite3
import tempfile
import unittest
from unittest import mock

from support.harness import lacking
from support.shard_case import LARGE, ShardCase
from walrus.format.frames import METADATA, PRIMARY, SECONDARY
from walrus.network.node.disk.store import Store


OLD = """
CREATE TABLE entries (revision INTEGER, key TEXT, sum INTEGER, PRIMARY KEY (revision, key)) WITHOUT ROWID, STRICT;
CREATE TABLE frames (frame INTEGER PRIMARY KEY, payload BLOB NOT NULL) STRICT;
CREATE TABLE parts (place INTEGER PRIMARY KEY AUTOINCREMENT, epoch INTEGER, shard INTEGER, part INTEGER,
    identifier BLOB, frame INTEGER) STRICT;
CREATE INDEX of_shard ON parts (epoch, shard, place);
CREATE INDEX of_blob ON parts (epoch, shard, identifier);
CREATE INDEX of_frame ON parts (frame);
CREATE INDEX nameless ON parts (epoch, shard) WHERE identifier IS NULL;
CREATE TABLE history (place INTEGER PRIMARY KEY AUTOINCREMENT, revision INTEGER, epoch INTEGER, shard INTEGER,
    request BLOB, reply BLOB) STRICT;
"""


@unittest.skipIf(lacking(), f"{lacking()} is not here (network/install)")
class Older(ShardCase):
    async def test_a_database_of_the_version_before_is_taken_over(self) -> None:
        blobs = [await self.parts(bytes([number]) * size) for number, size in enumerate((0, 900, LARGE, LARGE))]
        self.close()
        self.path.unlink()
        base = sqlite3.connect(self.path)
        base.executescript(OLD)
        for epoch in (0, 1):  # during a handover, in which the shard stays
            for number, parts in enumerate(blobs):
                for part, payload in enumerate(parts):
                    frame = 3 * number + part + 1
                    base.execute("INSERT OR IGNORE INTO frames VALUES (?, ?)", (frame, payload))
                    name = None if part == METADATA and number == 1 and not epoch else parts[1][1:33]
                    base.execute("INSERT INTO parts VALUES (NULL, ?, 0, ?, ?, ?)", (epoch, part, name, frame))
        base.commit()
        base.close()
        with mock.patch("walrus.network.node.disk.store.name_of", side_effect=KeyboardInterrupt):
            with self.assertRaises(sqlite3.OperationalError):
                Store(self.path)
        self.open()
        for metadata, primary, secondary in blobs:
            self.assertEqual(await self.read(primary[1:33]), [metadata, primary])
            self.assertTrue(self.shard.settled(primary[1:33]))
        assert self.store
        self.assertEqual(self.store.holding(1, 0), self.shard.holding)
        tables = {row[0] for row in self.store.base.execute("SELECT name FROM sqlite_master WHERE type = 'table'")}
        self.assertFalse(tables & {"parts", "frames"})
        self.assertEqual(self.store.base.execute("PRAGMA user_version").fetchone(), (1,))

    async def test_a_later_version_is_left_alone(self) -> None:
        self.close()
        base = sqlite3.connect(self.path)
        base.execute("PRAGMA user_version = 7")
        base.close()
        with self.assertRaisesRegex(OSError, "later version"):
            Store(self.path)


@unittest.skipIf(lacking(), f"{lacking()} is not here (network/install)")
class Apart(ShardCase):
    """A database and its folder of files, one of which was moved or mounted without the other."""

    async def test_a_new_database_removes_no_files_of_the_one_before(self) -> None:
        """Such as one that was moved away as the disk did not read it: with its files it is still the node's."""
        metadata, primary, _ = await self.put(bytes(LARGE))
        files = self.files()
        self.close()
        away = self.path.rename(self.path.with_name("away.db"))
        for _ in range(2):  # systemd starts it again and again
            with self.assertRaisesRegex(OSError, "has files of another one: put that database back, or move"):
                Store(self.path)
        away.rename(self.path)
        self.open()
        self.assertEqual((self.files(), await self.read(primary[1:33])), (files, [metadata, primary]))
        folder = files[0].parents[1]
        self.close()
        self.path.rename(away)
        folder.rename(folder.with_name("away.parts"))
        self.open()
        self.assertEqual((self.files(), await self.read(primary[1:33])), ([], []))

    async def test_a_database_is_not_opened_without_its_files(self) -> None:
        """Else the node would vouch for all that its rows name, and say that it is ready for it."""
        metadata, primary, _ = await self.put(bytes(LARGE))
        folder = self.files()[0].parents[1]
        self.close()
        away = folder.rename(folder.with_name("away.parts"))
        for is_there in (False, False, True, True):  # and then as a mount point
            if is_there:
                folder.mkdir(exist_ok=True)
            with self.assertRaisesRegex(OSError, "is not complete: stop the node, and copy or mount"):
                Store(self.path)
            self.assertEqual(folder.exists(), is_there)
        folder.rmdir()
        away.rename(folder)
        self.open()
        self.assertEqual(await self.read(primary[1:33]), [metadata, primary])

    async def test_databases_that_differ_only_in_their_endings_are_not_open_at_once(self) -> None:
        """Else each one's sweep would remove the files of the other, which are in the same folder."""
        for _ in range(2):
            with self.assertRaisesRegex(OSError, "another process runs over .*/a.parts: .* in more than its ending"):
                Store(self.path.with_suffix(".2"))
        metadata, primary, _ = await self.put(bytes(LARGE))
        self.open()
        self.assertEqual(await self.read(primary[1:33]), [metadata, primary])
        self.close()
        with self.assertRaisesRegex(OSError, "is new, and .* has files of another one"):
            Store(self.path.with_suffix(".2"))


class Places(unittest.IsolatedAsyncioTestCase):
    async def test_the_folder_of_a_database_may_have_any_name(self) -> None:
        """A thread opens the database by a URI, in which some characters have a meaning."""
        asyncio.get_running_loop().set_debug(False)
        folder = pathlib.Path(self.enterContext(tempfile.TemporaryDirectory(prefix="walrus-starts-")))
        for place in ("a#1", "what?mode=rw", "my%20disk"):
            (folder / place).mkdir()
            store = Store(folder / place / "a.db")
            self.addCleanup(store.close)
            store.begin(0, 0)
            for part in (METADATA, PRIMARY, SECONDARY):
                store.put(1, 0, bytes(32), part, b"content", None)
            self.assertEqual(await store.settled(1, 0), {bytes(32)})
        self.assertEqual(len([*folder.iterdir()]), 3)

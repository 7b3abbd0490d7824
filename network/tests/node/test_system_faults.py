"""What a service does where the system fails it: a sync that failed before a start, no thread, or no descriptor."""
import asyncio
import contextlib
import io
import os
import pathlib
import resource
import shutil
import socket
import sqlite3
import tempfile
import threading
import time
import unittest
from unittest import mock

from walrus.format.frames import METADATA, PRIMARY
from walrus.network.ledger.entries import Entry
from walrus.network.ledger.rules import Ledger
from walrus.network.node.disk.content_files import Files
from walrus.network.node.disk.store import Store
from walrus.network.node.shard import Shard
from walrus.network.service import systemd

NAME = bytes(32)


class DiskCase(unittest.IsolatedAsyncioTestCase):
    """A store that is open, with a part that is not committed."""

    async def asyncSetUp(self) -> None:
        asyncio.get_running_loop().set_debug(False)
        self.folder = pathlib.Path(self.enterContext(tempfile.TemporaryDirectory(prefix="walrus-faults-")))
        self.store = Store(self.folder / "a.db")
        self.addCleanup(self.store.close)
        self.store.begin(0, 0)
        self.store.put(1, 0, NAME, METADATA, b"metadata", None)


class Threads(DiskCase):
    async def test_where_no_thread_can_be_had_who_waits_for_the_disk_is_told(self) -> None:
        """Else the node hears the ledger no more, as it waits for ever for what is on the disk."""
        [file] = self.store.files.write(NAME, b"sliver")
        self.store.put(1, 0, NAME, PRIMARY, b"sliver", file)
        self.assertTrue(await self.store.durable())
        self.store.expire([NAME])
        gone = self.store.written()
        self.assertTrue(self.store.commit())
        self.store.begin(0, 1)
        kept = self.store.written()
        assert gone and kept
        with mock.patch.object(threading.Thread, "start", side_effect=RuntimeError("can't start new thread")):
            self.assertTrue(self.store.flush())  # one sync for both
            async with asyncio.timeout(30):
                self.assertEqual(await asyncio.gather(gone, kept), [True, True])
        self.assertEqual(await self.store.settled(1, 0), set())  # in a thread, which removes the file before
        self.assertFalse(self.store.files.path(file).exists())


class Shared(DiskCase):
    async def test_a_start_waits_until_nobody_else_reads_the_database(self) -> None:
        """As what the log has is written into it before anything is said of that."""
        self.assertTrue(await self.store.durable())
        reader = sqlite3.connect(self.folder / "a.db", isolation_level=None, check_same_thread=False)
        reader.execute("BEGIN")
        reader.execute("SELECT * FROM held").fetchall()
        self.store.close()
        said = self.enterContext(contextlib.redirect_stderr(io.StringIO()))

        def close() -> None:
            end = time.monotonic() + 60  # a start on a busy machine may take long to come to its log
            while not said.getvalue() and time.monotonic() < end:
                time.sleep(0.01)
            reader.close()

        threading.Thread(target=close).start()
        with mock.patch.object(Store, "seconds", 0.05):
            self.store = Store(self.folder / "a.db")
        self.assertIn("waiting until it ends", said.getvalue())
        self.assertEqual(self.store.sizes(1, 0, NAME), {METADATA: 8})


class Torn(DiskCase):
    async def test_a_torn_page_that_a_turn_of_the_epoch_reads_ends_the_node(self) -> None:
        """Else it would try the same for ever, and follow the ledger no more."""
        self.assertTrue(await self.store.durable())
        self.store.base.execute("PRAGMA wal_checkpoint(TRUNCATE)").fetchall()
        [(page,)] = self.store.base.execute("SELECT rootpage FROM sqlite_master WHERE name = 'sides'")
        with open(self.store.path, "r+b") as file:
            file.seek(4_096 * (page - 1))
            file.write(b"\xa5" * 4_096)
        self.store.base.execute("PRAGMA shrink_memory")  # by which SQLite reads it again
        with self.assertRaises(sqlite3.DatabaseError):
            await asyncio.wait_for(self.store.persist(lambda: self.store.turn(self.store.begin(1, 0))), 30)


class Twice(DiskCase):
    async def test_only_what_was_judged_is_right_after_all(self) -> None:
        """A shard of the epoch before does not see what its successor holds, of which it has the marks."""
        entries = ["operator/begin/0/1/a,b,c,d", f"p/register/{NAME.hex()}/5", "operator/begin/1/1/a,b,c,e"]
        ledger = Ledger()
        for place, text in enumerate(entries, 1):
            ledger.apply(Entry(place, text))
        self.store.expire([NAME])
        for part in (METADATA, PRIMARY):
            self.store.put(1, 1, NAME, part, b"content", None)
        self.assertEqual(self.store.begin(1, 0), 1)
        judges = mock.Mock(ask=mock.AsyncMock(return_value=([], [])))
        now, successor = (Shard(0, epoch, 1, ledger, self.store, judges, mock.Mock()) for epoch in (0, 1))
        self.store.mark(1, NAME, PRIMARY, True)
        for shard, wrong in ((now, {PRIMARY}), (successor, set[int]())):
            await shard.check(NAME)
            self.assertEqual(self.store.wrong(1, NAME), wrong)


class Manager(unittest.IsolatedAsyncioTestCase):
    async def asyncSetUp(self) -> None:
        folder = self.enterContext(tempfile.TemporaryDirectory())
        self.manager = self.enterContext(socket.socket(socket.AF_UNIX, socket.SOCK_DGRAM))
        self.manager.bind(f"{folder}/notify")
        self.manager.settimeout(5)
        told = {"NOTIFY_SOCKET": f"{folder}/notify", "WATCHDOG_USEC": "300000"}
        self.enterContext(mock.patch.dict(os.environ, told))
        self.enterContext(contextlib.redirect_stdout(io.StringIO()))

    async def test_who_has_no_descriptor_left_is_heard_to_live(self) -> None:
        """Else the watchdog ends a service that would go on once others are free."""
        systemd.ready("here")
        self.assertEqual([self.manager.recv(99) for _ in range(2)], [b"READY=1", b"WATCHDOG=1"])
        soft, hard = resource.getrlimit(resource.RLIMIT_NOFILE)
        free = os.dup(0)  # below it all are taken
        os.close(free)
        resource.setrlimit(resource.RLIMIT_NOFILE, (free, hard))
        self.addCleanup(resource.setrlimit, resource.RLIMIT_NOFILE, (soft, hard))
        with self.assertRaises(OSError):
            os.dup(0)
        await asyncio.sleep(0.25)
        self.assertEqual(self.manager.recv(99), b"WATCHDOG=1")

    async def test_a_manager_that_reads_nothing_holds_up_nobody(self) -> None:
        """Else every service of a machine stands still soon after its systemd does, and nobody starts it again."""
        other, count = self.enterContext(socket.socket(socket.AF_UNIX, socket.SOCK_DGRAM)), 0
        other.setblocking(False)
        with contextlib.suppress(BlockingIOError):
            while True:
                other.sendto(b"", self.manager.getsockname())
                count += 1
        telling = threading.Thread(target=systemd.alive, daemon=True)
        telling.start()
        telling.join(10)
        self.assertFalse(telling.is_alive())
        self.enterContext(mock.patch.object(systemd, "SOON", 0.01))
        systemd.ready("here")
        self.assertEqual([self.manager.recv(99) for _ in range(count)], [b""] * count)
        async with asyncio.timeout(30):
            while await asyncio.to_thread(self.manager.recv, 99) != b"READY=1":
                pass


class Start(DiskCase):
    async def asyncSetUp(self) -> None:
        await super().asyncSetUp()
        self.path = self.folder / "b.db"
        self.assertTrue(self.store.commit())
        for end in ("", "-wal"):  # as a kill leaves them
            shutil.copy(f"{self.store.path}{end}", f"{self.path}{end}")

    async def test_what_was_committed_before_a_kill_is_on_the_disk_before_anything_is_said_of_it(self) -> None:
        """A sync of the log may have failed: another one succeeds then, and its pages are not on the disk."""
        with mock.patch.object(Files, "sync") as sync:
            store = Store(self.path)
        self.addCleanup(store.close)
        sync.assert_called_with(store.path.parent)
        self.assertEqual(pathlib.Path(f"{self.path}-wal").stat().st_size, 0)
        alone = Store(pathlib.Path(shutil.copy(self.path, self.folder / "c.db")))  # as if the log were lost
        self.addCleanup(alone.close)
        self.assertEqual(alone.sizes(1, 0, NAME), {METADATA: 8})

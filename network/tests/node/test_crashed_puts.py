"""A put that is killed, or whose disk fails, at each of its system calls in turn: a restart finds all it confirmed."""
import asyncio
import contextlib
import os
import pathlib
import shutil
import subprocess
import sys
import tempfile
import unittest

from support import harness
from support.crash_put import content
from support.trace_run import parts_on_disk
from walrus.network.node.disk.content_files import HALF
from walrus.network.node.disk.store import Store

CALLS = {"fsync": 1, "fdatasync": 3, "rename": 1, "unlink": 1, "mkdir": 60, "ftruncate": 1, "pwrite64": 9, "write": 7}
QUICK = "/dev/shm" if os.access("/dev/shm", os.W_OK) else None  # faster, with the same calls
ALL = bool(os.environ.get("CRASH_ALL"))  # otherwise only some of the frequent calls


def can_trace() -> bool:
    """Return whether a process can be traced here."""
    words = ["strace", "-f", "-qq", "-o", "/dev/null", "true"]
    return bool(shutil.which("strace")) and subprocess.run(words, capture_output=True).returncode == 0


@unittest.skipUnless(can_trace(), "strace is not here, or may not trace")
class Crash(unittest.IsolatedAsyncioTestCase):
    async def asyncSetUp(self) -> None:
        asyncio.get_running_loop().set_debug(False)

    async def tried(self, call: str, number: int, fault: str) -> bool:
        """Run a put whose `number`-th call of a kind fails; return if it had that many. What it confirmed must stay."""
        with tempfile.TemporaryDirectory(prefix="walrus-crash-", dir=QUICK) as folder:
            path, log = pathlib.Path(folder) / "a.db", pathlib.Path(folder) / "log"
            words = ["strace", "-f", "-qq", "-o", str(log), "-e", f"trace={call}"]
            words += [
                "-e",
                f"inject={call}:{fault}:when={number}",
                sys.executable,
                str(harness.HERE / "support" / "crash_put.py"),
            ]
            pipe = {"stdout": asyncio.subprocess.PIPE, "stderr": asyncio.subprocess.DEVNULL}
            process = await asyncio.create_subprocess_exec(*words, str(path), **pipe)  # type: ignore[arg-type]
            said, _ = await process.communicate()
            met = "(INJECTED)" in log.read_text() or bool(process.returncode)
            whole = said.decode().split("\n")[:-1]
            await self.finds(path, [tuple(map(int, line.split())) for line in whole])
            return met

    async def finds(self, path: pathlib.Path, said: list[tuple[int, ...]]) -> None:
        """Assert that a restart finds all that was confirmed, and that a sweep removes the rest."""
        store = Store(path)
        try:
            held = {(it[2], it[3]): it[4] for it in parts_on_disk(store.base, path)}
            for blob, part, size, again in said:
                found = held[bytes([blob]) * 32, part]
                wanted = [content(blob, part, size, it) for it in range(again, 2) if again or (blob, part) == (0, 1)]
                self.assertIn(found, wanted or [content(blob, part, size, 0)], said)
            with contextlib.closing(store.reader()) as base:
                names = {row[0] for row in base.execute("SELECT file FROM contents WHERE file IS NOT NULL")}
                orphans = "SELECT count(*) FROM contents WHERE content NOT IN (SELECT content FROM held)"
                self.assertEqual(base.execute(orphans).fetchone(), (0,))
            for number in range(256):
                store.files.sweep(f"{number:02x}", names)
            left = {it.name for it in store.files.folder.glob("[0-9a-f][0-9a-f]/*")}
            self.assertEqual((left, [it for it in left if it.endswith(HALF)]), (names, []))
        finally:
            store.close()

    async def each(self, fault: str) -> int:
        """Try all calls in turn; return how many there were."""
        count = 0
        for call, step in CALLS.items():
            number = 1
            while await self.tried(call, number, fault):
                number, count = number + (1 if ALL else step), count + 1
        return count

    async def test_a_put_is_killed_at_each_of_its_calls(self) -> None:
        self.assertGreater(await self.each("signal=KILL"), 30)

    async def test_the_disk_is_full_at_each_of_the_calls_of_a_put(self) -> None:
        self.assertGreater(await self.each("error=ENOSPC"), 30)

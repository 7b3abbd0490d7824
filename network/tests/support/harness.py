"""What the tests share: a network in a folder of its own, always ended, whose recorded run is checked at the end."""
import asyncio
import contextlib
import fcntl
import os
import pathlib
import random
import resource
import shutil
import subprocess
import sys
import tempfile
import unittest
from typing import IO

from support import trace_run
from walrus.loop import wait_without_threads
from walrus.network.deploy import local
from walrus.network.deploy.local import Local
from walrus.network.peers.engine import find_program
from walrus.network.peers.network import Network

wait_without_threads()

HERE = pathlib.Path(__file__).resolve().parents[1]  # the folder of all tests
ODD = [sys.executable, str(HERE / "support" / "odd_node.py")]  # a node that is told how to be odd by its environment
FOUR = ["node-0", "node-1", "node-2", "node-3"]
draw_port, DRAWN = local.free_port, list[IO[bytes]]()


def free_port() -> int:
    """A free port that no other test draws as long as this process runs: some time goes by until anybody listens."""
    folder = pathlib.Path(tempfile.gettempdir(), f"walrus-test-ports-{os.getuid()}")
    folder.mkdir(exist_ok=True)
    while True:
        port = draw_port()
        lock = open(folder / str(port), "wb")
        with contextlib.suppress(BlockingIOError):
            fcntl.flock(lock, fcntl.LOCK_EX | fcntl.LOCK_NB)
            DRAWN.append(lock)
            return port


local.free_port = free_port


def lacking() -> str:
    """What is not here that a network needs."""
    parts = ["etcd"] if shutil.which("etcd") is None else []
    parts += [] if os.access(find_program(), os.X_OK) else [f"the program {find_program()}"]
    return ", ".join(parts)


@unittest.skipIf(lacking(), f"{lacking()} is not here (network/install)")
class NetworkCase(unittest.IsolatedAsyncioTestCase):
    """A fresh network for each test. `blobs` is what was certified, `faulty` who lied or lost a disk."""

    maxDiff = 600

    async def asyncSetUp(self) -> None:
        asyncio.get_running_loop().set_debug(False)
        self.folder = pathlib.Path(tempfile.mkdtemp(prefix="walrus-network-"))
        self.addCleanup(shutil.rmtree, self.folder, ignore_errors=True)
        self.drawn = random.Random(38)
        self.blobs: dict[bytes, bytes] = {}
        self.faulty: set[str] = set()
        self.local = Local(self.folder, recorded=True)
        self.addAsyncCleanup(self.local.close)

    async def store(self, network: Network, size: int = 700, epochs: int = 9, form: int = 1) -> bytes:
        blob = self.drawn.randbytes(size)
        stored = await network.store(blob, epochs, form)
        self.blobs[stored.identifier] = blob
        return stored.identifier

    def small_disk(self, name: str, size: str) -> bool:
        """Has the database of a node on a disk of its own; whether that can be here."""
        disk = self.folder / "disk"
        disk.mkdir()
        if os.getuid() or subprocess.run(["mount", "-t", "tmpfs", "-o", f"size={size}", "none", disk]).returncode:
            return False
        self.addCleanup(lambda: subprocess.run(["umount", "-l", disk], check=True))
        (self.folder / f"{name}.db").symlink_to(disk / f"{name}.db")
        return True

    def resize(self, size: str) -> bool:
        """Gives that disk another size; whether what is on it fits there."""
        words = ["mount", "-o", f"remount,size={size}", self.folder / "disk"]
        return subprocess.run(words, stderr=subprocess.DEVNULL).returncode == 0

    def slivers(self, name: str) -> list[bytes]:
        held = self.record(name).held.values()
        return [frame for parts in held for part, frame in parts.items() if part in (1, 2)]

    async def check(self, seconds: float = 30) -> int:
        """Lets all nodes hear the whole ledger, ends the network, and lets the core check its run."""
        async with self.local.network() as network:
            end = network.ledger.revision
        for _ in range(int(seconds * 5)):
            behind = [
                name
                for name in self.local.processes
                if (self.folder / f"{name}.db").exists() and self.heard(name) < end
            ]
            if not behind:
                break
            await asyncio.sleep(0.2)
        self.assertEqual(behind, [], f"these nodes did not hear the whole ledger: {self.logs()}")
        await self.local.close()
        try:
            lines = await trace_run.check(self.folder, find_program(), self.faulty, self.blobs)
        except trace_run.Parted as parted:
            self.fail(f"the network and the proved world part: {parted}\n{self.logs()}")
        self.assertGreater(lines, 0)
        return lines

    def record(self, name: str) -> trace_run.Record:
        return trace_run.Record.read(self.folder / f"{name}.db")

    def heard(self, name: str) -> int:
        entries = self.record(name).entries
        return entries[-1].place if entries else 0

    def logs(self) -> str:
        return "\n".join(f"{path.name}: {path.read_text()[-1500:]}" for path in sorted(self.folder.glob("*.log")))

    def log(self, name: str) -> str:
        return (self.folder / f"{name}.log").read_text(errors="replace")

    async def reads_all(self, network: Network, seconds: float = 30) -> None:
        """Every certified blob is read as it was written."""
        for identifier, blob in self.blobs.items():
            self.assertEqual(await network.fetch(identifier, seconds), blob)


def faked_clock(offset: pathlib.Path) -> dict[str, str]:
    """What a process is told whose clock is off by what stands in a file; nothing where faketime is not here."""
    libraries = [*pathlib.Path("/usr/lib").glob("*/faketime/libfaketime.so.1")]
    for left in pathlib.Path("/dev/shm").glob("*faketime_*"):  # by who was killed: it stops who has that number next
        if not pathlib.Path("/proc", left.name.rpartition("_")[2]).exists():
            left.unlink(missing_ok=True)
    offset.write_text("+0")
    told = {"LD_PRELOAD": str(libraries[0]) if libraries else "", "FAKETIME_TIMESTAMP_FILE": str(offset)}
    return {**told, "FAKETIME_CACHE_DURATION": "1", "DONT_FAKE_MONOTONIC": "1"} if libraries else {}


def usage_of(process: int) -> tuple[int, int]:
    """The resident memory in bytes and the open descriptors of a process."""
    pages = int(pathlib.Path(f"/proc/{process}/statm").read_text().split()[1])
    return pages * resource.getpagesize(), len(os.listdir(f"/proc/{process}/fd"))

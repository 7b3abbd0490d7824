"""The machines of a network in a bottle: a ledger, nodes and a publisher, each of which may crash and come back."""
import asyncio
import contextlib
import os
import pathlib
import random
import shutil
from typing import Any, Coroutine, Optional

from support.ledger_case import Memory
from walrus.network.ledger.entries import OPERATOR
from walrus.network.ledger.follower import NAME as RECORDER
from walrus.network.ledger.state import State
from walrus.network.node.node import Node
from walrus.network.peers.network import Access, Network
from walrus.network.recorder import server
from walrus.network.recorder.compaction import Keeper
from walrus.network.recorder.etcd import Failed
from walrus.network.service import certificates
from walrus.network.settings.services import RecorderSettings, Settings

from .connections import Loop
from .escapes import SYNCED
from .loop import RUNNING, Machine, on

FAULTS = 1
NODES = [f"node-{number}" for number in range(6)]
RECORDERS = ["recorder-0", "recorder-1"]
USERS = [OPERATOR, "publisher"]
KEYS = pathlib.Path("/dev/shm/walrus-bottle-keys")
HOSTS = {name: f"10.0.0.{number}" for number, name in enumerate([*RECORDERS, *NODES, *USERS, "etcd"], 1)}
PORT = 7_000
ETCD = Machine("etcd", HOSTS["etcd"])
CALL = 0.002  # mean seconds of a call of etcd


def make_keys() -> None:
    """Make all keys and certificates, once for all runs on this machine."""
    if (KEYS / "made").exists():
        return
    KEYS.mkdir(exist_ok=True)
    certificates.make_authority(KEYS / "authority")
    for name in (RECORDER, *USERS, *NODES):
        certificates.make(KEYS / name, KEYS / "authority", name, [name])
    (KEYS / "made").touch()


def files_of(name: str) -> dict[str, str]:
    names = {"authority": "authority.crt", "certificate": f"{name}.crt", "key": f"{name}.key"}
    return {word: str(KEYS / file) for word, file in names.items()}


class Etcd(Memory):
    """etcd in memory, on a machine of its own that is away from whoever is cut from it."""

    url = "etcd in memory"

    async def fails(self, when: str, call: int = 0) -> int:
        loop = asyncio.get_running_loop()
        assert isinstance(loop, Loop)
        await asyncio.sleep(loop.drawn.expovariate(1 / CALL))
        if loop.is_cut(RUNNING.get(), ETCD):
            raise Failed("etcd is away")
        return await super().fails(when, call)

    async def aclose(self) -> None:
        pass


class World:
    """A network in a folder. Each machine that crashes leaves its files as they are, or, if its power failed, without
    what was not synced; it comes back over a copy of them."""

    def __init__(self, loop: Loop, folder: pathlib.Path, library: str):
        self.loop, self.folder, self.library, self.drawn = loop, folder, library, loop.drawn
        self.etcd, self.machines, self.nodes = Etcd(), dict[str, Machine](), dict[str, Node]()
        self.folders, self.lives = dict[str, pathlib.Path](), 0
        self.recorders = [f"{HOSTS[name]}:{PORT}" for name in RECORDERS]

    async def run(self, name: str, work: Coroutine[Any, Any, Any], skew: float = 0.0) -> Any:
        """Run this as a new machine of that name."""
        machine = self.machines[name] = Machine(name, HOSTS[name], skew)
        with on(machine):
            return await asyncio.create_task(work)

    async def start_recorder(self, name: str) -> None:
        words = dict.fromkeys(("etcd", "etcd_authority", "etcd_certificate", "etcd_key", "state"), "")
        settings = RecorderSettings(name=name, host=HOSTS[name], port=PORT, **files_of(RECORDER), **words)

        async def begin() -> None:
            recorder = server.Recorder(self.etcd, State())
            service = server.Service(recorder, settings)
            for work in (recorder.run(), Keeper(recorder, 3_600).run()):
                RUNNING.get().kept.append(asyncio.create_task(work))
            RUNNING.get().kept.append(service)
            await service.listen()

        await self.run(name, begin())

    async def start_node(self, name: str) -> None:
        """Start a node over the files that its last life left."""
        self.lives += 1
        folder = self.folder / f"{name}-{self.lives}"
        if before := self.folders.get(name):
            shutil.copytree(before, folder)
        else:
            folder.mkdir()
        self.folders[name] = folder
        settings = Settings(
            name=name,
            program=self.library,
            database=str(folder / f"{name}.db"),
            recorders=self.recorders,
            host=HOSTS[name],
            port=PORT,
            recorded=False,
            **files_of(name),
        )

        async def begin() -> None:
            self.nodes[name] = Node(settings)
            await self.nodes[name].open()

        await self.run(name, begin(), self.drawn.uniform(-5, 5))

    def crash(self, name: str, power: bool = False) -> None:
        """End a machine at once. If its power fails, its logs of databases lose some of what was not synced."""
        self.loop.crash(self.machines.pop(name))
        if node := self.nodes.pop(name, None):
            ETCD.kept.append(node)  # its connection to SQLite stays open, over files that nobody reads any more
            if power:
                lose_unsynced(self.folders[name], self.drawn)

    def access(self, user: str) -> Access:
        return Access(user, self.library, self.recorders, **files_of(user), state="")

    @contextlib.asynccontextmanager
    async def network(self, user: str) -> Any:
        """A user's view of the network; the caller runs on the user's machine."""
        async with Network(self.access(user)) as network:
            yield network

    async def found(self) -> None:
        """Start everything, with a committee of the first nodes."""
        for name in RECORDERS:
            await self.start_recorder(name)
        for name in NODES:
            await self.start_node(name)

        async def begin() -> None:
            async with self.network(OPERATOR) as network:
                await network.begin(FAULTS, NODES[: 3 * FAULTS + 1])
                assert await network.until(lambda it: bool(it.now), 60), "no first committee"

        await self.run(OPERATOR, begin())

    def fault(self) -> Optional[BaseException]:
        """The fault with which a node ended that nobody crashed."""
        for node in self.nodes.values():
            if node.failed.done() and not node.failed.cancelled() and node.failed.exception():
                return node.failed.exception()
        return None


def lose_unsynced(folder: pathlib.Path, drawn: random.Random) -> None:
    """Cut each log of a database somewhere between what is on the disk for certain and its end."""
    for log in sorted(folder.glob("*-wal")):
        size = log.stat().st_size
        least = min(size, SYNCED.get(str(log), 0))
        if drawn.random() < 0.7:
            os.truncate(log, drawn.randint(least, size))

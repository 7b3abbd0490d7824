"""A network on this machine: the files of etcd, recorders and nodes in one folder, and their processes."""
import asyncio
import contextlib
import json
import os
import pathlib
import secrets
import shutil
import socket
import subprocess
import sys
from typing import Any, Mapping, Optional, Sequence

from walrus.network import TOP
from walrus.network.ledger.entries import OPERATOR
from walrus.network.peers.engine import find_program
from walrus.network.peers.network import Network
from walrus.network.service import certificates
from walrus.network.service.task_groups import all_of
from walrus.network.settings.file import values_of

from .founding import PLAN
from .machine import AUTHORITY, ETCD_AUTHORITY, Machine, Place
from .ports import must_be_free

LONGEST_START = 600  # seconds until a process must listen; a node checks its pages before
TRIM = {"MALLOC_MMAP_THRESHOLD_": "65536", "GLIBC_TUNABLES": "glibc.malloc.hugetlb=1"}  # the same as in walrus-net
HOST = "127.0.0.1"
ENDS_WITH_PARENT = "setpriv", "--pdeathsig", "TERM", "--"  # of util-linux; the thread that starts it is the main one


def free_port() -> int:
    """Returns a free port below those that the system gives to outgoing connections."""
    while True:
        with socket.socket() as found, contextlib.suppress(OSError):
            found.bind(("127.0.0.1", 10_000 + secrets.randbelow(20_000)))
            return int(found.getsockname()[1])


def make_certificate(folder: pathlib.Path, path: str, by: str = AUTHORITY) -> None:
    """Makes a key and a certificate for a name on this machine, signed by an authority."""
    name = pathlib.Path(path).name
    certificates.make(folder / path, folder / by, name, [name, HOST])


class Local:
    """A network in a folder: authorities, `users/` with certificates, settings of recorders and nodes, databases."""

    def __init__(self, folder: pathlib.Path, program: str = "", recorded: bool = False, **options: object):
        self.folder, self.program = folder, program or find_program()
        self.members, self.recorders = ["etcd"], ["recorder-0"]
        self.options: dict[str, object] = {"recorded": recorded, **options}
        self.processes: dict[str, asyncio.subprocess.Process] = {}
        self.sides, self.faults = ((), ()), 1  # type: tuple[tuple[str, ...], tuple[str, ...]], int

    async def spawn(self, name: str, *words: str, **options: object) -> asyncio.subprocess.Process:
        """Starts a process that ends with the network, also if this process is killed; its output goes to NAME.log."""
        words = (*ENDS_WITH_PARENT, *words) if shutil.which(ENDS_WITH_PARENT[0]) else words
        with open(self.folder / f"{name}.log", "ab") as log:
            quiet = {"stdin": subprocess.DEVNULL, "stdout": log, "stderr": log, "cwd": self.folder, **options}
            self.processes[name] = await asyncio.create_subprocess_exec(*words, **quiet)  # type: ignore[arg-type]
        return self.processes[name]

    async def end(self, name: str, kill: bool = False) -> int:
        """Ends a process by a signal, waits for it, and returns its status; after 20 seconds it is killed."""
        process = self.processes.pop(name)
        if process.returncode is None:
            process.kill() if kill else process.terminate()
        with contextlib.suppress(TimeoutError):
            async with asyncio.timeout(20):
                return await process.wait()
        process.kill()
        return await process.wait()

    async def close(self) -> None:
        """Ends all processes: nodes first, then recorders, then etcd."""
        for name in sorted(self.processes, key=lambda name: (name in self.members, name in self.recorders)):
            await self.end(name)

    async def found(self) -> None:
        """Makes the authorities, the users, and the settings of etcd and recorders, unless the folder has a network:
        then it renews its certificates."""
        if (self.folder / PLAN).exists():
            return self.renew()
        (self.folder / "users").mkdir(parents=True, mode=0o700, exist_ok=True)
        for name in (AUTHORITY, ETCD_AUTHORITY):
            certificates.make_authority(self.folder / name)
        for name in (OPERATOR, "publisher"):
            make_certificate(self.folder, f"users/{name}")
        urls = {name: [f"https://{HOST}:{free_port()}" for _ in range(2)] for name in self.members}
        places = [Place(name, HOST, free_port()) for name in self.recorders]
        told = {"program": self.program, "recorders": [it.address for it in places], "etcd": urls}
        (self.folder / PLAN).write_text(json.dumps(told))
        machine = self.machine()
        for name in self.members:
            machine.etcd(name, Place(name, HOST, 0), urls, 100)
        for number, place in enumerate(places):
            machine.recorder(place, urls[self.members[number % len(self.members)]][0], place.name)

    def renew(self) -> None:
        """Makes the certificates anew that expire soon, or that are not valid yet, as the clock was fast when they were
        made: the authorities', whose keys stay, and those that they have signed. All that uses them starts later."""
        known = [it for it in (AUTHORITY, ETCD_AUTHORITY) if (self.folder / f"{it}.key").exists()]
        authorities = [self.folder / it for it in known]
        for path in [*self.folder.glob("*.crt"), *self.folder.glob("users/*.crt")]:
            old, name = certificates.read(path), path.with_suffix("")
            if certificates.days_left(old) > certificates.SOON and not certificates.early(old):
                continue
            left = certificates.days_left(old)  # if the clock is slow now, what is made must last once it is set
            if name in authorities:
                certificates.make_authority(name, max(left, certificates.AUTHORITY_DAYS))
            elif by := certificates.signer(old, authorities):
                words = certificates.common_name(old), certificates.names_of(old), max(left, certificates.DAYS)
                certificates.make(name, by, *words)

    def machine(self) -> Machine:
        """Returns this machine, whose files are all in the folder."""
        return Machine(self.folder, self.folder, "", "", self.told() | {"program": self.program})

    def told(self) -> dict[str, Any]:
        """Returns `network.json`: the program, the recorders, and two URLs for each member of etcd."""
        told: dict[str, Any] = json.loads((self.folder / "network.json").read_text())
        return told

    async def start_etcd(self, name: str = "etcd") -> None:
        """Starts a member of etcd with the variables in its file NAME.env."""
        for url in self.told()["etcd"][name]:
            must_be_free(name, HOST, int(url.rpartition(":")[2]))
        lines = (self.folder / f"{name}.env").read_text().splitlines()
        environment = {**os.environ, **dict(line.split("=", 1) for line in lines)}
        await self.spawn(name, "etcd", "--key-file=etcd.key", "--peer-key-file=etcd.key", env=environment)

    async def start_ledger(self) -> None:
        """Starts etcd and the recorders; in a fresh folder their files and the ledger are made first."""
        await self.found()
        self.recorders = sorted(it.stem for it in self.folder.glob("recorder-*.toml"))
        self.members = list(self.told()["etcd"])
        await all_of(map(self.start_etcd, self.members))
        await all_of(map(self.start_recorder, self.recorders))

    async def add_node(self, name: str) -> None:
        """Makes a node's certificate and settings, unless it has settings. Raises `Unfounded` if no node can have this
        name, such as one whose files are the ledger's or an authority's."""
        if not (self.folder / f"{name}.toml").exists():
            self.machine().node(Place.read(f"{name}={HOST}:{free_port()}"), **self.options)

    async def start_recorder(self, name: str) -> None:
        await self.start(name, [sys.executable, "-m", "walrus.network", "recorder"])

    async def start_node(self, name: str, words: Sequence[str] = (), environment: Mapping[str, str] = {}) -> None:
        await self.start(name, [*words] or [sys.executable, "-m", "walrus.network.node.node"], environment)

    async def start(self, name: str, words: Sequence[str], environment: Mapping[str, str] = {}) -> None:
        """Starts a process with its settings; returns once it listens, and raises `RuntimeError` with its last output
        if it ends or does not listen in time."""
        log = self.folder / f"{name}.log"
        before = log.stat().st_size if log.exists() else 0
        path = os.pathsep.join([str(TOP / "clients" / "python"), os.environ.get("PYTHONPATH", "")])
        settings = str(self.folder / f"{name}.toml")
        must_be_free(name, HOST, values_of(self.folder / f"{name}.toml").get("port", 0))
        process = await self.spawn(
            name, *words, settings, env={**os.environ, **TRIM, "PYTHONPATH": path, **environment}
        )
        with contextlib.suppress(TimeoutError):
            async with asyncio.timeout(LONGEST_START):
                while f"{name} {HOST}:" not in (said := log.read_bytes()[before:].decode(errors="replace")):
                    if process.returncode is not None:
                        raise RuntimeError(f"{name} ended with status {process.returncode}: {said.strip()[-900:]}")
                    await asyncio.sleep(0.05)
                return
        raise RuntimeError(f"{name} does not listen after {LONGEST_START} s: {said.strip()[-500:]}")

    def network(self, user: str = "publisher", seconds: float = 10) -> Network:
        return Network(self.folder, user, seconds)

    async def up(self, names: Sequence[str], faults: int = 1, owners: Optional[Sequence[str]] = None) -> None:
        """Starts the ledger, these nodes, and those of its committees. In a fresh network `owners`, or else these
        nodes, get the shards."""
        if not {*self.members} & {*self.processes}:
            await self.start_ledger()
        for name in names:
            await self.add_node(name)
        async with self.network(OPERATOR) as operator:
            first = [] if operator.ledger.now else [*names]
            await all_of(map(self.start_node, first))  # a committee has nodes that told the ledger their addresses
            if not operator.ledger.now:
                await operator.begin(faults, list(owners or names))
                if not await operator.until(lambda ledger: ledger.now):
                    raise RuntimeError("the ledger shows no committee: there must be 3f+1 owners")
            self.hear(operator)
        known = [
            name
            for name in dict.fromkeys([*names, *self.sides[0], *self.sides[1]])
            if name not in first and (self.folder / f"{name}.toml").exists()
        ]
        await all_of(map(self.start_node, known))

    def hear(self, network: Network) -> None:
        """Notes which nodes own the shards of both committees, for `up` and `lacks`."""
        self.sides, self.faults = (network.ledger.now, network.ledger.next), network.ledger.faults

    async def lacks(self) -> str:
        """Returns what has ended without which nothing can be stored any more; an empty text if enough still runs."""
        gone = {name for name, process in self.processes.items() if process.returncode is not None}
        if len(gone & {*self.members}) > (len(self.members) - 1) // 2:
            return "etcd is gone"
        if gone >= {*self.recorders}:
            return "no recorder is left"
        if gone:
            with contextlib.suppress(OSError):
                async with self.network(OPERATOR) as operator:
                    self.hear(operator)
        shards = max(sum(name in gone for name in side) for side in self.sides)
        return f"nodes with {shards} shards are gone, and only {self.faults} may be" if shards > self.faults else ""

    async def watch(self) -> str:
        """Prints when a process ends; once too much has ended for anything to be stored, returns what."""
        waiting = {asyncio.create_task(process.wait()): name for name, process in self.processes.items()}
        while not (lack := await self.lacks()):
            done, _ = await asyncio.wait(waiting, return_when=asyncio.FIRST_COMPLETED)
            for name, status in ((waiting.pop(task), task.result()) for task in done):
                last = (self.folder / f"{name}.log").read_text(errors="replace").strip().rpartition("\n")[2]
                print(f"{name} has ended with status {status}: {last[-300:] or 'it printed nothing'}", file=sys.stderr)
        return lack

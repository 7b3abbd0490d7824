"""Measures nodes on this machine: memory, disk, rates, starts, and what a repair moves.

Each part can be chosen alone, and begins nothing new once its minutes are over. What it writes goes to a folder of its
own, which is removed. Figures of speed count on a quiet machine only."""
import argparse
import asyncio
import contextlib
import itertools
import os
import pathlib
import random
import resource
import shutil
import sys
import tempfile
import time
from typing import Any, Awaitable, Callable, Iterable

sys.path.insert(0, str(pathlib.Path(__file__).resolve().parents[2] / "clients" / "python"))

from walrus import client, loop  # noqa: E402
from walrus.network.deploy.local import Local  # noqa: E402
from walrus.network.ledger.entries import OPERATOR  # noqa: E402
from walrus.network.node import judge  # noqa: E402
from walrus.network.node.disk.store import Store  # noqa: E402
from walrus.network.peers import engine as peers_engine  # noqa: E402
from walrus.network.peers.engine import find_program  # noqa: E402
from walrus.network.peers.network import Network  # noqa: E402
from walrus.network.peers.seats import FIGURES, SCRUB  # noqa: E402

NODES = ["node-0", "node-1", "node-2", "node-3"]
SMALL, LARGE = 4_096, 16_777_216


class Over(Exception):
    """The minutes of a part are over."""


def tell(what: str, seconds: float, size: float, count: int) -> None:
    print(f"{what}: {seconds:.2f} s, {size / seconds / 1e6:.1f} MB/s, {count / seconds:.1f} blobs/s", flush=True)


def content(number: int, size: int) -> bytes:
    return random.Random(number).randbytes(size)


def free_for(folder: pathlib.Path, size: float) -> None:
    """Refuses what the disk cannot hold: at f = 1 four nodes take ten thirds of what is stored."""
    needed, free = size * 10 / 3 * 1.05 + 1e9, shutil.disk_usage(folder).free
    if needed > 0.9 * free:
        sys.exit(f"{size / 1e9:.1f} GB take {needed / 1e9:.1f} GB of disk, and {free / 1e9:.1f} GB are free: take less")


class Bench:
    """A network of four nodes, what is stored there, and how much memory each of its processes ever took."""

    def __init__(self, folder: pathlib.Path, minutes: float):
        self.local, self.end = Local(folder, scrub_rate=10**9, heal=5), time.monotonic() + 60 * minutes
        self.names: list[tuple[int, int, bytes]] = []  # what it was drawn from, its size and its identifier
        self.peaks: dict[str, float] = {}

    def in_time(self) -> None:
        if time.monotonic() > self.end:
            raise Over

    async def each(self, width: int, items: Iterable[Any], step: Callable[[Any], Awaitable[object]]) -> float:
        """Seconds for a step with each, so many at once."""
        left, start = iter(items), time.monotonic()

        async def go_on() -> None:
            for item in left:
                self.in_time()
                await step(item)

        async with asyncio.TaskGroup() as group:
            for _ in range(width):
                group.create_task(go_on())
        return time.monotonic() - start

    async def put(self, network: Network, count: int, size: int, width: int) -> None:
        """Stores so many blobs more."""

        async def store(number: int) -> None:
            stored = await network.store(content(number, size), 5)
            self.names.append((number, size, stored.identifier))

        first = len(self.names)
        seconds = await self.each(width, range(first, first + count), store)
        tell(f"{count} blobs of {size} bytes, {width} at a time: stored", seconds, count * size, count)

    async def get(self, network: Network, names: list[tuple[int, int, bytes]], width: int) -> None:
        """Reads blobs, and compares them with what was written."""

        async def fetch(name: tuple[int, int, bytes]) -> None:
            assert await network.fetch(name[2], 120) == content(*name[:2]), f"{name[2].hex()} is not what was written"

        seconds = await self.each(width, names, fetch)
        tell(f"{len(names)} blobs, {width} at a time: read", seconds, sum(it[1] for it in names), len(names))

    def memory(self, name: str) -> float:
        """The resident memory of a node in MB, and its peak, which is kept in mind."""
        text = pathlib.Path(f"/proc/{self.local.processes[name].pid}/status").read_text()
        now, most = (int(text.split(f"{it}:")[1].split()[0]) * 1024 / 1e6 for it in ("VmRSS", "VmHWM"))
        self.peaks[name] = max(self.peaks.get(name, 0), most)
        return now

    async def figures(self, network: Network, name: str, holds: Callable[[dict[str, Any]], bool]) -> dict[str, Any]:
        """A node's figures once something holds of them."""
        while True:
            self.in_time()
            with contextlib.suppress(ConnectionError):
                if holds(told := await network.peers.told(name, FIGURES)):
                    return told
            await asyncio.sleep(0.2)

    async def start_again(self, name: str, empty: bool = False) -> float:
        """Kills a node and starts it, without its disk if told so; the seconds of the start."""
        self.memory(name)
        await self.local.end(name, kill=True)
        if empty:
            for path in self.local.folder.glob(f"{name}.db*"):
                path.unlink()
            shutil.rmtree(self.local.folder / f"{name}.parts")
        start = time.monotonic()
        await self.local.start_node(name)
        return time.monotonic() - start

    async def holds(self, network: Network, name: str) -> tuple[int, int]:
        """How many blobs a node holds, and their bytes; says what it costs: memory, disk, a start."""
        await asyncio.sleep(11)  # so that its figures are fresh
        held = (await self.figures(network, name, lambda told: True))["held"]
        print(f"{name} holds {held['blobs']} blobs, {held['bytes'] / 1e6:.0f} MB")
        print(f"  resident: {', '.join(f'{self.memory(it):.0f} MB' for it in NODES)}")
        seconds = await self.start_again(name)
        await asyncio.sleep(5)
        print(f"  a start: {seconds:.2f} s; resident then: {self.memory(name):.0f} MB", flush=True)
        await self.local.end(name)  # in order, so that SQLite's log is empty
        paths = [*self.local.folder.glob(f"{name}.db*"), *self.local.folder.glob(f"{name}.parts/**/*")]
        beside = (sum(it.stat().st_blocks * 512 for it in paths) - held["bytes"]) / max(1, held["blobs"])
        print(f"  bytes of the disk beside those of each blob: {beside:.0f}", flush=True)
        await self.local.start_node(name)
        return held["blobs"], held["bytes"]

    async def mend(self, network: Network, name: str, blobs: int, size: int) -> None:
        """Times a scrub of a node, and how it is filled anew by the others."""
        start = time.monotonic()
        async with self.local.network(OPERATOR) as operator:
            await operator.peers.told(name, SCRUB)
        await self.figures(network, name, lambda told: told["scrub"]["ended"] > told["scrub"]["begun"] > 0)
        tell("  a scrub", time.monotonic() - start, size, blobs)
        await self.refill(network, name, blobs, size)

    async def refill(self, network: Network, name: str, blobs: int, size: int) -> None:
        """Times how a node that lost its disk is filled anew."""
        await self.start_again(name, empty=True)
        start = time.monotonic()
        told = await self.figures(
            network, name, lambda it: it["recovered"]["blobs"] >= blobs or it["held"]["bytes"] >= size
        )
        tell(f"{name} without its disk: filled anew", time.monotonic() - start, size, blobs)
        print(f"  resident: {self.memory(name):.0f} MB; its last round: {told['recovered']}", flush=True)

    async def held(self, network: Network, amounts: list[int]) -> None:
        """Memory and a start with so many MB held by a node; then the rates."""
        free_for(self.local.folder, max(amounts) * 1.2e6)
        for amount in sorted(amounts):
            count = max(1, round(amount * 1.2e6 / LARGE) - len(self.names))
            await self.put(network, count, LARGE, 2)
            blobs, size = await self.holds(network, NODES[0])
        await self.get(network, self.names[:64], 2)
        await self.mend(network, NODES[0], blobs, size)

    async def small(self, network: Network, count: int) -> None:
        """The same with small blobs."""
        await self.put(network, count, SMALL, 16)
        blobs, size = await self.holds(network, NODES[0])
        await self.get(network, self.names[:1_000], 16)
        await self.mend(network, NODES[0], blobs, size)


async def contents(folder: pathlib.Path) -> None:
    """What storing parts costs whose contents stand in SQLite or in files, eight of them under way at once."""
    for size in (4_096, 16_384, 65_536, 262_144, 1_048_576):
        count = max(16, min(128, 2**24 // size))
        for way in ("in SQLite", "in files"):
            store, payload = Store(folder / f"{size}-{way[3:]}.db"), random.Random(size).randbytes(size)
            start = time.monotonic()
            for first in range(0, count, 8):
                keys = [number.to_bytes(32, "big") for number in range(first, first + 8)]
                write = [asyncio.to_thread(store.files.write, it, payload) for it in keys if way == "in files"]
                names = await asyncio.gather(*write) or [[None]] * 8
                for key, [name] in zip(keys, names):
                    store.put(1, 0, key, 1, payload, name)
                await (store.written() or asyncio.sleep(0))
            tell(f"{count} contents of {size} bytes {way}", time.monotonic() - start, count * size, count)
            store.close()


def processor_seconds() -> float:
    return sum(sum(resource.getrusage(it)[:2]) for it in (resource.RUSAGE_SELF, resource.RUSAGE_CHILDREN))


async def judges() -> None:
    """What a judge takes of a processor to store a shard's parts of a blob and to answer a read."""
    engines: list[Any] = [peers_engine.Program(find_program())]
    if isinstance(found := peers_engine.engine_of(find_program()), judge.Library):
        engines.append(found)
    for size, engine in itertools.product((SMALL, LARGE), engines):
        encoded = await client.Walrus(find_program()).encode(content(1, size), 1)
        told = [client.write_frame(client.RegisterEntry(encoded.identifier, 9)), encoded.metadata]
        primary, secondary = encoded.slivers[0]
        read = client.write_frame(client.Read(encoded.identifier))
        for what, requests in (("a put", [*told, primary, secondary]), ("a read", [*told, primary, read])):
            times = 3 if size == LARGE else 20
            begun, start = processor_seconds(), time.monotonic()
            for _ in range(times):
                judge.judge(engine, 1, 0, [*requests])
            used, taken = (processor_seconds() - begun) / times, (time.monotonic() - start) / times
            kind = type(engine).__name__.lower()
            print(f"{what} of {size} bytes by the {kind}: {used * 1e3:.1f} ms of a processor, {taken * 1e3:.1f} ms")


async def repair() -> None:
    """The bytes that travel to recover one shard's slivers of a blob, beside those of a code in one dimension, where
    whoever recovers a part takes the whole blob."""
    walrus, engine = client.Walrus(find_program()), peers_engine.engine_of(find_program())
    print("  f       blob  its slivers  asked      travels  of it paths  one dimension")
    for faults, size in itertools.product((1, 10, 33), (SMALL, 65_536, 1_048_576, LARGE)):
        encoded, shape = await walrus.encode(content(1, size), faults), client.Shape(faults)
        told = [client.write_frame(client.RegisterEntry(encoded.identifier, 9)), encoded.metadata, *encoded.slivers[1]]
        asked = [client.Symbol(encoded.identifier, axis, 0) for axis in (client.PRIMARY, client.SECONDARY)]
        said = judge.judge(engine, faults, 1, [*told, *map(client.write_frame, asked)])[-2:]
        counts = [shape.symbols[it.axis] for it in asked]  # of the others that are asked for an opening of each sliver
        one = [sum(len(client.envelope(it)) for it in reply) for reply in said]
        travels = sum(map(int.__mul__, counts, one)) + len(client.envelope(encoded.metadata))
        own = sum(map(len, encoded.slivers[0]))
        row = f"{faults:>3} {size:>10} {own:>12} {max(counts):>6} {travels:>12} {travels - own:>12} {size:>14}"
        print(row, flush=True)


async def part(words: argparse.Namespace, work: Callable[[Bench, Network], Awaitable[None]]) -> None:
    """Runs a part over a fresh network, until its minutes are over."""
    bench = Bench(pathlib.Path(tempfile.mkdtemp(prefix="walrus-bench-", dir=words.folder)), words.minutes)
    try:
        await bench.local.up(NODES)
        async with bench.local.network(seconds=60) as network:
            await work(bench, network)
    except* Over:
        print(f"its {words.minutes:g} minutes are over, and the rest of this part is left out", flush=True)
    finally:
        await bench.local.close()
        shutil.rmtree(bench.local.folder)


async def run(words: argparse.Namespace) -> None:
    if words.judges:
        await judges()
    if words.repair:
        await repair()
    if words.contents:
        with tempfile.TemporaryDirectory(prefix="walrus-bench-", dir=words.folder) as folder:
            await contents(pathlib.Path(folder))
    if words.held:
        await part(words, lambda bench, network: bench.held(network, words.held))
    if words.small:
        await part(words, lambda bench, network: bench.small(network, words.small))


def main() -> int:
    parser = argparse.ArgumentParser(description=__doc__, formatter_class=argparse.RawDescriptionHelpFormatter)
    parser.add_argument("--judges", action="store_true", help="a put and a read by the program and by the library")
    parser.add_argument("--repair", action="store_true", help="the bytes that travel to recover a shard's part")
    parser.add_argument("--contents", action="store_true", help="what contents cost in SQLite and in files")
    parser.add_argument("--held", type=int, nargs="+", metavar="MB", help="memory and a start with these held; rates")
    parser.add_argument("--small", type=int, metavar="N", help="the same with so many blobs of 4 KiB")
    parser.add_argument("--minutes", type=float, default=15, help="of each part with a network; 15")
    parser.add_argument("--folder", help="where it is tried: a folder on the disk in question")
    words = parser.parse_args()
    if not any((words.judges, words.repair, words.contents, words.held, words.small)):
        words.judges, words.repair, words.held, words.small = True, True, [100], 500
    print(f"program {find_program()}, {os.cpu_count()} processors, load {os.getloadavg()[0]:.1f}")
    loop.run(run(words))
    return 0


if __name__ == "__main__":
    sys.exit(main())

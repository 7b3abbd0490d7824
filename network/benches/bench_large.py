"""Gigabytes in files through a gateway into a network of four nodes, and out again.

On the way in a node is killed and started again. While all is read, a node that lost its disk is replaced by an empty
one, which the others fill. Each file is drawn anew to be compared, and none is ever whole in memory. What this writes
goes to folders of its own, which are removed. Figures of speed count on a quiet machine only."""
import argparse
import asyncio
import dataclasses
import itertools
import os
import pathlib
import shutil
import sys
import tempfile
import time
from typing import Any, AsyncIterator

import aiohttp
from cryptography.hazmat.primitives.ciphers import Cipher, algorithms, modes

import bench
from bench import NODES
from bench_http import start_gateway
from walrus import loop
from walrus.network.deploy.local import free_port
from walrus.network.ledger.entries import OPERATOR
from walrus.network.peers.engine import find_program
from walrus.network.peers.network import Network

MIB, FRESH = 2**20, "node-4"
SIZES = 64, 1_024, 128, 512, 256  # MiB of files, one after the other
ZEROS = bytes(MIB)
BLOCK = 4_096  # bytes that each MiB of a file repeats, if it is to compress
MOST_MEMORY, MOST_GATEWAY, LONGEST_START = 256.0, 300.0, 2.0  # MB and seconds, with which it is compared
KILLED, REPLACED = "node-1", "node-2"
ELSEWHERE = f"where a node has its disk; {FRESH}, which replaces {REPLACED}, has it where that had its own"
COMPRESSES = f"each MiB repeats a block of {BLOCK} bytes of its own, for a file system that compresses"
SHARE, COUNTED = 5 / 6, 11  # of all bytes, which each of four nodes holds; seconds until it has counted them anew


class Drawn:
    """The bytes of a file one after the other: AES in counter mode, of which each MiB repeats its first block if the
    file is to compress. No two MiB are the same."""

    def __init__(self, number: int, repeated: bool):
        self.cipher = Cipher(algorithms.AES(number.to_bytes(16, "big")), modes.CTR(bytes(16))).encryptor()
        self.repeated, self.piece = repeated, memoryview(b"")

    def take(self, size: int) -> bytes:
        """The next bytes, at most so many."""
        if not self.piece:
            self.piece = memoryview(self.cipher.update(ZEROS))
            if self.repeated:
                self.piece = memoryview(bytes(self.piece[:BLOCK]) * (MIB // BLOCK))
        taken, self.piece = self.piece[:size], self.piece[size:]
        return bytes(taken)


@dataclasses.dataclass
class File:
    """A file that is drawn from its number."""

    number: int
    size: int
    repeated: bool = False  # in each MiB
    name: str = ""  # that the gateway gave it

    def drawn(self) -> Drawn:
        return Drawn(self.number, self.repeated)


def files_of(size: int, repeated: bool = False) -> list[File]:
    """Files of so many bytes together."""
    found, numbers = list[File](), itertools.count(1)
    for mebibytes in itertools.cycle(SIZES):
        if size <= 0:
            return found
        found.append(File(next(numbers), min(size, mebibytes * MIB), repeated))
        size -= found[-1].size
    return found


class Large(bench.Bench):
    """A gateway over four nodes, and the files that went in."""

    def __init__(self, words: argparse.Namespace):
        folder = pathlib.Path(tempfile.mkdtemp(prefix="walrus-bench-", dir=words.folder))
        super().__init__(folder, float("inf"))
        self.words, self.url = words, f"http://127.0.0.1:{free_port()}"
        self.files = files_of(round(words.gigabytes * 1e9), words.compressible)
        self.moved = 0  # bytes in the step that runs
        self.places, self.rows = dict[str, pathlib.Path](), list[tuple[str, str]]()
        self.session = aiohttp.ClientSession(timeout=aiohttp.ClientTimeout(total=None))  # `--minutes` bounds all
        self.fine = True

    def row(self, what: str, said: str) -> None:
        self.rows.append((what, said))
        print(f"{what}: {said}", flush=True)

    def bound(self, what: str, value: float, most: float, unit: str) -> None:
        """A row of what must not be more than so much."""
        self.fine = self.fine and value < most
        self.row(what, f"{value:.2f} {unit}, {'less' if value < most else 'NOT LESS'} than {most:g}")

    def lay_out(self) -> None:
        """Has each node's disk where it was told; refuses what a disk cannot hold."""
        needed = dict[int, float]()
        for name in (*NODES, FRESH):
            place = self.words.place.get(REPLACED if name == FRESH else name)
            self.places[name] = self.local.folder
            if place:
                self.places[name] = pathlib.Path(tempfile.mkdtemp(prefix=f"walrus-bench-{name}-", dir=place))
                (self.local.folder / f"{name}.db").symlink_to(self.places[name] / f"{name}.db")
        for name in NODES:
            device = self.places[name].stat().st_dev
            needed[device] = needed.get(device, 1e9) + self.words.gigabytes * 1e9 * SHARE * 1.02
            free = shutil.disk_usage(self.places[name]).free
            if needed[device] > 0.94 * free:  # a node keeps a twentieth
                gigabytes = f"{needed[device] / 1e9:.1f} GB are needed of {free / 1e9:.1f}"
                raise SystemExit(f"{self.places[name]}: {gigabytes}: take less, or have nodes elsewhere by --place")

    async def each_file(self, what: str, step: Any) -> None:
        """Takes a step with each file, some of them at once."""
        self.moved, size = 0, sum(it.size for it in self.files)
        seconds = await self.each(self.words.at_once, self.files, step)
        self.memory("gateway")
        self.row(f"{size / 1e9:.2f} GB {what}", f"{seconds:.1f} s, {size / seconds / 1e6:.1f} MB/s")

    async def sent(self, file: File) -> AsyncIterator[bytes]:
        """The bytes of a file, piece by piece."""
        drawn, left = file.drawn(), file.size
        while left:
            yield (piece := drawn.take(left))
            left -= len(piece)
            self.moved += len(piece)

    async def put(self, file: File) -> None:  # type: ignore[override]
        words = {"data": self.sent(file), "headers": {"Content-Length": str(file.size)}}
        async with self.session.put(f"{self.url}/v1/blobs?epochs=9", **words) as response:
            if response.status != 201:
                raise RuntimeError(f"a file of {file.size} bytes is not stored: {await response.text()}")
            file.name = str((await response.json())["blobId"])

    async def get(self, file: File) -> None:  # type: ignore[override]
        drawn, left = file.drawn(), file.size
        async with self.session.get(f"{self.url}/v1/blobs/{file.name}") as response:
            response.raise_for_status()
            async for part in response.content.iter_any():
                view = memoryview(part)
                while view:
                    wanted = drawn.take(len(view))
                    if wanted != view[: len(wanted)]:
                        raise RuntimeError(f"{file.name} is not what was stored, {left} bytes before its end")
                    view, left = view[len(wanted) :], left - len(wanted)  # noqa: E203
                self.moved += len(part)
        if left:
            raise RuntimeError(f"{file.name} ends {left} bytes early")

    async def reach(self, share: float) -> None:
        """Waits until so much of all bytes has moved in this step."""
        while self.moved < share * sum(it.size for it in self.files):
            self.in_time()
            await asyncio.sleep(0.2)

    async def answers(self, network: Network, name: str, ended: str) -> None:
        """Starts a node that has ended so, and times until it answers."""
        start = time.monotonic()
        await self.local.start_node(name)
        await self.figures(network, name, lambda told: True)
        self.bound(f"{name} {ended}, and answers after", time.monotonic() - start, LONGEST_START, "s")

    async def kill(self, network: Network) -> None:
        """Kills a node once a third is stored, and starts it again."""
        await self.reach(1 / 3)
        self.memory(KILLED)
        await self.local.end(KILLED, kill=True)
        await asyncio.sleep(1)
        await self.answers(network, KILLED, "was killed")

    async def store(self, network: Network) -> None:
        async with asyncio.TaskGroup() as group:
            if "kill" not in self.words.skip:
                group.create_task(self.kill(network))
            await self.each_file("in", self.put)

    async def read(self, what: str) -> None:
        await self.local.end("gateway")  # so that nothing is in its cache
        await start_gateway(self.local, self.url)
        await self.each_file(what, self.get)

    async def replace(self, network: Network) -> None:
        """Has an empty node take the place of one that lost its disk, and waits until it is filled."""
        await asyncio.sleep(COUNTED)
        held = (await self.held_by(network, NODES[0]))["bytes"]
        self.memory(REPLACED)
        await self.local.end(REPLACED, kill=True)
        self.remove(REPLACED)
        await self.local.add_node(FRESH)
        await self.local.start_node(FRESH)
        start = time.monotonic()
        async with self.local.network(OPERATOR) as operator:
            await operator.begin(1, [FRESH if it == REPLACED else it for it in NODES])
            if not await operator.until(lambda it: it.epoch == 1, 120):
                raise RuntimeError(f"epoch 1 does not begin: the logs are in {self.local.folder}")
        self.row("epoch 1 began after", f"{time.monotonic() - start:.1f} s")
        while (await self.held_by(network, FRESH))["bytes"] < held:
            await asyncio.sleep(1)
        seconds = time.monotonic() - start
        self.row(f"{FRESH} was filled", f"{held / 1e9:.2f} GB, {seconds:.1f} s, {held / seconds / 1e6:.1f} MB/s")

    async def held_by(self, network: Network, name: str) -> dict[str, Any]:
        """What a node says that it holds."""
        return dict((await self.figures(network, name, lambda told: True))["held"])

    async def replace_and_read(self, network: Network) -> None:
        """Reads all of it again and again, until the empty node is filled."""
        async with asyncio.TaskGroup() as group:
            filling = group.create_task(self.replace(network))
            while not filling.done():
                await self.read("out while a node is filled")

    async def run(self) -> None:
        """All steps."""
        self.lay_out()
        await self.local.up(NODES)
        await start_gateway(self.local, self.url)
        async with self.local.network(seconds=60) as network:
            await self.store(network)
            if "read" not in self.words.skip:
                await self.read("out")
            if "replace" not in self.words.skip:
                await self.replace_and_read(network)
            await asyncio.sleep(COUNTED)
            for name in sorted(it for it in self.local.processes if it.startswith("node-")):
                held, now = await self.held_by(network, name), self.memory(name)
                self.row(name, f"holds {held['blobs']} blobs, {held['bytes'] / 1e9:.2f} GB, resident {now:.0f} MB")
            await self.local.end(NODES[0])
            await self.answers(network, NODES[0], "was stopped with all that it holds")
            await asyncio.sleep(COUNTED)
            self.row(f"{NODES[0]} after this start", f"resident {self.memory(NODES[0]):.0f} MB")
        for name, most in sorted(self.peaks.items()):
            self.bound(f"{name} at most", most, MOST_MEMORY if name in self.places else MOST_GATEWAY, "MB")

    def remove(self, name: str) -> None:
        """Removes what a node has on its disk."""
        for path in [*self.local.folder.glob(f"{name}.db*"), *self.places[name].glob(f"{name}.db*")]:
            path.unlink(missing_ok=True)
        shutil.rmtree(self.places[name] / f"{name}.parts", ignore_errors=True)

    async def close(self) -> None:
        await self.session.close()
        await self.local.close()
        for folder in {self.local.folder, *self.places.values()}:
            shutil.rmtree(folder, ignore_errors=True)


async def measure(words: argparse.Namespace) -> bool:
    """Runs all of it; whether it came to its end, and all was within its bounds."""
    large, ended = Large(words), False
    try:
        async with asyncio.timeout(60 * words.minutes):
            await large.run()
            ended = True
    except TimeoutError:
        print(f"its {words.minutes:g} minutes are over", flush=True)
    finally:
        await large.close()
    print("\n| | |\n|---|---|\n" + "\n".join(f"| {what} | {said} |" for what, said in large.rows))
    return ended and large.fine


def place(text: str) -> tuple[str, str]:
    name, _, folder = text.partition("=")
    if name not in NODES or not os.path.isdir(folder):
        raise argparse.ArgumentTypeError(f"{text} is not NODE=FOLDER with one of {' '.join(NODES)} and a folder")
    return name, folder


def main() -> int:
    parser = argparse.ArgumentParser(description=__doc__, formatter_class=argparse.RawDescriptionHelpFormatter)
    parser.add_argument("--gigabytes", type=float, default=1.0, metavar="N", help="that go in and out; 1")
    parser.add_argument("--folder", help="where it is tried: a folder on the disk in question")
    parser.add_argument("--place", type=place, action="append", default=[], metavar="NODE=FOLDER", help=ELSEWHERE)
    parser.add_argument("--skip", nargs="+", choices=("kill", "read", "replace"), default=[], help="steps to leave out")
    parser.add_argument("--at-once", type=int, default=2, metavar="N", help="files that are under way at once; 2")
    parser.add_argument("--minutes", type=float, default=60, help="for all of it; 60")
    parser.add_argument("--compressible", action="store_true", help=COMPRESSES)
    words = parser.parse_args()
    words.place = dict(words.place)
    print(f"program {find_program()}, {os.cpu_count()} processors, load {os.getloadavg()[0]:.1f}")
    if words.compressible:
        print(f"contents compress: {COMPRESSES}", flush=True)
    return not loop.run(measure(words))


if __name__ == "__main__":
    sys.exit(main())

"""What files over HTTP cost, and where it goes: processors, syncs, bytes; beside nginx and OpenStack Swift if asked."""
import argparse
import asyncio
import contextlib
import os
import pathlib
import random
import shutil
import sys
import tempfile
import time
from typing import AsyncIterator

import aiohttp

sys.path.insert(0, str(pathlib.Path(__file__).resolve().parents[2] / "clients" / "python"))

import bench_peers  # noqa: E402
from bench_work import PART, SMALL, WIDTH, Bench, memory, random_bytes  # noqa: E402
from walrus import loop  # noqa: E402
from walrus.network.deploy.local import Local, free_port  # noqa: E402
from walrus.network.peers.engine import find_program  # noqa: E402

NODES = ["node-0", "node-1", "node-2", "node-3"]
PARTS = ["piece", "large", "small", "folders", "syncs", "killed"]


async def drained(bench: Bench) -> None:
    """Has the cache of the gateway forget what it has: it starts anew."""
    await bench.local.end("gateway")
    await start_gateway(bench.local, bench.url)


async def start_gateway(local: Local, url: str) -> None:
    command, log = str(pathlib.Path(__file__).resolve().parents[1] / "walrus-net"), local.folder / "gateway.log"
    log.unlink(missing_ok=True)
    await local.spawn("gateway", command, "gateway", str(local.folder), "--port", url.rpartition(":")[2])
    while "the gateway is at" not in log.read_text():
        await asyncio.sleep(0.1)


async def peers(session: aiohttp.ClientSession, folder: pathlib.Path, words: argparse.Namespace) -> None:
    """The same files through nginx and Swift, in the same run."""
    made = {"nginx": (bench_peers.nginx, ["nginx"]), "swift": (bench_peers.swift, bench_peers.SWIFT)}
    for name, (start, programs) in made.items():
        lacking = [it for it in programs if not shutil.which(it)]
        if not getattr(words, name):
            continue
        if lacking:
            print(f"{name} is left out: {', '.join(lacking)} is not installed")
            continue
        local = Local(folder / name)
        local.folder.mkdir()
        try:
            async with start(local) as url:
                for size in (16 * 2**20, words.size):
                    took = await bench_peers.moves(session, url, str(size), random_bytes(size))
                    print(f"{name}: {size / 2**20:.0f} MiB in {took[0]:.2f} s, out {took[1]:.2f} s", flush=True)
                files = [(str(number), random.Random(number).randbytes(SMALL)) for number in range(words.small)]
                begun = time.monotonic()
                took = [await bench_peers.moves(session, url, *file) for file in files]
                each = [1e3 * sum(it) / len(took) for it in zip(*took)]
                print(f"{name}: 4 KiB in {each[0]:.1f} ms, out {each[1]:.1f} ms, one after the other", flush=True)
                some, begun = iter(files), time.monotonic()

                async def work() -> None:
                    for number, data in some:
                        async with session.put(f"{url}/w{number}", data=data) as said:
                            said.raise_for_status()

                await asyncio.gather(*(work() for _ in range(WIDTH)))
                rate = len(files) / (time.monotonic() - begun)
                print(f"{name}: 4 KiB in, {WIDTH} at once: {rate:.0f} a second", flush=True)
        finally:
            await local.close()


@contextlib.asynccontextmanager
async def network(folder: pathlib.Path, session: aiohttp.ClientSession) -> AsyncIterator[Bench]:
    local, url = Local(folder / "network"), f"http://127.0.0.1:{free_port()}"
    local.folder.mkdir()
    try:
        await local.up(NODES)
        await start_gateway(local, url)
        yield Bench(local, session, url)
    finally:
        await local.close()


async def syncs(bench: Bench) -> None:
    drawn = random.Random(6)
    await bench.syncs("a file of 16 MiB", 1, lambda: bench.put(drawn.randbytes(PART)))
    files = [drawn.randbytes(SMALL) for _ in range(4 * WIDTH)]
    what = f"each of {WIDTH} files of 4 KiB at once"
    await bench.syncs(what, len(files), lambda: asyncio.gather(*map(bench.put, files)))


async def killed(bench: Bench, name: str, size: int) -> None:
    """Reads a large file once a node is gone."""
    await drained(bench)
    await bench.local.end("node-1", kill=True)

    async def read() -> None:
        await bench.get(name)

    await bench.row(f"{size / 2**20:.0f} MiB out with a node killed", size, 1, read)


async def measure(words: argparse.Namespace) -> None:
    folder, parts = pathlib.Path(tempfile.mkdtemp(prefix="walrus-bench-", dir=words.folder)), words.parts or PARTS
    try:
        async with aiohttp.ClientSession(timeout=aiohttp.ClientTimeout(total=None)) as session:
            async with network(folder, session) as bench:
                name = await bench.put(b"first")
                if "piece" in parts:
                    name = await bench.large(PART)
                if "large" in parts:
                    name = await bench.large(words.size)
                if "small" in parts:
                    await bench.small(words.small)
                if "folders" in parts:
                    await bench.folders(words.folders)
                if "syncs" in parts:
                    await syncs(bench)
                told = memory(bench.local)
                rows = ", ".join(f"{role} {now:.0f} ({most:.0f})" for role, (now, most) in sorted(told.items()))
                print(f"MB resident, and at most: {rows}; in all {sum(now for now, _ in told.values()):.0f}")
                if "killed" in parts and "large" in parts:
                    await killed(bench, name, words.size)
            await peers(session, folder, words)
    finally:
        shutil.rmtree(folder)


def main() -> int:
    parser = argparse.ArgumentParser(description="Measures a gateway over four nodes on this machine.")
    parser.add_argument("--size", type=int, default=256 * 2**20, help="bytes of the large file")
    parser.add_argument("--small", type=int, default=300, help="files of 4 KiB")
    parser.add_argument("--folders", type=int, default=10_000, help="files of a folder")
    parser.add_argument("--parts", nargs="+", choices=PARTS, help="what is measured; all, if it is left out")
    parser.add_argument("--uvloop", action="store_true", help="have gateway, nodes and recorder run on uvloop")
    parser.add_argument("--nginx", action="store_true", help="measure nginx as well: dav, one copy")
    parser.add_argument("--swift", action="store_true", help="measure OpenStack Swift as well: erasure coding 2+2")
    parser.add_argument("--folder", help="where it is tried: a folder on the disk in question")
    words = parser.parse_args()
    os.environ |= {"WALRUS_LOOP": "uvloop"} if words.uvloop else {}
    print(f"program {find_program()}, {os.cpu_count()} processors, load {os.getloadavg()[0]:.1f}")
    loop.run(measure(words))
    return 0


if __name__ == "__main__":
    sys.exit(main())

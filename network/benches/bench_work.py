"""The work whose cost `network/bench-http` tells: files, folders and small files in and out, and what they take."""
import asyncio
import collections
import io
import os
import pathlib
import random
import re
import shutil
import signal
import subprocess
import tarfile
import time
from typing import Any, Awaitable, Callable, Iterator

import aiohttp
from walrus.network.deploy.local import Local

SMALL, WIDTH, TICKS = 4_096, 16, os.sysconf("SC_CLK_TCK")
PART = 16_777_216


def roles(local: Local) -> Iterator[tuple[str, int]]:
    """What each process is."""
    for name, process in local.processes.items():
        yield name.partition("-")[0].replace("node", "nodes"), process.pid


def spent(local: Local) -> "collections.Counter[str]":
    """The processor seconds of all processes by what they are, and the bytes that went over loopback."""
    found = collections.Counter[str]()
    for role, process in roles(local):
        fields = pathlib.Path(f"/proc/{process}/stat").read_text().rpartition(")")[2].split()
        found[role] += sum(map(int, fields[11:15])) / TICKS  # type: ignore[assignment]
    told = re.search(r"lo:\s*(\d+)", pathlib.Path("/proc/net/dev").read_text())
    found["moved"] = int(told[1]) if told else 0
    return found


def memory(local: Local) -> dict[str, tuple[float, float]]:
    """The resident memory in MB by what processes are: now, and at most."""
    found: dict[str, tuple[float, float]] = {}
    for role, process in roles(local):
        text = pathlib.Path(f"/proc/{process}/status").read_text()
        now, most = (int(text.split(f"{it}:")[1].split()[0]) * 1_024 / 1e6 for it in ("VmRSS", "VmHWM"))
        before = found.get(role, (0.0, 0.0))
        found[role] = before[0] + now, before[1] + most
    return found


def random_bytes(size: int) -> bytes:
    """So many random bytes, of which Python draws less than 256 MiB at once."""
    source = random.Random(size)
    return b"".join(source.randbytes(min(PART, size - place)) for place in range(0, size, PART))


class Bench:
    """A gateway over four nodes."""

    def __init__(self, local: Local, session: aiohttp.ClientSession, url: str):
        self.local, self.session, self.url = local, session, url

    async def put(self, data: bytes) -> str:
        async with self.session.put(f"{self.url}/v1/blobs?epochs=9", data=data) as response:
            response.raise_for_status()
            return str((await response.json())["blobId"])

    async def get(self, name: str) -> int:
        async with self.session.get(f"{self.url}/v1/blobs/{name}") as response:
            response.raise_for_status()
            return sum([len(part) async for part in response.content.iter_any()])

    async def row(self, what: str, size: int, count: int, step: Callable[[], Awaitable[None]]) -> None:
        """Tells how long something takes that moves so many bytes in so many files, and what it costs."""
        before, start = spent(self.local), time.monotonic()
        await step()
        seconds, costs = time.monotonic() - start, spent(self.local) - before
        speed = f"{size / seconds / 1e6:.1f} MB/s" if size > 10**6 * count else f"{count / seconds:.1f} a second"
        moved, each = costs.pop("moved", 0) / size, seconds / count
        told = ", ".join(f"{role} {cost:.2f}" for role, cost in sorted(costs.items()))
        print(f"{what}: {each:.3f} s, {speed}; processors: {told}; {moved:.1f} bytes over loopback a byte", flush=True)

    async def large(self, size: int) -> str:
        """A file of this size in and out; its name."""
        data, name = random_bytes(size), ""

        async def store() -> None:
            nonlocal name
            name = await self.put(data)

        async def read() -> None:
            if await self.get(name) != size:
                raise RuntimeError(f"{name} has another size")

        await self.row(f"{size / 2**20:.0f} MiB in", size, 1, store)
        await self.row(f"{size / 2**20:.0f} MiB out, decoded and compared", size, 1, read)
        await self.row(f"{size / 2**20:.0f} MiB out, from the cache", size, 1, read)
        return name

    async def small(self, count: int) -> None:
        """Files of 4 KiB, one after the other and several at once, in and out."""
        drawn, names = random.Random(5), list[str]()

        async def store(width: int) -> None:
            files = iter([drawn.randbytes(SMALL) for _ in range(count)])

            async def work() -> None:
                for data in files:
                    names.append(await self.put(data))

            await asyncio.gather(*(work() for _ in range(width)))

        async def read() -> None:
            for name in names[-count:]:
                await self.get(name)

        await self.row("4 KiB in, one after the other", SMALL * count, count, lambda: store(1))
        await self.row(f"4 KiB in, {WIDTH} at once", SMALL * count, count, lambda: store(WIDTH))
        await self.row("4 KiB out", SMALL * count, count, read)

    async def folders(self, count: int) -> None:
        """A folder of small files in, in again, and some of its files out."""
        drawn, out = random.Random(7), io.BytesIO()
        with tarfile.open(fileobj=out, mode="w") as made:
            for number in range(count):
                told = tarfile.TarInfo(f"{number % 97}/{number}.html")
                told.size = drawn.randrange(1, 2 * SMALL)
                made.addfile(told, io.BytesIO(drawn.randbytes(told.size)))
        data, name, some = out.getvalue(), "", min(200, count)

        async def store() -> None:
            nonlocal name
            kind = {"Content-Type": "application/x-tar"}
            async with self.session.put(f"{self.url}/v1/folders?epochs=9", data=data, headers=kind) as response:
                response.raise_for_status()
                name = str((await response.json())["blobId"])

        async def read() -> None:
            for number in drawn.sample(range(count), some):
                async with self.session.get(f"{self.url}/v1/folders/{name}/{number % 97}/{number}.html") as response:
                    response.raise_for_status()
                    await response.read()

        await self.row(f"a folder of {count} files in, each", len(data), count, store)
        await self.row("the same again, each", len(data), count, store)
        await self.row(f"{some} files of it out, each", some * SMALL, some, read)

    async def syncs(self, what: str, count: int, step: Callable[[], Awaitable[object]]) -> None:
        """Tells how many syncs each kind of process makes for a file."""
        strace = shutil.which("strace")
        if not strace:
            return print("syncs are not counted: strace is not here")
        words, traced = ["-f", "-c", "-q", "-e", "trace=fsync,fdatasync"], list[tuple[str, Any]]()
        for role, process in roles(self.local):
            child = subprocess.Popen([strace, *words, "-p", str(process)], stderr=subprocess.PIPE)
            traced.append((role, child))
        await asyncio.sleep(1)
        await step()
        found = collections.Counter[str]()
        for role, child in traced:
            child.send_signal(signal.SIGINT)
            text = child.communicate()[1].decode()
            lines = [line.split() for line in text.splitlines() if line.endswith("sync")]
            found[role] += sum(int(line[3]) for line in lines)  # the share of time, seconds, one of them, how many
        told = ", ".join(f"{role} {number / count:.1f}" for role, number in sorted(found.items()) if number)
        print(f"syncs for {what}: {told or 'none'}", flush=True)

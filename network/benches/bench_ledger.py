"""What the ledger costs: entries a second through a recorder, and a node and a gateway beside very many live blobs."""
import argparse
import asyncio
import contextlib
import hashlib
import json
import os
import pathlib
import re
import shutil
import sqlite3
import sys
import tempfile
import time
import zlib
from typing import Any, Iterator

import aiohttp

sys.path.insert(0, str(pathlib.Path(__file__).resolve().parents[2] / "clients" / "python"))

from walrus import loop  # noqa: E402
from walrus.network.deploy.local import Local, free_port  # noqa: E402
from walrus.network.ledger.checkpoint import Mark, Row  # noqa: E402
from walrus.network.ledger.entries import ACK, ADDRESS, OPERATOR, REGISTER, Chain, Entry, entry_key  # noqa: E402
from walrus.network.ledger.follower import Recorders  # noqa: E402
from walrus.network.ledger.state import State  # noqa: E402
from walrus.network.node.disk.store import Store  # noqa: E402
from walrus.network.recorder import server  # noqa: E402
from walrus.network.settings.services import RecorderSettings  # noqa: E402

NODES = ["node-0", "node-1", "node-2", "node-3"]
UNTIL, TICKS = 100, os.sysconf("SC_CLK_TCK")


def name_of(number: int) -> bytes:
    return hashlib.sha256(number.to_bytes(8, "big")).digest()


def spent(process: int) -> float:
    """The processor seconds of a process."""
    words = pathlib.Path(f"/proc/{process}/stat").read_text().rpartition(")")[2].split()
    return (int(words[11]) + int(words[12])) / TICKS


def resident(process: int) -> str:
    text = pathlib.Path(f"/proc/{process}/status").read_text()
    now, most = (int(text.split(f"{it}:")[1].split()[0]) / 1000 for it in ("VmRSS", "VmHWM"))
    return f"{now:.0f} MB resident, at most {most:.0f}"


async def syncs(local: Local) -> tuple[int, float]:
    """How often etcd has synced its log, and the seconds that this took."""
    settings = RecorderSettings.read(local.folder / "recorder-0.toml")
    etcd = server.etcd_of(settings)
    async with etcd.session.get(f"{etcd.url}/metrics") as said:
        text = await said.text()
    await etcd.aclose()
    told = dict(re.findall(r"^etcd_disk_wal_fsync_duration_seconds_(count|sum) (\S+)", text, re.MULTILINE))
    return int(float(told["count"])), float(told["sum"])


async def sizes(local: Local) -> tuple[int, int]:
    etcd = server.etcd_of(RecorderSettings.read(local.folder / "recorder-0.toml"))
    try:
        return await etcd.sizes()
    finally:
        await etcd.aclose()


def user(local: Local, name: str) -> Recorders:
    own = local.folder / ("users" if name in (OPERATOR, "publisher") else "") / name
    told = local.told()["recorders"]
    return Recorders(told, str(local.folder / "authority.crt"), f"{own}.crt", f"{own}.key")


async def speed(local: Local, count: int, width: int, words: int) -> None:
    """Registers so many blobs, each acknowledged by so many nodes, some of them at once."""
    await local.start_ledger()
    for name in NODES:
        await local.add_node(name)
    users = {name: user(local, name) for name in (OPERATOR, "publisher", *NODES)}
    for name in NODES:
        await users[name].post(entry_key(name, ADDRESS, "127.0.0.1", 1))
    await users[OPERATOR].post(entry_key(OPERATOR, "begin", 0, 1, ",".join(NODES)))
    numbers = iter(range(count))

    async def upload() -> None:
        for number in numbers:
            digits = name_of(number).hex()
            await users["publisher"].post(entry_key("publisher", REGISTER, digits, UNTIL), None)
            await asyncio.gather(*(users[it].post(entry_key(it, ACK, 0, digits), None) for it in NODES[:words]))

    members = {name: local.processes[name].pid for name in ("recorder-0", "etcd")}
    (synced, waited), (size, _) = await syncs(local), await sizes(local)
    before, begun, own = {name: spent(it) for name, it in members.items()}, time.monotonic(), time.process_time()
    await asyncio.gather(*(upload() for _ in range(width)))
    taken, own = time.monotonic() - begun, time.process_time() - own
    rates = f"{count / taken:.0f} blobs and {(1 + words) * count / taken:.0f} entries/s"
    print(f"{count} blobs, {width} at once: {taken:.1f} s, {rates}")
    used = [f"{name} {(spent(it) - before[name]) / count * 1e3:.2f}" for name, it in members.items()]
    used.append(f"those who post {own / count * 1e3:.2f}")
    times, seconds = await syncs(local)
    times, seconds = times - synced, seconds - waited
    print(f"processor, ms a blob: {', '.join(used)}")
    print(f"etcd's syncs a blob: {times / count:.3f}, of {seconds / times * 1e3:.1f} ms: {seconds:.1f} s in all")
    print(f"bytes of etcd a blob: {((await sizes(local))[0] - size) / count:.0f}")
    for it in users.values():
        await it.aclose()


def live(made: State, count: int) -> None:
    """Has so many certified blobs in a state, whose entries were never posted."""
    made.ledger.apply(Entry(1, entry_key(OPERATOR, "begin", 0, 1, ",".join(NODES))))
    made.ledger.apply(Entry(2, entry_key(OPERATOR, "share", "publisher", 2 * count + 1)))
    made.identity, votes = "5a" * 32, json.dumps([{"0": 15}, {}], separators=(",", ":"))
    names = sorted((name_of(number), number) for number in range(count))

    def rows() -> Iterator[Row]:
        return ((name, number + 1, UNTIL, "publisher", votes, 0, None) for name, number in names)

    made.blobs.take(rows())
    made.ledger.posted["publisher"], made.ledger.revision = count, 5 * count
    made.save(Chain(5 * count, bytes(32)))


def hold(local: Local, name: str, count: int) -> None:
    """Has a node hold its parts of all these blobs, by name; their contents are one and the same."""
    store = Store(local.folder / f"{name}.db")
    store.base.execute("BEGIN")
    store.base.execute("INSERT INTO holdings VALUES (1)")
    store.base.execute("INSERT INTO sides VALUES (0, ?, 1)", (NODES.index(name),))
    store.base.execute("INSERT INTO contents VALUES (1, ?, NULL)", (bytes(64),))
    names = sorted(map(name_of, range(count)))
    rows = ((it, part) for it in names for part in range(3))
    store.base.executemany("INSERT INTO held VALUES (1, ?, ?, 0, NULL, 0, 64, 1)", rows)
    store.base.execute("COMMIT")
    store.close()


async def write(local: Local, made: State) -> None:
    """Puts a checkpoint of a state to etcd, as if all before was dropped."""
    etcd = server.etcd_of(RecorderSettings.read(local.folder / "recorder-0.toml"))
    digest, place = hashlib.sha256(), made.chain.place if made.chain else 0
    for number, piece in enumerate(made.written()):
        digest.update(piece)
        await etcd.put_piece(place, number, zlib.compress(piece, 1))
    await etcd.put_mark(Mark(place, 0, bytes(32).hex(), digest.hexdigest(), number + 1, time.time(), True), None)
    head = {"ledger": made.identity, "place": place, "digest": bytes(32).hex()}
    await etcd.append(b"", json.dumps(head).encode())
    size, _ = await etcd.sizes()
    live = len(made.ledger.blobs)
    print(f"a checkpoint of {live} live blobs: {size} bytes of etcd, {size / live:.0f} a blob")
    await etcd.aclose()


async def gateway(local: Local, what: str) -> None:
    """Starts a gateway, and tells what that takes."""
    begun, port = time.monotonic(), free_port()
    environment = {"PYTHONPATH": str(pathlib.Path(server.__file__).parents[3]), "MALLOC_MMAP_THRESHOLD_": "65536"}
    words = [sys.executable, "-m", "walrus.network", "gateway", str(local.folder), "--port", str(port)]
    process = await local.spawn("gateway", *words, env={**os.environ, **environment})
    async with aiohttp.ClientSession() as session:
        while process.returncode is None:
            try:
                async with session.get(f"http://127.0.0.1:{port}/readyz") as said:
                    if said.status == 200:
                        break
            except aiohttp.ClientError:
                await asyncio.sleep(0.02)
        taken = time.monotonic() - begun
        async with session.get(f"http://127.0.0.1:{port}/v1/status") as said:
            told: dict[str, Any] = await said.json()
    await asyncio.sleep(3)
    print(f"a gateway {what}: {taken:.2f} s, {resident(process.pid)}; {told['blobs']['certified']} certified")
    await local.end("gateway")


async def has_heard(path: pathlib.Path, place: int) -> None:
    """Waits until a node's copy of the ledger, which may not be there yet, has come to a place."""
    while True:
        with contextlib.suppress(sqlite3.OperationalError):
            with contextlib.closing(sqlite3.connect(f"{path.resolve().as_uri()}?mode=ro", uri=True)) as base:
                if any(json.loads(value)["place"] >= place for value, in base.execute("SELECT value FROM told")):
                    return
        await asyncio.sleep(0.1)


async def many(local: Local, count: int) -> None:
    """What a recorder, a node and a gateway cost beside so many live blobs."""
    await local.found()
    for name in NODES:
        await local.add_node(name)
    await local.start_etcd()
    path = local.folder / "node-0.ledger"
    made = State(str(path))
    live(made, count)
    await write(local, made)
    made.base.execute("COMMIT")
    made.base.execute("PRAGMA wal_checkpoint(TRUNCATE)")
    made.base.execute("BEGIN IMMEDIATE")
    made.close()
    print(f"a node's state: {path.stat().st_size / count:.0f} bytes a blob")
    shutil.copy(path, local.folder / "users" / "publisher.ledger")
    for what in ("takes the checkpoint", "starts again"):
        begun = time.monotonic()
        await local.start_recorder("recorder-0")
        listens = time.monotonic() - begun
        async with aiohttp.ClientSession() as _:
            asked = user(local, "publisher")
            await asked.post(entry_key("publisher", REGISTER, name_of(-1 % 2**40).hex(), UNTIL), None)
            await asked.aclose()
        taken = time.monotonic() - begun
        print(f"a recorder {what}: it listens after {listens:.2f} s, appends after {taken:.2f} s, ", end="")
        print(resident(local.processes["recorder-0"].pid))
        if what == "takes the checkpoint":
            await local.end("recorder-0")
    await gateway(local, "starts again")
    hold(local, "node-0", count)
    begun = time.monotonic()
    await local.start_node("node-0")
    taken, process = time.monotonic() - begun, local.processes["node-0"].pid
    await asyncio.sleep(1)
    print(f"a node starts again: {taken:.2f} s, {resident(process)}; ", end="")
    used = spent(process)
    await asyncio.sleep(40)
    print(f"40 s later {resident(process)}, {spent(process) - used:.1f} processor seconds more")
    (local.folder / "users" / "publisher.ledger").unlink()
    await gateway(local, "that is new")
    await local.end("node-0")
    for it in local.folder.glob(f"{path.name}*"):
        it.unlink()
    begun = time.monotonic()
    await local.start_node("node-0")
    await has_heard(path, 5 * count)
    taken, process = time.monotonic() - begun, local.processes["node-0"].pid
    print(f"a node takes the checkpoint: {taken:.2f} s, {resident(process)}; ", end="")
    await asyncio.sleep(40)
    print(f"40 s later {resident(process)}")


async def bench(words: argparse.Namespace) -> None:
    folder = pathlib.Path(tempfile.mkdtemp(prefix="walrus-bench-", dir=words.folder))
    local = Local(folder)
    try:
        await (many(local, words.live) if words.live else speed(local, words.count, words.width, words.acks))
    finally:
        await local.close()
        if words.keep:
            print(folder)
        else:
            shutil.rmtree(folder)


def main() -> int:
    parser = argparse.ArgumentParser(description="Measures the ledger of a network alone, on this machine.")
    parser.add_argument("--count", type=int, default=10_000, help="blobs that are registered and acknowledged")
    parser.add_argument("--width", type=int, default=64, help="how many of them are under way at once")
    parser.add_argument("--acks", type=int, default=3, help="nodes that acknowledge each of them")
    parser.add_argument(
        "--live", type=int, default=0, help="what so many live blobs cost a node and a gateway, instead"
    )
    parser.add_argument("--folder", help="where it is tried: a folder on the disk in question")
    parser.add_argument("--keep", action="store_true", help="leave the folder there")
    words = parser.parse_args()
    print(f"{os.cpu_count()} processors, load {os.getloadavg()[0]:.1f}")
    loop.run(bench(words))
    return 0


if __name__ == "__main__":
    sys.exit(main())

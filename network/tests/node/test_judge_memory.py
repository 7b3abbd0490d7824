"""The memory that a store and a judge take."""
import asyncio
import os
import pathlib
import random
import subprocess
import sys
import tempfile
import unittest

from support.harness import lacking
from support.shard_case import ShardCase
from walrus import client
from walrus.network.node import judge, shard
from walrus.network.node.disk.store import Store

GO_OVER = """
import asyncio, pathlib, resource, sys
from walrus.network.node.disk.store import Store

def most():
    return resource.getrusage(resource.RUSAGE_SELF).ru_maxrss * 1024

async def main():
    before, count, place = most(), 0, (0, b"")
    store = Store(pathlib.Path(sys.argv[1]))
    while following := store.next(*place):
        place, count = following, count + 1
        store.parts(*place[:1], 0, place[1], range(4))
    print(count, len(await store.settled(1, 0)), store.counts()["bytes"], most() - before)

asyncio.run(main())
"""


class Much(unittest.IsolatedAsyncioTestCase):
    async def test_memory_does_not_grow_with_what_is_held(self) -> None:
        """A process reads what is held; that is ten times more than its memory may grow."""
        with tempfile.TemporaryDirectory() as folder:
            path, count = pathlib.Path(folder) / "a.db", 1_000
            store = Store(path)
            store.begin(0, 0)
            for number in range(count):
                name = number.to_bytes(32, "big")
                for part, size in enumerate((300, 50_000, 30_000)):
                    file = store.files.write(name, bytes(1_000_000))[0] if number < 50 and part == 1 else None
                    store.put(1, 0, name, part, bytes(1_000_000 if file else size), file)
            self.assertTrue(store.flush())
            store.close()
            words = {**os.environ, "PYTHONPATH": str(pathlib.Path(shard.__file__).parents[3])}
            ran = subprocess.run([sys.executable, "-c", GO_OVER, path], env=words, capture_output=True, check=True)
            blobs, settled, held, grown = map(int, ran.stdout.split())
            self.assertEqual((blobs, settled), (count, count))
            self.assertGreater(held, 10 * grown)


PEAK = """
import pathlib, sys
from walrus import client; from walrus.wire import connection as wire
from walrus.network.node import judge
from walrus.network.peers.engine import engine_of, find_program

def most():
    return int(pathlib.Path("/proc/self/status").read_text().split("VmHWM:")[1].split()[0]) * 1024

def read(path):
    place = wire.memory(path.stat().st_size)
    with path.open("rb", buffering=0) as file:
        while len(place) > (count := file.readinto(place)):
            sys.exit("a file came in parts")
    return place

judge.keep_memory()
engine, before = engine_of(find_program()), most()
requests = [read(pathlib.Path(it)) for it in sys.argv[2:]]
if sys.argv[1] == "judge":
    judge.judge(engine, 1, 0, requests)
else:
    data = wire.joined(requests)
    status, text = engine.run(["recover", sys.argv[1], "primary", "0"], data, len(data) + 4096)
    assert not status, bytes(text[:200])
print(most() - before)
"""


@unittest.skipIf(lacking(), f"{lacking()} is not here (network/install)")
class Needs(ShardCase):
    async def peak(self, how: str, requests: list[client.Data]) -> int:
        """Return by how much memory a new process grows that runs one judge over these requests."""
        paths = [self.path.with_name(f"{how}-{number}") for number in range(len(requests))]
        for path, request in zip(paths, requests):
            path.write_bytes(request)
        words = {**os.environ, "PYTHONPATH": str(pathlib.Path(shard.__file__).parents[3])}
        command = [sys.executable, "-c", PEAK, how, *map(str, paths)]
        ran = await asyncio.to_thread(subprocess.run, command, env=words, capture_output=True)
        self.assertEqual((ran.returncode, ran.stderr), (0, b""))
        return int(ran.stdout)

    async def test_a_judge_takes_no_more_than_it_is_counted_with(self) -> None:
        if not isinstance(self.judges.engine, judge.Library):
            self.skipTest("the library is not here, and of a process the peak is that of who began it too")
        encoded = await self.walrus.encode(random.Random(6).randbytes(client.LARGEST_BLOB), 1)
        name, told = encoded.identifier, [client.write_frame(client.RegisterEntry(encoded.identifier, 9))]
        told.append(encoded.metadata)
        primary, secondary = encoded.slivers[0]
        for asked in (
            [primary, client.write_frame(client.Read(name))],
            [primary, secondary, client.write_frame(client.Read(name))],
            [secondary, client.write_frame(client.Symbol(name, client.PRIMARY, 1))],
            [client.write_frame(client.Read(name))],
        ):
            self.assertLess(await self.peak("judge", [*told, *asked]), judge.need_of(sum(map(len, asked))))
        symbol, openings = client.write_frame(client.Symbol(name, client.PRIMARY, 0)), list[client.Data]()
        for number in (1, 2, 3):
            requests = [*told, encoded.slivers[number][1], symbol]
            said = await asyncio.to_thread(judge.judge, self.judges.engine, 1, number, requests)
            openings += [client.envelope(it) for it in said[-1][:-1]]
        self.assertLess(await self.peak(name.hex(), openings), judge.need_of(2 * sum(map(len, openings))))

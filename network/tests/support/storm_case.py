"""What goes on in a storm: who writes and reads, what is killed, torn, filled or forged, and how it is watched."""
import asyncio
import contextlib
import os
import shutil
from typing import Any, Callable, Coroutine

from support.harness import NetworkCase, usage_of
from walrus import client
from walrus.network.ledger import follower
from walrus.network.node.disk.group_commit import TORN
from walrus.network.peers.network import Network
from walrus.network.peers.seats import SCRUB

NODES = [f"node-{number}" for number in range(6)]
COMMITTEES = [[0, 1, 2, 3], [4, 1, 2, 3], [4, 1, 5, 0], [2, 1, 3, 0], [0, 5, 1, 3], [5, 1, 4, 2]]
JUMPY, LIAR, CRAMPED, SPARED = NODES[:4]
PATIENCE, CROWD = 120.0, 1_000


class StormCase(NetworkCase):
    """A network in which all of this can go on at once."""

    async def start(self, name: str) -> None:
        words, environment = self.ways.get(name, ([], {}))
        await self.local.start_node(name, words, environment)

    async def repeat(self, step: Callable[[], Coroutine[Any, Any, None]], least: float, most: float) -> None:
        while not self.over:
            await asyncio.sleep(self.drawn.uniform(least, most))
            if not self.over:
                await step()

    async def write(self, network: Network) -> None:
        async def step() -> None:
            blob = self.drawn.randbytes(self.drawn.choice((0, 1, 13, 400, 1_200)))
            try:
                stored = await network.store(blob, self.drawn.randrange(1, 4), self.drawn.choice((1, 1, 2)))
            except (client.Failed, OSError):
                self.counts["not stored"] += 1
                return
            self.blobs[stored.identifier] = blob
            self.counts["stored"] += 1

        await self.repeat(step, 0.3, 0.9)

    async def read(self, network: Network) -> None:
        async def step() -> None:
            if self.blobs:
                await self.read_one(network, self.drawn.choice(list(self.blobs)))

        await self.repeat(step, 0.05, 0.2)

    async def read_one(self, network: Network, identifier: bytes) -> None:
        """A blob that is live is read within the time in which whoever was killed is back. One that expired may have
        been registered again, and got no certificate."""
        try:
            self.assertEqual(await network.fetch(identifier, PATIENCE), self.blobs[identifier])
            self.counts["read"] += 1
        except client.Refused as refused:
            self.assertIsNone(network.ledger.certificate(identifier), f"a blob is lost: {refused}; {self.logs()}")

    async def reads_live(self, network: Network) -> None:
        for identifier in [it for it in self.blobs if network.ledger.certificate(it)]:
            await self.read_one(network, identifier)

    async def kill(self) -> None:
        async def step() -> None:
            if self.drawn.random() < 0.2:
                await self.local.end("etcd", kill=self.drawn.random() < 0.5)
                await asyncio.sleep(self.drawn.uniform(0, 1))
                await self.local.start_etcd()
                self.counts["etcd killed"] += 1
                return
            if self.drawn.random() < 0.2:
                recorder = self.drawn.choice(self.local.recorders)
                await self.local.end(recorder, kill=True)
                await asyncio.sleep(self.drawn.uniform(0, 1))
                await self.local.start_recorder(recorder)
                self.counts["recorders killed"] += 1
                return
            name = self.drawn.choice([it for it in NODES if it not in (LIAR, SPARED) and not self.busy[it].locked()])
            async with self.busy[name]:
                await self.local.end(name, kill=True)
                await asyncio.sleep(self.drawn.uniform(0, 2))
                await self.start(name)
                self.counts["killed"] += 1

        await self.repeat(step, 0.5, 3)

    async def tear(self) -> None:
        """The database of the faulty node is torn: it says so and what to do, and starts without one."""

        async def step() -> None:
            async with self.busy[LIAR]:
                await tear()

        async def tear() -> None:
            await self.local.end(LIAR)
            path = self.folder / f"{LIAR}.db"
            if self.drawn.random() < 0.5:
                os.truncate(path, path.stat().st_size // 4096 // 3 * 4096)
            else:
                with open(path, "r+b") as file:
                    for place in range(self.drawn.randrange(1_000, 5_000), path.stat().st_size - 60, 500):
                        file.seek(place)
                        file.write(self.drawn.randbytes(60))
            with self.assertRaises(RuntimeError) as caught:
                await self.start(LIAR)
            self.assertIn(TORN.format(self.folder / f"{LIAR}.db"), str(caught.exception))
            for torn in self.folder.glob(f"{LIAR}.db*"):
                torn.unlink()
            shutil.rmtree(self.folder / f"{LIAR}.parts")
            await self.start(LIAR)
            self.counts["torn"] += 1

        await self.repeat(step, 5, 25)

    async def spoil(self) -> None:
        """On the disk of the faulty node a bit is flipped, a file is gone, another blob's stands in its place, or one
        is left that nothing names."""

        async def step() -> None:
            files = [it for it in (self.folder / f"{LIAR}.parts").glob("*/*") if it.is_file()]
            if len(files) < 2 or self.busy[LIAR].locked():
                return
            one, other = self.drawn.sample(files, 2)
            with contextlib.suppress(OSError):  # it went meanwhile
                data = bytearray(one.read_bytes())
                way = self.drawn.choice(("flip", "lose", "swap", "leave"))
                if way == "flip":
                    data[self.drawn.randrange(len(data))] ^= 1 << self.drawn.randrange(8)
                    one.write_bytes(data)
                elif way == "lose":
                    one.unlink()
                elif way == "swap":
                    one.write_bytes(other.read_bytes())
                else:
                    one.with_name(f"{one.name}.half").write_bytes(data)
                self.counts["spoilt"] += 1

        await self.repeat(step, 0.5, 2)

    async def fill(self) -> None:
        """A disk is full for a while, and the node on it refuses what it cannot keep."""

        async def step() -> None:
            async with self.busy[CRAMPED]:
                said = self.log(CRAMPED).count("the disk does not take")
                while not self.resize(str(shutil.disk_usage(self.folder / "disk").used + 20_000)):
                    await asyncio.sleep(0.1)  # it took more meanwhile
                for _ in range(150):
                    await asyncio.sleep(0.2)
                    if self.log(CRAMPED).count("the disk does not take") > said or self.over:
                        self.counts["filled"] += not self.over
                        break
                await asyncio.sleep(self.drawn.uniform(0, 2))
                self.resize("512m")

        await self.repeat(step, 4, 20)

    async def scrub(self, operator: Network) -> None:
        """A node is told to read and judge all that it holds."""

        async def step() -> None:
            with contextlib.suppress(ConnectionError):
                await operator.peers.told(self.drawn.choice(NODES), SCRUB)
                self.counts["scrubs"] += 1

        await self.repeat(step, 2, 6)

    async def jump(self) -> None:
        """A clock jumps forth and back; where that is before the certificates, nobody is trusted meanwhile."""

        async def step() -> None:
            for jump in (self.drawn.choice(("+40d", "-40d", "+3000s")), "+0"):
                self.offset.write_text(jump)
                await asyncio.sleep(self.drawn.uniform(1, 4))
            self.counts["jumps"] += 1

        await self.repeat(step, 2, 10)

    async def hand_over(self, operator: Network) -> None:
        async def step() -> None:
            epoch = operator.ledger.epoch + 1
            with contextlib.suppress(follower.Unreachable):
                await operator.begin(1, [NODES[it] for it in COMMITTEES[epoch % len(COMMITTEES)]])
                self.assertTrue(await operator.until(lambda it: it.epoch == epoch, PATIENCE), self.logs())
                self.counts["handovers"] += 1

        await self.repeat(step, 8, 12)

    async def annoy(self, network: Network) -> None:
        """Clients that send half an envelope and wait, or rubbish, or come in crowds."""
        waiting: list[Any] = []

        async def step() -> None:
            with contextlib.suppress(OSError, asyncio.IncompleteReadError):
                host, port = network.peers.address(self.drawn.choice(NODES))
                for _ in range(self.drawn.choice((1, 1, 40))):
                    opened = asyncio.open_connection(host, port, ssl=network.peers.context, server_hostname="localhost")
                    with contextlib.suppress(OSError):
                        await opened  # its name is another one, and the client leaves in the midst
                    _, writer = await asyncio.open_connection(host, port)
                    waiting.append(writer)  # no TLS at all
                seat = network.peers.seats(network.ledger.now, 1)[self.drawn.randrange(4)]
                writer = await seat.connection()
                waiting.append(writer)
                half = client.HEAD.pack(client.MARK, seat.number, 5_000_000) + bytes(self.drawn.randrange(2_000_000))
                writer.write(self.drawn.choice((half, self.drawn.randbytes(900), client.envelope(bytes(40)) * 20)))
                await asyncio.wait_for(writer.drain(), 2)
            for writer in waiting[:-60]:
                writer.transport.abort()
            del waiting[:-60]

        try:
            await self.repeat(step, 0.2, 1)
        finally:
            for writer in waiting:
                writer.transport.abort()

    async def crowd(self, network: Network) -> None:
        """A thousand connections at once, of which nothing comes, or only a handshake."""

        async def step() -> None:
            with contextlib.suppress(OSError):
                host, port = network.peers.address(self.drawn.choice(NODES))
                words: list[dict[str, Any]] = [{}] * (CROWD - 50)
                words += [{"ssl": network.peers.context, "server_hostname": host}] * 50
                opened = [asyncio.open_connection(host, port, **it) for it in words]
                came = await asyncio.wait_for(asyncio.gather(*opened, return_exceptions=True), 20)
                writers = [it[1] for it in came if isinstance(it, tuple)]
                await asyncio.sleep(self.drawn.uniform(0, 3))
                for writer in writers:
                    writer.transport.abort()
                self.counts["connections"] += len(writers)

        await self.repeat(step, 10, 30)

    async def forge(self, network: Network) -> None:
        """A publisher posts what only others may say, and what is no entry, or too large for one."""

        async def refused(text: str, count: str) -> None:
            try:
                await network.recorders.post(f"publisher/{text}")
                self.fail(f"a publisher posted {text[:80]}")
            except follower.Unreachable:
                pass
            except follower.Refused:
                self.counts[count] += 1

        async def step() -> None:
            epoch, names = network.ledger.writing_epoch, ",".join(NODES[:4])
            if self.blobs:
                identifier = self.drawn.choice(list(self.blobs))
                await refused(f"{self.drawn.choice(('ack', 'attest'))}/{epoch}/{identifier.hex()}", "refused")
            for text in (f"begin/{epoch + 1}/1/{names}", f"finish/{epoch}", "share/publisher/9999"):
                await refused(text, "refused")
            for text in (f"begin/{epoch + 1}/1/rubbish", f"register/rubbish/{self.drawn.random()}", "rubbish/"):
                await refused(text + "x" * self.drawn.randrange(20_000), "rubbish")

        await self.repeat(step, 1, 2)

    async def watch(self) -> None:
        async def step() -> None:
            for name in NODES:
                process = self.local.processes.get(name)
                with contextlib.suppress(OSError):
                    if process and process.returncode is None:
                        for what, most in zip(("memory", "descriptors"), usage_of(process.pid)):
                            self.counts[what] = max(self.counts[what], most)

        await self.repeat(step, 0.5, 0.5)

"""What happens in a bottle, all of it drawn: blobs are stored, read and extended, epochs change, machines crash, lose
power and come back, and are cut off. And what must hold at each step and at the end."""
import asyncio
import collections
import contextlib
import pathlib
from typing import Any, Callable, Coroutine

from walrus import client
from walrus.network.ledger import follower
from walrus.network.ledger.entries import OPERATOR
from walrus.network.node.handover import survey
from walrus.network.peers.network import Network

from .connections import Loop
from .loop import OUTSIDE
from .world import FAULTS, HOSTS, NODES, RECORDERS, World

PATIENCE = 180.0  # virtual seconds within which a read completes, whoever crashed or was cut off meanwhile
HEALED = 600.0  # the same until all is well once nothing happens any more
TURNED = 900.0  # the same for a handover
Step = Callable[[], Coroutine[Any, Any, None]]


class Broken(AssertionError):
    """Something that must hold does not."""


class Story:
    """One run: how long it lasts, and how often what happens, is drawn from the seed as well."""

    def __init__(self, loop: Loop, folder: pathlib.Path, library: str, seconds: float):
        self.loop, self.drawn, self.seconds = loop, loop.drawn, seconds
        self.world = World(loop, folder, library)
        self.blobs, self.counts = dict[bytes, bytes](), collections.Counter[str]()
        self.over, self.busy = False, asyncio.Lock()  # held while some machine is away: never more than f are
        self.rates = {it: self.drawn.uniform(0.5, 2) for it in ("store", "read", "turn", "crash", "cut", "ledger")}

    async def again(self, what: str, least: float, most: float, step: Step) -> None:
        """Repeat a step with drawn pauses until the story is over."""
        while not self.over:
            await asyncio.sleep(self.drawn.uniform(least, most) * self.rates[what])
            if not self.over:
                await step()
                if fault := self.world.fault():
                    raise Broken(f"a node ended by itself: {fault!r}") from fault

    async def run(self) -> None:
        await self.world.found()
        publisher, operator = self.live("publisher", self.publish), self.live(OPERATOR, self.operate)
        others = self.again("crash", 5, 60, self.crash), self.again("cut", 5, 60, self.cut)
        ledger = self.again("ledger", 10, 90, self.trouble_ledger)

        async def end() -> None:
            await asyncio.sleep(self.seconds)
            self.over = True

        async with asyncio.TaskGroup() as group:
            for work in (publisher, operator, *others, ledger, end()):
                group.create_task(work)
        await self.world.run("publisher", self.heal())

    async def live(self, user: str, work: Callable[[Network], Coroutine[Any, Any, None]]) -> None:
        async def begin() -> None:
            async with self.world.network(user) as network:
                await work(network)

        await self.world.run(user, begin())

    async def publish(self, network: Network) -> None:
        async with asyncio.TaskGroup() as group:
            for _ in range(3):
                group.create_task(self.again("store", 0.5, 10, lambda: self.store(network)))
            group.create_task(self.again("read", 0.5, 10, lambda: self.read_some(network)))

    async def store(self, network: Network) -> None:
        """Store a new blob, or one that was stored before for longer."""
        again = self.blobs and self.drawn.random() < 0.2
        size = self.drawn.choice((0, 1, 13, 400, 3_000, 40_000))
        blob = self.drawn.choice(list(self.blobs.values())) if again else self.drawn.randbytes(size)
        try:
            stored = await network.store(blob, self.drawn.randrange(1, 4))
        except (client.Failed, OSError) as fault:
            self.counts["not stored"] += 1
            self.loop.note("not stored", str(fault)[:80])
            return
        self.blobs[stored.identifier] = blob
        self.counts["stored"] += 1
        self.loop.note("stored", stored.identifier.hex()[:8], stored.epoch, stored.until)

    async def read_some(self, network: Network) -> None:
        if self.blobs:
            await self.read(network, self.drawn.choice(list(self.blobs)))

    async def read(self, network: Network, identifier: bytes) -> None:
        try:
            blob = await network.fetch(identifier, PATIENCE)
        except client.Refused as refused:
            if network.ledger.certificate(identifier):
                raise Broken(f"a certified blob cannot be read, {identifier.hex()[:8]}: {refused}") from refused
            self.counts["ended"] += 1
            return
        if blob != self.blobs[identifier]:
            raise Broken(f"a read gave other bytes, {identifier.hex()[:8]}")
        self.counts["read"] += 1

    async def operate(self, network: Network) -> None:
        async def turn() -> None:
            epoch, owners = network.ledger.epoch + 1, self.drawn.sample(NODES, 3 * FAULTS + 1)
            with contextlib.suppress(follower.Unreachable):
                await network.begin(FAULTS, owners)
                self.loop.note("begin", epoch, *owners)
                if not await network.until(lambda it: it.epoch == epoch, TURNED):
                    raise Broken(f"epoch {epoch} does not begin")
                self.counts["handovers"] += 1

        await self.again("turn", 20, 200, turn)

    async def crash(self) -> None:
        """A node crashes, or its power fails, at a drawn moment, and it comes back after a while."""
        name, power = self.drawn.choice(NODES), self.drawn.random() < 0.5
        async with self.busy:
            self.world.crash(name, power)
            self.counts["power failures" if power else "crashes"] += 1
            await asyncio.sleep(self.drawn.choice((0.1, 2, 30)))
            await self.world.start_node(name)

    async def cut(self) -> None:
        """A node is cut off from all, or from another machine alone."""
        name, other = self.drawn.choice(NODES), self.drawn.choice([*NODES, *RECORDERS])
        hosts = {HOSTS[name]} if self.drawn.random() < 0.5 else {HOSTS[name], HOSTS[other]}
        async with self.busy:
            self.loop.cut(*sorted(hosts))
            await asyncio.sleep(self.drawn.choice((0.5, 5, 60)))
            self.loop.mend(*sorted(hosts))
            self.counts["cuts"] += 1

    async def trouble_ledger(self) -> None:
        """A recorder crashes, or is cut off from etcd."""
        name = self.drawn.choice(RECORDERS)
        if self.drawn.random() < 0.5:
            self.world.crash(name)
            await asyncio.sleep(self.drawn.uniform(0, 10))
            await self.world.start_recorder(name)
        else:
            self.loop.cut(HOSTS[name], HOSTS["etcd"])
            await asyncio.sleep(self.drawn.uniform(0, 30))
            self.loop.mend(HOSTS[name], HOSTS["etcd"])
        self.counts["recorders troubled"] += 1

    async def heal(self) -> None:
        """Once nothing happens any more, all that is certified is where it must be, and can be read."""
        end = self.loop.time() + HEALED
        async with self.world.network("publisher") as network:
            while lacking := await self.lacking():
                if self.loop.time() > end:
                    raise Broken(f"it does not heal: {lacking}")
                await asyncio.sleep(5)
            for identifier in [it for it in self.blobs if network.ledger.certificate(it)]:
                await self.read(network, identifier)

    async def lacking(self) -> str:
        """What is not well yet, in words."""
        chains = {node.chain for node in self.world.nodes.values()}
        if len(chains) > 1:
            return f"nodes are at different places: {sorted(it.place if it else 0 for it in chains)}"
        for name, node in self.world.nodes.items():
            if node.ledger.moving:
                return f"epoch {node.ledger.writing_epoch} is not finished"
            lacks, _ = await survey(node)
            if any(lacks.values()):
                return f"{name} lacks {sum(map(len, lacks.values()))} blobs"
        return ""


async def tell(loop: Loop, folder: pathlib.Path, library: str, seconds: float) -> "collections.Counter[str]":
    """Run one story, and return what happened how often."""
    story = Story(loop, folder, library, seconds)
    assert OUTSIDE.alive
    await story.run()
    return story.counts

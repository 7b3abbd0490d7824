"""Everything at once: load, kills of nodes, recorders and etcd, a liar whose database is torn, a full disk, a clock
that jumps, hostile clients and posters, and handovers in the midst of it.

STORM_SECONDS says for how long, 40 s where it is not set; STORM_SEED what is drawn. tests/hour runs many of them."""
import asyncio
import collections
import contextlib
import json
import os
import random
import time

from support.harness import ODD, faked_clock, usage_of
from support.storm_case import COMMITTEES, CRAMPED, JUMPY, LIAR, NODES, PATIENCE, SPARED, StormCase
from walrus.network.ledger import rules
from walrus.network.peers.network import Network
from walrus.network.peers.seats import SCRUB

SECONDS = float(os.environ.get("STORM_SECONDS", "40"))
MOST_MEMORY, MOST_LATER, MOST_DESCRIPTORS = 500_000_000, 300_000_000, 1_700


class Storm(StormCase):
    async def test_a_storm(self) -> None:
        self.drawn = random.Random(int(os.environ.get("STORM_SEED", "1")))
        self.counts: collections.Counter[str] = collections.Counter()
        self.faulty, self.over = {LIAR}, False
        self.busy = {name: asyncio.Lock() for name in NODES}  # who is dealt with, and may not be killed meanwhile
        self.offset = self.folder / "offset"
        self.ways: dict[str, tuple[list[str], dict[str, str]]] = {LIAR: (ODD, {"ODD_LIES": "1", "ODD_SMALL": "300"})}
        self.ways |= {JUMPY: ([], faked_clock(self.offset))}
        self.local.options |= {"connections": 150, "kept": 20_000_000, "heal": 3}
        self.local.recorders = ["recorder-0", "recorder-1"]
        await self.local.start_ledger()
        for name in NODES:
            await self.local.add_node(name)
        self.small = self.small_disk(CRAMPED, "512m")
        async with self.local.network(seconds=4) as network, self.local.network(rules.OPERATOR) as operator:
            await asyncio.gather(*(self.start(name) for name in NODES))
            await operator.begin(1, [NODES[it] for it in COMMITTEES[0]])
            self.assertTrue(await network.until(lambda it: it.now))
            await self.rage(network, operator)
            self.assertTrue(await network.until(lambda it: not it.moving, PATIENCE), self.logs())
            await self.reads_live(network)
            await self.settles(network, operator)
        lines = await self.check(60)
        self.counts["went wrong"] = sum(self.log(name).count("went wrong on the disk") for name in NODES)
        self.counts["lines"] = lines
        print(json.dumps(self.counts))
        self.judge()

    async def rage(self, network: Network, operator: Network) -> None:
        """All of it at once until the time is over, and what was begun is done. On a busy machine it takes longer until
        all that must be tried has been."""
        parts = [self.write(network), self.write(network), self.read(network), self.read(network), self.kill()]
        parts += [self.hand_over(operator), self.annoy(network), self.crowd(network), self.forge(network), self.watch()]
        parts += [
            self.scrub(operator),
            self.tear(),
            self.spoil(),
            *([self.fill()] if self.small else []),
            *([self.jump()] if self.ways[JUMPY][1] else []),
        ]
        tasks, end = [asyncio.create_task(part) for part in parts], time.monotonic() + SECONDS
        done = set[asyncio.Task[None]]()
        while not done and time.monotonic() < end + (PATIENCE if self.lacking() else 0):
            done, _ = await asyncio.wait(tasks, timeout=1, return_when=asyncio.FIRST_EXCEPTION)
        self.over = True
        try:
            for task in done:
                task.result()  # what failed, fails here
            await asyncio.wait_for(asyncio.gather(*tasks), 2 * PATIENCE)
        finally:
            for task in tasks:
                task.cancel()
            await asyncio.gather(*tasks, return_exceptions=True)

    async def settles(self, network: Network, operator: Network) -> None:
        """The nodes let go what clients took of them, and who lost a database, or had files spoilt that nobody reads,
        has what it must have again."""
        end = time.monotonic() + PATIENCE
        while time.monotonic() < end:
            await asyncio.sleep(1)
            with contextlib.suppress(ConnectionError):
                await operator.peers.told(LIAR, SCRUB)
            usage = [usage_of(self.local.processes[name].pid) for name in NODES]
            live = [it for it in self.blobs if it in network.ledger.blobs and network.ledger.certificate(it)]
            held = self.record(LIAR).held
            at = [(network.ledger.epoch, shard) for shard in network.ledger.shards_of(LIAR)]
            lacking = [it for it in live for epoch, shard in at if not {1, 2} <= {*held.get((epoch, shard, it), ())}]
            if not lacking and max(descriptors for _, descriptors in usage) < 160:
                break
        self.assertEqual(lacking, [], f"the node whose database was torn was not filled anew: {self.log(LIAR)[-2000:]}")
        self.assertLess(max(descriptors for _, descriptors in usage), 160)
        for what, numbers in zip(("memory", "descriptors"), zip(*usage)):
            self.counts[f"{what} at the end"] = max(numbers)
            self.counts[what] = max(self.counts[what], *numbers)
        self.counts["memory of who was not killed"] = usage[NODES.index(SPARED)][0]

    def lacking(self) -> list[str]:
        """Returns what must be tried, and has not been."""
        wanted = ["stored", "read", "refused", "rubbish"]
        if SECONDS > 170:  # as tests/hour has it: in less, not all of it need be drawn
            wanted += [
                "torn",
                "spoilt",
                "killed",
                "etcd killed",
                "recorders killed",
                "handovers",
                "connections",
                "scrubs",
            ]
            wanted += ["filled"] * self.small + ["jumps"] * bool(self.ways[JUMPY][1])
        return [name for name in wanted if not self.counts[name]]

    def judge(self) -> None:
        """What must have been tried, and the bounds that nodes kept."""
        self.assertEqual(self.lacking(), [])
        self.assertLess(self.counts["memory"], MOST_MEMORY)
        self.assertLess(self.counts["memory at the end"], MOST_LATER)
        self.assertLess(self.counts["descriptors"], MOST_DESCRIPTORS)
        for name in NODES:
            entries = self.record(name).entries
            self.assertEqual([it for it in entries if not it.words], [], name)

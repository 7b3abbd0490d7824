"""Many shards a node: 100 of them on ten nodes and then on eleven, within the bounds of a node.

MANY_BYTES says how long the largest blob is, 16 MiB where it is not set."""
import os

from support.harness import NetworkCase, usage_of
from walrus.network.ledger import rules


FAULTS, TEN = 33, [f"node-{number}" for number in range(10)]
SIZE = int(os.environ.get("MANY_BYTES", "16777216"))
MOST_MEMORY, MOST_DESCRIPTORS = 300_000_000, 1_024


class Many(NetworkCase):
    def within_bounds(self) -> None:
        for name, process in self.local.processes.items():
            if name != "etcd":
                memory, descriptors = usage_of(process.pid)
                self.assertLess(memory, MOST_MEMORY, name)
                self.assertLess(descriptors, MOST_DESCRIPTORS, name)

    async def test_a_hundred_shards_on_ten_nodes_and_then_on_eleven(self) -> None:
        self.local.options["recorded"] = False
        await self.local.up(TEN, FAULTS, [TEN[shard // 10] for shard in range(100)])
        async with self.local.network(seconds=60) as network, self.local.network(rules.OPERATOR) as operator:
            for size in (SIZE, 5_000):
                await self.store(network, size)
            await self.reads_all(network)
            self.within_bounds()
            await self.local.add_node("node-10")
            await self.local.start_node("node-10")
            owners = [TEN[shard // 10] if shard % 11 else "node-10" for shard in range(100)]
            await operator.begin(FAULTS, owners)
            self.assertTrue(await network.until(lambda it: it.epoch == 1, 240), self.logs())
            for name in TEN[:3]:
                await self.local.end(name, kill=True)  # with nearly f shards
            await self.reads_all(network, 60)
            self.within_bounds()

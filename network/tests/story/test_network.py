"""A network on loopback, tried as a bad day would: each test ends with the run replayed by the proved core."""
import asyncio
import contextlib
import shutil
import sqlite3

from support import trace_run
from support.harness import FOUR, ODD, NetworkCase
from walrus import client
from walrus.format import frames
from walrus.network.ledger import rules
from walrus.network.ledger.live_blob import shards_in
from walrus.network.peers.engine import find_program
from walrus.network.peers.network import Network
from walrus.network.settings import file
from walrus.network.settings.services import Settings

import example_tools  # noqa: E402


class Story(NetworkCase):
    async def test_killed_nodes_come_back_with_all_that_they_acknowledged(self) -> None:
        await self.local.up(FOUR)
        async with self.local.network() as network:
            for size in (0, 12, 2_000):
                await self.store(network, size)
            await self.store(network, 900, form=2)
            await network.until(lambda it: all(it.certificate(name) == (0, 4) for name in self.blobs), 10)
            votes = [shards_in(network.ledger.blobs[it].votes[rules.ACK][0]) for it in self.blobs]
            first = sorted(set.intersection(*map(set, votes)))[
                :2
            ]  # two that acknowledged all of it, and then the others
            self.assertEqual(len(first), 2, votes)
            for name in FOUR:
                await self.local.end(name, kill=True)
            await self.local.end("etcd", kill=True)
            await self.local.start_etcd()
            await asyncio.gather(*(self.local.start_node(FOUR[it]) for it in first))
            await self.reads_all(network)
            with self.assertRaises(client.Failed):
                await self.store(network)
            await asyncio.gather(*(self.local.start_node(FOUR[it]) for it in {0, 1, 2, 3} - {*first}))
            await self.store(network)
            await self.reads_all(network)
        self.assertGreater(await self.check(), 50)
        with contextlib.closing(sqlite3.connect(self.folder / "node-0.db")) as base:
            place, reply = base.execute(
                "SELECT place, reply FROM history WHERE substr(request, 1, 1) = x'11'"
            ).fetchone()
            said = client.envelope(client.write_frame(client.Answer(2, 0, 0)))
            self.assertEqual(len(said), len(reply))
            base.execute("UPDATE history SET reply = ? WHERE place = ?", (said, place))
            base.commit()
        with self.assertRaises(trace_run.Parted) as caught:  # a record that says otherwise is found out, where it does
            await trace_run.check(self.folder, find_program(), (), self.blobs)
        wanted = r"^line \d+: the core says `send 0 stored`, the network `send 0 unverified` \(node-0, answer \d+, "
        self.assertRegex(str(caught.exception), wanted)

    async def test_a_handover_carries_recovers_and_expires(self) -> None:
        await self.local.up(FOUR)
        async with self.local.network() as network, self.local.network(rules.OPERATOR) as operator:
            for _ in range(3):
                await self.store(network)
            await self.store(network, form=2)
            short = await self.store(network, epochs=1)
            bad = await self.store_badly(network)
            for name in ("node-4", "node-5"):
                await self.local.add_node(name)
                await self.local.start_node(name)
            await self.local.end("node-3", kill=True)  # one that leaves is down
            await operator.begin(1, ["node-0", "node-4", "node-2", "node-5"])
            self.assertTrue(await network.until(lambda it: it.moving))
            await self.store(network)
            expired = self.blobs.pop(short)
            await self.reads_all(network)
            self.assertTrue(await network.until(lambda it: it.epoch == 1, 60), self.logs())
            attested = await network.until(lambda it: 1 in it.blobs[bad].votes[rules.ATTEST], 60)
            self.assertTrue(attested, self.logs())  # by the shard whose row is false, which need not be among the first
            await self.reads_all(network)
            for gone, status in ((short, 4), (bad, 3)):
                with self.assertRaises(client.Refused) as caught:
                    await network.fetch(gone, seconds=1)
                self.assertEqual(caught.exception.status, status, str(caught.exception))
            self.assertEqual((await network.store(expired, 5)).identifier, short)  # registered and stored anew
            self.blobs[short] = expired
            for name in ("node-0", "node-4"):
                await self.local.end(name, kill=True)
                await self.local.start_node(name)
            await self.store(network)
            await self.reads_all(network)
        await self.check()

    async def store_badly(self, network: Network) -> bytes:
        """A blob whose writer lies is certified, as each shard's own slivers are what was committed."""
        encoded = await example_tools.encode_badly(client.Walrus(find_program()))
        identifier = (await network.publish(encoded, 9)).identifier
        heard = await network.until(lambda it: it.certificate(identifier) == (0, 4))  # the last node may be late
        self.assertTrue(heard, self.logs())
        return identifier

    async def restart(self, name: str, reserve: float) -> None:
        """Kills a node and starts it with so much of the disk kept free."""
        path = self.folder / f"{name}.toml"
        await self.local.end(name, kill=True)
        file.write(Settings, path, file.values_of(path) | {"reserve": reserve})
        await self.local.start_node(name)

    async def test_a_badly_encoded_blob_is_declared_invalid_and_its_slivers_go(self) -> None:
        await self.local.up(FOUR)
        async with self.local.network(seconds=60) as network:
            bad = await self.store_badly(network)
            disk = shutil.disk_usage(self.folder)
            below = min(1.0, 2 * disk.free / disk.total)
            await self.restart("node-0", below)  # below its reserve it takes the proof and lets slivers go
            seats = network.peers.seats(network.ledger.now, 1)
            crossing = [seats[1], seats[3]]  # the false row is that of shard 3
            status, proof = await client.recover(crossing, client.Symbol(bad, client.SECONDARY, 2), network.walrus)
            self.assertEqual((status, proof[0]), (3, client.PROOF))
            early = [(await seat.ask(frames.write_frame(frames.Forget(bad))))[0].end for seat in seats]
            self.assertEqual(early, [client.Answer(5, 0, 0)] * 4)
            words = [proof, frames.write_frame(frames.Attest(bad)), frames.write_frame(frames.Attest(bad))]
            said = [[reply.end for reply in await seat.ask(*words)] for seat in seats]
            self.assertEqual(
                [[getattr(answer, "code", 4) for answer in it] for it in said], [[0, 13, 12]] * 2 + [[0, 14, 12]] * 2
            )
            self.assertTrue(await network.until(lambda it: it.invalid(bad)))
            for seat in seats[:3]:
                for _ in range(100):  # until the node has heard so too
                    answer = (await seat.ask(frames.write_frame(frames.Forget(bad))))[0].end
                    if answer == client.Answer(0, 0, 0):
                        break
                    await asyncio.sleep(0.1)
                self.assertEqual(answer, client.Answer(0, 0, 0))
            for name in FOUR:
                await self.restart(name, 0.05)
            seats = network.peers.seats(network.ledger.now, 1)
            kept = [(await seat.ask(client.write_frame(client.Read(bad))))[0].kept for seat in seats]
            self.assertEqual([sorted(it) for it in kept], [[0x10, 0x13]] * 3 + [[0x10, 0x11, 0x13]])
            with self.assertRaises(client.Refused) as caught:
                await network.fetch(bad)
            self.assertEqual(caught.exception.status, 3)
            await self.store(network)
        self.assertEqual(len(self.slivers("node-0") + self.slivers("node-3")), 2 + 4)
        await self.check()

    async def test_one_word_of_a_node_counts_for_all_its_shards(self) -> None:
        names, owners = FOUR[:3], ["node-0", "node-0", "node-1", "node-2"]
        await self.local.up(names, owners=owners)
        async with self.local.network() as network, self.local.network(rules.OPERATOR) as operator:
            first = await self.store(network)
            self.assertTrue(await network.until(lambda it: it.certificate(first) == (0, 4)))
            alone = await network.walrus.encode(b"alone", 1)
            await network.register(alone.identifier, 5)
            seat = network.peers.seats(owners, 1)[0]
            steps = client.steps_to_store(alone, 0, 5)
            self.assertEqual(
                await client.take_steps(seat, steps[1:]), (3, "acknowledge: declined")
            )  # shard 1 has nothing
            self.assertEqual((await network.publish(alone, 5)).identifier, alone.identifier)
            self.blobs[alone.identifier] = b"alone"
            await operator.begin(1, ["node-0", "node-1", "node-1", "node-2"])
            self.assertTrue(await network.until(lambda it: it.epoch == 1, 60), self.logs())
            await self.local.end("node-1", kill=True)
            await self.reads_all(network)
            await self.local.start_node("node-1")
            await self.store(network)
        await self.check()

    async def test_liars_within_the_bound_change_nothing(self) -> None:
        await self.local.start_ledger()
        for name in [*FOUR, "node-4"]:
            await self.local.add_node(name)
        async with self.local.network(rules.OPERATOR) as operator, self.local.network() as network:
            self.faulty = {"node-1"}
            for name in [*FOUR, "node-4"]:
                await self.local.start_node(name, ODD if name in self.faulty else [], {"ODD_LIES": "1"})
            await operator.begin(1, FOUR)
            self.assertTrue(await network.until(lambda it: it.now))
            for size in (0, 100, 3_000):
                await self.store(network, size)
            for _ in range(5):
                await self.reads_all(network)
            await operator.begin(1, ["node-4", *FOUR[1:]])
            self.assertTrue(await network.until(lambda it: it.epoch == 1, 60), self.logs())
            await self.reads_all(network)
        await self.check()

    async def test_a_silent_node_stops_no_turn_of_the_epoch(self) -> None:
        """Though another one was away while blobs were stored that the silent one has acknowledged."""
        await self.local.start_ledger()
        for name in FOUR:
            await self.local.add_node(name)
        async with self.local.network(rules.OPERATOR) as operator, self.local.network() as network:
            self.faulty = {"node-1"}
            for name in FOUR:
                await self.local.start_node(name, ODD if name in self.faulty else [], {"ODD_SILENT": "1"})
            await operator.begin(1, FOUR)
            self.assertTrue(await network.until(lambda it: it.now))
            await self.store(network)
            await self.local.end("node-3", kill=True)
            for size in (0, 100, 3_000, 100_000):
                await self.store(network, size)
            await self.store(network, 900, form=2)
            await self.local.start_node("node-3")
            await operator.begin(1, FOUR)
            self.assertTrue(await network.until(lambda it: it.epoch == 1, 60), self.logs())
            self.assertEqual(network.ledger.now, tuple(FOUR))
            await self.reads_all(network)
        await self.check()

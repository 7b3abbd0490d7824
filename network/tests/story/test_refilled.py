"""A node that was away, or whose disk flipped a bit, is filled again. At the end the proved core replays each run."""
import asyncio
import contextlib
import json
import pathlib

from support.harness import FOUR, HERE, NetworkCase
from walrus import client
from walrus.network.ledger.entries import OPERATOR
from walrus.network.peers.seats import FIGURES, SCRUB
from walrus.network.settings import file
from walrus.network.settings.services import RecorderSettings


class Refilled(NetworkCase):
    async def test_who_was_away_takes_a_checkpoint_and_is_filled_where_it_missed_an_epoch(self) -> None:
        self.local.options["heal"] = 1
        await self.local.found()
        path = self.folder / "recorder-0.toml"
        file.write(RecorderSettings, path, file.values_of(path) | {"patience": 0})
        await self.local.up(FOUR)
        self.faulty = {"node-3"}  # it forgets what its shard held before the missed epoch
        async with self.local.network() as network, self.local.network(OPERATOR) as operator:
            for missed, epoch in ((1, 1), (2, 2)):
                for _ in range(4):
                    await self.store(network, 3_000)
                await self.recovered("node-3", 2 * len(self.blobs))
                await self.local.end("node-3", kill=True)
                before = network.chain
                for each in range(epoch, epoch + missed):
                    await operator.begin(1, FOUR)
                    self.assertTrue(await operator.until(lambda it, each=each: it.epoch == each, 60), self.logs())
                await self.store(network, 3_000)
                for _ in range(300):  # until entries are dropped that the node has not heard
                    async with contextlib.aclosing(network.recorders.follow(before)) as news:
                        if (await anext(news)).pieces:
                            break
                    await asyncio.sleep(0.1)
                await self.local.start_node("node-3")
                await self.recovered("node-3", 2 * len(self.blobs))
                told = await network.until(lambda it, last=epoch + missed - 1: it.past.get("node-3") == last, 30)
                self.assertTrue(told, network.ledger.past)
            await self.local.end("node-0", kill=True)
            await self.reads_all(network)
            await self.local.start_node("node-0")
        self.assertGreater(self.record("node-3").entries[0].place, 20)
        await self.check()

    async def recovered(self, name: str, count: int) -> None:
        """Wait until a node has `count` slivers."""
        for _ in range(150):
            if len(self.slivers(name)) == count:
                break
            await asyncio.sleep(0.2)
        self.assertEqual(len(self.slivers(name)), count, self.logs())

    def files(self, name: str) -> list[pathlib.Path]:
        return sorted(it for it in (self.folder / f"{name}.parts").glob("*/*") if it.is_file())

    def flip(self, path: pathlib.Path, place: int) -> None:
        data = bytearray(path.read_bytes())
        data[place] ^= 16
        path.write_bytes(data)

    async def test_a_flipped_bit_never_leaves_its_node_and_is_recovered(self) -> None:
        self.local.options["heal"] = 3_600
        await self.local.up(FOUR)
        async with self.local.network() as network:
            names = [await self.store(network, size) for size in (300_000, 400_000, 900)]
            await self.recovered("node-1", 6)
            self.faulty = {"node-1"}  # for a while it lacks what it acknowledged
            primary = [it for it in self.files("node-1") if it.read_bytes()[33] == 0]
            self.flip(primary[0], 70_000)
            primary[1].unlink()
            [seat] = network.peers.seats(network.ledger.now, 1)[1:2]
            kept = [(await seat.ask(client.write_frame(client.Read(it))))[0].kept for it in names]
            self.assertEqual([sorted(it) for it in kept], [[0x10], [0x10], [0x10, 0x11]])
            await self.reads_all(network)
            await self.recovered("node-1", 6)
            for name in ("node-0", "node-2"):
                await self.local.end(name, kill=True)
            await self.reads_all(network)  # from node-3, and what node-1 recovered
            self.assertEqual(self.log("node-1").count("went wrong on the disk"), 2)
            for name in ("node-0", "node-2"):
                await self.local.start_node(name)
        await self.check()

    async def test_a_scrub_finds_what_went_wrong_and_goes_on_where_it_was(self) -> None:
        self.local.options |= {"heal": 3_600, "scrub_rate": 200_000}
        await self.local.up(FOUR)
        async with self.local.network() as network, self.local.network(OPERATOR) as operator:
            for _ in range(6):
                await self.store(network, 300_000)
            await self.recovered("node-3", 12)
            self.faulty = {"node-3"}
            for path in self.files("node-3")[:2] + self.files("node-3")[-1:]:
                self.flip(path, 50_000)
            (self.folder / "node-3.parts" / "ab").mkdir(exist_ok=True)
            (self.folder / "node-3.parts" / "ab" / "nobody").write_bytes(b"x")
            told = await operator.peers.told("node-3", SCRUB)
            self.assertEqual((told["held"]["blobs"], told["scrub"]["running"]), (6, False))
            await asyncio.sleep(4)
            begun = (await network.peers.told("node-3", FIGURES))["scrub"]
            self.assertEqual((begun["running"], begun["blobs"] in range(1, 6)), (True, True), begun)
            await self.local.end("node-3", kill=True)
            await self.local.start_node("node-3")
            for _ in range(150):
                told = await network.peers.told("node-3", FIGURES)
                if not told["scrub"]["running"]:
                    break
                await asyncio.sleep(0.2)
            self.assertEqual([told["scrub"][it] for it in ("begun", "blobs", "wrong")], [begun["begun"], 6, 2], told)
            await self.recovered("node-3", 12)
            self.assertEqual((self.folder / "node-3.parts" / "ab" / "nobody").exists(), False)
            command = str(HERE.parent / "walrus-net"), "scrub", str(self.folder), "node-3", "--json"
            again = await asyncio.create_subprocess_exec(*command, stdout=asyncio.subprocess.PIPE)
            self.assertEqual(json.loads((await again.communicate())[0])["held"]["blobs"], 6)
            told = await network.peers.told("node-3", FIGURES)
            self.assertGreater(told["scrub"]["begun"], begun["begun"])
            for name in ("node-0", "node-1"):
                await self.local.end(name, kill=True)
            await self.reads_all(network)
            for name in ("node-0", "node-1"):
                await self.local.start_node(name)
        await self.check()

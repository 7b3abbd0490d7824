"""Whoever stores bytes knows that they are there, even if more than f disks lost what is certified."""
import asyncio
import pathlib
from typing import Any
from unittest import mock

from support.harness import FOUR, NetworkCase
from walrus import client
from walrus.network.deploy import epochs
from walrus.network.ledger.entries import OPERATOR
from walrus.network.peers.network import Network
from walrus.network.peers.seats import FIGURES


class Held(NetworkCase):
    async def asyncSetUp(self) -> None:
        await super().asyncSetUp()
        self.local.options["heal"] = 3_600

    def files(self, name: str) -> list[pathlib.Path]:
        return sorted(it for it in (self.folder / f"{name}.parts").glob("[0-9a-f][0-9a-f]/*") if it.is_file())

    async def have(self, count: int) -> None:
        """Wait until each node has `count` files."""
        for _ in range(300):
            if all(len(self.files(name)) == count for name in FOUR):
                return
            await asyncio.sleep(0.1)
        self.fail(f"{[len(self.files(name)) for name in FOUR]} files, and not {count} each: {self.logs()}")

    async def encoded(self, network: Network, size: int) -> tuple[bytes, client.Encoded]:
        data = self.drawn.randbytes(size)
        return data, await network.walrus.encode(data, 1)

    def lose(self) -> None:
        """Have all nodes lose all of their files."""
        for name in FOUR:
            for path in self.files(name):
                path.unlink()

    async def test_what_more_than_f_disks_lost_is_stored_again(self) -> None:
        await self.local.up(FOUR)
        async with self.local.network() as network:
            data, blob = await self.encoded(network, 400_000)
            self.assertFalse((await network.ensure(blob, 5))[1])
            await self.have(2)
            with mock.patch.object(network, "publish", side_effect=AssertionError("its bytes are sent again")):
                self.assertTrue((await network.ensure(blob, 5))[1])
            for until, was_there in ((5, True), (7, False)):
                self.lose()
                with self.assertRaises(client.Refused):
                    await network.fetch(blob.identifier, 0)
                stored, before = await network.ensure(blob, until)
                self.assertEqual((stored.until, before), (until, was_there))
                self.assertEqual(await network.fetch(blob.identifier), data)
                await self.have(2)
            for name in FOUR[:2]:
                await self.local.end(name, kill=True)
            with self.assertRaisesRegex(client.Failed, "is certified, but only 2 shards have its bytes"):
                await network.ensure(blob, 7)

    async def test_a_stalled_handover_names_what_it_waits_for_and_goes_on_once_that_is_stored(self) -> None:
        await self.local.up(FOUR)
        async with self.local.network() as network, self.local.network(OPERATOR) as operator:
            data, blob = await self.encoded(network, 400_000)
            await network.ensure(blob, 9)
            await self.have(2)
            self.lose()
            self.assertFalse(await network.holders.have(blob.identifier))
            await operator.begin(1, FOUR)
            waits = {"epoch": 1, "blobs": 1, "first": [blob.identifier.hex()]}
            for name in FOUR:
                for _ in range(300):
                    if (told := await network.peers.told(name, FIGURES))["waits"] == waits:
                        break
                    await asyncio.sleep(0.1)
                self.assertEqual(told["waits"], waits, self.logs())
            said = await epochs.waits_for(operator)
            self.assertIn(f"node-2 waits for 1 blobs: {blob.identifier.hex()}; node-3", said)
            self.assertIn(
                f"epoch 1 waits for 1 blobs: {blob.identifier.hex()}; they are still miss", self.log("node-0")
            )
            await network.ensure(blob, 9)
            self.assertTrue(await network.until(lambda it: it.epoch == 1, 60), self.logs())
            self.assertEqual(await network.fetch(blob.identifier), data)
            self.assertEqual((await network.peers.told("node-1", FIGURES))["waits"], {})

    async def test_many_blobs_that_are_stored_again_cost_few_exchanges(self) -> None:
        await self.local.up(FOUR)
        async with self.local.network() as network:
            blobs = [(await self.encoded(network, 300))[1] for _ in range(120)]
            for blob in blobs:
                await network.ensure(blob, 5)
            for name in FOUR:
                told: dict[str, Any] = {}
                while told.get("blobs") != len(blobs):
                    await asyncio.sleep(0.2)
                    told = (await network.peers.told(name, FIGURES))["held"]
            asked, answered = list[int](), network.peers.answered

            def counted(name: str, request: bytes, seconds: float) -> Any:
                asked.append(len(request) // 32)
                return answered(name, request, seconds)

            with mock.patch.object(network.peers, "answered", counted), mock.patch.object(network, "publish", None):
                for blob in blobs:
                    self.assertTrue((await network.ensure(blob, 5))[1])
            self.assertLessEqual(len(asked), 4 * 4)
            self.assertEqual(max(asked), len(blobs))

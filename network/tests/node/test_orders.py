"""What nodes let whom ask."""
import asyncio
from typing import Any, Callable

from support.harness import FOUR, NetworkCase
from walrus import client
from walrus.network.ledger.entries import OPERATOR
from walrus.network.peers.seats import FIGURES, HELD, HOLDS, LACKS, SCRUB, Peers


class Orders(NetworkCase):
    async def test_orders_are_the_operators_and_questions_the_members(self) -> None:
        self.local.options["reads"] = "members"
        await self.local.up(FOUR)
        async with self.local.network() as network, self.local.network(OPERATOR) as operator:
            name = await self.store(network, 400_000)
            self.assertTrue(await network.until(lambda it: it.certificate(name) == (0, 4)))
            stranger = Peers(network.ledger, network.authority, 10)
            self.addAsyncCleanup(stranger.close)
            for peers in (stranger, network.peers):
                with self.assertRaisesRegex(ConnectionError, "it takes this order from the operator alone"):
                    await peers.told("node-0", SCRUB)
            begun = (await stranger.told("node-0", FIGURES))["scrub"]["begun"]
            self.assertEqual(begun, 0)
            await operator.peers.told("node-0", SCRUB)
            for _ in range(100):
                if (await stranger.told("node-0", FIGURES))["scrub"]["begun"]:
                    break
                await asyncio.sleep(0.1)
            self.assertGreater((await stranger.told("node-0", FIGURES))["scrub"]["begun"], begun)

            def reads(peers: Peers) -> Callable[[client.Request], Any]:
                return peers.seats(network.ledger.now, 1)[0].ask

            requests = [client.write_frame(client.Read(name)), client.write_frame(client.Symbol(name, 1, 0))]
            for request in requests:
                [said], [refused] = await reads(network.peers)(request), await reads(stranger)(request)
                self.assertEqual((len(said.kept), refused.kept, refused.end), (2, {}, client.Answer(5, 0, 0)))
            with self.assertRaises(client.Refused):
                await client.fetch(stranger.seats(network.ledger.now, 1), name, network.walrus)
            await self.reads_all(network)
            known = HELD + name + bytes(32)
            self.assertEqual(await network.peers.answered("node-0", known, 10), HELD + bytes([HOLDS, LACKS]))
            self.assertEqual((await stranger.answered("node-0", known, 10))[:1], b"\x30")

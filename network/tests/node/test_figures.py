"""Figures that nodes and gateways report of themselves, and nodes that report none."""
import asyncio
import json
import shutil
from typing import Any
from unittest import mock

from support.harness import FOUR, ODD
from support.http_case import GatewayCase
from walrus.network.gateway import app
from walrus.network.gateway.status.watch import Watch


class Figures(GatewayCase):
    async def test_what_a_node_holds_and_how_much_is_free_are_told(self) -> None:
        await self.start()
        await self.put(b"file" * 100)
        disk = shutil.disk_usage(self.folder)
        for _ in range(100):
            told = json.loads((await self.curl("/v1/status"))[2])
            figures = {it["name"]: it["figures"] for it in told["nodes"]}
            heard = [it.get("ledger", {}) for it in figures.values()]
            heard = [it for it in heard if it.get("place", 0) == told["ledger"]["place"] and not it["behind"]]
            if len(heard) == 4 and all(it.get("held", {}).get("blobs") for it in figures.values()):
                break
            await asyncio.sleep(0.3)
        metrics = (await self.curl("/metrics"))[2].decode()
        for name, groups in figures.items():
            self.assertEqual((groups["held"]["blobs"], groups["held"]["wrong"]), (1, 0), figures)
            said = {it: groups["disk"][it] for it in ("bytes", "reserve")}
            self.assertEqual(said, {"bytes": disk.total, "reserve": int(disk.total * 0.05)})
            for what, number in (("free", disk.free), ("used", disk.used)):
                self.assertAlmostEqual(groups["disk"][what], number, delta=disk.total // 10)
            for group, parts in groups.items():
                for what in parts:
                    self.assertIn(f'\nwalrus_node_{group}_{what}{{node="{name}"}} ', metrics)
            self.assertEqual({*groups["recovered"]}, {"epoch", "of", "of_bytes", "blobs", "bytes"})

    async def state(self, name: str, state: str, said: str = "") -> None:
        """Waits until the gateway reports this state of a node."""
        told: dict[str, Any] = {}
        for _ in range(100):
            nodes = json.loads((await self.curl("/v1/status"))[2])["nodes"]
            [told] = [it for it in nodes if it["name"] == name]
            if told["state"] == state and said in told["said"]:
                return
            await asyncio.sleep(0.2)
        self.fail(f"{told}")

    async def test_a_node_that_tells_no_figures_hides_none_of_the_others(self) -> None:
        self.options = app.Options(seconds=1, challenge=0, patience=60, probe=0.3)
        await self.start()
        figures = ("5", "silent", "no figures"), ("[[1, 2]]", "silent", "no figures"), ('{"ledger": {}}', "answers", "")
        for told, state, said in figures:
            await self.local.end("node-3")
            await self.state("node-3", "silent", "refused")
            await self.local.start_node("node-3", ODD, {"ODD_FIGURES": told})
            await self.state("node-3", state, said)
        await self.local.end("node-2")
        await self.state("node-2", "silent")

    async def test_a_gateway_that_asks_no_node_any_more_ends(self) -> None:
        await self.local.up(FOUR)
        self.enterContext(mock.patch.object(Watch, "probe", mock.AsyncMock(side_effect=TypeError("an odd reply"))))
        with self.assertRaisesRegex(RuntimeError, "it can no longer ask the nodes: TypeError: an odd reply"):
            async with asyncio.timeout(30):
                await app.serve(self.folder, "127.0.0.1", 0, app.Options(challenge=0), asyncio.Event())

"""etcd ends, in order or not, hangs, comes back, and answers strangely meanwhile: followers of the ledger continue."""
import asyncio
import contextlib
import dataclasses
import json
import re
import shutil
import signal
import time
import unittest
from typing import AsyncIterator
from unittest import mock

import aiohttp
from support.harness import FOUR
from support.http_case import DRAWN, GatewayCase
from walrus import client
from walrus.network.deploy.local import free_port
from walrus.network.gateway import app
from walrus.network.gateway.http.errors import problem_of
from walrus.network.ledger import follower, rules
from walrus.network.ledger.entries import Chain
from walrus.network.ledger.follower import News, View
from walrus.network.peers.network import Away
from walrus.network.settings.gateway_options import Options


class Absences(unittest.IsolatedAsyncioTestCase):
    async def test_what_fails_meanwhile_or_soon_after_names_the_ledger(self) -> None:
        view, begun = View(mock.Mock(said="etcd is slow")), time.monotonic()
        self.assertEqual(view.away_since(begun - 60), "")
        view.heard_at = begun - 30
        self.assertEqual(view.away_since(begun), "the ledger is away for 30 s (etcd is slow)")
        await view.enter(News(Chain(0, b""), [], 0, ""))
        self.assertEqual(view.away_since(begun), "the ledger was away for 30 s (etcd is slow)")
        self.assertEqual(view.away_since(time.monotonic()), "")
        view.heard_at -= follower.AWAY - 1  # no longer than a busy recorder may be silent
        await view.enter(News(Chain(0, b""), [], 0, ""))
        self.assertEqual(view.away_since(begun), "the ledger was away for 30 s (etcd is slow)")


class Stops(GatewayCase):
    options = Options(seconds=1, challenge=0, patience=30, probe=0.3, stale=6)

    @contextlib.asynccontextmanager
    async def load(self, away: bool = False) -> AsyncIterator[None]:
        """Stores and fetches files meanwhile; refusals are allowed only if the ledger is away and they say so."""
        self.stored, self.refusals, over = list[tuple[str, bytes]](), list[bytes](), asyncio.Event()

        async def write() -> None:
            while not over.is_set():
                data = DRAWN.randbytes(500)
                status, _, body = await self.curl("/v1/blobs?epochs=5", data=data)
                if status == 201:
                    self.stored.append((json.loads(body)["blobId"], data))
                else:
                    self.assertEqual(status, 503, body)
                    self.refusals.append(body)
                    await asyncio.sleep(0.2)

        async def read() -> None:
            while not over.is_set():
                await asyncio.sleep(0.05)
                if self.stored:
                    name, data = DRAWN.choice(self.stored)
                    status, _, body = await self.get(name)
                    if away and status == 503:
                        self.assertIn(b"the ledger is away", body)
                    else:
                        self.assertEqual((status, body), (200, data), body[:400])

        tasks = [asyncio.create_task(it) for it in (write(), write(), read())]
        try:
            yield
        finally:
            over.set()
            await asyncio.gather(*tasks)
        for body in self.refusals:
            error = json.loads(body)["error"]
            self.assertEqual(error.get("cause"), "ledger", error)
            self.assertRegex(error["text"], "^the ledger (is|was away|does not answer)")

    def alive(self) -> list[str]:
        return [name for name in FOUR if self.local.processes[name].returncode is None]

    async def stores_soon(self, seconds: float = 25) -> None:
        """Checks that a file is stored soon after the ledger is back, and that all nodes run and acknowledge it."""
        begun = time.monotonic()
        told = await self.put(DRAWN.randbytes(900))
        self.assertLess(time.monotonic() - begun, seconds)
        self.assertEqual(self.alive(), FOUR, self.logs())
        identifier = bytes.fromhex(told["blobId"])
        words = self.network.until(lambda it: it.certificate(identifier) == (0, 4), 90)  # a late one comes by `heal`
        self.assertTrue(await words, self.logs())
        self.assertFalse(self.network.lost)

    async def restart(self, kill: bool, pause: float) -> None:
        await self.local.end("etcd", kill=kill)
        await asyncio.sleep(pause)
        await self.local.start_etcd()

    async def test_nodes_and_gateway_go_on_when_etcd_is_stopped(self) -> None:
        self.options = dataclasses.replace(self.options, stale=60)  # a recorder's start takes long on a busy machine
        await self.start()
        async with self.load():
            for kill in (False, False, False, True):
                await self.stores_soon()
                await self.restart(kill, 0.5)
            self.local.processes["etcd"].send_signal(signal.SIGSTOP)
            await asyncio.sleep(4)
            self.local.processes["etcd"].send_signal(signal.SIGCONT)
            await self.stores_soon()
            for kill in (False, True):  # as etcd's end may end a recorder's streams
                await self.local.end("recorder-0", kill=kill)
                await self.local.start_recorder("recorder-0")
                await self.stores_soon()
        self.assertGreater(len(self.stored), 3)

    async def test_it_is_told_that_the_ledger_is_away(self) -> None:
        await self.start()
        name = (await self.put(b"before"))["blobId"]
        self.assertEqual(await self.ledger_told(False), "")
        for stop, again in ((signal.SIGSTOP, signal.SIGCONT), (signal.SIGTERM, None)):
            self.local.processes["etcd"].send_signal(stop)
            self.assertIn("etcd at https://127.0.0.1:", await self.ledger_told(True))
            for path in (f"/v1/blobs/{name}", "/readyz"):
                self.assertIn("ledger", (await self.refused(503, path))["text"])
            if again:
                self.local.processes["etcd"].send_signal(again)
            else:
                await self.local.start_etcd()
            await self.ledger_told(False)
            self.assertEqual((await self.get(name))[2], b"before")
            self.assertEqual((await self.curl("/readyz"))[0], 200)
            await self.stores_soon()

    async def test_a_store_names_the_ledger_and_not_its_nodes(self) -> None:
        await self.start()
        network = await self.enterAsyncContext(self.local.network(seconds=2))
        blob = await network.walrus.encode(DRAWN.randbytes(500), 1)
        await network.register(blob.identifier, 5)
        [seat], [_, *parts, word] = self.network.peers.seats(FOUR, 1)[:1], client.steps_to_store(blob, 0, 5)
        self.assertEqual(await client.take_steps(seat, parts), (3, ""))
        await self.local.end("etcd")
        await asyncio.sleep(8)  # a recorder notices that after five seconds
        asking, storing = client.take_steps(seat, [word]), network.publish(blob, 5)
        said, refused = await asyncio.gather(asking, storing, return_exceptions=True)
        self.assertEqual(said, (0, "acknowledge: the ledger is away"))
        assert isinstance(refused, Away), refused
        self.assertRegex(str(refused), r"^the ledger is away for [0-9]+ s \(.*etcd at https://127.0.0.1.*\)")
        told = problem_of(refused)
        self.assertEqual((told.status, told.more["cause"]), (503, "ledger"))
        await self.local.start_etcd()
        await self.ledger_told(False)
        self.assertEqual((await self.network.publish(blob, 5)).identifier, blob.identifier)

    async def ledger_told(self, stale: bool) -> str:
        """Waits until the status and the metrics agree on whether the ledger is away; returns why it is."""
        for _ in range(300):
            told = json.loads((await self.curl("/v1/status"))[2])["ledger"]
            if told["stale"] == stale:
                break
            await asyncio.sleep(0.1)
        self.assertEqual((told["stale"], told["away"] >= 6), (stale, stale), told)
        metrics = (await self.curl("/metrics"))[2].decode()
        self.assertIn(f"\nwalrus_ledger_stale {float(stale)}\n", metrics)
        self.assertEqual("\nwalrus_ledger_away_seconds 0.0\n" in metrics, not stale)
        return str(told["said"])

    async def silence(self, port: int, away: bool) -> None:
        """Waits until a node's own metrics say that the ledger is away for more than `stale` seconds, or is not."""
        async with aiohttp.ClientSession() as session:
            for _ in range(300):
                async with session.get(f"http://127.0.0.1:{port}/metrics") as said:
                    found = re.search(r"^walrus_ledger_away_seconds (\S+)$", await said.text(), re.MULTILINE)
                assert found, "a node tells nothing of the ledger"
                seconds = float(found[1])
                if (seconds > self.options.stale) == away:
                    return
                await asyncio.sleep(0.1)
        self.fail(f"the ledger is away for {seconds} s")

    async def test_nodes_serve_what_they_have_and_tell_that_the_ledger_is_away(self) -> None:
        port = free_port()
        await self.local.start_ledger()
        await self.local.add_node("node-0")
        with open(self.folder / "node-0.toml", "a") as out:
            out.write(f'metrics = "{port}"\n')
        await self.start()
        data = DRAWN.randbytes(900)
        name = (await self.network.store(data, 5)).identifier
        self.assertEqual((await self.get(name.hex()))[2], data)
        await self.silence(port, False)
        await self.local.end("etcd")
        await self.ledger_told(True)
        await self.silence(port, True)
        for node in ("node-2", "node-3", "node-1"):
            await self.local.end(node)
        await self.local.start_node("node-1")
        self.assertIn("node-1: the ledger is away; this serves what is on the disk", self.log("node-1"))
        await self.refused(503, f"/v1/blobs/{name.hex()}")
        self.assertEqual(await self.network.fetch(name), data)  # of node-0 and node-1, as it needs two
        await self.silence(port, True)
        await self.local.start_etcd()
        await asyncio.gather(self.local.start_node("node-2"), self.local.start_node("node-3"))
        await self.silence(port, False)
        await self.ledger_told(False)
        await self.stores_soon()

    async def test_all_go_on_after_a_minute_without_etcd(self) -> None:
        await self.start()
        await self.stores_soon()
        async with self.load(away=True):
            for kill in (False, True):
                await self.restart(kill, 61)
                await self.ledger_told(False)  # until then a gateway refuses: the ledger is away for too long
                await self.stores_soon()
            self.local.processes["etcd"].send_signal(signal.SIGSTOP)
            await asyncio.sleep(65)
            self.local.processes["etcd"].send_signal(signal.SIGCONT)
            await self.ledger_told(False)
            await self.stores_soon()

    async def test_who_may_not_follow_any_more_ends_in_one_sentence(self) -> None:
        await self.start()
        told = asyncio.Event()
        serving = asyncio.create_task(app.serve(self.folder, "127.0.0.1", 0, self.options, told))
        await asyncio.sleep(1)
        async with self.local.network(rules.OPERATOR) as operator:
            for name in ("node-3", "publisher"):
                await operator.recorders.post(rules.entry_key(rules.OPERATOR, "expel", name))
        self.assertEqual(await asyncio.wait_for(self.local.processes["node-3"].wait(), 30), 1)
        self.assertRegex(self.log("node-3").splitlines()[-1], "^node-3: must stop: node-3 is expelled$")
        with self.assertRaisesRegex(follower.Unreachable, "the gateway must stop.*publisher is expelled"):
            await asyncio.wait_for(serving, 30)

    async def test_nodes_stop_where_the_ledger_is_an_older_one(self) -> None:
        """A restored snapshot of etcd would cause that: entries that were heard no longer exist."""
        await self.start()
        before = self.folder / "before"
        await self.put(b"first")
        await self.local.end("etcd")
        shutil.copytree(self.folder / "etcd", before)
        await self.local.start_etcd()
        await self.stores_soon()
        for name in ("etcd", "recorder-0"):
            await self.local.end(name)
        shutil.rmtree(self.folder / "etcd")
        before.rename(self.folder / "etcd")
        await self.local.start_etcd()
        await self.local.start_recorder("recorder-0")  # which stops too, as it would otherwise serve the older ledger
        self.assertEqual(await asyncio.wait_for(self.local.processes["recorder-0"].wait(), 30), 1)
        said = "must stop: etcd has another ledger than before, or an older one: .*: restore it .*; remove .*ledger "
        self.assertRegex(self.log("recorder-0").splitlines()[-1], said)
        (self.folder / "recorder-0.ledger").unlink()
        await self.local.start_recorder("recorder-0")
        for name in FOUR:
            self.assertEqual(await asyncio.wait_for(self.local.processes[name].wait(), 60), 1)
            said = "the ledger ends at place [0-9]+, but [0-9]+ entries were heard before: it is another ledger, or one"
            self.assertRegex(self.log(name).splitlines()[-1], f"^{name}: must stop: {said}")

"""Storing at a node: callers that give up leave nothing in memory, and few large blobs are sent at once. And the
threads that resolve the names of nodes."""
import asyncio
import pathlib
import re
import ssl
import types
import unittest
from typing import Any
from unittest import mock

from support.harness import HERE
from walrus import client
from walrus.format import kinds
from walrus.format.frames import answer
from walrus.network.gateway.read import manifests
from walrus.network.peers.seats import FIGURES, LANES, LARGE, LOOKUPS, Peers, Seat
from walrus.network.service.threads import THREADS


class Wire:
    """A connection to a shard that accepts nothing until the test says so, and then replies that it is done."""

    def __init__(self, code: int = client.DONE):
        self.transport, self.takes, self.is_aborted, self.size = self, asyncio.Event(), False, 0
        self.said = client.envelope(answer(code), 2)

    def write(self, data: bytes) -> None:
        self.size += len(data)

    async def drain(self) -> None:
        await self.takes.wait()

    async def readexactly(self, size: int) -> bytes:
        said, self.said = self.said[:size], self.said[size:]
        return said

    def abort(self) -> None:
        self.is_aborted = True


class Storing(unittest.IsolatedAsyncioTestCase):
    async def asyncSetUp(self) -> None:
        self.wires = list[Wire]()
        peers: Any = types.SimpleNamespace(seconds=30)
        self.seat = Seat(peers, "node-2", 2, 1)
        self.registered = asyncio.Event()
        self.enterContext(mock.patch.object(self.seat, "connection", self.connection))

    async def connection(self) -> Wire:
        self.wires.append(Wire())
        return self.wires[-1]

    async def turns(self) -> None:
        for _ in range(20):
            await asyncio.sleep(0)

    async def test_who_waits_no_more_lets_go_of_what_is_sent(self) -> None:
        storing = asyncio.create_task(self.seat.store([b"a blob"], self.registered))
        await self.turns()
        [wire] = self.wires
        self.assertGreater(wire.size, 6)
        storing.cancel()
        with self.assertRaises(asyncio.CancelledError):
            await storing
        self.assertTrue(wire.is_aborted)
        self.assertEqual((self.seat.idle, self.seat.exchanges), ([], set()))

    async def test_a_node_is_sent_two_large_blobs_at_once_and_small_ones_beside(self) -> None:
        large = [asyncio.create_task(self.seat.store([bytes(LARGE)], self.registered)) for _ in range(3)]
        await self.turns()
        self.assertEqual(len(self.wires), 2)
        small = asyncio.create_task(self.seat.store([b"small"], self.registered))
        await self.turns()
        self.assertEqual(len(self.wires), 3)
        for wire in self.wires[:1] + self.wires[2:]:
            wire.takes.set()
        self.assertEqual(await small, "")
        await self.turns()
        self.assertEqual(len(self.wires), 4)  # the third large one takes the place of the first
        for wire in self.wires:
            wire.takes.set()
        self.assertEqual(await asyncio.gather(*large), [""] * 3)

    async def test_who_gives_up_before_it_is_his_turn_leaves_nothing_behind(self) -> None:
        """Otherwise requests to a node that hangs, which anybody may cause, would pile up without end."""
        asked = client.write_frame(client.Read(bytes(32)))
        for _ in range(5):
            asking = [asyncio.create_task(self.seat.ask(asked)) for _ in range(20)]
            await self.turns()
            for it in asking:
                it.cancel()
            await self.turns()
        self.assertEqual((len(self.seat.exchanges), len(self.wires)), (LANES, LANES))
        last = asyncio.create_task(self.seat.ask(asked))
        for count in (LANES, LANES + 1):
            await self.turns()
            self.assertEqual((len(self.wires), last.done()), (count, False))
            for wire in self.wires:
                wire.takes.set()
        self.assertEqual(len(await last), 1)
        await self.turns()
        self.assertEqual((len(self.seat.exchanges), len(self.wires), self.seat.late), (0, LANES + 1, False))

    async def test_who_hears_nothing_trusts_no_connection_that_is_as_old(self) -> None:
        """A firewall that restarts drops silently what comes over all of them: otherwise each of them in turn costs a
        request its deadline."""
        self.seat.idle = [*(old := [Wire() for _ in range(LANES)])]  # type: ignore[list-item]
        with mock.patch.object(self.seat, "seconds", 0.05), self.assertRaises(ConnectionError):
            await self.seat.ask(client.write_frame(client.Read(bytes(32))))
        self.assertEqual(([it.is_aborted for it in old], self.seat.idle), ([True] * LANES, []))

    async def test_what_a_shard_says_is_told(self) -> None:
        with mock.patch.object(self.seat, "connection", mock.AsyncMock(return_value=(wire := Wire(kinds.UNVERIFIED)))):
            wire.takes.set()
            self.assertEqual(await self.seat.store([b"a blob"], self.registered), "store at shard 2: unverified")
        with mock.patch.object(self.seat, "connection", side_effect=ConnectionRefusedError(111, "refused")):
            self.assertEqual(await self.seat.store([b"a blob"], self.registered), "connection refused")


class Addresses(unittest.IsolatedAsyncioTestCase):
    async def connected(self, host: str, **_: Any) -> Any:
        self.tried.append(host)
        if host in self.silent:
            await asyncio.sleep(1_000)
        return host

    async def test_an_address_that_drops_what_is_sent_costs_time_once(self) -> None:
        """Otherwise a node with two addresses is out of reach once a firewall drops what is sent to the first one."""
        with mock.patch.object(ssl, "create_default_context"):
            peers = Peers(mock.Mock(addresses={"node-2": ("", 1)}), pathlib.Path("authority.crt"), 30)
        self.addAsyncCleanup(peers.close)
        both = ["2001:db8::1", "192.0.2.1"]
        self.enterContext(mock.patch.object(peers, "find", lambda _: asyncio.sleep(0, [*both])))
        self.enterContext(mock.patch.multiple("walrus.network.peers.seats", connect=self.connected, FIRST=0.05))
        for silent, taken, tried in (
            ([], both[0], both[:1]),
            (both[:1], both[1], both),
            (both[:1], both[1], both[1:]),
            ([], both[1], both[1:]),
            (both[1:], both[0], both[::-1]),
            (both[1:], both[0], both[:1]),
        ):
            self.silent, self.tried = silent, list[str]()
            async with asyncio.timeout(20):
                self.assertEqual((await peers.connect("node-2"), self.tried), (taken, tried))


class Threads(unittest.IsolatedAsyncioTestCase):
    async def test_a_node_that_no_thread_looks_up_is_at_fault_alone(self) -> None:
        """Otherwise a store that the other nodes accepted would fail, and a gateway that asks its nodes would end."""
        ledger: Any = types.SimpleNamespace(addresses={"node-2": ("node-2.example", 1)})
        with mock.patch.object(ssl, "create_default_context"):
            peers = Peers(ledger, pathlib.Path("authority.crt"), 30)
        self.addAsyncCleanup(peers.close)
        [seat] = peers.seats(["node-2"], 1)
        said = "node-2.example cannot be looked up: can't start new thread"
        with mock.patch.object(peers.pool, "submit", side_effect=RuntimeError("can't start new thread")):
            self.assertEqual(await seat.store([b"a blob"], asyncio.Event()), said)
            with self.assertRaisesRegex(ConnectionError, said):
                await peers.told("node-2", FIGURES)

    def test_a_gateway_has_all_of_its_threads(self) -> None:
        """On a machine of 128 processors: those that encode, asyncio's own and as many processes, and those that
        resolve the nodes of its network and of its page."""
        told = re.search(r"^TasksMax=(\d+)$", (HERE.parent / "units/walrus-gateway@.service").read_text(), re.MULTILINE)
        assert told
        threads = 1 + 3 * 128 + THREADS + manifests.LISTS._max_workers + 2 * LOOKUPS
        self.assertGreaterEqual(int(told[1]), threads)

"""What an operator sees of a node: its port returns figures to anybody who asks, and begins a scrub on request."""
import asyncio
import collections
import contextlib
import dataclasses
import json
import sqlite3
import time
from typing import TYPE_CHECKING, Any, Optional


from walrus import client
from walrus.client import Data
from walrus.format.envelopes import parts
from walrus.format.frames import answer
from walrus.network.ledger.entries import OPERATOR
from walrus.network.peers.parts import WHOLE
from walrus.network.peers.seats import FIGURES, HELD, SCRUB
from walrus.network.service import certificates
from walrus.network.service.histograms import Times
from walrus.network.settings.file import MEMBERS
from walrus.wire.port import Bounds, Port
from walrus.wire.served_client import Connection, Said

from . import whole_blob
from .held_blobs import held
from .shard import DECLINED


if TYPE_CHECKING:
    from .node import Node

NAMES = {  # of requests, as labels of metrics
    client.METADATA: "metadata",
    client.SECOND_METADATA: "metadata",
    client.SLIVER: "sliver",
    client.PROOF: "proof",
    client.READ: "read",
    client.SYMBOL: "symbol",
    client.ACK: "acknowledge",
    client.ATTEST: "attest",
    client.FORGET: "forget",
    WHOLE: "store",
    HELD[0]: "held",
}
READS = client.READ, client.SYMBOL  # requests whose replies have contents of blobs
FRESH, MOMENT = 10.0, 1.0  # seconds until what is held is counted again; to wait for a count at most


class NodePort(Port):
    """The port of a node, which also returns figures, begins scrubs, and counts requests."""

    def __init__(self, node: "Node", bounds: Bounds):
        super().__init__(node.reply, client.Shape(1), bounds)
        self.node, self.held, self.due = node, dict[str, int](), 0.0  # the last count; when it is due again
        self.counting: "Optional[asyncio.Task[None]]" = None
        self.times, self.moved = Times(), collections.Counter[str]()

    async def answer(self, client: Connection, sender: int, payload: Optional[Data]) -> Said:
        """Return the reply to a request, and count the request by kind, time and bytes."""
        with self.times.taking(f'kind="{NAMES.get(payload[0] if payload else 0, "other")}"'):
            said = await self.answer_one(client, sender, payload)
        self.moved['way="in"'] += len(payload or b"")
        self.moved['way="out"'] += said.size
        return said

    async def answer_one(self, client: Connection, sender: int, payload: Optional[Data]) -> Said:
        if not self.may_ask(client, payload):
            return Said(parts([answer(DECLINED)], sender))
        if payload and payload[0] == WHOLE:
            client.had_reply = True
            return await self.node.reply(sender, payload)
        if payload and payload[0] == HELD[0]:
            return Said(parts(await self.told_held(bytes(payload)), sender))
        if payload not in (FIGURES, SCRUB):
            return await super().answer(client, sender, payload)
        if payload == SCRUB:
            self.node.scrub.now.set()
        client.had_reply = True
        return Said(parts([FIGURES + json.dumps(self.figures()).encode(), answer(0, 1)], sender))

    async def told_held(self, request: bytes) -> list[bytes]:
        """Return the reply to the question which blobs the node holds."""
        try:
            return [await held(self.node, request), answer(0, 1)]
        except (OSError, sqlite3.OperationalError) as fault:  # from the system: whoever asks takes it for a no
            self.tell(f"{self.node.name}: what is held is not looked up: {fault}", "failed")
            return [answer(DECLINED)]

    def may_ask(self, asking: Connection, payload: Optional[Data]) -> bool:
        """Return whether a client may ask this, by the name in its certificate. Orders are the operator's alone, and
        where `reads` says so, only members of the network may read."""
        kind, name = payload[0] if payload else 0, certificates.peer_name(asking.certificate)
        if kind == SCRUB[0]:
            return name == OPERATOR
        is_for_members = kind == HELD[0] or kind in READS and self.node.settings.reads == MEMBERS
        return bool(name) or not is_for_members

    async def expect(self, request: Optional[Data]) -> None:
        if request and request[0] == WHOLE:
            await self.node.intake.expect(memoryview(request))
        elif request in (FIGURES, SCRUB):
            await self.count()

    def longest(self) -> int:
        return max(self.shape.longest, whole_blob.longest(self.shape))

    def place(self, size: int) -> memoryview:
        return whole_blob.place(self.shape, size)

    async def count(self) -> None:
        """Start a count of what is held, in a thread, if it is due. Wait for a count under way, `MOMENT` at most."""
        if not self.counting and time.monotonic() > self.due:
            self.counting = asyncio.create_task(self.count_anew())
        if self.counting:
            await asyncio.wait([self.counting], timeout=MOMENT)

    async def count_anew(self) -> None:
        try:
            with contextlib.suppress(sqlite3.OperationalError):  # such as for a lost disk: the last figures remain
                self.held = await self.node.store.asked(self.node.store.counts)
        finally:  # after any fault, such as a torn page, too: it is counted again
            self.due, self.counting = time.monotonic() + FRESH, None

    def figures(self) -> dict[str, Any]:
        """Return figures of what the node holds, its disk, its judges, and the progress of recovery and scrubs."""
        node = self.node
        disk, room = node.store.disk(node.settings.reserve), node.judges.room
        return {
            "held": self.held,
            "ledger": {"place": node.chain.place if node.chain else 0},
            "disk": {
                "bytes": disk.total,
                "used": disk.used,
                "free": disk.free,
                "reserve": int(disk.total * node.settings.reserve),
            },
            "memory": {"bytes": room.size, "taken": room.size - room.free},
            "judged": node.judges.count,
            "recovered": dataclasses.asdict(node.progress),
            "waits": node.waits,
            "scrub": dataclasses.asdict(node.scrub.figures),
        }

    async def numbers(self) -> bytes:
        """Return the figures in the text format of Prometheus, with counts of requests."""
        from walrus.network.service import metrics  # here, so that only nodes that are asked for it load it

        await self.count()
        gauges: dict[str, Any] = {
            f"{group}_{name}": it
            for group, told in self.figures().items()
            if isinstance(told, dict)
            for name, it in told.items()
            if isinstance(it, (int, float))
        }
        gauges |= {"epoch": self.node.ledger.epoch, "ledger_away_seconds": self.node.silence()}
        gauges |= {"certificate_days": certificates.days_left(self.node.certificate)}
        counters: dict[str, Any] = {"judged": self.node.judges.count, "request_bytes": self.moved}
        return metrics.told(counters, gauges, {"request_seconds": self.times})

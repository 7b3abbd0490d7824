"""What the tests of shards share: a shard with its disk, and the parts of a node that recover blobs for it."""
import asyncio
import pathlib
import random
import struct
import tempfile
import types
import unittest
from typing import Any, Optional
from unittest import mock

from support.harness import lacking
from walrus import client
from walrus.format.frames import answer, code_of
from walrus.network.ledger.entries import OPERATOR, Entry, entry_key
from walrus.network.ledger.rules import Ledger
from walrus.network.node import judge, shard
from walrus.network.node.disk.store import Store
from walrus.network.node.judge import Judges
from walrus.network.node.whole_blob import Whole, place
from walrus.network.peers.engine import find_program
from walrus.network.peers.parts import request_of
from walrus.wire.port import Bounds, Port

SETTINGS = {
    "scrub": 30.0,
    "scrub_rate": 10**9,
    "reserve": 0.0,
    "grace": 3_600.0,
    "least": 0.0,
}  # of a node, as far as it needs them
SMALL, LARGE = 1_000, 3_000  # bytes: the longest content in SQLite here; a blob whose slivers are files


class ShardCase(unittest.IsolatedAsyncioTestCase):
    """Shard 0 of four, with a disk of its own."""

    async def asyncSetUp(self) -> None:
        asyncio.get_running_loop().set_debug(False)
        folder = tempfile.TemporaryDirectory(prefix="walrus-shard-")
        self.addCleanup(folder.cleanup)
        self.path = pathlib.Path(folder.name) / "a.db"
        self.enterContext(mock.patch("walrus.network.node.shard.SMALL", SMALL))
        self.enterContext(
            mock.patch("walrus.network.node.disk.group_commit.LATER", 99.0)
        )  # nothing is committed by a timer
        self.walrus, self.ledger = client.Walrus(find_program()), Ledger()
        self.judges = Judges(find_program(), 100_000_000)
        self.addCleanup(self.judges.close)
        self.store: Optional[Store] = None
        self.apply(OPERATOR, "begin", 0, 1, "a,b,c,d")
        self.open()

        async def end() -> None:
            self.close()

        self.addAsyncCleanup(end)

    def open(self) -> None:
        """Open the disk, as a restart does."""
        self.close()
        self.store, self.damaged = Store(self.path), list[bytes]()
        self.shard = self.side(0)

    def close(self) -> None:
        if self.store:
            self.store.close()
            self.store = None

    def side(self, epoch: int) -> shard.Shard:
        assert self.store
        holding = self.store.begin(epoch, 0)
        self.store.flush()
        return shard.Shard(0, epoch, holding, self.ledger, self.store, self.judges, self.damaged.append)

    def apply(self, poster: str, kind: str, *fields: object) -> None:
        self.assertTrue(self.ledger.apply(Entry(self.ledger.revision + 1, entry_key(poster, kind, *fields))))

    async def parts(self, blob: bytes, until: int = 9) -> list[bytes]:
        """Register a blob and return its metadata and slivers."""
        encoded = await self.walrus.encode(blob, 1)
        self.apply("x", "register", encoded.identifier.hex(), until)
        return [encoded.metadata, *encoded.slivers[0]]

    async def put(self, blob: bytes) -> list[bytes]:
        """Register a blob, store its parts and return them."""
        assert self.store
        parts = await self.parts(blob)
        self.assertEqual([code_of(await self.shard.put(part)) for part in parts], [client.DONE] * 3)
        self.assertTrue(self.store.flush())
        return parts

    async def whole(self, size: int) -> Whole:
        """Register a blob and return the request that brings it whole to the shard."""
        encoded = await self.walrus.encode(bytes(range(250)) * (size // 250), 1)
        self.apply("x", "register", encoded.identifier.hex(), 9)
        data = b"".join(map(bytes, request_of(encoded, 0)))
        memory = place(client.Shape(1), len(data))
        memory[:] = data
        found = Whole.read(client.Shape(1), memory)
        assert found
        return found

    async def read(self, identifier: bytes) -> list[bytes]:
        return (await self.shard.answer(client.write_frame(client.Read(identifier))))[:-1]

    def free(self, part: float) -> Any:
        """Pretend that this fraction of the disk is free."""
        disk = types.SimpleNamespace(total=10**12, free=int(part * 10**12))
        return mock.patch("walrus.network.node.disk.store.shutil.disk_usage", lambda _: disk)

    def files(self) -> list[pathlib.Path]:
        assert self.store
        return sorted(it for it in self.store.files.folder.glob("*/*") if it.is_file())

    async def left(self, count: int) -> None:
        """Wait until `count` files are left; a busy disk takes its time."""
        for _ in range(2_400):
            if len(self.files()) == count:
                break
            await asyncio.sleep(0.05)
        self.assertEqual(len(self.files()), count)

    def parts_of_files(self) -> dict[int, pathlib.Path]:
        return {1 + it.read_bytes()[33]: it for it in self.files()}


@unittest.skipIf(lacking(), f"{lacking()} is not here (network/install)")
class NodeCase(ShardCase):
    """The parts of a node that recover blobs for shard 0, from others that hold all of each blob."""

    async def asyncSetUp(self) -> None:
        await super().asyncSetUp()
        self.drawn, self.others = random.Random(5), dict[bytes, client.Encoded]()
        self.proofs = dict[bytes, bytes]()  # that the others have of a blob instead of slivers
        self.silence = asyncio.Event()  # silent shards wait for its end
        self.seats = [Other(self, number) for number in range(4)]
        self.enterContext(mock.patch.object(random, "sample", lambda found, count: [*found]))
        self.enterContext(
            mock.patch("walrus.client.shards.LEAST", 99.0)
        )  # no shard is late, however slow this machine is
        self.enterContext(mock.patch("walrus.client.shards.MOST", 99.0))

    async def certified(self, blob: bytes, until: int = 9, of: str = "abc") -> bytes:
        parts = await self.parts(blob, until)
        for part in parts:
            await self.shard.put(part)
        for poster in of:
            self.apply(poster, "ack", self.ledger.writing_epoch, parts[1][1:33].hex())
        assert self.store
        self.store.flush()
        return parts[1][1:33]

    def node(self, sides: dict[int, dict[int, shard.Shard]]) -> Any:
        """Return what a handover needs of a node; it collects what it posts."""
        node = types.SimpleNamespace(name="a", store=self.store, ledger=self.ledger, sides=sides, posted=[], vouched=[])
        node.caught_up, node.judges, node.repairs = True, self.judges, judge.Room(10_000_000)
        node.settings, node.waits = types.SimpleNamespace(**SETTINGS), dict[str, Any]()
        begun = types.SimpleNamespace(seconds=0.0)
        node.unattested, node.state = set[bytes](), types.SimpleNamespace(base=self.ledger.blobs.base, begun=begun)
        node.peers = types.SimpleNamespace(seats=lambda owners, faults: self.seats)
        node.port = Port(mock.AsyncMock(), client.Shape(1), Bounds())

        async def vouch(kind: str, filled: shard.Shard, request: bytes) -> list[bytes]:
            node.vouched.append(request[1:33])
            return [answer(13, 1)]

        async def post(key: str) -> None:
            node.posted.append(key)

        async def until(holds: object, seconds: float) -> bool:
            self.ledger.next = ()  # ends the handover, so that the node does its part once
            return True

        node.recorders, node.until, node.vouch = types.SimpleNamespace(post=post), until, vouch
        return node

    async def lacks(self, size: int, certified: bool = True) -> bytes:
        """Register a blob that the others have and the shard lacks, and return its identifier."""
        encoded = await self.walrus.encode(self.drawn.randbytes(size), 1)
        self.apply("x", "register", encoded.identifier.hex(), 9)
        for poster in "bcd" if certified else "":
            self.apply(poster, "ack", self.ledger.writing_epoch, encoded.identifier.hex())
        self.others[encoded.identifier] = encoded
        return encoded.identifier


class Other(client.Shard):
    """A shard of another node, which records how many requests came in each exchange."""

    def __init__(self, case: NodeCase, number: int):
        super().__init__(number, 1)
        self.case, self.name, self.asked = case, "abcd"[number], list[int]()
        self.fails = self.clashes = self.silent = False

    async def ask(self, *requests: bytes) -> list[client.Reply]:
        self.asked.append(len(requests))
        if self.silent:
            await self.case.silence.wait()
        if self.fails:
            raise ConnectionError("it is told to fail")
        if self.clashes:
            return [client.Reply({}, client.Clash(b"\x31\x01a\x01b"))]  # a clash ends a reply, whatever was asked
        encoded = self.case.others[requests[0][1:33]]
        told = [client.write_frame(client.RegisterEntry(encoded.identifier, 9)), encoded.metadata]
        proof = self.case.proofs.get(encoded.identifier)
        told += [proof] if proof else encoded.slivers[self.number]
        told, count = [*told, *requests], len(requests)
        said = await asyncio.to_thread(judge.judge, self.case.judges.engine, 1, self.number, told)
        return [
            client.Reply(
                {self.shape.keeps(it, request, self.number): bytes(it) for it in reply[:-1]},
                client.Answer(*struct.unpack(">BII", reply[-1][1:])),
            )
            for request, reply in zip(requests, said[-count:])
        ]

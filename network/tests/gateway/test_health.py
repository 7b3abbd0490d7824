"""The health of blobs and nodes, by the ledger, by nodes' answers and by challenges; and which blobs are files."""
import unittest
from typing import Any, Optional
from unittest import mock

from walrus.network.files.file_list import File
from walrus.network.gateway.status import health, sorter as sorting
from walrus.network.gateway.status.health import Nodes
from walrus.network.ledger.live_blob import Blob

NAME = bytes(32)
OWNERS = ["a", "b", "c", "d"]


def ledger(acks: Any = (), home: int = 0, certified: Optional[int] = 0) -> Any:
    blob = Blob(9, "p", {"ack": {home: sum(1 << it for it in acks)}, "attest": {}})
    made = mock.Mock(blobs={NAME: blob}, now=OWNERS, writing=OWNERS, quorum=3)
    made.home_epoch, made.owners = (lambda _: home), (lambda _: OWNERS)
    made.certificate = lambda _: None if certified is None else (certified, 3)
    return made


def nodes(*answer: str, **disks: tuple[int, int]) -> Nodes:
    figures = {name: {"disk": {"free": free, "reserve": kept}} for name, (free, kept) in disks.items()}
    return Nodes({name: "" if name in answer else "it is away" for name in OWNERS}, figures)


class Shards(unittest.TestCase):
    def test_a_shard_counts_that_acknowledged_and_whose_node_answers(self) -> None:
        all_ = nodes(*OWNERS)
        found = health.shards_of(ledger({0, 1, 2}), NAME, all_, [])
        self.assertEqual(found, ["held", "held", "held", "lacking"])
        found = health.shards_of(ledger({0, 1, 2}), NAME, nodes("b", "d"), [])
        self.assertEqual(found, ["silent", "held", "silent", "lacking"])
        found = health.shards_of(ledger({0}, home=2, certified=1), NAME, nodes("a", "b", "c"), [])
        self.assertEqual(found, ["held", "carried", "carried", "silent"])
        self.assertEqual(health.shards_of(ledger(set(), certified=None), NAME, all_, []), ["lacking"] * 4)
        unknown = Nodes({}, {})
        self.assertEqual(health.shards_of(ledger({0, 1, 2, 3}), NAME, unknown, []), ["silent"] * 4)

    def test_the_last_challenge_of_a_node_counts(self) -> None:
        def finding(node: str, holds: bool, blob: bytes = NAME) -> dict[str, Any]:
            return {"node": node, "holds": holds, "blob": blob.hex()}

        findings = [finding("a", False), finding("a", True), finding("b", True), finding("b", False)]
        findings += [finding("d", True), finding("c", False, b"1" * 32)]  # newest first
        found = health.shards_of(ledger({0, 1, 2}), NAME, nodes(*OWNERS), findings)
        self.assertEqual(found, ["lacking", "held", "held", "held"])


class Storing(unittest.TestCase):
    def test_it_is_told_what_keeps_files_from_being_stored(self) -> None:
        away = {"stale": False}
        told = health.storing(ledger(), nodes("a", "b", "c"), away)
        self.assertEqual(told, {"possible": True, "why": "", "shards": 3})
        self.assertTrue(health.storing(ledger(), Nodes({}, {}), away)["possible"])  # no node was asked yet
        told = health.storing(ledger(), nodes("a", "b", "c", b=(5, 5), a=(6, 5)), away)
        self.assertEqual((told["possible"], told["shards"]), (False, 2))
        text = "2 of 4 shards take files, and 3 must: d does not answer; b has no room on the disk"
        self.assertEqual(told["why"], text)
        told = health.storing(ledger(), nodes(*OWNERS), {"stale": True})
        self.assertEqual((told["possible"], told["why"]), (False, "the ledger is away"))
        none = ledger()
        none.now = none.writing = []
        self.assertEqual(health.storing(none, nodes(), away)["why"], "the network has no committee yet")


class Sorting(unittest.IsolatedAsyncioTestCase):
    def reader(self, blobs: dict[bytes, bytes]) -> Any:
        """Returns a reader that has these blobs, and notes which are read in full."""
        self.read = list[bytes]()

        async def of_blob(name: bytes) -> Optional[int]:
            return len(blobs[name]) if name in blobs else None

        def blob(name: bytes) -> Any:
            self.read.append(name)
            found = mock.MagicMock()
            found.__aenter__ = mock.AsyncMock(return_value=blobs[name])
            found.__aexit__ = mock.AsyncMock(return_value=None)
            return found

        made = mock.Mock(stands=lambda name: name != b"n" * 32, lengths=mock.Mock(of_blob=of_blob), blob=blob)
        made.network.ledger.blobs = {name: Blob(9, "p") for name in blobs}
        return made

    async def test_pieces_are_no_files(self) -> None:
        one, two, listed, plain, like = (bytes([number]) * 32 for number in range(1, 6))
        data = File(2**24 + 5, one + two).listed()
        blobs = {one: bytes(99), two: bytes(5), listed: data, plain: b"plain", like: bytes(24 + 64)}
        sorter = sorting.Sorter(self.reader(blobs))
        names = [like, listed, two, one, plain, b"n" * 32, b"?" * 32]
        for _ in range(30):
            await sorter.learn(sorter.files(names))
        self.assertEqual([*sorter.files(names)], [like, listed, plain, b"n" * 32, b"?" * 32])
        self.assertEqual(sorter.told(listed), {"size": 2**24 + 5, "pieces": 2})
        self.assertEqual(sorter.told(plain), {"size": 5, "pieces": 1})
        self.assertEqual(sorter.told(like), {"size": 88, "pieces": 1})
        self.assertEqual(sorter.told(b"?" * 32), {"size": None, "pieces": None})
        self.assertEqual({*self.read}, {listed, like})  # a blob whose length is not that of a list is not read

    async def test_a_list_of_another_poster_hides_no_file(self) -> None:
        """Otherwise anybody could hide that somebody's file is lost."""
        file, other, own = (bytes([number]) * 32 for number in range(1, 4))
        data = File(2**24 + 5, file + own).listed()
        reader = self.reader({file: bytes(99), own: bytes(5), other: data})
        reader.network.ledger.blobs |= {other: Blob(9, "q"), own: Blob(9, "q")}
        sorter = sorting.Sorter(reader)
        await sorter.learn([other])
        self.assertEqual([*sorter.files([other, own, file])], [other, file])

    async def test_what_is_known_is_bounded(self) -> None:
        sorter = sorting.Sorter(self.reader({}))
        with mock.patch.object(sorting, "SORTED", 5), mock.patch.object(sorting, "PIECES", 8):
            for number in range(1, 30):
                names = b"".join((number * 100 + it).to_bytes(32, "big") for it in range(3))
                await sorter.note(number.to_bytes(32, "big"), File(2**25 + number, names))
        self.assertEqual((len(sorter.sizes), len(sorter.pieces)), (5, 8))

"""Places to read: no client has them all, or waits behind everything that another one reads."""
import asyncio
import collections
import contextlib
import unittest
from typing import Any, Coroutine
from unittest import mock

from walrus.network.files.file_list import NAME, PIECE, File
from walrus.network.gateway.http import errors
from walrus.network.gateway.read import manifests, reader
from walrus.network.gateway.read.listing import Lister
from walrus.network.gateway.resources import turns
from walrus.network.ledger.live_blob import Blob
from walrus.network.settings.gateway_options import Options


class Readings(unittest.IsolatedAsyncioTestCase):
    """Places of a reader, whose network returns a blob once the test allows it."""

    async def asyncSetUp(self) -> None:
        asyncio.get_running_loop().set_debug(False)
        ledger = mock.Mock(blobs=mock.MagicMock(**{"__contains__.return_value": True}))
        ledger.invalid.return_value = False
        self.reader = reader.Reader(mock.Mock(ledger=ledger), Options())
        self.lister = Lister(self.reader.network, self.reader, manifests.Shelf(self.reader))
        self.addAsyncCleanup(self.reader.close)
        self.read, self.goes_on = list[str](), collections.defaultdict[str, asyncio.Event](asyncio.Event)
        self.enterContext(mock.patch.object(self.reader.cache, "read", self.fetch))

    async def fetch(self, name: bytes, size: int) -> bytes:
        self.read.append(name.decode())
        await self.goes_on[name.decode()].wait()
        return b"no folder"

    async def have(self, whom: str, name: str) -> None:
        turns.ASKING.set(whom)
        async with self.reader.blob(name.encode()):
            pass

    async def settle(self, *asked: Coroutine[Any, Any, Any]) -> "list[asyncio.Task[Any]]":
        """Begins these reads one after the other, and lets all tasks run as far as they can."""
        begun = [asyncio.create_task(it) for it in asked]
        for it in begun:
            self.addCleanup(it.cancel)
        for _ in range(50):
            await asyncio.sleep(0)
        return begun

    async def test_a_place_is_held_while_a_blob_is_read_however_long_one_waited_for_it(self) -> None:
        loop, passed = asyncio.get_running_loop(), 0.0
        usual = loop.time
        self.enterContext(mock.patch.object(loop, "time", lambda: usual() + passed))
        self.reader.readings = turns.Turns(1, 1)
        async with self.reader.readings.take("b"):
            (first,) = await self.settle(self.have("a", "first"))
            passed += turns.WAITING - 10
            await self.settle()
        (second,) = await self.settle(self.have("a", "second"))
        passed += turns.WAITING - 10
        await self.settle()
        self.assertEqual(self.read, ["first"])
        self.goes_on["first"].set()
        self.goes_on["second"].set()
        await asyncio.gather(first, second)
        self.assertEqual(self.read, ["first", "second"])

    async def test_many_who_wait_for_one_blob_have_one_place(self) -> None:
        await self.settle(*(self.have(whom, "slow") for whom in "ab" * 8))
        await self.settle(self.have("c", "other"))
        self.assertEqual(self.read, ["slow", "other"])

    async def test_no_folder_waits_behind_the_blobs_that_another_one_asks_for(self) -> None:
        made = manifests.Shelf(self.reader)
        self.addAsyncCleanup(made.close)

        async def open_folder(whom: str, name: str) -> None:
            turns.ASKING.set(whom)
            with contextlib.suppress(errors.Problem):  # it is none
                await made.manifest(name.encode())

        await self.settle(*(self.have("a", str(it)) for it in range(40)))
        self.assertEqual(len(self.read), 8)
        self.goes_on["folder of a"].set()
        await self.settle(open_folder("a", "folder of a"), open_folder("b", "folder of b"))
        self.assertEqual(self.read[8:], ["folder of a", "folder of b"])

    async def test_who_asks_for_many_lengths_leaves_the_shards_to_others(self) -> None:
        """Exchanges with a shard share a few lanes, in the order in which they arrive."""
        asked, known = list[bytes](), self.reader.lengths.known

        async def ask(name: bytes) -> int:
            asked.append(name)
            await self.goes_on["length"].wait()
            return 9

        async def look(whom: str, number: int) -> Any:
            turns.ASKING.set(whom)
            return await self.reader.length_alone(mock.Mock(method="HEAD", headers={}), number.to_bytes(32, "big"))

        self.enterContext(mock.patch.object(self.reader.lengths, "ask", ask))
        begun = await self.settle(*(look("a", it) for it in range(20)), look("b", 20))
        self.assertEqual((len(asked), asked[-1][-1]), (9, 20))
        known[bytes(32)] = 7
        self.assertEqual(await look("a", 0), 7)  # what is known needs no place
        self.goes_on["length"].set()
        self.assertEqual(await asyncio.gather(*begun), [9] * 21)

    async def test_what_is_read_ahead_leaves_a_place_for_what_is_wanted_now(self) -> None:
        await self.settle(*(self.have("a", str(it)) for it in range(5)))
        turns.ASKING.set("a")
        self.reader.read_ahead((f"piece {it}".encode(), 9, 0, 9) for it in range(4))
        await self.settle(self.have("a", "now"))
        self.assertEqual(self.read[5:], ["piece 0", "piece 1", "now"])
        self.assertEqual([it.waiting for it in self.reader.readings.own.values()], [{}])  # but for places

    async def test_more_time_for_a_list_of_many_blobs_holds_up_nobody(self) -> None:
        ledger, count, had = self.reader.network.ledger, 20_000, 0
        ledger.writing_epoch, ledger.certificate.return_value, ledger.planned.return_value = 0, (0, 4), None
        ledger.blobs.__getitem__.return_value = Blob(9, "publisher")
        listed = File(count * PIECE, b"".join(it.to_bytes(NAME, "big") for it in range(count))).listed()
        self.enterContext(mock.patch.object(self.reader.cache, "read", mock.AsyncMock(return_value=listed)))
        self.enterContext(mock.patch.object(self.reader.lengths, "ask", mock.AsyncMock(return_value=PIECE)))
        extending = asyncio.create_task(self.lister.extend(b"listed".ljust(NAME), 5, mock.Mock()))
        while not extending.done():
            await asyncio.sleep(0)
            had += 1
        self.assertEqual((await extending)["endEpoch"], 9)
        self.assertGreater(had, 2 * count // manifests.TOGETHER)  # turns of others

"""What clients cost a gateway that read no replies, invent names, or ask for the same again."""
import asyncio
import collections
import hashlib
import importlib.util
import socket
import tracemalloc
import unittest
from typing import Any
from unittest import mock

from support.folder_case import manifest_of
from support.guard_case import GuardCase
from support.http_case import DRAWN
from support.ledger_case import registration
from support.slow_requests_case import Coming
from walrus.network.files.file_list import NAME, PIECE, File
from walrus.network.files.manifest import MARK, Place
from walrus.network.gateway.http import errors
from walrus.network.gateway.read import listing, manifests, reader
from walrus.network.gateway.resources import turns
from walrus.network.gateway.status import watch
from walrus.network.ledger.live_blob import Blob
from walrus.network.settings.gateway_options import Options


class Unread(Coming):
    async def asyncSetUp(self) -> None:
        await super().asyncSetUp()
        self.enterContext(mock.patch.multiple(reader, SILENCE=600.0, GRACE=600.0))  # keeps them connected

    async def unread(self, path: str, count: int) -> None:
        """Opens connections that ask for something and read nothing of it, with small buffers in the system."""
        loop, there = asyncio.get_running_loop(), len(self.served())
        asking = [socket.socket() for _ in range(count)]
        for it in asking:
            self.addCleanup(it.close)
            it.setblocking(False)
            it.setsockopt(socket.SOL_SOCKET, socket.SO_RCVBUF, 4_096)
            await loop.sock_connect(it, ("127.0.0.1", self.port))
        await self.until(lambda: len(self.served()) == there + count)
        for made in self.served():
            made.transport.get_extra_info("socket").setsockopt(socket.SOL_SOCKET, socket.SO_SNDBUF, 4_096)
        for it in asking:
            await loop.sock_sendall(it, self.head(f"GET {path}"))

    def waiting(self) -> int:
        """Returns the connections that have something to read."""
        return sum(bool(it.transport and it.transport.get_write_buffer_size()) for it in self.served())

    async def test_of_what_nobody_reads_little_is_in_memory(self) -> None:
        """Otherwise one address takes gigabytes: in lists of folders, quotation marks take nine times their bytes."""
        await self.start(requests=0)
        made = MARK + b"".join(b'"' * 250 + b"%05d\ta/b\t0\t-\n" % it for it in range(10_000))
        name = hashlib.sha256(made).hexdigest()
        self.files[name], path = made, f"/v1/folders/{name}/"
        status, _, body = await self.ask("GET", path)
        self.assertEqual((status, b" alone: the manifest names all." in body), (200, True))
        self.assertLess(len(body), 2_200_000)
        _, headers, told = await self.ask("GET", path, headers={"Accept": "application/json"})
        self.assertEqual((told["complete"], told["entries"][1]["name"]), (False, '"' * 250 + "00001"))
        self.assertLess(int(headers["content-length"]), 2_200_000)
        text = b" " * 1_000_000
        self.enterContext(mock.patch.object(self.gateway.watch, "status_text", lambda: text))
        tracemalloc.start()
        self.addCleanup(tracemalloc.stop)
        for number, asked in enumerate((path, "/v1/status"), 1):
            await self.unread(asked, 6)
            await self.until(lambda: self.waiting() == 6 * number)
            self.assertLess(tracemalloc.get_traced_memory()[0], 6 * number * 600_000)

    async def test_of_one_who_reads_none_there_are_few_lists(self) -> None:
        alice = self.token("alice")
        self.token("anyone", "read")
        await self.start(requests=0)
        await self.publisher.post(registration("publisher", 7))
        name = (7).to_bytes(NAME, "big")
        self.assertTrue(await self.network.until(lambda it: name in it.blobs))
        with mock.patch.object(listing, "ending", mock.AsyncMock(return_value=[name] * 1_000)) as made:
            await self.unread("/v1/blobs", 40)
            await self.until(lambda: self.waiting() == 32)
            await asyncio.sleep(0.3)
            self.assertEqual((made.await_count, self.waiting()), (32, 32))
            self.assertEqual(len((await self.ask("GET", "/v1/blobs", headers=alice))[2]["blobs"]), 1_000)


class Again(GuardCase):
    @unittest.skipUnless(importlib.util.find_spec("prometheus_client"), "python3-prometheus-client is not here")
    async def test_numbers_are_made_once_for_all_who_ask_at_once(self) -> None:
        from walrus.network.service import metrics

        self.enterContext(mock.patch.object(watch, "FRESH", 60.0))
        await self.start()
        with mock.patch.object(metrics, "told", side_effect=metrics.told) as made:
            found = {(await self.ask("GET", "/metrics"))[2] for _ in range(20)}
            self.assertEqual((len(found), made.call_count), (1, 1))
            self.gateway.watch.metered = (-61.0, b"")
            self.assertIn(b"walrus_epoch", (await self.ask("GET", "/metrics"))[2])
            self.assertEqual(made.call_count, 2)

    async def test_no_cache_keeps_why_a_request_is_not_done(self) -> None:
        await self.start()
        self.files["1" * 64] = b"data"
        self.files["2" * 64] = manifest_of(Place("a", "a/b", 4, bytes.fromhex("1" * 64)))
        for path in (f"/v1/blobs/{'1' * 64}", f"/v1/folders/{'2' * 64}/a"):
            for headers, status in (({"If-Match": '"x"'}, 412), ({"Range": "bytes=9-"}, 416)):
                found, told, _ = await self.ask("GET", path, headers=headers)
                self.assertEqual((found, told["cache-control"]), (status, "no-store"), path)
            self.assertIn("immutable", (await self.ask("GET", path))[1]["cache-control"])


class Longer(unittest.IsolatedAsyncioTestCase):
    """Keeping files and folders for longer. Blobs in `files` and those that `standing` names are certified."""

    async def asyncSetUp(self) -> None:
        asyncio.get_running_loop().set_debug(False)
        self.files, self.standing = dict[bytes, bytes](), set[bytes]()
        ledger = mock.Mock(blobs=mock.MagicMock(), writing_epoch=0)
        ledger.blobs.__contains__.side_effect = lambda name: name in self.files or name in self.standing
        ledger.blobs.__getitem__.return_value = Blob(1, "publisher")
        ledger.invalid.return_value, ledger.certificate.return_value, ledger.planned.return_value = False, (0, 4), None
        self.reader = reader.Reader(mock.Mock(ledger=ledger, register=self.register), Options())
        self.addAsyncCleanup(self.reader.close)
        self.enterContext(mock.patch.object(self.reader.cache, "read", self.fetch))
        self.enterContext(mock.patch.object(self.reader.lengths, "of_blob", mock.AsyncMock(return_value=PIECE)))
        self.shelf = manifests.Shelf(self.reader)
        self.addAsyncCleanup(self.shelf.close)
        self.lister = listing.Lister(self.reader.network, self.reader, self.shelf)
        self.registered, self.goes_on = collections.Counter[str](), asyncio.Event()

    async def fetch(self, name: bytes, _: int) -> bytes:
        return self.files.get(name, b"a piece")

    async def register(self, *_: object) -> None:
        self.registered[turns.ASKING.get()] += 1
        await self.goes_on.wait()

    async def extend(self, whom: str, name: bytes) -> Any:
        turns.ASKING.set(whom)
        return await self.lister.extend(name, 5, mock.Mock())

    def keep(self, data: bytes) -> bytes:
        name = hashlib.sha256(data).digest()
        self.files[name] = data
        return name

    def keep_list(self, count: int, first: int = 0) -> bytes:
        """Makes a list of this many certified blobs."""
        names = [it.to_bytes(NAME, "big") for it in range(first, first + count)]
        self.standing |= {*names}
        return self.keep(File(count * PIECE, b"".join(names)).listed())

    async def test_invented_names_take_no_memory(self) -> None:
        """Otherwise a few requests of a client that may store take gigabytes."""
        count, lines = 100_000, 50_000
        listed = self.keep(File(count * PIECE, DRAWN.randbytes(count * NAME)).listed())
        folder = self.keep(manifest_of(*(Place(f"{it:05}", "a/b", 1, DRAWN.randbytes(NAME)) for it in range(lines))))
        await self.shelf.manifest(folder)
        for name in (listed, folder):
            tracemalloc.start()
            try:
                with self.assertRaises(errors.Problem) as caught:
                    await self.extend("a", name)
                most = tracemalloc.get_traced_memory()[1]
            finally:
                tracemalloc.stop()
            self.assertEqual(caught.exception.status, 404)
            self.assertLess(most, 1_000_000)

    async def test_of_what_has_many_blobs_little_is_kept_for_longer_at_once(self) -> None:
        self.enterContext(mock.patch.object(listing, "SHORT", 4))
        lists = [self.keep_list(6, first) for first in (0, 10, 20, 30)]
        few = self.keep_list(2, 40)
        begun = [*zip("aabc", lists), ("c", few)]
        tasks = [asyncio.create_task(self.extend(*it)) for it in begun]
        async with asyncio.timeout(60):
            while self.registered.total() < 14:
                await asyncio.sleep(0.01)
            await asyncio.sleep(0.1)
        self.assertEqual(self.registered, {"a": 6, "b": 6, "c": 2})  # the lists themselves come last
        self.goes_on.set()
        await asyncio.gather(*tasks)
        self.assertEqual(self.registered, {"a": 14, "b": 7, "c": 10})

    async def test_what_has_more_blobs_than_the_longest_file_is_refused(self) -> None:
        self.enterContext(mock.patch.multiple(listing, SHORT=4, MOST_BLOBS=7))
        self.goes_on.set()
        await self.extend("a", self.keep_list(6))
        longer = self.keep_list(7)
        folder = self.keep(manifest_of(*(Place(str(it), "a/b", PIECE + 1, longer) for it in range(3))))
        for name in (longer, folder):
            with self.assertRaises(errors.Problem) as caught:
                await self.extend("a", name)
            self.assertEqual((caught.exception.status, self.registered["a"]), (413, 7))

"""Lists and manifests that are long, malformed or on a slow disk delay nobody else."""
import asyncio
import concurrent.futures
import gc
import os
import threading
import weakref
from typing import Any
from unittest import mock

from support.folder_case import manifest_of
from support.harm_case import HarmCase
from support.ledger_case import registration
from walrus.network.files.file_list import MARK as LIST, PIECE
from walrus.network.files.manifest import MARK, Place
from walrus.network.files.sealed import Sealed
from walrus.network.gateway import folders
from walrus.network.gateway.http import errors
from walrus.network.gateway.read import listing, manifests
from walrus.network.peers.network import Network


class Pieces(HarmCase):
    async def test_the_list_of_a_file_is_given_as_its_blob_has_it(self) -> None:
        await self.start()
        listed = LIST + (PIECE + 1).to_bytes(8, "big") + bytes(32) + bytes([1] * 32)
        name = self.keep(listed)
        status, headers, body = await self.ask("GET", f"/v1/lists/{name}")
        self.assertEqual((status, body, headers["etag"]), (200, listed, f'"{name}/list"'))
        self.assertIn("immutable", headers["cache-control"])
        self.assertEqual((await self.ask("HEAD", f"/v1/lists/{name}"))[1]["content-length"], "88")
        found = await self.ask("GET", f"/v1/lists/{name}", headers={"If-None-Match": headers["etag"]})
        self.assertEqual(found[0], 304)
        status, _, told = await self.ask("GET", f"/v1/lists/{self.keep(b'one blob')}")
        self.assertEqual(status, 404)
        self.assertIn("is one blob, and has no list", told["error"]["text"])


class Lists(HarmCase):
    async def test_of_a_malformed_manifest_nothing_stays_but_why(self) -> None:
        """Otherwise each keeps as much of the disk as it had, and 128 are kept."""
        await self.start()
        made = list["weakref.ref[Sealed]"]()

        class File(Sealed):
            def __init__(self, *words: Any) -> None:
                super().__init__(*words)
                made.append(weakref.ref(self))

        for front in (MARK, b"none"):
            name = self.keep(front + bytes(70_000))
            with mock.patch.object(manifests, "Sealed", File):
                found = [(await self.ask("GET", f"/v1/folders/{name}/"))[0] for _ in range(2)]
            self.assertEqual(found, [410 if front == MARK else 404] * 2)
            self.assertIn(bytes.fromhex(name), self.gateway.shelf.none)
        gc.collect()
        self.assertEqual([it() for it in made], [None])  # what does not begin as a manifest is not copied

    async def test_a_disk_that_is_slow_with_a_manifest_holds_up_nobody(self) -> None:
        await self.start()
        name, wrote = self.keep(MARK + b"".join(b"%08d\ta/b\t0\t-\n" % it for it in range(9_000))), list[int]()
        read, usual = list[int](), {"pwrite": os.pwrite, "pread": os.pread}

        def pwrite(*words: Any) -> int:
            wrote.append(threading.get_ident())
            return usual["pwrite"](*words)

        def pread(*words: Any) -> Any:
            read.append(threading.get_ident())
            return usual["pread"](*words)

        with mock.patch.multiple(os, pwrite=pwrite, pread=pread):
            status, _, told = await self.ask("GET", f"/v1/folders/{name}/", headers={"Accept": "application/json"})
        self.assertEqual((status, len(told["entries"])), (200, 9_000))
        self.assertGreaterEqual(len(wrote), 2)  # the manifest, and the list
        self.assertGreaterEqual(len(read), 2)
        self.assertNotIn(threading.main_thread().ident, [*wrote, *read])

    async def test_long_lists_of_folders_are_made_beside_what_others_ask(self) -> None:
        await self.start()
        made = manifest_of(*(Place(f"{it:05}", "a/b", 0, b"") for it in range(10_000)))
        path, usual, running, found = f"/v1/folders/{self.keep(made)}/", folders.listing, list[int](), list[int]()

        def listing(*words: Any) -> Any:
            running.append(threading.get_ident())
            found.append(len(running))
            self.assertNotEqual(running[-1], threading.main_thread().ident)
            try:
                return usual(*words)
            finally:
                running.pop()

        with mock.patch.object(folders, "listing", listing):
            told = await asyncio.gather(*(self.ask("GET", path) for _ in range(4)))
        self.assertEqual([status for status, _, _ in told], [200] * 4)
        self.assertEqual(found, [1] * 4)  # one client's are made one at a time

    async def test_long_lists_leave_the_threads_that_encode_to_stores(self) -> None:
        self.token("anyone")
        askers = [self.token(it) for it in ("alice", "bob")]
        self.network = await self.enterAsyncContext(Network(self.folder, kept=True))
        await self.start()
        made = manifest_of(*(Place(f"{it:05}", "a/b", 0, b"") for it in range(10)))
        path, running, goes_on = f"/v1/folders/{self.keep(made)}/", list[int](), threading.Event()
        self.addCleanup(goes_on.set)
        encoding = concurrent.futures.ThreadPoolExecutor(2)
        self.addCleanup(encoding.shutdown)
        self.enterContext(mock.patch.object(self.network.walrus, "pool", encoding))
        self.assertEqual((await self.ask("GET", path))[0], 200)  # the manifest is known from here on

        def wait(*_: object) -> Any:
            running.append(threading.get_ident())
            goes_on.wait(60)
            raise errors.Problem(503, "it has waited")

        self.enterContext(mock.patch.object(folders, "listing", wait))
        self.enterContext(mock.patch.object(listing, "ending_of", wait))
        asked = [asyncio.create_task(self.ask("GET", it, headers=by)) for it in (path, "/v1/blobs") for by in askers]
        async with asyncio.timeout(60):
            while len(running) < 4:
                await asyncio.sleep(0.01)
            await asyncio.get_running_loop().run_in_executor(encoding, int)
        goes_on.set()
        self.assertEqual([status for status, _, _ in await asyncio.gather(*asked)], [503] * 4)

    async def test_a_list_that_goes_over_all_blobs_holds_up_nobody(self) -> None:
        self.network, ran = await self.enterAsyncContext(Network(self.folder, kept=True)), list[str]()
        await self.start()
        self.network.state.base.set_trace_callback(ran.append)
        path, names = "/v1/blobs?within=9&after=", list[str]()
        for number in (7, 3):
            await self.publisher.post(registration("publisher", number))
            names = sorted([*names, number.to_bytes(32, "big").hex()])
            self.assertTrue(await self.network.until(lambda it: bytes.fromhex(names[0]) in it.blobs))
            status, _, told = await self.ask("GET", path)
            self.assertEqual((status, [it["blobId"] for it in told["blobs"]]), (200, names))
        self.assertEqual((await self.ask("GET", path + "f" * 64))[2]["blobs"], [])
        self.assertEqual([it for it in ran if "identifier >" in it and "until <=" in it], [])
        names, had = [bytes.fromhex(names[0])] * 1_000, [0]
        request: Any = mock.MagicMock(query={})
        made = {"ending": mock.AsyncMock(return_value=names), "send_text": mock.AsyncMock()}
        with mock.patch.multiple(listing, **made):
            making = asyncio.create_task(self.gateway.lister.list(request))
            while not making.done():
                await asyncio.sleep(0)
                had[0] += 1
        self.assertGreater(had[0], 1_000 // listing.FEW)  # turns of others
        self.network.state.base.set_trace_callback(None)

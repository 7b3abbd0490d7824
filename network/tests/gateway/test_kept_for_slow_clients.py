"""What is kept at a gateway for who takes it slowly, and of what was found to be of no use."""
import asyncio
import pathlib
import ssl
import tempfile
import tracemalloc
import unittest
import weakref
from typing import Any
from unittest import mock

from walrus import client
from walrus.network.files.file_list import NAME, File
from walrus.network.files.manifest import Place
from walrus.network.gateway import app, folders
from walrus.network.gateway.read import manifests, reader
from walrus.network.gateway.resources import turns
from walrus.network.service import certificates
from walrus.network.settings.gateway_options import Options
from walrus.wire import connection


class Keeping(unittest.IsolatedAsyncioTestCase):
    """A reader whose network has whatever it is asked for."""

    async def asyncSetUp(self) -> None:
        asyncio.get_running_loop().set_debug(False)
        ledger = mock.Mock(blobs=mock.MagicMock(**{"__contains__.return_value": True}))
        ledger.invalid.return_value = False
        self.reader = reader.Reader(mock.Mock(ledger=ledger), Options())
        self.addAsyncCleanup(self.reader.close)

    async def test_who_takes_small_blobs_slowly_keeps_few_of_them_from_being_dropped(self) -> None:
        """Of each byte in memory 64 count, so that 126 of these take all the room that there is."""
        takes, sent = asyncio.Event(), list[str]()
        self.addCleanup(takes.set)
        self.enterContext(mock.patch.object(self.reader.cache, "read", mock.AsyncMock(return_value=bytes(262_144))))

        async def send(whom: str, number: int) -> None:
            async def write(_: object) -> None:
                sent.append(whom)
                await takes.wait()

            turns.ASKING.set(whom)
            file = File(262_144, number.to_bytes(NAME, "big"))
            await self.reader.send_span(reader.Pace(), mock.Mock(write=write), file, (0, 262_144), whom, [])

        begun = [asyncio.create_task(send("slow", it)) for it in range(200)]
        begun += [asyncio.create_task(send("other", it)) for it in range(200, 230)]
        for it in begun:
            self.addCleanup(it.cancel)
        async with asyncio.timeout(30):
            while sent.count("other") < 30 or sent.count("slow") < 32 + 8:
                await asyncio.sleep(0.001)
        for _ in range(200):
            await asyncio.sleep(0)
        self.assertEqual(sent.count("slow"), 32 + 8)
        takes.set()
        await asyncio.gather(*begun)
        self.assertEqual((len(sent), self.reader.together.groups, self.reader.together.small), (230, {}, {}))

    async def test_of_what_is_known_to_be_no_bundle_no_words_of_shards_are_kept(self) -> None:
        """There may be a thousand shards, and a name for each number of each blob."""
        said = {it: "no whole reply within 30 s" for it in range(1_000)}
        fault = client.NoBundle(3, b"bad index", said, client.Code.BAD_INDEX)
        self.enterContext(mock.patch.object(self.reader.cache, "read", mock.AsyncMock(side_effect=fault)))
        with self.assertRaises(client.NoBundle):
            async with self.reader.blob(b"none"):
                self.fail("it is a bundle")
        [entry] = self.reader.cache.entries.values()
        kept: Any = entry.task.exception()
        self.assertEqual((kept.text, kept.code, kept.said), (b"bad index", client.Code.BAD_INDEX, {}))

    async def test_who_takes_a_file_slowly_does_not_keep_its_folder_s_manifest(self) -> None:
        made, seen = list["weakref.ref[Any]"](), list[object]()

        class Manifest:
            data = b""

            def find(self, path: str) -> Place:
                return Place(path, "text/plain", 0, b"")

        async def manifest(name: bytes) -> Manifest:
            made.append(weakref.ref(found := Manifest()))
            return found

        async def send(*_: object) -> None:
            seen.extend(it() for it in made)

        kept = manifests.Shelf(self.reader)
        found = folders.Folders(self.reader, mock.Mock(), kept, "")
        with mock.patch.object(found, "send", send), mock.patch.object(kept, "manifest", manifest):
            await found.answer(mock.Mock(), bytes(NAME), "a", {})
        self.assertEqual(seen, [None, None])

    async def test_a_client_that_says_nothing_over_tls_takes_little_memory(self) -> None:
        """An address may have 300 connections, and no byte of theirs counts as the gateway's memory."""
        folder, connections = pathlib.Path(self.enterContext(tempfile.TemporaryDirectory())), 20
        certificates.make_authority(folder / "authority")
        certificates.make(folder / "gateway", folder / "authority", "gateway", ["gateway"])
        own = app.Certificate(str(folder / "gateway.crt"), str(folder / "gateway.key")).context
        others = ssl.create_default_context(cafile=str(folder / "authority.crt"))
        server = await asyncio.get_running_loop().create_server(asyncio.Protocol, "127.0.0.1", 0, ssl=own)
        self.addCleanup(server.close)
        tracemalloc.start()
        self.addCleanup(tracemalloc.stop)
        before, _ = tracemalloc.get_traced_memory()
        for _ in range(connections):
            wired = await connection.connect(*server.sockets[0].getsockname(), ssl=others, server_hostname="gateway")
            self.addCleanup(wired.transport.abort)
        after, _ = tracemalloc.get_traced_memory()
        self.assertLess((after - before) / connections, 2 * 131_072)  # both ends are here

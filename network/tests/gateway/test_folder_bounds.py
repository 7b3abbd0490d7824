"""Folders over HTTP within bounds: shares of tokens, turns, lengths, and the reserve of the disk."""
import asyncio
import contextlib
import functools
import os
import sqlite3
import time
import types
import unittest
import unittest.mock
from typing import Any

from support.folder_case import form_of, site, tar_of
from support.folder_gateway_case import TAR, FolderGatewayCase
from walrus import client
from walrus.network.gateway.resources import turns
from walrus.network.gateway.write import folder_upload, writer as chunks


def disk(descriptor: int) -> types.SimpleNamespace:
    """A disk of 2,000,000 bytes, of which a twentieth stays free, with this file and others."""
    taken = os.fstat(descriptor).st_size
    return types.SimpleNamespace(f_frsize=2, f_blocks=1_000_000, f_bavail=(900_000 - taken) // 2)


class Bounds(FolderGatewayCase):
    async def test_a_folder_counts_on_the_share_of_its_token(self) -> None:
        shown = self.token("one", "read,store", bytes=100_000, blobs=4)
        poor = self.token("poor", "read,store", bytes=3_000)
        reader = self.token("reader", "read")
        await self.start()
        await self.put_folder(tar_of({"a": b"x" * 50_000}), headers=shown)
        [(size, blobs)] = self.gateway.publisher.shares.base.execute("SELECT bytes, blobs FROM used").fetchall()
        self.assertEqual((size, blobs), (50_000 + len(self.stored[-1]), 2))
        told = await self.put_folder(tar_of({"a": b"y" * 60_000}), 403, headers=shown)
        self.assertIn("one has used", told["error"]["text"])
        await self.put_folder(tar_of({"a": b"x"}), 403, headers=reader)
        await self.put_folder(tar_of({"a": b"x"}), 401)

        async def endless() -> Any:  # its length is not announced
            yield tar_of({"a": b"z" * 600_000})

        count = len(self.stored)
        found = await self.ask("PUT", "/v1/folders?epochs=5", data=endless(), headers={**poor, **TAR})
        self.assertEqual((found[0], len(self.stored)), (403, count))
        self.was_there = True
        used = self.gateway.publisher.shares.used("one", 0)
        await self.put_folder(tar_of({"a": b"x" * 30_000}), 200, headers=shown)
        self.assertEqual(self.gateway.publisher.shares.used("one", 0), used)

    async def test_a_name_counts_on_the_share_of_its_token(self) -> None:
        shown, poor = self.token("one", bytes=10_000, blobs=4), self.token("poor", blobs=1)
        await self.start()
        path = "/v1/blobs?epochs=5&filename=a"
        self.assertEqual((await self.ask("PUT", path, data=bytes(700), headers=shown))[0], 201)
        used = 700 + len(self.stored[-1]), 2
        self.assertEqual(self.used("one"), used)
        self.assertEqual((await self.ask("PUT", path, data=bytes(700), headers=poor))[0], 403)
        self.assertEqual((self.used("poor"), len(self.stored)), ((0, 0), 2))
        headers = {**shown, "Repr-Digest": f"sha-256=:{'A' * 43}=:"}  # of other bytes
        for data in (bytes(900), b""):
            self.assertEqual((await self.ask("PUT", path, data=data, headers=headers))[0], 400)
            self.assertEqual((self.used("one"), len(self.stored)), (used, 2))
        self.was_there = True
        for data in (bytes(700), b""):
            self.assertEqual((await self.ask("PUT", path, data=data, headers=shown))[0], 200)
            self.assertEqual(self.used("one"), used)

    async def test_a_few_folders_come_at_once(self) -> None:
        await self.start()
        busy, others = self.gateway.folders.turns, [f"address 192.0.2.{it}" for it in range(folder_upload.AT_ONCE)]
        for own in (others, ["address 127.0.0.1"] * (folder_upload.AT_ONCE // turns.PARTS)):
            async with contextlib.AsyncExitStack() as stack:
                for it in own:
                    await self.put_folder(b"no tar", 400)  # it gives its turn back
                    await stack.enter_async_context(busy.take(it))
                with unittest.mock.patch.object(turns, "WAITING", 0.1):
                    self.assertIn("too much to do", (await self.put_folder(tar_of(site()), 503))["error"]["text"])
                    if own is not others:  # a client that uses all of its part keeps nobody else away
                        await stack.enter_async_context(busy.take("address 192.0.2.1"))
            await self.put_folder(tar_of(site()))

    async def test_a_tar_of_deep_paths_costs_little_and_lets_others_go_on(self) -> None:
        await self.start()
        files = {f"{number:04}/" + "a/" * 500 + "b": b"" for number in range(300)}
        made, begun = tar_of(files), time.process_time()
        waiting, turned = asyncio.create_task(self.put_folder(made)), 0
        while not waiting.done():
            await asyncio.sleep(0)
            turned += 1
        told = await waiting
        self.assertEqual(told["folder"]["files"], 300)
        self.assertLess(time.process_time() - begun, 1.5)  # 500 questions for each file took four times as long
        self.assertGreater(turned, 300)

    async def test_large_files_and_small_ones_have_bounds(self) -> None:
        await self.start()
        self.enterContext(unittest.mock.patch.object(folder_upload, "SMALL", 5_000))
        self.enterContext(unittest.mock.patch.object(folder_upload, "PIECE", 50_000))
        files = {"long": bytes(300_000), "middle": b"m" * 20_000, "small": b"s" * 5_000}
        told = await self.put_folder(tar_of(files))
        self.assertIn(files["long"], self.stored)
        await self.holds(told["blobId"], files)
        kind, form = form_of(files)
        self.assertEqual((await self.put_folder(form, kind=kind))["blobId"], told["blobId"])
        broken = unittest.mock.Mock(side_effect=sqlite3.OperationalError("database or disk is full"))
        with unittest.mock.patch.object(folder_upload.Folder, "begin", broken):
            self.assertIn("disk is full", (await self.put_folder(tar_of(files), 503))["error"]["text"])

    async def test_a_file_leaves_the_reserve_of_the_disk_free(self) -> None:
        await self.start()
        self.enterContext(unittest.mock.patch.object(os, "statvfs", disk))
        for size, wanted in ((900_000, 507), (700_000, 201)):
            kind, form = form_of({"a": bytes(size)})
            status, _, told = await self.ask("POST", "/v1/bundles?epochs=1", data=form, headers={"Content-Type": kind})
            self.assertEqual((status, len(self.stored)), (wanted, int(wanted == 201)), told)
        writer, kept = self.gateway.publisher.writer, unittest.mock.AsyncMock(side_effect=client.Failed("away", {}))
        self.enterContext(unittest.mock.patch.object(writer, "store", functools.partial(chunks.Writer.store, writer)))
        self.enterContext(unittest.mock.patch.object(writer, "store_blob", kept))
        for size, wanted, said in ((900_000, 507, "has too little room on its disk"), (700_000, 503, "away")):
            status, _, told = await self.ask("PUT", "/v1/blobs?epochs=1", data=bytes(size))
            self.assertEqual((status, kept.call_count), (wanted, int(wanted == 503)), told)
            self.assertIn(said, told["error"]["text"])

    async def test_a_folder_leaves_the_reserve_of_the_disk_free(self) -> None:
        await self.start()
        self.enterContext(unittest.mock.patch.object(os, "statvfs", disk))
        for files in ({"film": bytes(800_002)}, {it: it.encode() * 300_000 for it in "abc"}):
            error = (await self.put_folder(tar_of(files), 507))["error"]
            self.assertIn("use walrus-net store FOLDER, which checks the names first", error["text"])
            kind, form = form_of(files)
            await self.put_folder(form, 507, kind)
        self.assertEqual(self.stored, [])
        files = {it: b"x" * 250_000 for it in "abcd"}  # kept once
        await self.holds((await self.put_folder(tar_of(files)))["blobId"], files)
        files = {"film": bytes(799_000)}
        await self.holds((await self.put_folder(tar_of(files)))["blobId"], files)

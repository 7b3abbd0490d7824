"""Resumable uploads by draft-ietf-httpbis-resumable-upload-05, over a store in memory."""
import asyncio
import hashlib
import json
import os
import re
import shutil
import unittest
from typing import Any
from unittest import mock

from support.guard_case import GuardCase
from support.harness import HERE
from support.upload_case import PATCH, UploadCase
from walrus.network.files.file_list import MARK


class Going(UploadCase):
    async def test_a_file_comes_in_parts_and_over_a_restart(self) -> None:
        await self.start()
        data = os.urandom(5_300)
        status, headers, _ = await self.begin(data[:300], Upload_Length="5300")
        path = headers["location"]
        told = {it: headers[it] for it in ("upload-complete", "upload-offset", "upload-length")}
        self.assertEqual((status, told), (201, dict(zip(told, ("?0", "300", "5300")))))
        self.assertRegex(headers["upload-limit"], r"^max-size=\d+, expires=86400$")
        status, headers, body = await self.go_on(path, 300, data[300:3_450])
        self.assertEqual((status, headers["upload-offset"], body), (204, "3450", b""))
        self.assertEqual((self.blobs, self.on_disk()), ([data[:1_000], data[1_000:2_000], data[2_000:3_000]], 450))
        await self.gateway.close()
        await GuardCase.start(self)
        self.take()
        self.assertEqual(await self.offset(path), 3_450)
        status, headers, told = await self.go_on(path, 3_450, data[3_450:], end=True)
        self.assertEqual((status, headers["upload-complete"], headers["upload-offset"]), (201, "?1", "5300"))
        name = self.name_of(data)
        self.assertEqual((told["blobId"], told["size"], told["pieces"]), (name, 5_300, 6))
        self.assertEqual((headers["location"], "newlyCreated" in told), (f"/v1/blobs/{name}", True))
        self.assertEqual((len(self.blobs), self.on_disk()), (7, 0))  # six pieces and their list, each once
        status, headers, known = await self.ask("GET", path)
        self.assertEqual((status, known["complete"], known["file"], known["offset"]), (200, True, told, 5_300))
        self.assertEqual((await self.go_on(path, 5_300, b"", end=True))[0], 400)

    async def test_each_length_has_the_name_that_a_put_gives(self) -> None:
        await self.start()
        for data in (b"", b"x", bytes(999), bytes(1_000), bytes(1_001), bytes(3_000), MARK + b"x", MARK + bytes(984)):
            status, headers, told = await self.begin(data, end=True)
            self.assertEqual((told["blobId"], told["size"]), (self.name_of(data), len(data)), len(data))
            _, headers, _ = await self.begin(data[:700])
            for place in range(700, len(data), 700):
                await self.go_on(headers["location"], place, data[place:][:700])
            status, _, again = await self.go_on(headers["location"], len(data), b"", end=True)
            self.assertEqual((status, again["blobId"], "alreadyCertified" in again), (200, told["blobId"], True))

    async def test_who_breaks_off_goes_on(self) -> None:
        await self.start()
        data = os.urandom(3_200)
        path = (await self.begin())[1]["location"]
        for place, cut in ((0, 1_500), (1_500, 1_700)):
            _, writer = await asyncio.open_connection("127.0.0.1", self.port)
            head = f"PATCH {path} HTTP/1.1\r\nHost: 127.0.0.1:{self.port}\r\nUpload-Offset: {place}\r\n"
            head += f"Upload-Complete: ?1\r\nContent-Type: {PATCH['Content-Type']}\r\n"
            head += f"Content-Length: {3200 - place}\r\n\r\n"
            writer.write(head.encode() + data[place:cut])
            await self.comes(path, cut)
            if place:  # the second stays, like a connection whose client is gone
                self.assertEqual(await self.offset(path), cut)
            writer.transport.abort()
        self.assertEqual((await self.ask("GET", path))[2]["stored"], [hashlib.sha256(data[:1_000]).hexdigest()])
        status, _, told = await self.go_on(path, 1_700, data[1_700:], end=True)
        self.assertEqual((status, told["blobId"], self.blobs[0]), (201, self.name_of(data), data[:1_000]))
        self.assertEqual(len(self.blobs), 5)

    async def test_it_is_told_at_once_where_an_upload_goes_on(self) -> None:
        await self.start()
        reader, writer = await asyncio.open_connection("127.0.0.1", self.port)
        head = (
            f"POST /v1/uploads?epochs=5 HTTP/1.1\r\nHost: 127.0.0.1:{self.port}\r\nUpload-Draft-Interop-Version: 6\r\n"
        )
        writer.write(f"{head}Upload-Complete: ?1\r\nContent-Length: 9\r\n\r\n".encode() + b"part")
        async with asyncio.timeout(120):
            said = (await reader.readuntil(b"\r\n\r\n")).decode()
        self.assertEqual(said.partition("\r\n")[0], "HTTP/1.1 104 Upload Resumption Supported")
        told = dict(line.split(": ", 1) for line in said.split("\r\n")[1:] if line)
        self.assertEqual(told["Upload-Draft-Interop-Version"], "6")
        await self.comes(told["Location"], 4)
        writer.transport.abort()
        self.assertEqual(await self.offset(told["Location"]), 4)
        self.assertEqual((await self.go_on(told["Location"], 4, b" more", end=True))[0], 201)
        self.assertEqual(self.blobs, [b"part more"])

    async def test_nodes_that_are_away_cost_no_second_transfer(self) -> None:
        await self.start()
        data = os.urandom(2_500)
        path = (await self.begin(data[:1_000]))[1]["location"]
        self.away = "2 shards acknowledge"
        status, headers, told = await self.go_on(path, 1_000, data[1_000:], end=True)
        self.assertEqual((status, headers["upload-offset"]), (503, "2500"))
        first = hashlib.sha256(data[:1_000]).hexdigest()
        self.assertEqual((told["error"]["stored"], told["error"]["storedPieces"]), ([first], 1))
        self.away = ""
        status, _, told = await self.go_on(path, 2_500, b"", end=True)
        self.assertEqual((status, told["blobId"], len(self.blobs)), (201, self.name_of(data), 4))

    async def test_nodes_that_stay_away_fill_no_disk(self) -> None:
        await self.start()
        path = (await self.begin())[1]["location"]
        self.away, offset = "no shard acknowledges it", 0
        for _ in range(6):
            status, headers, _ = await self.go_on(path, offset, bytes(1_500))
            self.assertIn(status, (204, 503))
            offset = int(headers["upload-offset"])
        self.assertLessEqual(self.on_disk(), 3_000)
        self.away = ""
        status, headers, _ = await self.go_on(path, offset, b"", end=True)
        self.assertEqual((status, self.on_disk()), (201, 0))

    async def test_what_is_over_is_dropped(self) -> None:
        await self.start()
        path = (await self.begin(b"12345"))[1]["location"]
        with mock.patch.object(type(self.network.ledger), "writing_epoch", 5):
            self.assertEqual((await self.go_on(path, 5, b"6"))[0], 410)
        self.assertEqual((await self.ask("GET", path))[0], 404)

    async def test_only_a_few_pieces_are_on_the_disk(self) -> None:
        await self.start()
        most, gate = 0, asyncio.Event()
        true = self.store_blob

        async def slow(blob: bytes, until: int) -> tuple[bytes, bool]:
            await gate.wait()
            return await true(blob, until)

        async def parts():  # type: ignore[no-untyped-def]
            for _ in range(20):
                yield os.urandom(500)

        with mock.patch.object(self.gateway.publisher.writer, "store_blob", slow):
            path = (await self.begin())[1]["location"]
            sending = asyncio.create_task(self.go_on(path, 0, parts()))
            await asyncio.sleep(0.3)
            most = self.on_disk()
            gate.set()
            self.assertEqual((await sending)[0], 204)
        self.assertEqual((most <= 3_500, self.on_disk(), len(self.blobs)), (True, 0, 10), most)


@unittest.skipUnless(shutil.which("curl"), "curl is not here (network/install --tests)")
class Example(UploadCase):
    """The commands of HTTP.md."""

    size = 16_777_216

    async def run_line(self, line: str, breaks: str = "") -> str:
        """Returns the output of a command; if its upload is to break, it is killed once some data has arrived."""
        line = line.replace("http://127.0.0.1:31415", self.url).replace("FILE", str(self.folder / "file"))
        line = ("exec " if breaks else "") + line.replace("curl ", "curl -q -s ")
        pipes: Any = {"stdout": asyncio.subprocess.PIPE, "stderr": asyncio.subprocess.STDOUT}
        process = await asyncio.create_subprocess_shell(line, **pipes)
        if breaks:
            await self.comes(breaks, 1)
            process.kill()
        return (await process.communicate())[0].decode()

    async def test_curl_goes_on(self) -> None:
        await self.start()
        page = (HERE.parent / "HTTP.md").read_text().partition("## Uploads that go on")[2].partition("\n## ")[0]
        begin, send, look, rest = [it[2:] for it in page.splitlines() if it.startswith("$ ")]
        data = os.urandom(50_000_000)
        (self.folder / "file").write_bytes(data)
        said = await self.run_line(begin)
        self.assertTrue(said.startswith("HTTP/1.1 201 Created"), said)
        for name in ("Upload-Offset: 0", "Upload-Complete: ?0", "Upload-Length: 50000000"):
            self.assertIn(f"\r\n{name}\r\n", said)
        found = re.search(r"Location: (/v1/uploads/\S+)\r\n", said)
        assert found
        send, look, rest = [it.replace("/v1/uploads/5e…c1", found[1]) for it in (send, look, rest)]
        await self.run_line(send.replace("curl ", "curl --limit-rate 9M "), found[1])
        said = await self.run_line(look)
        offset = int(re.findall(r"Upload-Offset: (\d+)\r\n", said)[0])
        self.assertTrue(0 < offset < 50_000_000, said)
        said = await self.run_line(rest.replace("33685505", str(offset + 1)).replace("33685504", str(offset)))
        self.assertEqual(json.loads(said)["blobId"], self.name_of(data))

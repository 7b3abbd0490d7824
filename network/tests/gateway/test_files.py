"""Files in and out with curl: their lengths, ranges and conditions, and many readers at once."""
import asyncio
import email
from unittest import mock

from support.http_case import DRAWN, MARK, PIECE, GatewayCase
from walrus import client
from walrus.network.files import file_list
from walrus.network.files.file_list import File
from walrus.network.peers.engine import find_program

SMALL = 65_536


class Files(GatewayCase):
    async def test_files_go_in_and_out(self) -> None:
        await self.start()
        whole = DRAWN.randbytes(PIECE + 1)
        await self.in_and_out([whole[:PIECE], whole], [1, 2])
        with mock.patch.object(file_list, "PIECE", SMALL):  # the same with pieces that cost less
            large = whole[:1_000_000]
            files = [b"", large[:SMALL], large[: SMALL + 1], large, MARK + bytes(100), File(5, bytes(32)).listed()]
            names = await self.in_and_out(files, [1, 1, 2, 16, 1, 1])
            self.assertEqual(names[1], (await self.program("id", 1, data=files[1])).decode().strip())
            await self.ranges(names[3], large)
            await self.conditions(names[1], names[0])
            told = await self.put(large, epochs=3)
            self.assertEqual((told["blobId"], "alreadyCertified" in told, told["endEpoch"]), (names[3], True, 5))
            told = await self.put(large, epochs=9)
            self.assertEqual(("alreadyCertified" in told, told["endEpoch"]), (False, 9))
            ends = {it.until for it in self.network.ledger.blobs.values()}
            self.assertEqual(ends, {5, 9})
        await self.many_readers()

    async def in_and_out(self, files: list[bytes], pieces: list[int]) -> list[str]:
        """Stores files, checks how they are split and that they come back unchanged; returns their names."""
        names = []
        for data, count in zip(files, pieces):
            told = await self.put(data)
            names.append(told["blobId"])
            self.assertEqual((told["pieces"], told["endEpoch"], told["certificate"]["epoch"]), (count, 5, 0))
            self.assertGreaterEqual(told["certificate"]["count"], 3)
            self.assertNotIn("alreadyCertified", told)
        for name, data in zip(names, files):
            status, headers, body = await self.get(name)
            self.assertEqual(status, 200)
            self.assertTrue(body == data, f"{len(body)} bytes came of {len(data)}")
            self.assertEqual((headers["etag"], headers["content-length"]), (f'"{name}"', str(len(data))))
            self.assertIn("immutable", headers["cache-control"])
            status, heads, _ = await self.get(name, "--head")
            self.assertEqual((status, heads["content-length"]), (200, headers["content-length"]))
        return names

    async def program(self, *words: object, data: bytes) -> bytes:
        return await client.Walrus(find_program()).output(*words, data=data)

    async def ranges(self, name: str, data: bytes) -> None:
        """One or several ranges of a file have the right bytes."""
        size = len(data)
        for text in ("0-0", "0-", "-1", "-99999999", f"{SMALL - 2}-{SMALL * 3}", f"{SMALL}-{size}", f"{size - 1}-"):
            status, headers, body = await self.get(name, "-r", text)
            first, last = text.split("-")
            start = int(first) if first else max(0, size - int(last))
            end = min(size, int(last) + 1) if first and last else size
            self.assertEqual((status, headers["content-range"]), (206, f"bytes {start}-{end - 1}/{size}"), text)
            self.assertTrue(body == data[slice(start, end)], text)
        status, headers, body = await self.get(name, "-r", f"0-2,{SMALL - 1}-{SMALL},-4")
        self.assertEqual((status, int(headers["content-length"])), (206, len(body)))
        message = email.message_from_bytes(f"Content-Type: {headers['content-type']}\r\n\r\n".encode() + body)
        self.assertEqual(message.get_content_type(), "multipart/byteranges")
        found = [(part["Content-Range"], part.get_payload(decode=True)) for part in message.walk()][1:]
        spans = [(0, 3), (SMALL - 1, SMALL + 1), (size - 4, size)]
        self.assertEqual(found, [(f"bytes {one}-{two - 1}/{size}", data[slice(one, two)]) for one, two in spans])
        status, headers, _ = await self.get(name, "-r", f"{size}-")
        self.assertEqual((status, headers["content-range"]), (416, f"bytes */{size}"))
        for text in ("bytes=7-3", "lines=0-1", "bytes=a-b"):  # a malformed range is ignored
            status, headers, body = await self.get(name, "-H", f"Range: {text}")
            self.assertEqual((status, len(body)), (200, size))
        status, headers, _ = await self.get(name, "--head", "-r", "0-1")
        self.assertEqual((status, headers["content-length"]), (200, str(size)))  # RFC 9110: a range is of GET alone

    async def conditions(self, name: str, other: str) -> None:
        tag = f'"{name}"'
        for header, status in (
            (f"If-None-Match: {tag}", 304),
            (f'If-None-Match: "x", W/{tag}', 304),
            ("If-None-Match: *", 304),
            (f'If-None-Match: "{other}"', 200),
            (f"If-Match: {tag}", 200),
            (f'If-Match: "{other}"', 412),
            (f"If-Range: {tag}", 206),
            (f'If-Range: "{other}"', 200),
        ):
            found, headers, body = await self.get(name, "-r", "1-2", "-H", header)
            self.assertEqual(found, status if status != 200 or "Range" in header else 206, header)
            self.assertEqual(headers["etag"], tag)
        self.assertEqual((await self.refused(404, f"/v1/blobs/{'0' * 64}"))["status"], 404)
        await self.refused(400, "/v1/blobs/none")
        await self.refused(404, "/v2")
        await self.refused(405, f"/v1/blobs/{name}", "-X", "DELETE")

    async def many_readers(self) -> None:
        """Two hundred clients that want one blob at once get it, and it is read from the network once."""
        data = DRAWN.randbytes(100_000)
        name = (await self.put(data))["blobId"]
        before = self.gateway.reader.cache.reads

        async def read() -> bytes:
            reader, writer = await asyncio.open_connection("127.0.0.1", self.port)
            writer.write(f"GET /v1/blobs/{name} HTTP/1.1\r\nHost: x\r\nConnection: close\r\n\r\n".encode())
            text = await reader.read(-1)
            writer.close()
            return text.partition(b"\r\n\r\n")[2]

        async with asyncio.timeout(60):
            found = await asyncio.gather(*(read() for _ in range(200)))
        self.assertTrue(all(it == data for it in found))
        self.assertEqual(self.gateway.reader.cache.reads, before + 1)

"""Folders over HTTP that are malformed, break off, or that a liar wrote."""
import asyncio
import hashlib
import io
import random
import tarfile
import unittest
import unittest.mock
from typing import Any, AsyncIterator

from support.folder_case import form_of, manifest_of, tar_of
from support.folder_gateway_case import TAR, FolderGatewayCase
from walrus import client
from walrus.network.files.manifest import MARK, Place
from walrus.network.gateway.auth import shares
from walrus.network.gateway.bodies import archives
from walrus.network.gateway.http import errors
from walrus.network.gateway.read import manifests
from walrus.network.gateway.write import folder_upload


def name_of(data: bytes) -> bytes:
    return hashlib.sha256(data).digest()


class Faults(FolderGatewayCase):
    async def test_what_is_no_tar_and_no_form_is_refused(self) -> None:
        await self.start()
        whole = tar_of({"a": b"x" * 3_000, "b": b"y"})
        for bad in (b"", b"x" * 512, whole[:700], whole[:3_000], whole[: 512 + 3_072 + 512], whole + b"x"):
            await self.put_folder(bad, 400)
        head, flipped = bytearray(whole), bytearray(whole)
        head[124:136] = b"\x80" + b"\xff" * 11  # an endless length in a header whose checksum is right
        head[148:156] = b"%06o\0 " % sum(head[:148] + b" " * 8 + head[156:512])
        flipped[0] ^= 1
        for bad in (bytes(head), bytes(flipped)):
            await self.put_folder(bad, 400)
        long = io.BytesIO()
        with tarfile.open(fileobj=long, mode="w", format=tarfile.PAX_FORMAT) as made:
            told = tarfile.TarInfo("a")
            told.pax_headers = {"comment": "x" * 70_000}
            made.addfile(told)
        self.assertIn("65536", (await self.put_folder(long.getvalue(), 400))["error"]["text"])
        many = b"".join(b"%d %06d=\n" % (11, number) for number in range(5_900))
        self.assertEqual(len(archives.fields_of(many)), 5_900)
        for bad in (
            b"9 a=b\n",
            b"5 a=b\n",
            b"6 a=b\n6 a=b",
            b"6 a-b\n",
            b"06 a=b\n",
            b"a=b\n",
            b"6 a=b\n ",
            b"-6 a=b\n",
        ):
            with self.assertRaises(errors.Problem, msg=bad):
                archives.fields_of(bad)
        kind, form = form_of({"a": b"1"})
        for bad in (form[:-4], form[:40], b"", form.replace(b"filename", b"file"), form.replace(b'"a"', b'""')):
            await self.put_folder(bad, 400, kind)
        await self.put_folder(form.replace(b"\r\n\r\n1", b"x" * 5_000), 400, kind)
        for other in ("text/html", "multipart/mixed; boundary=x", "multipart/form-data", "application/gzip"):
            await self.put_folder(whole, 415, other)
        self.assertEqual(
            (await self.ask("PUT", "/v1/folders?epochs=5", data=whole, headers={"Content-Type": ""}))[0], 201
        )
        drawn = random.Random(1)
        for _ in range(60):
            some = bytearray(drawn.choice([whole, form]))
            for _ in range(drawn.randrange(1, 5)):
                place = drawn.randrange(min(len(some), 1_200))
                behind = place + drawn.randrange(9)
                some[place:behind] = drawn.choice([b"", b"\0", b"\xff\xff", b"/", b"--", b"9"])
            kinds = drawn.choice([TAR["Content-Type"], kind])
            found, _, told = await self.ask(
                "PUT", "/v1/folders?epochs=5", data=bytes(some), headers={"Content-Type": kinds}
            )
            self.assertIn(found, (200, 201, 400, 413, 415), told)

    async def test_what_a_liar_wrote_is_refused_by_name(self) -> None:
        await self.start()

        def there(data: bytes) -> str:
            self.files[name_of(data).hex()] = data
            return name_of(data).hex()

        pack = b"0123456789"
        there(pack)
        own = name_of(pack)
        lies = [Place("a", "text/html", 11, own), Place("b", "text/html", 9, own), Place("c", "a/b", 6, own, 5)]
        lies += [Place("d", "a/b", 5, own, 5), Place("e", "a/b", 5, own, 4), Place("f", "a/b", 10, own)]
        name = there(manifest_of(*lies))
        for path, status in (("a", 410), ("b", 410), ("c", 410), ("d", 200), ("e", 200), ("f", 200)):
            found, _, told = await self.get(f"/v1/folders/{name}/{path}")
            self.assertEqual(found, status, told)
        listed = b"\x00walrus list \x00\x00\x01" + (2**43).to_bytes(8, "big") + bytes(32)
        for data, status in (
            (b"no manifest", 404),
            (b"", 404),
            (listed, 404),
            (MARK[:-1] + b"\2", 404),
            (MARK + b"x", 410),
            (MARK + b"../x\ta/b\t0\t-\n", 410),
            (MARK + b"x\ta/b\r\nSet-Cookie: a=b\t0\t-\n", 410),
            (MARK + b"a\ta/b\t0\t-\n" * 2, 410),
        ):
            name = there(data)
            for path in ("", "x", "x/y"):
                found, headers, told = await self.get(f"/v1/folders/{name}/{path}")
                self.assertEqual(found, status, told)
        name = there(manifest_of(Place("<script>alert(1)<", "text/html", 0, b""), Place('a"onload="x', "a/b", 0, b"")))
        _, _, body = await self.get(f"/v1/folders/{name}/")
        self.assertNotIn(b"<script", body)
        self.assertNotIn(b'"onload', body)
        reads = self.gateway.reader.cache.reads
        await self.get(f"/v1/folders/{there(MARK + b'x')}/")  # it is known to be malformed
        self.assertEqual(self.gateway.reader.cache.reads, reads)

    async def test_manifests_are_kept_within_bounds(self) -> None:
        await self.start()
        self.enterContext(unittest.mock.patch.object(manifests, "MOST", 3))
        for number in range(9):
            data = manifest_of(Place(f"{number}", "a/b", 0, b""))
            self.files[name_of(data).hex()] = data
            self.assertEqual((await self.get(f"/v1/folders/{name_of(data).hex()}/{number}"))[0], 200)
        kept = self.gateway.shelf
        self.assertEqual(len(kept.kept), 3)
        before = [*kept.kept]
        for number in range(9):  # a stranger who asks for what is no folder
            name = name_of(b"no folder %d" % number).hex()
            self.files[name] = b"no folder %d" % number
            self.assertEqual((await self.get(f"/v1/folders/{name}/"))[0], 404)
        self.assertEqual(([*kept.kept], len(kept.none)), (before, 3))
        data = manifest_of(Place("last", "a/b", 0, b""))
        self.files[name_of(data).hex()] = data
        self.enterContext(unittest.mock.patch.object(manifests, "ROOM", len(data)))
        self.assertEqual((await self.get(f"/v1/folders/{name_of(data).hex()}/last"))[0], 200)
        self.assertEqual([*kept.kept], [name_of(data)])
        reads = self.gateway.reader.cache.reads
        empty = name_of(MARK)
        self.files[empty.hex()] = MARK
        for _ in range(2):
            self.assertEqual((await self.get(f"/v1/folders/{empty.hex()}/"))[0], 200)
        self.assertEqual((self.gateway.reader.cache.reads, [*kept.kept]), (reads + 1, [empty]))

    async def test_what_is_certified_of_a_folder_that_fails_is_told(self) -> None:
        await self.start()
        true, files = self.gateway.publisher.writer.store, {"a": b"a" * 600_000, "b": b"b" * 600_000}
        certified = asyncio.Event()

        async def store(stream: AsyncIterator[bytes], epochs: int, stored: list[bytes]) -> dict[str, Any]:
            told: dict[str, Any] = await true(stream, epochs)
            if told["blobId"] != hashlib.sha256(files["a"]).hexdigest():
                async with asyncio.timeout(60):
                    await certified.wait()
                raise client.Failed("it is told to fail", {})
            stored.append(bytes.fromhex(told["blobId"]))
            certified.set()
            return told

        with unittest.mock.patch.object(self.gateway.publisher.writer, "store", store):
            error = (await self.put_folder(tar_of(files), 503))["error"]
        self.assertEqual((error["stored"], error["storedPieces"]), ([hashlib.sha256(files["a"]).hexdigest()], 1))

    async def test_a_folder_that_breaks_off_costs_nothing_and_one_that_fails_what_may_be_stored(self) -> None:
        shown = self.token("one", bytes=1_000_000, blobs=100)
        for module, name, size in (
            (folder_upload, "SMALL", 5_000),
            (folder_upload, "PIECE", 50_000),
            (shares, "PIECE", 50_000),
        ):
            self.enterContext(unittest.mock.patch.object(module, name, size))
        await self.start()
        whole = tar_of({"a": bytes(20_000), "b": bytes(300_000)})
        await self.put_folder(whole[: 512 + 20_480 + 512 + 120_000], 400, headers=shown)
        self.assertEqual((self.used("one"), self.stored), ((0, 0), []))
        true = self.gateway.publisher.writer.store

        async def store(stream: AsyncIterator[bytes], epochs: int, stored: list[bytes]) -> dict[str, Any]:
            data = b""
            async for part in stream:
                data += part
                if len(data) > 120_000:
                    raise client.Failed("it is told to fail", {})
            return await true(folder_upload.once(data), epochs, stored)

        self.enterContext(unittest.mock.patch.object(folder_upload, "WRITTEN", 20_000))  # bytes that are read at once
        with unittest.mock.patch.object(self.gateway.publisher.writer, "store", store):
            await self.put_folder(whole, 503, headers=shown)
        self.assertEqual(self.used("one"), (20_000 + 100_000, 1 + 2))  # all of a, and two whole pieces of b
        await self.put_folder(whole, headers=shown)
        told = len(self.stored[-1])
        self.assertEqual(self.used("one"), (120_000 + 320_000 + told, 3 + 1 + 7 + 1))  # b has six pieces and their list

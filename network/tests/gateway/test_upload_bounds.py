"""Resumable uploads: what is refused, what they cost, and the effect of a full or slow disk."""
import asyncio
import contextlib
import os
import threading
from typing import Any
from unittest import mock

from support.upload_case import PATCH, UploadCase
from walrus.network.gateway.resources import spool
from walrus.network.gateway.write import growing_files, unfinished


class Refused(UploadCase):
    async def test_what_does_not_fit_is_refused(self) -> None:
        await self.start(most=5_000)
        ask, whole = self.ask, {"Upload-Complete": "?1"}
        self.assertEqual((await ask("POST", "/v1/uploads?epochs=5", data=b"x"))[0], 400)
        for headers, status in (
            ({"Upload-Complete": "1"}, 400),
            ({**whole, "Upload-Length": "x"}, 400),
            ({**whole, "Upload-Length": "2"}, 400),
            ({**whole, "Content-Encoding": "gzip"}, 415),
            ({**whole, "Content-Range": "bytes 0-0/1"}, 400),
            ({**whole, "Repr-Digest": f"sha-256=:{'A' * 43}=:"}, 400),
            ({"Upload-Complete": "?0", "Upload-Length": "5001"}, 413),
        ):
            self.assertEqual(
                (await ask("POST", "/v1/uploads?epochs=5", data=b"x", headers=headers))[0], status, headers
            )
        self.assertEqual((await ask("POST", "/v1/uploads", data=b"x", headers=whole))[0], 400)
        self.assertEqual(list(self.folder.glob("tokens.uploads/*")), [])
        path = (await self.begin(b"12345", Upload_Length="9"))[1]["location"]
        status, headers, told = await self.go_on(path, 4, b"x")
        self.assertEqual((status, headers["upload-offset"], told["error"]["expectedOffset"]), (409, "5", 5))
        good = {**PATCH, "Upload-Offset": "5", "Upload-Complete": "?0"}
        for name, text, status in (
            ("Content-Type", "application/octet-stream", 415),
            ("Content-Encoding", "gzip", 415),
            ("Content-Range", "bytes 5-5/9", 400),
            ("Upload-Offset", "-1", 400),
            ("Upload-Offset", "", 400),
            ("Upload-Complete", "", 400),
        ):
            self.assertEqual((await ask("PATCH", path, data=b"x", headers={**good, name: text}))[0], status, name)
        self.assertEqual((await self.go_on(path, 5, b"123", end=True))[0], 400)  # nine were announced
        self.assertEqual((await self.go_on(path, 5, b"12345"))[0], 413)
        for method in ("HEAD", "DELETE"):
            self.assertEqual((await ask(method, path, headers={"Upload-Offset": "5"}))[0], 400)
        self.assertEqual(await self.offset(path), 5)
        status, headers, _ = await ask("OPTIONS", "/v1/uploads")
        self.assertEqual((status, headers["upload-limit"]), (204, "max-size=5000, expires=86400"))
        self.assertEqual((await ask("DELETE", path))[0], 204)
        for method in ("HEAD", "GET", "DELETE"):
            for gone in (path, "/v1/uploads/x", "/v1/uploads/..%2f..", f"/v1/uploads/{'0' * 48}"):
                self.assertEqual((await ask(method, gone))[0], 404, gone)
        self.assertEqual(list(self.folder.glob("tokens.uploads/*")), [])

    async def test_a_share_pays_for_what_came(self) -> None:
        alice = self.token("alice", bytes=3_000, blobs=9)
        await self.start()
        self.assertEqual((await self.begin(Upload_Length="3001", **alice))[0], 403)
        path = (await self.begin(os.urandom(2_100), **alice))[1]["location"]
        self.assertEqual(self.used("alice"), (2_100, 4))
        status, headers, _ = await self.go_on(path, 2_100, bytes(901), **alice)
        self.assertEqual((status, headers["upload-offset"]), (403, "2100"))
        self.assertEqual((await self.ask("DELETE", path, headers=alice))[0], 204)
        self.assertEqual(self.used("alice"), (2_000, 2))  # two pieces are certified
        path = (await self.begin(b"1" * 400, **alice))[1]["location"]
        self.assertEqual((await self.go_on(path, 400, b"2" * 400, end=True, **alice))[0], 201)
        self.assertEqual(self.used("alice"), (2_800, 3))
        self.assertEqual((await self.begin(b"1" * 201, **alice))[0], 403)
        status, _, told = await self.begin(b"1" * 190, **alice)
        self.assertEqual((await self.begin(b"1" * 11, **alice))[0], 403)

    async def test_a_page_from_elsewhere_begins_none(self) -> None:
        await self.start()
        evil = {"Origin": "http://evil.example", "Upload-Complete": "?1"}
        self.assertEqual((await self.ask("POST", "/v1/uploads?epochs=1", data=b"x", headers=evil))[0], 403)
        path = (await self.begin(b"x"))[1]["location"]
        for method in ("HEAD", "GET", "DELETE", "PATCH"):
            self.assertEqual((await self.ask(method, path, headers={"Origin": "http://evil.example"}))[0], 403, method)
        self.assertEqual((self.blobs, await self.offset(path)), ([], 1))

    async def test_a_page_from_elsewhere_may_show_a_token(self) -> None:
        alice, reader = self.token("alice"), self.token("reader", "read")
        await self.start()
        asked = {"Origin": "http://other.example", "Access-Control-Request-Method": "PATCH"}
        path = (await self.begin(b"x", **alice))[1]["location"]
        status, headers, _ = await self.ask("OPTIONS", path, headers=asked)
        self.assertEqual((status, headers["access-control-allow-origin"]), (204, "*"))
        self.assertIn("PATCH", headers["access-control-allow-methods"])
        for name in ("Upload-Offset", "Upload-Complete", "Content-Type", "Authorization"):
            self.assertIn(name, headers["access-control-allow-headers"])
        _, headers, _ = await self.ask("HEAD", path, headers={"Origin": "http://other.example", **alice})
        self.assertIn("Upload-Offset", headers["access-control-expose-headers"])
        for method in ("HEAD", "GET", "DELETE", "PATCH"):
            self.assertEqual((await self.ask(method, path, headers=reader))[0], 403, method)
        self.assertEqual((await self.begin(b"x", **reader))[0], 403)

    async def test_a_full_disk_is_told_and_nothing_is_lost(self) -> None:
        await self.start()
        path = (await self.begin(b"12345"))[1]["location"]
        with mock.patch.object(unfinished.Upload, "add", mock.Mock(side_effect=OSError(28, "No space left on device"))):
            status, headers, told = await self.go_on(path, 5, b"678")
        self.assertEqual((status, headers["upload-offset"]), (503, "5"))
        self.assertIn("No space left", told["error"]["text"])
        with contextlib.suppress(OSError):
            self.assertEqual((await self.go_on(path, 5, b"678", end=True))[0], 201)
        self.assertEqual(self.blobs, [b"12345678"])

    async def test_an_upload_leaves_the_reserve_of_the_disk_free(self) -> None:
        await self.start()
        disk = mock.Mock(f_frsize=1, f_blocks=20_000, f_bavail=1_001)  # 1,000 bytes must stay free
        self.enterContext(mock.patch.object(spool.os, "statvfs", lambda _: disk))
        status, _, told = await self.begin(b"x")
        self.assertEqual((status, list(self.folder.glob("tokens.uploads/*"))), (507, []))
        self.assertIn("too little room on its disk", told["error"]["text"])
        disk.f_bavail, data = 1_700, os.urandom(1_200)
        path = (await self.begin(data[:600]))[1]["location"]
        status, headers, told = await self.go_on(path, 600, data[600:], end=True)  # the first 400 bytes fit
        self.assertEqual((status, headers["upload-offset"]), (201, "1200"), told)
        path = (await self.begin(data[:600]))[1]["location"]
        disk.f_bavail = 1_300
        status, headers, told = await self.go_on(path, 600, data[600:], end=True)
        self.assertEqual((status, headers["upload-offset"]), (507, "600"))
        self.assertIn("what has come of it stays", told["error"]["text"])
        disk.f_bavail = 2_000
        status, _, told = await self.go_on(path, 600, data[600:], end=True)
        self.assertEqual((status, told["blobId"]), (200, self.name_of(data)))

    async def test_a_piece_of_which_nothing_came_is_no_part_of_the_file(self) -> None:
        await self.start()
        data = os.urandom(1_000)
        path = (await self.begin(data))[1]["location"]
        with mock.patch.object(growing_files, "write", mock.Mock(side_effect=OSError(28, "No space left on device"))):
            status, headers, _ = await self.go_on(path, 1_000, b"more")
        self.assertEqual((status, headers["upload-offset"]), (503, "1000"))
        status, _, told = await self.go_on(path, 1_000, b"", end=True)
        self.assertEqual((status, told["blobId"], told["pieces"]), (201, self.name_of(data), 1))

    async def test_a_slow_disk_holds_up_nobody_else(self) -> None:
        await self.start()
        path, entered, goes_on = (await self.begin())[1]["location"], threading.Event(), threading.Event()
        went_on = list[bool]()  # whether the test let the disk continue, before its time was over
        self.addCleanup(goes_on.set)

        def slow(*words: Any) -> None:
            entered.set()
            went_on.append(goes_on.wait(20))
            spool.write(*words)

        self.enterContext(mock.patch.object(growing_files, "write", slow))
        sending = asyncio.create_task(self.go_on(path, 0, b"x" * 1_500, end=True))
        while not entered.is_set():
            await asyncio.sleep(0.001)
        self.assertEqual((await self.ask("GET", "/livez"))[0], 200)
        goes_on.set()
        self.assertEqual(
            ((await sending)[0], [*map(len, self.blobs)], {*went_on}), (201, [1_000, 500, 24 + 2 * 32], {True})
        )

    async def test_what_a_full_disk_does_not_keep_costs_nothing(self) -> None:
        alice = self.token("alice", bytes=3_000, blobs=9)
        await self.start()
        path = (await self.begin(bytes(500), **alice))[1]["location"]
        with mock.patch.object(unfinished.Upload, "add", mock.Mock(side_effect=OSError(28, "No space left on device"))):
            self.assertEqual((await self.go_on(path, 500, bytes(600), **alice))[0], 503)
        self.assertEqual(self.used("alice"), (500, 1))
        self.assertEqual((await self.go_on(path, 500, bytes(600), end=True, **alice))[0], 201)
        self.assertEqual(self.used("alice"), (1_100, 3))

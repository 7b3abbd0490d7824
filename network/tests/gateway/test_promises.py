"""What the pages promise of a gateway in half a sentence: lengths of time, lists, digests, metrics, and what happens
concurrently."""
import asyncio
import base64
import hashlib
import importlib.util
import time
import unittest
from typing import Any, AsyncIterator
from unittest import mock

from support.folder_case import tar_of
from support.guard_case import GuardCase
from walrus.network.cli import commands
from walrus.network.gateway.read import listing
from walrus.network.gateway.status.watch import numbers
from walrus.network.gateway.write import folder_upload
from walrus.network.ledger.entries import OPERATOR, entry_key

DAY = 86_400


class Times(GuardCase):
    """For how long blobs are kept."""

    async def asyncSetUp(self) -> None:
        await super().asyncSetUp()
        await self.start()
        self.paths = [("PUT", "/v1/blobs"), ("PUT", "/v1/folders"), ("POST", "/v1/bundles"), ("POST", "/v1/uploads")]
        self.paths += [("POST", f"/v1/extend/{'0' * 64}"), ("PUT", f"/v1/blobs/{'0' * 64}")]

    async def refused(self, method: str, path: str, said: str) -> None:
        status, _, told = await self.ask(method, path, data=b"x", headers={"Upload-Complete": "?1"})
        self.assertEqual((status, self.stored), (400, []), path)
        self.assertIn(said, told["error"]["text"], path)

    async def test_it_must_be_said(self) -> None:
        for method, path in self.paths:
            await self.refused(method, path, "?epochs=N, 1 to 100, or for how long, as ?for=90d")
            await self.refused(method, f"{path}?epochs=101", "1 to 100")  # and is not cut down to it
            await self.refused(method, f"{path}?for=90d", "no calendar by which 90d could be counted")
            await self.refused(method, f"{path}?for=90d&epochs=7", "send either epochs or for, not both")
            await self.refused(method, f"{path}?epoch=7", "'epoch' is not a query parameter of this request: it takes")
            await self.refused(method, f"{path}?epochs=7&deletable=true", "'deletable' is not a query parameter")

    async def test_a_length_of_time_counts_by_the_calendar(self) -> None:
        """Epochs of 14 days that began a year ago: 14 days end within the 27th, so a blob is kept until after it."""
        since = int(time.time() - 365 * DAY) // 60
        await self.operator.post(entry_key(OPERATOR, "calendar", 0, since, 14 * 1_440))
        self.assertTrue(await self.network.until(lambda it: it.calendar[2] > 0))
        with mock.patch.object(self.network.ledger, "epoch", 26):  # its 14 days began a day ago
            for told, epochs in (("12d", 1), ("14d", 2), ("2w", 2), ("1h", 1), ("90d", 7)):
                status, _, found = await self.ask("PUT", f"/v1/blobs?for={told}", data=told.encode())
                self.assertEqual((status, found["endEpoch"]), (201, epochs), told)
            count = len(self.stored)
            for told, said in (("4y", "is not a length"), ("", "is not a length"), ("9999d", "are 715 epochs")):
                status, _, found = await self.ask("PUT", f"/v1/blobs?for={told}", data=b"x")
                self.assertEqual((status, len(self.stored)), (400, count))
                self.assertIn(said, found["error"]["text"])


class Lists(GuardCase):
    async def test_a_list_goes_on_behind_its_last_blob(self) -> None:
        await self.start()
        self.enterContext(mock.patch.object(listing, "PAGE", 3))
        names = [number.to_bytes(32, "big") for number in (9, 2, 5, 7, 1, 4, 3, 8)]
        for number, name in enumerate(names):
            await self.network.register(name, 2 if number % 2 else 60)
        found, after, pages = list[str](), "", 0
        while after is not None:
            status, _, told = await self.ask("GET", f"/v1/blobs?after={after}")
            self.assertEqual((status, told["epoch"]), (200, 0))
            self.assertLessEqual(len(told["blobs"]), 3)
            found += [it["blobId"] for it in told["blobs"]]
            after, pages = told["next"], pages + 1
        self.assertEqual((found, pages), (sorted(it.hex() for it in names), 3))
        _, _, told = await self.ask("GET", "/v1/blobs?within=2")
        soon = sorted(it.hex() for it in names[1::2])
        self.assertEqual(([it["blobId"] for it in told["blobs"]], told["next"]), (soon[:3], soon[2]))
        self.assertEqual([(it["endEpoch"], it["certificate"]) for it in told["blobs"]], [(2, None)] * 3)
        _, _, told = await self.ask("GET", f"/v1/blobs?within=2&after={soon[2]}")
        self.assertEqual(([it["blobId"] for it in told["blobs"]], told["next"]), (soon[3:], None))
        for words in ("within=0", "within=x", "within=", "after=x", f"after={'A' * 64}", "before=1"):
            self.assertEqual((await self.ask("GET", f"/v1/blobs?{words}"))[0], 400, words)

    async def plan(self, *fields: int) -> None:
        place = await self.operator.post(entry_key(OPERATOR, "calendar", *fields))
        self.assertTrue(await self.network.until(lambda it: it.revision >= place))
        self.gateway.watch.told = (-1.0, b"")

    async def test_what_ends_after_the_last_year_is_told_without_a_date(self) -> None:
        await self.start()
        place = await self.operator.post(entry_key(OPERATOR, "register", bytes(32).hex(), 65_536))  # as nobody else may
        self.assertTrue(await self.network.until(lambda it: it.revision >= place))
        await self.plan(0, 29_900_000, 90 * 1_440)
        for path, name in (("/v1/status", "recent"), ("/v1/blobs", "blobs")):
            status, _, told = await self.ask("GET", path)
            self.assertEqual((status, [it["ends"] for it in told[name]]), (200, [None]), path)
        await self.plan(65_535, 0, 99_999_999)  # by which the next epoch begins long before the first year
        status, _, told = await self.ask("GET", "/v1/status")
        self.assertEqual((status, told["calendar"]["next"]), (200, None))
        self.assertNotIn("planned", commands.tell_status(told))


class Known(GuardCase):
    """The table of HTTP.md for those who know Walrus' own gateways."""

    async def test_what_is_not_here_is_refused(self) -> None:
        await self.start()
        for word in ("send_object_to=0x1", "deletable=true", "permanent=true", "encoding_type=RS2"):
            status, _, told = await self.ask("PUT", f"/v1/blobs?epochs=1&{word}", data=b"x")
            self.assertEqual((status, self.stored), (400, []), word)
            self.assertIn(f"{word.partition('=')[0]!r} is not a query parameter", told["error"]["text"])
        for path in ("/v1/blobs/by-object-id/0x1", "/v1/quilts", "/v1/blobs/by-quilt-patch-id/x"):
            self.assertEqual((await self.ask("GET", path))[0], 404, path)
        self.assertEqual((await self.ask("GET", f"/v1/blobs/{'0' * 64}?filename=a"))[0], 400)
        status, headers, body = await self.ask("GET", "/v1/api")
        self.assertEqual((status, body[:8]), (200, b"openapi:"))

    async def test_a_bundle_has_the_digest_that_was_promised(self) -> None:
        """The SHA-256 of a form is that of its whole body."""
        await self.start()
        kind = {"Content-Type": "multipart/form-data; boundary=x"}
        form = b'--x\r\nContent-Disposition: form-data; name="f"; filename="a"\r\n\r\n1\r\n--x--\r\n'
        right, wrong = (base64.b64encode(hashlib.sha256(it).digest()).decode() for it in (form, b"other"))
        made = mock.AsyncMock(return_value=b"bundle")
        with mock.patch("walrus.bundles.join", made):
            for promised in ({"Repr-Digest": f"sha-256=:{wrong}:"}, {"Digest": f"SHA-256={wrong}"}):
                status, _, told = await self.ask("POST", "/v1/bundles?epochs=1", data=form, headers=kind | promised)
                self.assertEqual((status, self.stored), (400, []))
                self.assertIn("another SHA-256", told["error"]["text"])
            promised = {"Repr-Digest": f"sha-256=:{right}:"}
            status, _, told = await self.ask("POST", "/v1/bundles?epochs=1", data=form, headers=kind | promised)
        self.assertEqual((status, self.stored, told["members"][0]["name"]), (201, [b"bundle"], "a"))

    async def test_what_is_stored_of_a_named_file_has_its_digest(self) -> None:
        await self.start()
        text = base64.b64encode(hashlib.sha256(b"data").digest()).decode()
        path = "/v1/blobs?epochs=1&filename=a"
        _, headers, _ = await self.ask("PUT", path, data=b"data", headers={"Want-Repr-Digest": "sha-256=1"})
        self.assertEqual(headers["repr-digest"], f"sha-256=:{text}:")


@unittest.skipUnless(importlib.util.find_spec("prometheus_client"), "python3-prometheus-client is not here")
class Numbers(GuardCase):
    async def test_disks_and_lag_of_nodes_and_what_is_kept(self) -> None:
        await self.start()
        told = {"disk": {"bytes": 900, "used": 300, "free": 600, "reserve": 45}, "ledger": {"place": 5}}
        self.gateway.watch.figures["node-1"] = numbers(told)
        self.gateway.watch.figures["node-1"]["ledger"]["behind"] = 7
        self.files["0" * 64] = bytes(300_000)
        for _ in range(3):
            self.assertEqual((await self.ask("GET", f"/v1/blobs/{'0' * 64}"))[0], 200)
        self.gateway.watch.told = (-1.0, b"")
        _, _, body = await self.ask("GET", "/metrics")
        lines = dict(line.rsplit(" ", 1) for line in body.decode().splitlines() if not line.startswith("#"))
        for name, value in (("disk_free", 600), ("disk_bytes", 900), ("disk_reserve", 45), ("ledger_behind", 7)):
            self.assertEqual(float(lines[f'walrus_node_{name}{{node="node-1"}}']), value, name)
        self.assertGreater(float(lines["walrus_cache_bytes"]), 300_000)
        self.assertGreater(float(lines["walrus_cache_hits_total"]), 1)
        self.assertIn('walrus_http_seconds_bucket{le="0.1",method="GET",path="/v1/blobs/{name}"}', lines)


class Beside(GuardCase):
    async def test_files_of_a_folder_are_stored_side_by_side(self) -> None:
        """`AHEAD` of them at once, and no more; the manifest follows once all of them are stored."""
        await self.start()
        true, now, seen = self.gateway.publisher.writer.store, 0, list[int]()

        async def store(stream: AsyncIterator[bytes], epochs: int, stored: Any) -> dict[str, Any]:
            nonlocal now
            now += 1
            seen.append(now)
            await asyncio.sleep(0.1)
            told: dict[str, Any] = await true(stream, epochs, stored)
            now -= 1
            return told

        files = {str(number): bytes([number]) * 600_000 for number in range(9)}
        with mock.patch.object(self.gateway.publisher.writer, "store", store):
            kind = {"Content-Type": "application/x-tar"}
            status, _, told = await self.ask("PUT", "/v1/folders?epochs=5", data=tar_of(files), headers=kind)
        self.assertEqual((status, max(seen), seen[-1]), (201, folder_upload.AHEAD, 1))
        self.assertTrue(self.stored[-1].startswith(b"\0walrus folder\0\1"))
        self.assertEqual(len(self.stored), 10)

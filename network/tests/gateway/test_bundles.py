"""Small files that are stored as one bundle and read from its columns; malformed forms; challenges."""
import asyncio
import json
import random
import re
from typing import Any
from unittest import mock

from support.harness import ODD
from support.http_case import DRAWN, MARK, Answer, GatewayCase
from walrus import client
from walrus.network.settings.gateway_options import Options

NAMES = ["one.txt", "zwei \N{LATIN SMALL LETTER U WITH DIAERESIS}.bin"]


class Bundles(GatewayCase):
    options = Options(seconds=1, challenge=0, patience=60)

    async def form(self, *files: bytes, path: str = "/v1/bundles?epochs=5") -> Answer:
        """Sends a form with these files by curl, and returns what curl gets."""
        words: list[str] = []
        for number, data in enumerate(files):
            sent = self.folder / f"part-{number}"
            sent.write_bytes(data)
            words += ["-F", f"file=@{sent};filename={NAMES[number % 2]}"]
        return await self.curl(path, *words)

    async def bundle(self, *files: bytes) -> dict[str, Any]:
        status, headers, body = await self.form(*files)
        self.assertIn(status, (200, 201), body)
        told: dict[str, Any] = json.loads(body)
        self.assertEqual(headers["location"], f"/v1/blobs/{told['blobId']}")
        self.assertEqual([it["size"] for it in told["members"]], [len(it) for it in files])
        return told

    async def member(self, name: str, *words: str) -> Answer:
        return await self.curl(f"/v1/bundles/{name}", *words)

    async def test_small_files_go_up_together(self) -> None:
        await self.start()
        files = [DRAWN.randbytes(3_001), MARK + bytes(100)]
        told = await self.bundle(*files)
        self.assertEqual([it["name"] for it in told["members"]], NAMES)
        self.assertEqual([it["id"] for it in told["members"]], [f"{told['blobId']}/{it}" for it in range(2)])
        self.assertEqual(("alreadyCertified" in told, told["endEpoch"], told["certificate"]["epoch"]), (False, 5, 0))
        self.assertIn("alreadyCertified", await self.bundle(*files))
        with mock.patch.object(client, "fetch", side_effect=AssertionError("the whole bundle is read")):
            await self.read_all(told, files)
        self.assertEqual(len((await self.get(told["blobId"]))[2]), told["size"])
        empty = await self.bundle(b"")
        self.assertEqual((await self.member(empty["members"][0]["id"]))[::2], (200, b""))
        await self.what_is_not_there(told)
        await self.what_does_not_fit()
        for first in range(0, 120, 40):
            await asyncio.gather(*(self.strange(number) for number in range(first, first + 40)))
        await self.nodes_that_die_and_lie(told, files)

    async def read_all(self, told: dict[str, Any], files: list[bytes]) -> None:
        """Each file comes back unchanged, whole and in ranges."""
        for it, data in zip(told["members"], files):
            status, headers, body = await self.member(it["id"])
            self.assertEqual((status, headers["etag"]), (200, f'"{it["id"]}"'), body[:200])
            self.assertTrue(body == data)
            self.assertIn("immutable", headers["cache-control"])
            status, headers, body = await self.member(it["id"], "-r", "5-9")
            self.assertEqual((status, body), (206, data[5:10]))
            status, headers, _ = await self.member(it["id"], "--head")
            self.assertEqual((status, headers["content-length"]), (200, str(len(data))))
            found = await self.member(it["id"], "-H", f'If-None-Match: "{it["id"]}"')
            self.assertEqual(found[0], 304)

    async def what_is_not_there(self, told: dict[str, Any]) -> None:
        name, alone = told["blobId"], (await self.put(b"no bundle"))["blobId"]
        error = await self.refused(404, f"/v1/bundles/{name}/2")
        self.assertEqual(error["text"], "the bundle has 2 members, whose numbers begin with 0")
        for _ in range(2):  # it is read, and then known
            error = await self.refused(404, f"/v1/bundles/{alone}/0")
            self.assertIn("no bundle", error["text"])
        self.assertEqual((await self.get(alone))[2], b"no bundle")
        await self.refused(404, f"/v1/bundles/{'0' * 64}/0")
        for number in ("x", "-1", "01", "99999", "%30%30", "\u0661"):
            await self.refused(400, f"/v1/bundles/{name}/{number}")
        await self.refused(404, f"/v1/bundles/{name}/0/0")
        await self.refused(404, f"/v1/bundles/{name}")

    async def what_does_not_fit(self) -> None:
        """A form that cannot be a bundle is refused with a sentence, and nothing is registered."""
        before = len(self.network.ledger.blobs)
        for files, status in (([b"1", b"2", b"3"], 413), ([bytes(9_000_000)] * 2, 413), ([bytes(5_600_000)] * 2, 413)):
            found, _, body = await self.form(*files)
            self.assertEqual(found, status, body)
            self.assertGreater(len(json.loads(body)["error"]["text"]), 20)
        for path in ("?epochs=0", "?epochs=x"):
            self.assertEqual((await self.form(b"1", path=f"/v1/bundles{path}"))[0], 400)
        for words, status in (
            (["--data-binary", "a=b"], 415),
            (["--data-binary", "", "-H", "Content-Type: multipart/form-data; boundary=x"], 400),
            (["--data-binary", "--x\r\n", "-H", "Content-Type: multipart/form-data; boundary=x"], 400),
            (["--data-binary", "--x--\r\n", "-H", "Content-Type: multipart/form-data; boundary=x"], 400),
            (["-F", "a=b", "-H", "Content-Encoding: gzip"], 415),
            (["-F", "a=b", "-H", "Content-Type: multipart/mixed; boundary=x"], 415),
            (["-X", "PUT", "-T", __file__], 405),
        ):
            await self.refused(status, "/v1/bundles?epochs=1", *words)
        self.assertEqual(len(self.network.ledger.blobs), before)

    async def strange(self, number: int) -> None:
        """No form, however wrong, causes an internal error of the gateway, or is left unanswered."""
        drawn = random.Random(number)
        part = b'--x y\r\nContent-Disposition: form-data; name="a"; filename="b"\r\n\r\n%s\r\n' % drawn.randbytes(9)
        form = bytearray(part * drawn.randrange(4) + b"--x y--\r\n")
        head = bytearray(b'Content-Type: multipart/form-data; boundary="x y"\r\n')
        for text, changes in ((form, drawn.randrange(4)), (head, drawn.choice([0, 0, 1]))):
            for _ in range(changes):
                place = drawn.randrange(max(1, len(text) - 2))
                end = place + drawn.randrange(9)
                text[place:end] = drawn.choice([b"", b"\0", b"--", b"\xff\xfe", b'"', b"*=x''%ff", b"x y", b"-"])
        size = len(form) + drawn.choice([0, 0, 0, -1, 1, 10**9, 10**12])
        length = b"Content-Length: %d\r\n" % size
        if drawn.random() < 0.2:
            length, form = b"Transfer-Encoding: chunked\r\n", bytearray(b"%x\r\n%s\r\n0\r\n\r\n" % (size, form))
        host = b"Host: localhost:%d\r\n" % self.port
        said = await self.say(b"POST /v1/bundles?epochs=1 HTTP/1.1\r\n%s%s%s\r\n%s" % (host, head, length, form))
        statuses = {int(it) for it in re.findall(rb"^HTTP/1\.[01] (\d+)", said, re.MULTILINE)}
        self.assertLessEqual(statuses, {200, 201, 400, 404, 405, 408, 413, 415}, (form, head, said[:300]))

    async def say(self, data: bytes) -> bytes:
        """Sends bytes, ends the input after a while, and returns all that comes back."""
        reader, writer = await asyncio.open_connection("127.0.0.1", self.port)
        heard = asyncio.create_task(reader.read(-1))
        try:
            writer.write(data)
            await asyncio.wait({heard}, timeout=3)
            writer.write_eof()
            return await asyncio.wait_for(heard, 20)
        except ConnectionError:
            return b""
        finally:
            writer.transport.abort()

    async def nodes_that_die_and_lie(self, told: dict[str, Any], files: list[bytes]) -> None:
        """If the holder of a column is gone or lies, the column is recovered from the others."""
        for lost in ("node-1", "node-2"):
            await self.local.end(lost, kill=True)
            self.forget()
            await self.read_all(told, files)
            await self.local.start_node(lost)
        await self.local.end("node-0", kill=True)
        await self.local.start_node("node-0", ODD, {"ODD_LIES": "1"})
        for _ in range(4):
            self.forget()
            await self.read_all(told, files)
        await self.challenges(told["blobId"])

    def forget(self) -> None:
        """Empties the cache of the gateway."""
        self.gateway.reader.cache.entries.clear()
        self.gateway.reader.cache.size = 0

    async def challenges(self, name: str) -> None:
        """A node that holds a blob passes every challenge, one that lies or is gone does not; the page shows it."""
        for _ in range(3):
            found = await self.challenge(name, "node-1")
            self.assertEqual((found["holds"], found["node"], found["blob"]), (True, "node-1", name), found)
            self.assertRegex(found["said"], "^4 drawn symbols of shard 1 lead")
        found = [await self.challenge(name, "node-0") for _ in range(12)]
        self.assertIn(False, [it["holds"] for it in found])
        await self.local.end("node-2", kill=True)
        found = [await self.challenge(name, "node-2")]
        self.assertFalse(found[0]["holds"])
        told = json.loads((await self.curl("/v1/status"))[2])["challenges"]
        self.assertEqual(told[0], found[0])
        _, _, text = await self.curl("/metrics")
        self.assertIn(b'walrus_challenges_total{found="lacking"}', text)
        await self.refused(404, f"/v1/challenges/{name}/nobody", "-X", "PUT")
        await self.refused(404, f"/v1/challenges/{'0' * 64}/node-1", "-X", "PUT")

    async def challenge(self, name: str, node: str, status: int = 200) -> Any:
        found, _, body = await self.curl(f"/v1/challenges/{name}/{node}", "-X", "PUT")
        self.assertEqual(found, status, body)
        return json.loads(body)

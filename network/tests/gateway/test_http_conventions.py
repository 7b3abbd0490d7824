"""What people know from gateways of Walrus and from HTTP: names in base64url, answers to PUT, digests, HEAD, DELETE."""
import asyncio
import base64
import contextlib
import hashlib
import json
import time
import tracemalloc
from typing import Any
from unittest import mock

from support.folder_case import manifest_of
from support.guard_case import GuardCase
from walrus import client
from walrus.network.files.file_list import File
from walrus.network.files.manifest import Place
from walrus.network.gateway.read.lengths import Lengths
from walrus.network.gateway.read.reader import Reader
from walrus.network.ledger.follower import Refused


def short(name: str) -> str:
    return base64.urlsafe_b64encode(bytes.fromhex(name)).decode().rstrip("=")


class Known(GuardCase):
    async def test_names_in_base64url(self) -> None:
        await self.start()
        self.assertEqual(await self.put(b"data"), 201)
        [name] = self.files
        for form in (name, name.upper(), short(name), short(name) + "="):
            status, headers, body = await self.ask("GET", f"/v1/blobs/{form}")
            self.assertEqual((status, headers["etag"], body), (200, f'"{name}"', b"data"), form)
            status, _, _ = await self.ask("GET", f"/v1/blobs/{form}", headers={"If-None-Match": f'"{name}"'})
            self.assertEqual(status, 304)
        for form in (
            short(name)[:-1],
            short(name) + "==",
            short(name) + "A",
            "!" + short(name)[1:],
            name[:-1],
            name + "0",
        ):
            self.assertEqual((await self.ask("GET", f"/v1/blobs/{form}"))[0], 400, form)

    async def test_what_a_put_answers(self) -> None:
        await self.start()
        for data, was_there, status in ((b"new", False, 201), (b"new", True, 200)):
            self.was_there = was_there
            found, headers, told = await self.ask("PUT", "/v1/blobs?epochs=5", data=data)
            name = hashlib.sha256(data).hexdigest()
            self.assertEqual((found, headers["location"], told["blobId"]), (status, f"/v1/blobs/{name}", name))
            if was_there:
                self.assertEqual(told["alreadyCertified"], {"blobId": short(name), "endEpoch": 5})
            else:
                made = {"blobId": short(name), "size": 3, "certifiedEpoch": 0, "deletable": False}
                self.assertEqual(told["newlyCreated"], {"blobObject": made | {"storage": {"endEpoch": 5}}})
            self.assertEqual(
                {*told} & {"newlyCreated", "alreadyCertified"}, {("newlyCreated", "alreadyCertified")[was_there]}
            )

    async def test_digests(self) -> None:
        await self.start()
        text = base64.b64encode(hashlib.sha256(b"data").digest()).decode()
        wrong = base64.b64encode(bytes(32)).decode()
        for headers in (
            {"Digest": f"SHA-256={text}"},
            {"Repr-Digest": f"md5=:AA==:, sha-256=:{text}:"},
            {"Digest": "md5=AA=="},
        ):
            status, found, _ = await self.ask("PUT", "/v1/blobs?epochs=1", data=b"data", headers=headers)
            self.assertEqual(
                (status, found["repr-digest"], found["digest"]), (201, f"sha-256=:{text}:", f"sha-256={text}")
            )
        _, found, _ = await self.ask("PUT", "/v1/blobs?epochs=1", data=b"data")
        self.assertNotIn("repr-digest", found)  # nobody asks, and a digest takes time
        stored = len(self.stored)
        bad = [
            {"Digest": f"sha-256={wrong}"},
            {"Repr-Digest": f"sha-256=:{wrong}:"},
            {"Repr-Digest": f"sha-256={text}"},
        ]
        bad += [{"Digest": "sha-256=x"}, {"Digest": f"sha-256={text}", "Repr-Digest": f"sha-256=:{wrong}:"}]
        for headers in bad:
            status, _, told = await self.ask("PUT", "/v1/blobs?epochs=1", data=b"data", headers=headers)
            self.assertEqual((status, len(self.stored)), (400, stored), headers)
        [name] = self.files
        for headers, is_told in (
            ({}, False),
            ({"Want-Repr-Digest": "sha-256=5"}, True),
            ({"Want-Repr-Digest": "sha-512=1, sha-256=10"}, True),
            ({"Want-Repr-Digest": "sha-256=0"}, False),
            ({"Want-Repr-Digest": "sha-256=0, sha-512=3"}, False),
            ({"Want-Digest": "SHA-256"}, True),
            ({"Want-Digest": "sha-512, sha-256;q=0.5"}, True),
            ({"Want-Digest": "sha-256;q=0"}, False),
            ({"Want-Digest": "sha-512"}, False),
        ):
            for method in ("GET", "HEAD"):
                _, found, _ = await self.ask(method, f"/v1/blobs/{name}", headers=headers | {"Range": "bytes=1-2"})
                self.assertEqual(found.get("repr-digest"), f"sha-256=:{text}:" if is_told else None, headers)

    async def test_what_is_not_done_says_why(self) -> None:
        await self.start()
        status, headers, told = await self.ask("DELETE", f"/v1/blobs/{'0' * 64}")
        self.assertEqual((status, headers["allow"]), (405, "GET,HEAD,PUT"))
        self.assertIn("nothing is deleted: a blob ends with its last epoch", told["error"]["text"])

    async def test_json_ends_with_a_line(self) -> None:
        await self.start()
        for method, path in (
            ("GET", "/v1/status"),
            ("GET", "/v1/blobs"),
            ("GET", "/livez"),
            ("GET", "/readyz"),
            ("GET", "/x"),
        ):
            async with self.session.request(method, self.url + path) as said:
                self.assertEqual(
                    (said.headers["Content-Type"], said.headers["Cache-Control"]),
                    ("application/json; charset=utf-8", "no-store"),
                )
                body = await said.read()
                json.loads(body)
                self.assertEqual((body[-1:], body.count(b"\n")), (b"\n", 1))

    async def test_files_are_kept_for_longer(self) -> None:
        await self.start()
        self.files["0" * 64] = b"data"
        asked: list[tuple[bytes, int]] = []

        async def register(name: bytes, until: int) -> None:
            asked.append((name, until))

        found = {bytes(32): mock.Mock(until=3)}
        self.enterContext(mock.patch.object(self.network, "register", register))
        self.enterContext(mock.patch.object(self.network.ledger, "blobs", found))
        self.enterContext(mock.patch.object(self.gateway.lister, "tell", lambda *_: {"endEpoch": 7}))
        for method, path in (("PUT", "/v1/blobs/"), ("POST", "/v1/extend/")):
            status, _, told = await self.ask(method, f"{path}{short('0' * 64)}?epochs=7")
            self.assertEqual((status, told["endEpoch"], asked.pop()), (200, 7, (bytes(32), 7)))
        self.assertEqual((await self.ask("POST", f"/v1/extend/{'0' * 64}"))[0], 400)
        alice = self.token("alice", blobs=1)
        found_ = [(await self.ask("POST", f"/v1/extend/{'0' * 64}?epochs=7", headers=alice))[0] for _ in range(2)]
        self.assertEqual((found_, len(asked)), ([200, 403], 1))

    async def test_what_could_not_be_kept_for_longer_costs_nothing(self) -> None:
        """Otherwise a client that asks again, as it is told to during a handover, uses up its share."""
        await self.start()
        alice, name = self.token("alice", bytes=9_000), "00" * 32
        self.files = {name: manifest_of(Place("a", "a/b", 4, b"\1" * 32)), "01" * 32: b"data"}
        size, left = len(self.files[name]) + 4, 0

        async def register(name: bytes, until: int) -> None:
            nonlocal left
            if not left:
                raise Refused("the epoch is changing: post it again after the change")
            left -= 1

        found = {bytes.fromhex(it): mock.Mock(until=3) for it in self.files}
        self.enterContext(mock.patch.object(self.network, "register", register))
        self.enterContext(mock.patch.object(self.network.ledger, "blobs", found))
        self.enterContext(mock.patch.object(self.gateway.reader.lengths, "ask", mock.AsyncMock(return_value=4)))
        self.enterContext(mock.patch.object(self.gateway.lister, "tell", lambda *_: {}))
        for left, status, used in (
            (0, 503, (0, 0)),
            (1, 503, (4, 1)),  # the file is kept for longer, and the manifest is not
            (0, 503, (4, 1)),
            (2, 200, (4 + size, 3)),
        ):
            self.assertEqual((await self.ask("POST", f"/v1/extend/{name}?epochs=7", headers=alice))[0], status)
            shares = self.gateway.publisher.shares
            assert shares
            self.assertEqual(shares.used("alice", 0), used)

    async def test_a_folder_that_is_kept_for_longer_counts_with_all_bytes_of_its_files(self) -> None:
        """Whatever its manifest says, and a list of one piece."""
        await self.start()
        alice, name = self.token("alice", bytes=9_000), "00" * 32
        places = Place("a", "a/b", 1, b"\1" * 32, 0), Place("b", "a/b", 1, b"\2" * 32, 0)
        self.files = {name: manifest_of(*places), "01" * 32: bytes(6_000), "03" * 32: bytes(2_000)}
        self.files["02" * 32] = File(1, b"\3" * 32).listed()  # its name counts too

        async def ask(name: bytes) -> int:
            return len(self.files[name.hex()])

        found = {bytes.fromhex(it): mock.Mock(until=3) for it in self.files}
        self.enterContext(mock.patch.object(self.gateway.reader.lengths, "ask", ask))
        self.enterContext(mock.patch.object(self.network, "register", mock.AsyncMock()))
        self.enterContext(mock.patch.object(self.network.ledger, "blobs", found))
        self.enterContext(mock.patch.object(self.gateway.lister, "tell", lambda *_: {}))
        for status in (200, 403):
            self.assertEqual((await self.ask("POST", f"/v1/extend/{name}?epochs=7", headers=alice))[0], status)
            shares = self.gateway.publisher.shares
            assert shares
            self.assertEqual(shares.used("alice", 0), (len(self.files[name]) + 8_032, 4))

    async def test_a_list_of_equal_pieces_costs_no_more_than_its_bytes(self) -> None:
        await self.start()
        names = b"\1" * 32 * 524_287
        self.files |= {"01" * 32: bytes(16_777_216), "02" * 32: File(16_777_216 * 524_287, names).listed()}
        tracemalloc.start()
        self.addCleanup(tracemalloc.stop)
        begun = time.process_time()
        path, ranged = f"/v1/blobs/{'02' * 32}", {"headers": {"Range": "bytes=7-"}}
        for _ in range(20):
            _, headers, body = await self.ask("GET", path, headers={"Range": "bytes=5-9"})
            self.assertEqual((headers["content-range"], body), (f"bytes 5-9/{16_777_216 * 524_287}", bytes(5)))
        async with contextlib.AsyncExitStack() as stack:
            for _ in range(20):
                said = await stack.enter_async_context(self.session.get(self.url + path, **ranged))
                self.assertEqual(await said.content.readexactly(100_000), bytes(100_000))
            self.assertEqual(await said.content.readexactly(20_000_000), bytes(20_000_000))
        self.assertLess(time.process_time() - begun, 20)
        self.assertLess(tracemalloc.get_traced_memory()[1], 120_000_000)


class Asked(client.Shard):
    """A shard that gives a metadata to who asks for a symbol, and writes down what it is asked."""

    def __init__(self, number: int, metadata: bytes, requests: list[bytes]):
        super().__init__(number, 1)
        self.metadata, self.requests = metadata, requests

    async def ask(self, *requests: bytes) -> list[client.Reply]:
        self.requests += requests
        if not self.metadata:
            raise ConnectionError("it is away")
        return [client.Reply({client.METADATA: self.metadata}, client.Answer(0, 1, 0))]


class Hung(Asked):
    """A shard that does not reply."""

    async def ask(self, *requests: bytes) -> list[client.Reply]:
        await asyncio.Event().wait()
        raise AssertionError


class Heads(GuardCase):
    async def test_who_is_late_keeps_nobody_from_a_length(self) -> None:
        await self.start()
        blob, hung = await self.network.walrus.encode(b"x" * 700, 1), [Hung(number, b"", []) for number in range(3)]
        for count in (2, 3):  # as many as are asked first, and with another one
            seats: Any = [*hung[:count], *(Asked(number, blob.metadata, []) for number in range(count, 4))]
            for it in hung:
                it.late = False
            with mock.patch.object(self.network.peers, "seats", lambda *_: seats):
                with mock.patch("random.sample", lambda found, count: [*found]), mock.patch("random.shuffle"):
                    async with asyncio.timeout(60):
                        self.assertEqual(await Lengths(self.network).of_blob(blob.identifier), 700)

    async def test_a_head_asks_no_bytes_beyond_the_metadata(self) -> None:
        true_length = Reader.length_alone
        await self.start()
        self.enterContext(
            mock.patch.object(self.gateway.reader, "length_alone", true_length.__get__(self.gateway.reader))
        )
        requests: list[bytes] = []
        for form in (1, 2):
            blob = await self.network.walrus.encode(b"x" * 700, 1, form)
            other = (await self.network.walrus.encode(b"y" * 900, 1, form)).metadata
            for given in ([b"", other, blob.metadata, b""], [other, b"", b"", blob.metadata]):
                seats: Any = [Asked(number, it, requests) for number, it in enumerate(given)]
                self.gateway.reader.lengths.known.clear()
                with mock.patch.object(self.network.peers, "seats", lambda *_: seats):
                    status, headers, _ = await self.ask("HEAD", f"/v1/blobs/{blob.identifier.hex()}")
                self.assertEqual((status, headers["content-length"]), (200, "700"))
        asked = len(requests)
        status, headers, _ = await self.ask("HEAD", f"/v1/blobs/{blob.identifier.hex()}")
        self.assertEqual((status, headers["content-length"], len(requests)), (200, "700", asked))  # it is known by now
        self.assertEqual({it[0] for it in requests}, {client.SYMBOL})
        self.assertEqual(
            {int.from_bytes(it[34:36], "big") for it in requests}, {999}
        )  # of no shard: there is no symbol
        listed = await self.network.walrus.encode(File(5, bytes(32)).listed(), 1)
        self.files[listed.identifier.hex()] = File(5, bytes(32)).listed()
        seats = [Asked(0, listed.metadata, requests)]
        with mock.patch.object(self.network.peers, "seats", lambda *_: seats):
            self.assertEqual(await Lengths(self.network).of_file(listed.identifier), None)
            _, headers, _ = await self.ask("HEAD", f"/v1/blobs/{listed.identifier.hex()}")
        self.assertEqual(headers["content-length"], "5")  # of what it lists, and so it is read

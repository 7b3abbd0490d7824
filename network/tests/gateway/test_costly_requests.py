"""Clients that try to harm others at a gateway or a node: by taking all turns, or by costly requests."""
import asyncio
import contextlib
import hashlib
import tarfile
import tracemalloc
import unittest
from typing import AsyncIterator
from unittest import mock

from support.harm_case import HarmCase
from support.http_case import DRAWN
from walrus import client
from walrus.format.frames import answer
from walrus.network.deploy.local import free_port
from walrus.network.gateway.bodies import archives, source
from walrus.network.gateway.http import digests
from walrus.network.gateway.resources import turns
from walrus.network.node import intake, whole_blob
from walrus.network.peers import parts
from walrus.network.service import metrics


class Harm(HarmCase):
    async def test_nobody_has_all_turns_to_store(self) -> None:
        alice, bob = self.token("alice"), self.token("bob")
        await self.start(uploads=8)
        self.enterContext(mock.patch.object(turns, "WAITING", 0.3))
        uploads = self.gateway.publisher.uploads
        async with contextlib.AsyncExitStack() as stack:
            for _ in range(2):
                await stack.enter_async_context(uploads.take("token alice"))
            self.assertEqual((await self.put(headers=alice), await self.put(headers=bob)), (503, 201))
            told = await self.ask("POST", f"/v1/extend/{'0' * 64}?epochs=1", headers=alice)
            self.assertEqual(told[0], 503)  # of a long folder that asks nodes for minutes
        self.assertEqual(await self.put(headers=alice), 201)

    async def test_who_reads_slowly_keeps_others_from_nothing(self) -> None:
        await self.start(room=8 * 16_777_216)
        names = [self.keep(DRAWN.randbytes(8_000_000)) for _ in range(4)]
        self.assertEqual(self.gateway.reader.sendings.each, 2)
        self.enterContext(mock.patch.object(turns, "WAITING", 60.0))
        readers = [await asyncio.open_connection("127.0.0.1", self.port, limit=4_096) for _ in names]
        for name, (reader, writer) in zip(names, readers):
            writer.write(f"GET /v1/blobs/{name} HTTP/1.1\r\nHost: 127.0.0.1:{self.port}\r\n\r\n".encode())
            self.assertIn(b"200", await reader.readline())
        await asyncio.sleep(1)
        used = sum(it.users for it in self.gateway.reader.cache.entries.values())
        self.assertEqual(used, 2)  # of the pieces sent to the four; the rest may be dropped
        async with self.gateway.reader.sendings.take("address 192.0.2.1"):
            pass  # somebody else's turn
        for _, writer in readers:
            writer.transport.abort()

    async def test_of_those_who_wait_nobody_has_any_number(self) -> None:
        """Otherwise a client that asks, disconnects and asks again takes memory for all requests of a minute."""
        self.enterContext(mock.patch.object(turns, "MOST", 5))
        places = turns.Turns(1, 1)
        together = turns.Together(places)
        async with places.take("a"):
            waiting = [asyncio.create_task(self.have(places.take("a"))) for _ in range(4)]
            waiting += [asyncio.create_task(self.have(together.take("a", b"1"))) for _ in range(5)]
            await asyncio.sleep(0.1)
            for further in (places.take("a"), together.take("a", b"1"), together.take("a", b"2")):
                with self.assertRaises(TimeoutError):
                    async with asyncio.timeout(30) as bound, further:
                        self.fail("one more waits")
                self.assertFalse(bound.expired())
            waiting.append(asyncio.create_task(self.have(places.take("b"))))
        async with asyncio.timeout(30):
            await asyncio.gather(*waiting)
        self.assertEqual((len(places.own), together.groups), (0, {}))

    @staticmethod
    async def have(place: contextlib.AbstractAsyncContextManager[None]) -> None:
        async with place:
            await asyncio.sleep(0)

    async def test_who_wants_the_same_has_one_place(self) -> None:
        together = turns.Together(turns.Turns(4, 1))
        async with together.take("a", b"1"), together.take("a", b"1"), together.take("b", b"2"):
            with mock.patch.object(turns, "WAITING", 0.01), self.assertRaises(TimeoutError):
                async with together.take("a", b"2"):
                    self.fail("one who asks has two places")
        self.assertEqual(together.groups, {})
        async with together.take("a", b"2"):
            self.assertEqual(len(together.groups), 1)

    async def test_nobody_waits_for_all_that_another_one_has_read(self) -> None:
        self.token("anyone")
        alice, bob = self.token("alice"), self.token("bob")
        read, goes_on = list[str](), asyncio.Semaphore(0)

        async def fetch(name: bytes, size: int) -> bytes:
            read.append(name.hex())
            await goes_on.acquire()
            return b"no folder"

        await self.start()
        self.enterContext(mock.patch.object(self.gateway.reader.cache, "read", fetch))
        for path, most in (("/v1/blobs/{}", 8), ("/v1/folders/{}/", 1)):
            names = [hashlib.sha256(f"{path}{it}".encode()).hexdigest() for it in range(41)]
            asked = [asyncio.create_task(self.ask("GET", path.format(it), headers=alice)) for it in names[:40]]
            async with asyncio.timeout(60):
                while len(read) < most:
                    await asyncio.sleep(0.01)
                await asyncio.sleep(0.2)
                asked.append(asyncio.create_task(self.ask("GET", path.format(names[40]), headers=bob)))
                while names[40] not in read and bytes.fromhex(names[40]) not in self.gateway.shelf.loading:
                    await asyncio.sleep(0.01)  # Bob's request is on its way
                while names[40] not in read:
                    goes_on.release()
                    await asyncio.sleep(0.05)
            self.assertLessEqual(read.index(names[40]), most + 2)
            for _ in names:
                goes_on.release()
            await asyncio.gather(*asked)
            read.clear()
            goes_on = asyncio.Semaphore(0)

    async def test_a_digest_is_computed_once(self) -> None:
        await self.start()
        name = self.keep(b"x" * 100_000)
        with mock.patch.object(digests, "sum_of", side_effect=digests.sum_of) as computed:
            for _ in range(3):
                wanted = {"Want-Repr-Digest": "sha-256=1", "Range": "bytes=0-0"}
                status, headers, _ = await self.ask("GET", f"/v1/blobs/{name}", headers=wanted)
                self.assertEqual((status, "repr-digest" in headers), (206, True))
        self.assertEqual(computed.call_count, 1)


class Tars(unittest.IsolatedAsyncioTestCase):
    async def test_what_a_tar_tells_without_a_file_takes_no_memory(self) -> None:
        """Otherwise a client that may store folders fills the memory: pax headers may follow each other for ever."""

        async def headers() -> AsyncIterator[bytes]:
            for block in range(12):
                fields = b"".join(b"21 %012d=\x00\xff12\n" % (block * 1_000 + it) for it in range(1_000))
                made = tarfile.TarInfo("fields")
                made.type, made.size = tarfile.XHDTYPE, len(fields)
                yield made.tobuf(tarfile.USTAR_FORMAT) + fields + bytes(-len(fields) % 512)
            yield tarfile.TarInfo("file").tobuf(tarfile.USTAR_FORMAT, "utf-8", "strict") + bytes(1_024)

        tracemalloc.start()
        self.addCleanup(tracemalloc.stop)
        found = [coming.path async for coming in archives.files_of_tar(source.Source(headers()))]
        self.assertEqual(found, ["file"])
        self.assertLess(tracemalloc.get_traced_memory()[1], 500_000)


class AtNodes(unittest.IsolatedAsyncioTestCase):
    async def test_of_a_request_no_more_envelopes_are_read_than_it_has(self) -> None:
        """Anybody may send a request of 14 MB with two million envelopes: reading all took seconds and a gigabyte."""
        shape = client.Shape(1)
        request, empty = whole_blob.place(shape, whole_blob.longest(shape)), client.envelope(b"")
        count = (len(request) - 1) // len(empty)
        request[0], end = parts.WHOLE, 1 + count * len(empty)
        request[1:end] = empty * count
        tracemalloc.start()
        self.addCleanup(tracemalloc.stop)
        self.assertIsNone(whole_blob.Whole.read(shape, request[:end]))
        self.assertLess(tracemalloc.get_traced_memory()[1], 100_000)

    async def test_a_blob_that_comes_again_costs_the_ledger_nothing(self) -> None:
        node, shard, came = mock.MagicMock(), mock.MagicMock(epoch=3), mock.MagicMock(identifier=bytes(32))
        node.name = "node-0"
        shard.put_whole, node.store.durable = mock.AsyncMock(return_value=[answer(client.COUNTS[0])]), mock.AsyncMock()
        ledger_hears, posted = asyncio.Event(), list[str]()

        def leave(text: str) -> "asyncio.Future[int]":
            posted.append(text)
            return asyncio.ensure_future(heard())

        async def heard() -> int:
            await ledger_hears.wait()
            return 1

        node.recorders.leave = leave
        node.ledger.voted.return_value, node.ledger.writing_epoch, node.sides = False, 3, {3: {0: shard}}
        node.ledger.certified_before.return_value = 0
        made = intake.Intake(node)
        with mock.patch.object(intake.Whole, "read", return_value=came):
            for _ in range(5):  # while the ledger is away
                self.assertEqual(await made.store(0, memoryview(b"")), [answer(client.DONE)])
                await asyncio.sleep(0.01)
            self.assertEqual((len(posted), len(made.given)), (1, 1))
            ledger_hears.set()
            await asyncio.sleep(0.01)
            node.ledger.voted.return_value = True
            await made.store(0, memoryview(b""))
            await asyncio.sleep(0.01)
            self.assertEqual((len(posted), len(made.given)), (1, 0))
        await made.close()

    async def test_many_connections_for_numbers_leave_descriptors_to_the_node(self) -> None:
        port = free_port()
        served = await metrics.serve(str(port), mock.AsyncMock(return_value=b"1\n"))
        self.addAsyncCleanup(served.end, 1)
        opened = [await asyncio.open_connection("127.0.0.1", port) for _ in range(metrics.CONNECTIONS + 8)]
        await asyncio.sleep(0.3)
        ended = sum(reader.at_eof() or bool(reader.exception()) for reader, _ in opened)
        self.assertEqual(ended, 8)
        opened[0][1].write(b"GET /metrics HTTP/1.1\r\nHost: x\r\n\r\n")
        self.assertIn(b"200", await opened[0][0].readline())
        for _, writer in opened:
            writer.transport.abort()

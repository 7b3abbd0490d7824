"""Slow peers delay nobody else: clients that send or read slowly, slow name look-ups, and the bytes that a read moves.

What is slow here is slow for longer than any test may take: so whatever ends did not wait for it, however busy the
machine."""
import asyncio
import os
import socket
import threading
from typing import Any
from unittest import mock

from support.harness import usage_of
from support.http_case import DRAWN
from support.slow_case import SlowCase
from walrus import client
from walrus.network.files import file_list

SLOW, STEP = 16, 4_096  # clients; bytes that each moves in a tenth of a second


class Slow(SlowCase):
    async def test_sixteen_slow_uploads_beside_a_fast_one(self) -> None:
        size, ends = 120 * STEP, asyncio.Event()
        done = list[bytes]()

        async def drip() -> None:
            reader, writer = await asyncio.open_connection("127.0.0.1", self.port)
            head = f"PUT /v1/blobs?epochs=2 HTTP/1.1\r\nHost: localhost:{self.port}\r\nConnection: close\r\n"
            writer.write(f"{head}Content-Length: {size}\r\n\r\n".encode())
            for place in range(0, size, STEP):
                if place == size - STEP:  # a little of it is left while the others are stored
                    await ends.wait()
                writer.write(DRAWN.randbytes(STEP))
                if not ends.is_set():
                    await asyncio.sleep(0.1)
            done.append((await reader.readline())[:12])
            writer.close()

        tasks = [asyncio.create_task(drip()) for _ in range(SLOW)]
        while self.gateway.reader.bytes['way="in"'] < SLOW * STEP:
            await asyncio.sleep(0.1)
        for _ in range(3):
            await self.put(DRAWN.randbytes(1_000_000))
        self.assertEqual(done, [])  # they are still slowly sending
        ends.set()
        await asyncio.gather(*tasks)
        self.assertEqual(done, [b"HTTP/1.1 201"] * SLOW)

    async def test_sixteen_slow_readers_beside_a_small_blob(self) -> None:
        names = [(await self.put(DRAWN.randbytes(4_000_000)))["blobId"] for _ in range(SLOW)]
        small = (await self.put(b"small"))["blobId"]
        before, _ = usage_of(os.getpid())
        for listener in self.gateway.listening:
            listener.setsockopt(socket.SOL_SOCKET, socket.SO_SNDBUF, 16 * STEP)  # so that the system buffers little
        readers = [await asyncio.open_connection("127.0.0.1", self.port, limit=2 * STEP) for _ in names]
        for _, writer in readers:
            writer.get_extra_info("socket").setsockopt(socket.SOL_SOCKET, socket.SO_RCVBUF, 16 * STEP)
        for name, (reader, writer) in zip(names, readers):
            writer.write(f"GET /v1/blobs/{name} HTTP/1.1\r\nHost: 127.0.0.1\r\n\r\n".encode())
            self.assertIn(b"200", await reader.readline())
        after, _ = usage_of(os.getpid())
        self.assertEqual(self.gateway.reader.memory.taken, 0)
        self.assertLess(after - before, 4_000_000 * SLOW * 3 // 4)  # a third of all if the machine is idle
        self.assertEqual((await self.get(small))[2], b"small")
        self.assertLess(self.gateway.reader.bytes['way="out"'], 4_000_000 * SLOW)  # they have not taken all of it
        self.assertEqual([bool(reader.exception()) for reader, _ in readers], [False] * SLOW)
        for _, writer in readers:
            writer.transport.abort()

    async def test_a_read_moves_what_it_needs(self) -> None:
        self.enterContext(mock.patch("walrus.client.shards.LEAST", 20.0))  # a busy machine is not taken for a late node
        self.enterContext(mock.patch("walrus.client.shards.MOST", 20.0))
        names = [(await self.network.store(DRAWN.randbytes(600_000), 5)).identifier for _ in range(5)]
        heard, hear_one = 0, client.Shard.hear_one

        async def counted(*words: Any) -> client.Reply:
            nonlocal heard
            reply = await hear_one(*words)
            heard += sum(map(len, reply.kept.values()))
            return reply

        self.enterContext(mock.patch.object(client.Shard, "hear_one", counted))
        for name in names:
            self.assertEqual(len(await self.network.fetch(name)), 600_000)
        needed = (
            len(names) * 2 * (40 + 3 * 200_000 // 2)
        )  # f+1 primary slivers, of 2f+1 symbols, a sixth of a blob each
        self.assertGreaterEqual(heard, needed)
        self.assertLessEqual(heard, 1.1 * needed)

    async def test_names_that_are_looked_up_for_long_hold_up_no_read(self) -> None:
        name, ends, loop = (await self.put(bytes(4_000_000)))["blobId"], threading.Event(), asyncio.get_running_loop()
        self.gateway.reader.cache.entries.clear()
        lookups = [loop.run_in_executor(None, ends.wait) for _ in range(64)]
        try:
            self.assertEqual(len((await self.get(name))[2]), 4_000_000)
        finally:
            ends.set()
            await asyncio.gather(*lookups)

    async def test_a_large_file_overlaps(self) -> None:
        """A piece is received while others are stored, and the whole file comes back in order."""
        self.enterContext(mock.patch.object(file_list, "PIECE", 300_000))
        data, most, store = DRAWN.randbytes(3_000_000), 0, self.network.publish
        under_way, overlaps = 0, asyncio.Event()

        async def counted(encoded: client.Encoded, until: int) -> object:
            nonlocal under_way, most
            under_way += 1
            most = max(most, under_way)
            try:
                if most > 1:
                    overlaps.set()
                await overlaps.wait()  # for ever, unless another one is received meanwhile
                return await store(encoded, until)
            finally:
                under_way -= 1

        with mock.patch.object(self.network, "publish", counted):
            told = await self.put(data)
        self.assertEqual(told["pieces"], 10)
        self.assertIn(most, (2, 3))
        self.assertTrue((await self.get(told["blobId"]))[2] == data)

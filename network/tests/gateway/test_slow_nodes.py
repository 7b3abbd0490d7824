"""Nodes that hang, reply slowly or read nothing delay nobody, and neither do strangers that wait at them.

What is slow here is slow for longer than any test may take: so whatever ends did not wait for it, however busy the
machine."""
import asyncio
import collections
import contextlib
import itertools
import signal
import ssl
from typing import Any, AsyncIterator, Sequence
from unittest import mock

from support.harness import ODD
from support.http_case import DRAWN
from support.slow_case import ENOUGH, LONG, SlowCase
from walrus import client
from walrus.client.shards import LONGEST_END
from walrus.format.frames import answer
from walrus.network.files import file_list
from walrus.network.gateway.read import reader as reading
from walrus.network.node import shard
from walrus.network.peers import parts, seats


class Nodes(SlowCase):
    async def moves_on(self, useless: str) -> None:
        """Stores and reads files beside a useless node. Each store but the first waits only for the other nodes, and a
        read asks it at most once, until others are asked in its place."""
        for name in ("LEAST", "MOST"):  # so that no other node is taken for late
            self.enterContext(mock.patch(f"walrus.client.shards.{name}", 20.0))
        exchange, store, wait, ended = seats.Seat.exchange, seats.Seat.store, asyncio.wait, list[object]()
        storing, reads, graces = set["asyncio.Task[Any] | None"](), 0, 0

        def is_useless(seat: seats.Seat) -> bool:
            return seat.name == useless and seat.peers is self.network.peers

        async def watched(seat: seats.Seat, requests: Sequence[client.Request], *heard: Any) -> list[client.Reply]:
            nonlocal reads
            reads += is_useless(seat) and requests[0][:1] == bytes([client.READ])
            said = await exchange(seat, requests, *heard)
            ended.extend([said] if is_useless(seat) else [])
            return said

        async def stored(seat: seats.Seat, request: list[client.Data], registered: asyncio.Event) -> str:
            storing.update([asyncio.current_task()] if is_useless(seat) else [])  # it may still wait for its turn there
            return await store(seat, request, registered)

        async def waited(tasks: Any, **words: Any) -> Any:
            nonlocal graces
            graces += bool(words.get("timeout") and storing & {*tasks})
            return await wait(tasks, **words)

        self.enterContext(mock.patch.object(seats.Seat, "store", stored))
        with mock.patch.object(seats.Seat, "exchange", watched), mock.patch.object(asyncio, "wait", waited):
            for _ in range(6):
                data = DRAWN.randbytes(9_000)
                name = (await self.put(data))["blobId"]  # curl gives up after 120 s
                self.gateway.reader.cache.entries.clear()
                self.assertEqual((await self.get(name))[2], data)
        self.assertEqual((len(storing), ended), (6, []))  # all of it still waits, and nobody waits for it
        self.assertLessEqual((graces, reads), (1, 1))

    async def test_a_node_that_is_stopped(self) -> None:
        await self.put(b"before")
        hung = self.local.processes["node-2"]
        self.addCleanup(lambda: hung.returncode is None and hung.send_signal(signal.SIGCONT))
        hung.send_signal(signal.SIGSTOP)
        await self.moves_on("node-2")
        hung.send_signal(signal.SIGCONT)
        async with asyncio.timeout(ENOUGH):  # it is asked like the others again once it answers
            while self.network.late or any(self.network.behind.values()):
                await asyncio.sleep(0.1)
        name = (await self.network.store(b"after", 5)).identifier
        self.assertTrue(await self.network.until(lambda it: it.certificate(name) == (0, 4), ENOUGH))

    async def test_a_node_that_hangs_is_waited_for_once(self) -> None:
        """Only those pieces of a file are late that were asked of it when it was first found to hang."""
        self.enterContext(mock.patch("walrus.client.shards.LEAST", 20.0))  # so that no other node is taken for late
        self.enterContext(mock.patch("walrus.client.shards.MOST", 20.0))
        self.enterContext(mock.patch.object(file_list, "PIECE", 100_000))
        data = DRAWN.randbytes(4_000_000)
        name = (await self.put(data))["blobId"]
        hung, asked, exchange = self.local.processes["node-2"], collections.Counter[str](), seats.Seat.exchange
        self.addCleanup(lambda: hung.returncode is None and hung.send_signal(signal.SIGCONT))
        hung.send_signal(signal.SIGSTOP)

        async def counted(seat: seats.Seat, requests: Sequence[client.Request], *heard: Any) -> list[client.Reply]:
            reads = requests[0][:1] == bytes([client.READ])  # and not a piece that a late node is still storing
            asked[seat.name] += reads and seat.peers is self.network.peers  # and not by the check whether nodes answer
            return await exchange(seat, requests, *heard)

        self.enterContext(mock.patch.object(seats.Seat, "exchange", counted))
        self.gateway.reader.cache.entries.clear()
        self.assertTrue((await self.get(name))[2] == data)
        async with asyncio.timeout(ENOUGH):
            while asked.total() < 2 * 41:  # f+1 shards for each of 40 pieces and their list
                await asyncio.sleep(0.01)
        self.assertLessEqual(asked["node-2"], 1 + reading.AHEAD)

    @contextlib.asynccontextmanager
    async def in_place_of(self, node: str, drips: bool) -> AsyncIterator[None]:
        """Listens in place of a node, accepts connections, and sends a byte of a reply at times, or nothing."""
        await self.local.end(node, kill=True)

        async def connect(reader: asyncio.StreamReader, writer: asyncio.StreamWriter) -> None:
            with contextlib.suppress(OSError):
                for byte in itertools.chain(client.HEAD.pack(client.MARK, 3, LONGEST_END), itertools.repeat(0)):
                    writer.write(bytes([byte]) if drips else b"")
                    await asyncio.sleep(3)  # so that it does not end before the test does
                    if writer.transport.is_closing():
                        break

        context = ssl.create_default_context(ssl.Purpose.CLIENT_AUTH)
        context.load_cert_chain(self.folder / f"{node}.crt", self.folder / f"{node}.key")
        port = self.network.ledger.addresses[node][1]
        server = await asyncio.start_server(connect, "127.0.0.1", port, ssl=context if drips else None)
        try:
            yield
        finally:
            server.close()

    async def test_a_port_that_takes_nothing(self) -> None:
        await self.put(b"before")
        async with self.in_place_of("node-1", False):
            await self.moves_on("node-1")

    async def test_a_node_that_drips(self) -> None:
        await self.put(b"before")
        async with self.in_place_of("node-3", True):
            await self.moves_on("node-3")

    async def asked(self, number: int, request: bytes) -> tuple[asyncio.StreamReader, asyncio.StreamWriter]:
        """Returns a connection to a node on which a client without a certificate has sent a request for its shard."""
        context = ssl.create_default_context()
        context.check_hostname, context.verify_mode = False, ssl.CERT_NONE
        address = self.network.ledger.addresses[f"node-{number}"]
        reader, writer = await asyncio.open_connection(*address, ssl=context)
        writer.transport.set_write_buffer_limits(0)
        writer.write(client.envelope(request, number))
        await writer.drain()
        return reader, writer

    async def stranger(self, number: int, request: bytes) -> bytes:
        """Returns the first reply of a node to that."""
        reader, writer = await self.asked(number, request)
        with contextlib.closing(writer):
            return (await client.take_envelope(reader, 99_999))[1]

    @contextlib.asynccontextmanager
    async def waiting(self, number: int, requests: list[bytes]) -> AsyncIterator[None]:
        """Strangers that have sent the node of a shard requests that wait for the ledger, and still wait at the end.
        The node has received these before anything of the clients that follow."""
        asked = [await self.asked(number, request) for request in requests]
        tasks = [asyncio.create_task(client.take_envelope(reader, 99_999)) for reader, _ in asked]
        try:
            async with asyncio.timeout(ENOUGH):
                yield
            self.assertEqual([task.done() for task in tasks], [False] * len(tasks))
        finally:
            for task, (_, writer) in zip(tasks, asked):
                task.cancel()
                writer.transport.abort()
            await asyncio.gather(*tasks, return_exceptions=True)

    async def patient(self, node: str) -> None:
        """Makes a node wait for the ledger for longer than this test takes."""
        await self.local.end(node)
        await self.local.start_node(node, ODD, {"ODD_PATIENCE": str(LONG)})

    async def test_strangers_whose_blobs_nobody_registers(self) -> None:
        name, requests = bytes.fromhex((await self.put(b"before"))["blobId"]), list[bytes]()
        for _ in range(9):
            encoded = await self.network.walrus.encode(DRAWN.randbytes(900), 1)
            requests.append(b"".join(map(bytes, parts.request_of(encoded, 2))))
        self.assertEqual(await self.stranger(2, requests[0]), answer(shard.UNREGISTERED))  # once it has waited
        await self.patient("node-2")
        async with self.waiting(2, requests):
            self.assertEqual((await self.stranger(2, client.write_frame(client.Read(name))))[0], client.METADATA)
        encoded = await self.network.walrus.encode(b"registered late", 1)
        request = b"".join(map(bytes, parts.request_of(encoded, 2)))
        async with self.waiting(2, requests):
            late = asyncio.create_task(self.stranger(2, request))
            await self.network.register(encoded.identifier, 3)
            self.assertEqual(await late, answer(client.DONE))

    async def test_words_that_wait_for_the_ledger(self) -> None:
        await self.patient("node-1")
        encoded = await self.network.walrus.encode(b"stored while the ledger is away", 1)
        await self.network.register(encoded.identifier, 3)
        while await self.stranger(1, bytes(encoded.metadata)) == answer(shard.UNREGISTERED):
            await asyncio.sleep(0.1)
        await self.local.end("recorder-0", kill=True)
        for sliver in encoded.slivers[1]:
            self.assertEqual(await self.stranger(1, bytes(sliver)), answer(client.DONE))
        ack, read = (client.write_frame(it(encoded.identifier)) for it in (client.Ack, client.Read))
        async with self.waiting(1, [ack] * 9):
            self.assertEqual((await self.stranger(1, read))[0], client.METADATA)

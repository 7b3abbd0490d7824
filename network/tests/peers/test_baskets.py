"""Baskets that receive slivers, and the connections over which these arrive, on each event loop that is installed."""
import asyncio
import pathlib
import random
import ssl
import tempfile
import time
import unittest

from support.wire_case import Taken
from walrus import client
from walrus.network.service import certificates
from walrus.wire import connection, port
from walrus.wire.baskets import OFFERED, PASSED, Basket
from walrus.wire.streams import take_envelope

try:
    import uvloop
except ImportError:
    uvloop = None


class Baskets(unittest.IsolatedAsyncioTestCase):
    async def asyncSetUp(self) -> None:
        accepted: "asyncio.Queue[connection.Wire]" = asyncio.Queue()
        loop = asyncio.get_running_loop()
        server = await loop.create_server(lambda: Taken(accepted.put_nowait), "127.0.0.1", 0)
        self.addCleanup(server.close)
        self.ends = list[tuple[connection.Wire, connection.Wire]]()
        for _ in range(3):
            own = await connection.connect(*server.sockets[0].getsockname())
            self.ends.append((own, await accepted.get()))
            self.addCleanup(own.transport.abort)
            self.addCleanup(self.ends[-1][1].transport.abort)
        drawn = random.Random(8)
        self.large, self.small = [drawn.randbytes(400_000) for _ in range(3)], b"\x10 a metadata"

    async def take(self, number: int, basket: Basket) -> bytes:
        return (await take_envelope(self.ends[number][0], 999_999, basket))[1]

    async def test_payloads_that_come_at_once_are_one_stream(self) -> None:
        basket = Basket(2, size=400_000)
        tasks = [asyncio.create_task(self.take(number, basket)) for number in (0, 1)]
        for number in (0, 1):
            self.ends[number][1].write(client.envelope(self.large[number])[:100_000])
        while len(basket.places) < 2:
            await asyncio.sleep(0.01)
        for number in (1, 0):
            self.ends[number][1].write(client.envelope(self.large[number])[100_000:])
        heard = [self.small, *await asyncio.gather(*tasks)]
        stream = basket.stream(heard)
        self.assertIsInstance(stream, memoryview)
        self.assertIs(memoryview(stream).obj, basket.memory.obj)
        self.assertEqual(bytes(stream), b"".join(map(client.envelope, [self.small, *self.large[:2]])))

    async def test_what_comes_beside_is_read_past_or_has_the_place_of_one_that_is_slow(self) -> None:
        """So a read takes memory only for the slivers that it needs, however many it requests."""
        basket = Basket(2, 3, 400_000)
        late = asyncio.create_task(self.take(0, basket))
        self.ends[0][1].write(client.envelope(self.large[0])[:-1])
        while not basket.places:
            await asyncio.sleep(0.01)
        for number in (1, 2):
            self.ends[number][1].write(client.envelope(self.large[number]))
        first = await self.take(1, basket)
        basket.places[0].since = time.monotonic() + 60
        self.assertIs(await self.take(2, basket), PASSED)
        basket.places[0].since -= 120
        self.ends[2][1].write(client.envelope(self.large[2]))
        heard = [self.small, first, await self.take(2, basket)]
        stream, wanted = basket.stream(heard), [self.small, self.large[2], self.large[1]]
        self.assertIs(memoryview(stream).obj, basket.memory.obj)
        self.assertEqual(bytes(stream), b"".join(map(client.envelope, wanted)))
        self.ends[0][1].write(self.large[0][-1:] + client.envelope(self.small))
        self.assertIs(await late, PASSED)  # its memory had been given to another payload
        self.assertEqual(bytes(stream), b"".join(map(client.envelope, wanted)))
        self.assertEqual(await self.take(0, basket), self.small)  # the connection is still in step

    async def test_a_payload_that_still_comes_is_no_part_of_it(self) -> None:
        """What the program reads must not change meanwhile."""
        basket = Basket(2, size=400_000)
        late = asyncio.create_task(self.take(0, basket))
        self.ends[0][1].write(client.envelope(self.large[0])[:-1])
        while not basket.places:
            await asyncio.sleep(0.01)
        self.ends[1][1].write(client.envelope(self.large[1]))
        heard = [await self.take(1, basket), self.small]
        joined = basket.stream(heard)
        self.assertIsInstance(joined, list)
        self.assertEqual(b"".join(joined), b"".join(map(client.envelope, [self.large[1], self.small])))
        late.cancel()

    async def test_what_comes_when_all_is_read_takes_no_memory(self) -> None:
        basket = Basket(2, 3, 400_000)
        coming = [asyncio.create_task(self.take(number, basket)) for number in (0, 1, 2)]
        for number in (0, 1, 2):
            self.ends[number][1].write(client.envelope(self.large[number])[:1000])
        while len(basket.places) < 2:
            await asyncio.sleep(0.01)
        basket.close()
        for number in (0, 1, 2):
            self.ends[number][1].write(client.envelope(self.large[number])[1000:] + client.envelope(self.small))
        self.assertEqual(await asyncio.gather(*coming), [PASSED] * 3)
        self.assertFalse(any(basket.memory))
        for number in (0, 1, 2):
            self.assertEqual(await self.take(number, basket), self.small)

    async def test_who_breaks_off_leaves_his_place(self) -> None:
        basket = Basket(1, 2, 400_000)
        broken = asyncio.create_task(self.take(0, basket))
        self.ends[0][1].write(client.envelope(self.large[0])[:-1])
        while not basket.places:
            await asyncio.sleep(0.01)
        self.ends[0][1].transport.abort()
        with self.assertRaises((EOFError, OSError)):
            await broken
        self.ends[1][1].write(client.envelope(self.large[1]))
        self.assertEqual(bytes(basket.stream([await self.take(1, basket)])), client.envelope(self.large[1]))

    async def test_what_comes_while_all_is_read_is_read_past(self) -> None:
        basket = Basket(1, 2, 400_000)
        self.ends[0][1].write(client.envelope(self.large[0]))
        first = await self.take(0, basket)
        basket.stream([first])
        self.ends[1][1].write(client.envelope(self.large[1]) + client.envelope(self.small))
        self.assertEqual([await self.take(1, basket) for _ in range(2)], [PASSED, self.small])
        self.assertEqual(bytes(first), self.large[0])

    async def test_a_payload_of_no_use_gives_way(self) -> None:
        basket = Basket(1, 2, 400_000)
        self.ends[0][1].write(client.envelope(self.large[0]))
        first = await self.take(0, basket)
        basket.places[0].since -= 60
        self.ends[1][1].write(client.envelope(self.large[1]))
        stream = basket.stream([first, await self.take(1, basket)])
        self.assertEqual(bytes(stream), b"".join(map(client.envelope, self.large[:2])))

    async def test_what_has_another_length_is_read_past(self) -> None:
        """Even if it is first, or as long as a proof: so a liar gets no memory, and keeps none from others."""
        basket, long, proof = Basket(1, 2), bytes(500_000), bytes(600_000)
        self.ends[0][1].write(client.envelope(long) + client.envelope(self.small))
        self.assertEqual([await self.take(0, basket) for _ in range(2)], [b"", self.small])
        basket.size, basket.proofs = 400_000, (600_000,)
        self.ends[0][1].write(client.envelope(long) + client.envelope(proof) + client.envelope(self.small))
        found = [await self.take(0, basket) for _ in range(3)]
        self.assertEqual((found, len(basket.memory)), ([b"", b"", self.small], 0))
        self.assertEqual([it is OFFERED for it in found], [False, True, False])
        self.ends[1][1].write(client.envelope(self.large[0]))
        first = await self.take(1, basket)
        self.assertEqual(bytes(first), self.large[0])
        self.assertIs(memoryview(first).obj, basket.memory.obj)

    async def test_small_payloads_take_no_place(self) -> None:
        basket = Basket(2, size=400_000)
        self.ends[0][1].write(client.envelope(self.small))
        self.assertEqual(await self.take(0, basket), self.small)
        self.assertEqual((basket.places, len(basket.memory)), ([], 0))
        self.assertEqual(b"".join(basket.stream([self.small])), client.envelope(self.small))


class Loops(unittest.TestCase):
    def test_wires_over_tls(self) -> None:
        """uvloop has transport classes of its own."""
        folder = pathlib.Path(self.enterContext(tempfile.TemporaryDirectory()))
        certificates.make_authority(folder / "authority")
        certificates.make(folder / "node-0", folder / "authority", "node-0", ["node-0"])
        for make in [asyncio.new_event_loop, *([uvloop.new_event_loop] if uvloop else [])]:
            with asyncio.Runner(loop_factory=make) as runner:
                runner.run(self.converse(folder))

    async def converse(self, folder: pathlib.Path) -> None:
        """Send a request whose reply a basket receives."""
        own = ssl.create_default_context(ssl.Purpose.CLIENT_AUTH)
        own.load_cert_chain(folder / "node-0.crt", folder / "node-0.key")
        others, large = ssl.create_default_context(cafile=str(folder / "authority.crt")), bytes(range(250)) * 4_000

        async def reply(shard: int, request: bytes) -> port.Said:
            return port.Said([client.envelope(request + large)])

        served, asked = port.Port(reply, client.Shape(1), port.Bounds()), client.write_frame(client.Read(bytes(32)))
        number, size = await served.listen("127.0.0.1", 0, own), len(asked) + len(large)
        basket = Basket(1, size=size)
        ours = await connection.connect("127.0.0.1", number, ssl=others, server_hostname="node-0")
        ours.write(client.envelope(asked))
        _, heard = await take_envelope(ours, size, basket)
        self.assertEqual(bytes(basket.stream([heard])), client.envelope(asked + large))
        ours.close()
        await served.close_port()
        await asyncio.sleep(0.05)

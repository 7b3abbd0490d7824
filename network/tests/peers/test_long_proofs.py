"""Long proofs of bad encoding: clients that read or recover request them one by one if the other replies are too few,
and a liar takes no memory with payloads that are as long as a proof."""
import asyncio
import struct
import types
import unittest
import weakref
from typing import Any, Sequence
from unittest import mock

from walrus import audit, bundles, client
from walrus.format import frames, shapes
from walrus.network.gateway.read.lengths import Lengths
from walrus.network.gateway.status import watch as page
from walrus.network.node import recovery
from walrus.wire import connection

LENGTH, SYMBOL = 3_000_000, 500_000  # bytes of a blob, and of one of its symbols at f = 1
METADATA = bytes([client.METADATA]) + struct.pack(">HQ", 1, LENGTH) + bytes(range(256))
NAME = shapes.name_of(METADATA)
DONE = bytes([client.ANSWER, client.DONE]) + bytes(8)
PROOF = 38 + 3 * (SYMBOL + 71)  # bytes of a proof of a row


def sliver(shard: int) -> bytes:
    front = bytes([client.SLIVER]) + NAME + struct.pack(">BHI", client.PRIMARY, shard, 3 * SYMBOL)
    return front + bytes([shard]) * (3 * SYMBOL)


def proof(word: bytes) -> bytes:
    """Return a payload with the length and prefix of a proof of this blob."""
    return (bytes([client.PROOF]) + NAME + struct.pack(">BHH", client.PRIMARY, 0, 3) + word).ljust(PROOF, b"p")


def opening(cross: int) -> bytes:
    """Return a payload with the length and prefix of an opening of secondary sliver 0 of this blob."""
    front = bytes([client.OPENING]) + NAME + struct.pack(">BHHI", client.SECONDARY, 0, cross, SYMBOL)
    return front.ljust(36 + 71 + SYMBOL, b"o")


class Walrus:
    """Accepts any two slivers as a blob, any two openings as a sliver, and as a proof the one that says "true"."""

    def __init__(self) -> None:
        self.ran, self.checked = list[str](), list[int]()

    async def run(self, *words: object, data: Any = b"") -> tuple[int, bytes]:
        payloads = [it for _, it in client.split(b"".join(data) if isinstance(data, list) else bytes(data))]
        self.ran.append(str(words[0]))
        if words[0] == "check":
            self.checked.append(len(payloads))
            is_true = payloads[:1] == [METADATA] and payloads[-1] == proof(b"true")
            return (3, b"inconsistent\n") if is_true else (4, b"consistent\n")
        of = client.SLIVER if words[0] == "read" else client.OPENING
        found = [it for it in payloads if it[0] == of]
        made = b"the blob" if words[0] == "read" else client.envelope(b"the sliver")
        return (0, made) if len(found) > 1 else (4, b"short %d of 2\n" % len(found))

    def code(self, status: int, text: bytes) -> client.Code:
        return client.Code.of(status, text)


class Shard(client.Shard):
    """A shard behind a `Wire`, whose bytes are read straight into the basket's memory."""

    def __init__(self, number: int, port: int):
        super().__init__(number, 1, 60)
        self.port = port

    async def open(self) -> Any:
        if not self.streams:
            found = await connection.connect("127.0.0.1", self.port)
            self.streams = found, found
        return self.streams


class ProofCase(unittest.IsolatedAsyncioTestCase):
    async def asyncSetUp(self) -> None:
        asyncio.get_running_loop().set_debug(False)
        self.enterContext(mock.patch("walrus.client.shards.LEAST", 60.0))  # nobody is late
        self.enterContext(mock.patch("walrus.client.shards.MOST", 60.0))
        self.enterContext(mock.patch("random.sample", lambda found, count: [*found]))
        self.asked, self.memory, self.walrus, real = list[int](), list[int](), Walrus(), connection.memory

        def counted(size: int) -> memoryview:
            self.memory.append(size)
            return real(size)

        self.enterContext(mock.patch.object(connection, "memory", counted))

    async def shards(self, replies: Sequence[Sequence[bytes]], silent: Sequence[int] = ()) -> list[client.Shard]:
        """Return shards that give these replies to any request; the `silent` ones reply only once."""
        made = list[client.Shard]()
        for number, reply in enumerate(replies):

            async def answer(reader: Any, writer: Any, number: int = number, reply: Sequence[bytes] = reply) -> None:
                while True:
                    try:
                        await client.take_envelope(reader, 99)
                    except EOFError:
                        return writer.close()
                    self.asked.append(number)
                    if number in silent and self.asked.count(number) > 1:
                        continue
                    for payload in reply:
                        writer.write(client.envelope(payload, number))

            server = await asyncio.start_server(answer, "127.0.0.1", 0)
            self.addCleanup(server.close)
            made.append(await self.enterAsyncContext(Shard(number, server.sockets[0].getsockname()[1])))
        return made


class Reading(ProofCase):
    async def test_who_lies_by_what_is_as_long_as_a_proof_has_no_memory(self) -> None:
        lies = [METADATA, *[proof(b"false")] * 2, DONE]
        shards = await self.shards([lies, *([METADATA, sliver(it), DONE] for it in (1, 2, 3))])
        self.assertEqual(await client.fetch(shards, NAME, self.walrus), b"the blob")  # type: ignore[arg-type]
        self.assertEqual(self.asked, [0, 1, 2])
        self.assertNotIn(PROOF, self.memory)
        self.assertEqual(self.walrus.ran, ["read"])

    async def test_a_long_proof_is_asked_for_where_slivers_are_too_few(self) -> None:
        lies = [METADATA, proof(b"false"), DONE]
        told = [[METADATA, proof(b"true"), DONE], [METADATA, sliver(3), proof(b"true"), DONE]]
        shards = await self.shards([lies, lies, *told])
        status, text = await client.collect(  # type: ignore[arg-type]
            shards, client.Read(NAME), self.walrus, "read", NAME.hex()  # type: ignore[arg-type]
        )
        self.assertEqual((status, text), (3, client.envelope(proof(b"true"))))
        self.assertEqual(sorted(self.asked[:4]), [0, 1, 2, 3])
        self.assertEqual(self.asked[4:], [0, 1, 2])  # one after the other, until one has a valid proof
        self.assertEqual((self.memory.count(PROOF), self.walrus.checked), (3, [2, 2, 2]))
        with self.assertRaises(client.Refused) as caught:
            await client.fetch(shards, NAME, self.walrus)  # type: ignore[arg-type]
        self.assertEqual(caught.exception.status, 3)

    async def test_who_is_late_with_a_proof_holds_up_nobody(self) -> None:
        self.enterContext(mock.patch("walrus.client.shards.LEAST", 0.3))
        self.enterContext(mock.patch("walrus.client.shards.MOST", 0.3))
        lies, told = [METADATA, proof(b"false"), DONE], [METADATA, proof(b"true"), DONE]
        shards = await self.shards([lies, [DONE], [DONE], told], silent=[0])
        async with asyncio.timeout(30):  # a shard may take 60 s
            with self.assertRaises(client.BadlyEncoded):
                await client.fetch(shards, NAME, self.walrus)  # type: ignore[arg-type]
        self.assertEqual((self.asked.count(0), self.asked.count(3), self.walrus.checked), (2, 2, [2]))

    async def test_of_who_is_late_no_more_are_asked_than_slivers_are_needed(self) -> None:
        self.enterContext(mock.patch("walrus.client.shards.LEAST", 0.3))
        self.enterContext(mock.patch("walrus.client.shards.MOST", 0.3))
        shards = await self.shards([[METADATA, proof(b"false"), DONE]] * 4, silent=range(4))
        reading = asyncio.create_task(client.fetch(shards, NAME, self.walrus))  # type: ignore[arg-type]
        await asyncio.wait([reading], timeout=3)
        self.assertEqual((reading.done(), sorted(self.asked)[:4], len(self.asked)), (False, [0, 0, 1, 1], 6))
        reading.cancel()

    async def test_where_nobody_proves_it_too_little_is_heard(self) -> None:
        lies = [METADATA, proof(b"false"), DONE]
        shards = await self.shards([lies, lies, [METADATA, sliver(2), DONE], [DONE]])
        with self.assertRaises(client.TooFew) as caught:
            await client.fetch(shards, NAME, self.walrus)  # type: ignore[arg-type]
        self.assertEqual((caught.exception.held, caught.exception.needed), (1, 2))
        self.assertEqual((self.memory.count(PROOF), self.walrus.checked), (2, [2, 2]))

    async def test_of_who_is_asked_for_a_proof_one_is_in_memory_and_nothing_else(self) -> None:
        told = [[METADATA, sliver(0), proof(b"true"), DONE], [METADATA, proof(b"false"), proof(b"false"), DONE]]
        for order, asked in ((told, 1), (told[::-1], 2)):
            self.memory.clear()
            shards = await self.shards([*order, [DONE], [DONE]])
            with self.assertRaises(client.BadlyEncoded):
                await client.fetch(shards, NAME, self.walrus)  # type: ignore[arg-type]
            self.assertEqual((self.memory.count(PROOF), self.memory.count(40 + 3 * SYMBOL)), (asked, 0))


class Asking(ProofCase):
    """One shard that is asked for several symbols, of a column or for a challenge, and replies a proof, too."""

    async def replies(self, *behind: bytes, ends: bool = True) -> client.Shard:
        """Return a shard that replies with the metadata, these payloads, the requested opening, and an end; without
        `ends` it stops in the middle of the opening."""

        async def answer(reader: Any, writer: Any) -> None:
            while True:
                try:
                    _, asked = await client.take_envelope(reader, 99)
                except EOFError:
                    return writer.close()
                for payload in (METADATA, *behind):
                    writer.write(client.envelope(payload))
                opened = (bytes([client.OPENING]) + asked[1:] + struct.pack(">HI", 0, SYMBOL)).ljust(36 + 71 + SYMBOL)
                if not ends:
                    return writer.write(client.envelope(opened)[: SYMBOL // 2])
                writer.write(client.envelope(opened) + client.envelope(DONE))

        server = await asyncio.start_server(answer, "127.0.0.1", 0)
        self.addCleanup(server.close)
        return await self.enterAsyncContext(Shard(0, server.sockets[0].getsockname()[1]))

    async def test_the_holder_of_a_column_has_memory_for_what_it_is_asked_for(self) -> None:
        columns = bundles.Columns([await self.replies(proof(b"false"))], NAME, self.walrus)  # type: ignore[arg-type]
        await columns.hear_holder(0)
        self.assertEqual((len(columns.slivers[0]), self.memory.count(36 + 71 + SYMBOL)), (2 * SYMBOL, 2))
        self.assertNotIn(PROOF, self.memory)

    async def test_of_a_holder_that_drips_nothing_is_in_memory_once_nobody_waits(self) -> None:
        self.enterContext(mock.patch("walrus.client.shards.LEAST", 0.3))
        self.enterContext(mock.patch("walrus.client.shards.MOST", 0.3))
        made, mapped = list["weakref.ref[Any]"](), connection.buffers.mapped

        def noted(size: int) -> Any:
            made.append(weakref.ref(found := mapped(size)))
            return found

        self.enterContext(mock.patch.object(connection.buffers, "mapped", noted))
        shard = await self.replies(ends=False)
        columns = bundles.Columns([shard], NAME, self.walrus)  # type: ignore[arg-type]
        await columns.hear_holder(0)
        self.assertEqual((columns.said, shard.late, len(shard.exchanges)), ({0: "it is late"}, True, 1))
        self.assertEqual([found[:].strip(b"\0") for it in made if (found := it())], [b""])
        with mock.patch.object(shard, "ask", side_effect=AssertionError("a late shard is asked first")):
            await columns.hear_holder(0)

    async def test_no_column_waits_for_another_shard_that_is_silent(self) -> None:
        self.enterContext(mock.patch("walrus.client.shards.LEAST", 0.3))
        self.enterContext(mock.patch("walrus.client.shards.MOST", 0.3))
        told = [[METADATA, opening(number), DONE] for number in range(4)]
        shards = await self.shards([[DONE], [], *told[2:]])
        columns = bundles.Columns(shards, NAME, self.walrus)  # type: ignore[arg-type]
        async with asyncio.timeout(30):  # a shard may take 60 s
            await columns.recover(0)
        self.assertEqual((self.walrus.ran, [*columns.metadata], self.asked), (["recover"], [METADATA], [1, 2, 3]))
        shards[0].late = True  # so it is unknown whether it holds its column
        shards[2].fault = shards[3].fault = "gone"
        with self.assertRaises(client.TooFew):
            async with asyncio.timeout(5):
                await bundles.Columns(shards[::2], NAME, self.walrus).recover(0)  # type: ignore[arg-type]
        self.assertEqual(self.asked, [1, 2, 3, 0])

    async def test_a_challenge_has_memory_for_what_is_asked_for(self) -> None:
        shard = await self.replies(proof(b"false"))
        await audit.audit(shard, NAME, bytes(32), 4, self.walrus)  # type: ignore[arg-type]
        asked = len({audit.draw(bytes(32), NAME, 4, 0, it) for it in range(4)})
        self.assertEqual(self.memory.count(36 + 71 + SYMBOL), asked)
        self.assertNotIn(PROOF, self.memory)
        [other] = await self.shards([[METADATA, sliver(0), proof(b"true"), DONE]])
        self.memory.clear()
        watch: Any = types.SimpleNamespace(network=types.SimpleNamespace(walrus=self.walrus))
        self.assertTrue(await page.Watch.proves(watch, other, NAME))  # type: ignore[arg-type]
        self.assertEqual([it for it in self.memory if it >= SYMBOL], [PROOF])


class Recovering(ProofCase):
    """A node that recovers a sliver, and code that needs only the metadata."""

    target = client.Symbol(NAME, client.SECONDARY, 0)

    async def recover(self, replies: Sequence[Sequence[bytes]]) -> tuple[int, bytes]:
        shards: Any = await self.shards(replies)
        asked = [recovery.Once(it, [client.write_frame(self.target)]) for it in shards]
        return await client.recover(asked, self.target, self.walrus)  # type: ignore[arg-type]

    async def test_who_lies_by_what_is_as_long_as_a_proof_has_no_memory(self) -> None:
        longest = proof(b"false").ljust(client.Shape(1).longest - 2, b"p")  # of another blob
        lies = [METADATA, longest, proof(b"false"), DONE]
        said = await self.recover([lies, *([METADATA, opening(it), DONE] for it in (1, 2, 3))])
        self.assertEqual((said, self.walrus.ran), ((0, b"the sliver"), ["recover"]))
        self.assertEqual((self.asked, [it for it in self.memory if it > SYMBOL + 107]), ([0, 1, 2], []))

    async def test_a_long_proof_is_asked_for_where_slivers_are_too_few(self) -> None:
        told = [[METADATA, proof(word), DONE] for word in (b"false", b"true")]
        said = await self.recover([*told, [METADATA, opening(2), DONE], [DONE]])
        self.assertEqual(said, (3, proof(b"true")))
        self.assertEqual((sorted(self.asked[:4]), self.asked[4:]), ([0, 1, 2, 3], [0, 1]))
        self.assertEqual((self.memory.count(PROOF), self.walrus.checked), (2, [2, 2]))

    async def test_who_wants_a_metadata_has_memory_for_nothing_long(self) -> None:
        shards = await self.shards([[METADATA, opening(1), proof(b"false"), DONE]] * 4)
        peers = types.SimpleNamespace(seats=lambda *_: shards)
        ledger = types.SimpleNamespace(faults=1, now=("a",), next=(), home_epoch=lambda _: 0, owners=lambda _: ("a",))
        network: Any = types.SimpleNamespace(ledger=ledger, peers=peers)
        self.assertEqual(await Lengths(network).of_blob(NAME), LENGTH)
        store = types.SimpleNamespace(parts=lambda *_: [])
        node: Any = types.SimpleNamespace(ledger=ledger, peers=peers, store=store, sides={})
        put = mock.AsyncMock(return_value=[frames.answer(client.DONE)])
        shard: Any = types.SimpleNamespace(epoch=0, holding=1, put=put)
        self.assertEqual(await recovery.find_metadata(node, shard, NAME), METADATA)
        self.assertEqual([it for it in self.memory if it >= SYMBOL], [])

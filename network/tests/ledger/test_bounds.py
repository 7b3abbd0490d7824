"""What one name can leave in the ledger, and at everyone who follows it, is bounded, whatever it posts or withholds."""
import asyncio
import itertools
import random
import tracemalloc
import types
import unittest
import zlib
from typing import Any, Mapping
from unittest import mock

from support.ledger_case import FOUNDED, FOUR, LedgerCase, Memory, found, registration
from walrus import client
from walrus.format.frames import answer
from walrus.network.ledger import blobs, checkpoint
from walrus.network.ledger.entries import ACK, ATTEST, OPERATOR, Chain, Entry, entry_key
from walrus.network.ledger.rules import ADDRESSES, Ledger
from walrus.network.ledger.state import State
from walrus.network.node import intake, shard
from walrus.network.node.node import Node
from walrus.network.node.whole_blob import Whole
from walrus.network.recorder import appender, compaction, server
from walrus.network.recorder.compaction import Keeper
from walrus.network.recorder.etcd import Batch

NODES = FOUR.split(",")
NAMES = [bytes([number]) * 32 for number in range(3)]


def turn(epoch: int) -> list[str]:
    """Returns the entries that lead to an epoch, with the same committee."""
    begin = entry_key(OPERATOR, "begin", epoch, 1, FOUR)
    return [begin, *(entry_key(it, "ready", epoch) for it in NODES[:3]), entry_key("node-0", "finish", epoch)]


def entered(ledger: Ledger, *texts: str) -> list[object]:
    """Applies these entries, which come next, and returns their outcomes."""
    return [ledger.apply(Entry(ledger.revision + 1, text)) for text in texts]


def uncounted(votes: Mapping[int, int], first: object) -> dict[int, int]:
    """Returns all votes, as earlier versions kept them."""
    return dict(votes)


class Waits(unittest.IsolatedAsyncioTestCase):
    """A checkpoint that one node of four is never past, and a keeper that waits for ever."""

    async def asyncSetUp(self) -> None:
        asyncio.get_running_loop().set_debug(False)
        self.memory = Memory()
        self.recorder = appender.Recorder(self.memory)
        self.addCleanup(self.recorder.state.close)
        self.keeper = Keeper(self.recorder, 1e9)
        await found(self.memory)
        await self.recorder.catch_up()
        await self.post(FOUNDED, *turn(1))
        await self.keeper.look()
        await self.post(*(entry_key(it, "past", 1) for it in NODES[:3]))
        self.assertFalse(await self.dropped())

    async def post(self, *texts: str) -> None:
        for text in texts:
            said = self.recorder.post([text])
            await self.recorder.append()
            self.assertIsInstance((await said)[0], int)

    async def dropped(self) -> bool:
        """Has the keeper look again; returns whether the entries before the checkpoint are dropped then."""
        for _ in range(2):
            await self.keeper.look()
        [mark] = {it.place for it in self.memory.marked}
        return self.memory.marked[-1].dropped and min(self.memory.kept) > mark

    async def test_no_node_is_waited_for_once_etcd_is_nearly_full(self) -> None:
        self.memory.used = 740  # of a thousand
        self.assertFalse(await self.dropped())
        self.memory.used = 760
        self.assertTrue(await self.dropped())

    async def test_a_node_that_is_expelled_is_not_waited_for(self) -> None:
        await self.post(entry_key(OPERATOR, "expel", NODES[3]))
        self.assertTrue(await self.dropped())

    async def test_what_fills_etcd_within_an_epoch_is_dropped_before_the_epoch_is_over(self) -> None:
        """One node votes on every live blob, and no entry that ends the epoch would find room."""
        self.enterContext(mock.patch.object(compaction, "LEAST", 100))
        self.memory.used = 760
        self.assertTrue(await self.dropped())
        await self.post(*(registration("x", number, 9) for number in range(50)))
        await self.post(*(f"{NODES[3]}/attest/1/{number:064x}" for number in range(50)), *turn(2)[:2])
        [first] = {it.place for it in self.memory.marked}
        self.assertFalse(await self.crowded(first, 740))
        self.assertFalse(await self.crowded(first, 760))  # too few have come since
        await self.post(*(f"{NODES[3]}/attest/2/{number:064x}" for number in range(50)))
        self.memory.leading = False
        self.assertFalse(await self.crowded(first, 760))  # it is left to the recorder beside etcd's leader
        self.keeper.since -= compaction.GRACE
        self.assertTrue(await self.crowded(first, 760))  # which seems to have ended
        last = self.memory.marked[-1]
        self.assertEqual((last.epoch, last.place, self.memory.kept), (1, self.recorder.chain.place, {}))
        await self.post(*turn(2)[2:4])
        service = server.Service(self.recorder, mock.Mock())
        for after in (0, first, last.place - 1):  # whoever needs what is dropped, also if this recorder still has it
            self.assertEqual(await service.behind(after, "x"), (last, []))
        _, batches = await service.behind(last.place, "x")
        self.assertEqual(sum((it.entries for it in batches), []), turn(2)[2:4])
        fresh = appender.Recorder(self.memory)
        self.addCleanup(fresh.state.close)
        await fresh.catch_up()
        self.assertEqual([*fresh.state.written()], [*self.recorder.state.written()])
        await self.post(turn(2)[4])
        await self.keeper.look()
        self.assertEqual(self.memory.marked[-1].epoch, 2)

    async def crowded(self, first: int, used: int) -> bool:
        """Has the keeper look while etcd uses so much; returns whether it then drops what followed."""
        self.memory.used = used
        for _ in range(3):
            await self.keeper.look()
        return min(self.memory.kept, default=first + 99) > first + 1


class Writers(unittest.IsolatedAsyncioTestCase):
    """One recorder writes a checkpoint slowly, while another one, which has read more, looks all the time."""

    async def test_the_others_wait_for_as_long_as_pieces_come_and_replace_a_writer_that_ends(self) -> None:
        asyncio.get_running_loop().set_debug(False)
        self.enterContext(mock.patch.multiple(compaction, GRACE=1.0, LEAST=10))
        self.enterContext(mock.patch.object(checkpoint, "LONGEST", 300))
        for full, ends, late in itertools.product((True, False), repeat=3):  # within an epoch, and after a turn
            with self.subTest(full=full, ends=ends, late=late):
                places, last = await self.written(full, ends, late)
                self.assertEqual((len(places), last), (1 + ends, max(places)))

    async def written(self, full: bool, ends: bool, late: bool) -> tuple[set[int], int]:
        """Returns the places of all pieces once a checkpoint is there, and its place. If `late`, the other recorder is
        the one that is to write, but only once the first one has begun, as if it had started anew since."""
        memory, put = Memory(), Memory.put_piece
        first, other = appender.Recorder(memory), appender.Recorder(memory)
        for made in (first, other):
            self.addCleanup(made.state.close)
            await made.catch_up()
        texts = [FOUNDED, *([] if full else turn(1)), *(registration("x", it, 9) for it in range(30))]
        for text in texts:
            self.assertTrue(await first.step(Batch(first.chain, [text])))
        memory.used, memory.leading = 760 * full, False

        async def slow(*words: Any) -> None:
            await asyncio.sleep(0.1)
            await put(memory, *words)

        self.enterContext(mock.patch.object(memory, "put_piece", slow))
        writing, beside = asyncio.create_task(Keeper(first, 1e9).write(None)), Keeper(other, 1e9)
        await asyncio.sleep(0)
        self.assertTrue(await first.step(Batch(first.chain, [registration("x", 30, 9)])))
        await other.catch_up()
        while not memory.pieces:
            await asyncio.sleep(0.01)
        memory.leading, other.turned = late and full, late and not full
        while not memory.marked:
            await beside.look()
            await asyncio.sleep(0.01)
            if ends and len(memory.pieces) > 1:
                writing.cancel()
        return {place for place, _ in memory.pieces}, memory.marked[-1].place


class Told(LedgerCase):
    async def test_etcd_tells_its_quota_and_who_leads_and_how_many_pieces_follow(self) -> None:
        etcd = self.recorders[0].etcd
        self.assertEqual((await etcd.quota(), await etcd.leads()), (2**30, True))
        for number in range(3):
            await etcd.put_piece(5, number, zlib.compress(b"x"))
        self.assertEqual([await etcd.count_pieces(it) for it in (4, 5)], [3, 0])


class Addresses(unittest.TestCase):
    def test_a_name_tells_so_many_addresses_in_an_epoch_and_no_more(self) -> None:
        kept = State()
        self.addCleanup(kept.close)
        texts = [f"x/address/host-{number}/9" for number in range(ADDRESSES + 1)]
        self.assertEqual({*entered(kept.ledger, FOUNDED, *texts[:-1])}, {"founded", "entered"})
        other = State()  # a follower that loads a checkpoint continues the count
        self.addCleanup(other.close)
        kept.save(Chain(kept.ledger.revision, bytes(32)))
        asyncio.run(other.take([zlib.compress(it) for it in kept.written()]))
        for ledger in (kept.ledger, other.ledger):
            self.assertEqual(
                ledger.fork().refused(Entry(99, texts[-1])), f"x has posted {ADDRESSES} addresses in this epoch"
            )
            self.assertEqual(entered(ledger, texts[-1], f"y/{texts[-1][2:]}"), [None, "entered"])
            self.assertEqual(ledger.addresses["x"][0], f"host-{ADDRESSES - 1}")
            self.assertEqual(entered(ledger, *turn(1), texts[-1])[-2:], ["epoch 1", "entered"])


class Votes(unittest.TestCase):
    def test_a_node_that_says_so_in_each_epoch_leaves_little(self) -> None:
        ledger = Ledger()
        entered(ledger, FOUNDED, registration("x", 1, 99))
        for epoch in range(1, 60):
            words = [f"node-3/{kind}/{epoch - 1}/{1:064x}" for kind in (ACK, ATTEST)]
            said = entered(ledger, *(f"{it}/ack/0/{1:064x}" for it in NODES[:3] * (epoch == 1)), *words, *turn(epoch))
            self.assertEqual((said[-1], None in said), (f"epoch {epoch}", False))
        [row] = ledger.blobs.flush().execute("SELECT votes, certified, invalid FROM blobs")
        self.assertEqual(row, ('[{"0":15,"57":8,"58":8},{"57":8,"58":8}]', 0, None))
        self.assertEqual(ledger.certificate((1).to_bytes(32, "big")), (0, 4))

    def test_those_of_a_thousand_shards_take_little_memory(self) -> None:
        ledger, nodes, count = Ledger(), [f"node-{shard % 10}" for shard in range(1_000)], 1_000
        entered(ledger, entry_key(OPERATOR, "begin", 0, 333, ",".join(nodes)))
        tracemalloc.start()
        self.addCleanup(tracemalloc.stop)
        for number in range(count):
            acks = [entry_key(it, ACK, 0, f"{number:064x}") for it in nodes[:8]]
            said = entered(ledger, registration("x", number, 9), *acks)
        self.assertEqual(said[-1], "certified 800")
        self.assertLess(tracemalloc.get_traced_memory()[0] / count * blobs.CACHED, 16_000_000)  # all in memory

    def test_no_recorder_appends_an_acknowledgement_of_what_was_certified_in_an_earlier_epoch(self) -> None:
        """In a ledger it counts, as earlier recorders have appended it."""
        ledger = Ledger()
        entered(ledger, FOUNDED, *(registration("x", it, 99) for it in (1, 2)))
        entered(ledger, *(f"{it}/ack/0/{1:064x}" for it in NODES[:3]))
        for epoch, texts in ((0, []), (1, turn(1)), (2, turn(2)[:1])):  # at last during a handover
            entered(ledger, *texts)
            said = [ledger.fork().refused(Entry(99, f"node-3/ack/{epoch}/{number:064x}")) for number in (1, 2)]
            self.assertEqual(said, ["the blob was certified in an earlier epoch" if epoch else "", ""], epoch)
        self.assertEqual(entered(ledger, f"node-3/ack/2/{1:064x}"), ["counted 1"])

    def history(self, drawn: random.Random) -> list[str]:
        """Returns random entries of some thirty epochs, with epoch changes that may take long."""
        texts = [FOUNDED, *(f"x/register/{it.hex()}/{drawn.randrange(3, 50)}" for it in NAMES)]
        for epoch in range(30):
            for word in turn(epoch + 1):
                writing = epoch + ("/begin/" not in word)
                for _ in range(drawn.choice((0, 0, 1, 6))):
                    kind = drawn.choice((ACK, ATTEST))
                    texts.append(f"{drawn.choice(NODES)}/{kind}/{writing}/{drawn.choice(NAMES).hex()}")
                texts.append(word)
        return texts

    def asked(self, ledger: Ledger) -> list[object]:
        """Returns everything that the rules, nodes and pages ask about votes."""
        epochs, found = [ledger.epoch, ledger.epoch + 1], list[object]([[*ledger.must_hold()], ledger.blobs.counts()])
        for it in NAMES:
            found += [ledger.certificate(it), ledger.invalid(it), ledger.home_epoch(it)]
            found += [ledger.voted(kind, it, node) for kind in (ACK, ATTEST) for node in NODES]
            found += [shard.entries_of(ledger, epoch, it) for epoch in epochs]
            if blob := ledger.blobs.get(it):
                found += [blob.votes[kind].get(epoch, 0) for kind in (ACK, ATTEST) for epoch in epochs]
        return found

    def test_without_votes_that_count_no_more_all_is_as_with_them(self) -> None:
        """A follower that loads a checkpoint of an earlier version, which has them, writes the same as the others."""
        fewer = 0
        for seed in range(4):
            lean, whole, chain = State(), State(), Chain(0, bytes(32))
            for place, text in enumerate(self.history(random.Random(seed)), 1):
                with mock.patch("walrus.network.ledger.live_blob.counting", uncounted):
                    line = whole.ledger.apply(Entry(place, text))
                self.assertEqual(lean.ledger.apply(Entry(place, text)), line)
                self.assertEqual(self.asked(lean.ledger), self.asked(whole.ledger))
                chain = chain.behind([text])
                if place % 20 == 0:
                    for each in (lean, whole):
                        each.save(chain)
                    pieces, taken = [*whole.written()], State()
                    asyncio.run(taken.take([*map(zlib.compress, pieces)]))
                    self.assertEqual([*taken.written()], [*lean.written()])
                    fewer += pieces != [*lean.written()]
                    taken.close()
            lean.close()
            whole.close()
        self.assertGreater(fewer, 20)


class Words(unittest.IsolatedAsyncioTestCase):
    async def test_what_an_earlier_committee_certified_is_acknowledged_by_no_node_again(self) -> None:
        """Anybody may ask for that, in each epoch and for each blob."""
        asyncio.get_running_loop().set_debug(False)
        ledger, name = Ledger(), (1).to_bytes(32, "big")
        entered(ledger, FOUNDED, registration("x", 1, 9), *(f"{it}/ack/0/{name.hex()}" for it in NODES[:3]))
        node: Any = types.SimpleNamespace(name=NODES[3], ledger=ledger, until=mock.AsyncMock(), port=mock.Mock())
        node.store = mock.Mock(losses=0, durable=mock.AsyncMock(return_value=True))
        node.recorders, taken = mock.Mock(post=mock.AsyncMock()), intake.Intake(node)
        said = mock.AsyncMock(return_value=[answer(14, 3)])  # by the judge
        self.enterContext(mock.patch.object(Whole, "read", return_value=mock.Mock(identifier=name)))
        for epoch in (0, 1):
            own = mock.Mock(epoch=epoch, answer=said, put_whole=said)
            node.sides = {epoch: {3: own}}
            words = await Node.vouch(node, ACK, own, client.write_frame(client.Ack(name)))
            self.assertEqual(await taken.store(3, memoryview(b"")), [answer(client.DONE)])
            await asyncio.sleep(0.1)
            self.assertEqual((node.recorders.post.await_count, node.recorders.leave.call_count), (1, 1))
            entered(ledger, *turn(1))
        self.assertEqual(words, [answer(14, 3)])
        await taken.close()

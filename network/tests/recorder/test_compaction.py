"""Old entries are dropped from the ledger, and newcomers and followers that were away still get the same ledger."""
import asyncio
import base64
import contextlib
import io
import random
import tempfile
import unittest
from unittest import mock

from support.ledger_case import FOUNDED, NODES, LedgerCase, Memory, found, registration, turn
from walrus.network.ledger.entries import OPERATOR, Chain, entry_key
from walrus.network.ledger.follower import Parted, View
from walrus.network.ledger.live_blob import Blob
from walrus.network.ledger.rules import Ledger
from walrus.network.ledger.state import State
from walrus.network.recorder import appender, compaction, etcd
from walrus.network.recorder.compaction import Keeper
from walrus.network.recorder.etcd import FIRST, LAST, PIECES, coded


class KeptCase(LedgerCase):
    """Two recorders over etcd, which drop old entries after `patience` seconds at the latest."""

    async def asyncSetUp(self) -> None:
        await super().asyncSetUp()
        for name in NODES:
            await self.newcomer(name)
        self.users = {name: self.user(name) for name in (OPERATOR, "publisher", *NODES)}

    async def say(self, *texts: str) -> None:
        for text in texts:
            await self.users[text.partition("/")[0]].post(text)

    async def keys(self, first: bytes, last: bytes) -> list[bytes]:
        span = {"key": coded(first), "range_end": coded(last), "keys_only": True}
        found = (await self.recorders[0].etcd.call("kv/range", span)).get("kvs", [])
        return [base64.b64decode(it["key"]) for it in found]

    async def dropped(self, epoch: int, seconds: float = 20) -> bool:
        """Waits until the entries before the checkpoint of an epoch are dropped; returns whether they were."""
        with contextlib.suppress(TimeoutError):
            async with asyncio.timeout(seconds):
                while True:
                    mark = await self.recorders[0].etcd.mark()
                    if mark and (mark.epoch, mark.dropped) == (epoch, True):
                        pieces = {int(it.split(b"/")[3]) for it in await self.keys(PIECES, PIECES + b"~")}
                        if int((await self.keys(FIRST, LAST) or [LAST])[0][8:]) > mark.place and {mark.place} == pieces:
                            return True
                    await asyncio.sleep(0.05)
        return False

    async def same(self, one: View, other: View) -> None:
        """Checks that both have heard everything, and would write the same checkpoint."""
        last = await self.publisher.post(registration("publisher", 999))
        for view in (one, other):
            self.assertTrue(await view.until(lambda _: (view.chain or Chain(0, b"")).place >= last))
        self.assertEqual([*one.state.written()], [*other.state.written()])


@mock.patch.multiple(compaction, PAUSE=0.1, IDLE=2.0, SLACK=0)
class Kept(KeptCase):
    def test_a_blob_that_was_asked_for_in_vain_is_found_once_it_is_there(self) -> None:
        blobs, name = State().blobs, bytes(32)
        self.assertNotIn(name, blobs)
        blobs[name] = Blob(3, "x")
        self.assertIn(name, blobs)
        blobs.expire(3)
        self.assertNotIn(name, blobs)
        blobs.take(iter([(name, 1, 9, "x", "[{},{}]", None, None)]))
        self.assertIn(name, blobs)

    async def test_what_all_nodes_are_past_is_dropped_and_newcomers_hear_the_same(self) -> None:
        await self.say(*(registration("publisher", number, 2 + number % 3) for number in range(40)))
        async with self.following(self.user("publisher")) as early:
            before = early.chain
            await self.say(*turn(1), registration("publisher", 100), *(entry_key(it, "past", 1) for it in NODES[:3]))
            self.assertFalse(await self.dropped(1, 1.0))
            self.assertEqual((await self.keys(FIRST, LAST))[0], FIRST)
            await self.say(entry_key("node-3", "past", 1))
            self.assertTrue(await self.dropped(1))
            async with self.following(self.user("publisher")) as late:
                self.assertEqual(late.state.entries(), [])
                await self.same(early, late)
            away = View(self.user("publisher"))  # a follower that was away for long
            away.state.identity, away.state.chain = early.state.identity, before
            task = asyncio.create_task(away.follow())
            self.assertTrue(await away.until(lambda _: away.caught_up))
            await self.same(early, away)
            task.cancel()
            other = View(self.user("publisher"))
            other.state.identity, other.state.chain = "ff" * 32, before
            with self.assertRaisesRegex(Parted, "are others than were heard before"):
                await other.follow()
        place = (await self.recorders[0].etcd.mark()).place
        with self.assertRaises(etcd.Gone):
            await self.recorders[0].etcd.batches(place - 1)
        fresh = appender.Recorder(self.recorders[0].etcd)  # which has lost its state
        await fresh.catch_up()
        self.assertEqual(fresh.chain, self.recorders[0].chain)
        self.assertEqual([*fresh.state.written()], [*self.recorders[0].state.written()])
        for number in (2, 3):  # a second and a third time: earlier checkpoints are dropped too
            await self.say(*turn(number), *(entry_key(it, "past", number) for it in NODES))
            self.assertTrue(await self.dropped(number))

    async def test_who_lacks_what_went_with_an_earlier_checkpoint_is_told_the_one_that_waits_for_nodes(self) -> None:
        async with self.following(self.user("publisher")) as early:
            before = early.chain
            await self.say(*turn(1), *(entry_key(it, "past", 1) for it in NODES))
            self.assertTrue(await self.dropped(1))
            await self.say(*turn(2), *(entry_key(it, "past", 2) for it in NODES[:3]))
            self.assertFalse(await self.dropped(2, 1.0))
            mark = await self.recorders[0].etcd.mark()
            self.assertEqual((mark.epoch, mark.dropped), (2, False))
            for each in self.recorders:  # as behind a start
                each.recent.clear()
                each.size = 0
            away = View(self.user("publisher"))
            away.state.identity, away.state.chain = early.state.identity, before
            task = asyncio.create_task(away.follow())
            self.assertTrue(await away.until(lambda _: away.caught_up, 10))
            await self.same(early, away)
            task.cancel()

    async def test_who_was_away_while_an_epoch_filled_etcd_hears_the_same_as_newcomers(self) -> None:
        with mock.patch.multiple(compaction, LEAST=20, FULL=1e-6):
            async with self.following(self.user("publisher")) as early:
                before = early.chain
                await self.say(*(registration("publisher", number, 2 + number % 3) for number in range(40)))
                async with asyncio.timeout(60):
                    while (await self.keys(FIRST, LAST) or [LAST])[0] == FIRST:
                        await asyncio.sleep(0.05)
                mark = await self.recorders[0].etcd.mark()
                self.assertEqual((mark.epoch, mark.dropped, mark.place > before.place), (0, True, True))
                async with self.following(self.user("publisher")) as late:
                    await self.same(early, late)
                away = View(self.user("publisher"))
                away.state.identity, away.state.chain = early.state.identity, before
                task = asyncio.create_task(away.follow())
                self.assertTrue(await away.until(lambda _: away.caught_up))
                await self.same(early, away)
                task.cancel()

    async def test_etcd_gives_back_what_is_dropped(self) -> None:
        texts = [registration("publisher", number, 2) for number in range(4_000)]
        for first in range(0, 4_000, 50):
            await asyncio.gather(*map(self.publisher.post, texts[first:][:50]))
        before, _ = await self.recorders[0].etcd.sizes()
        await self.say(*turn(1), *turn(2), *(entry_key(it, "past", 2) for it in NODES))
        self.assertTrue(await self.dropped(2))
        size = before
        for number in range(4_000, 4_020):  # etcd, which compacts meanwhile, counts its free bytes when it writes again
            await self.publisher.post(registration("publisher", number))
            for _ in range(40):
                size, _ = await self.recorders[0].etcd.sizes()
                if size < before / 4:
                    break
                await asyncio.sleep(0.1)
            if size < before / 4:
                break
        self.assertLess(size, before / 4)
        await self.publisher.post(registration("publisher", 5_000))


@mock.patch.object(compaction, "PAUSE", 0.1)
class Impatient(KeptCase):
    patience = 0.5

    async def test_who_is_away_for_too_long_is_not_waited_for(self) -> None:
        await self.say(*turn(1))
        self.assertTrue(await self.dropped(1))
        async with self.following(self.user("publisher")) as view:
            self.assertEqual((view.ledger.epoch, view.ledger.past), (1, {}))


class Short(unittest.IsolatedAsyncioTestCase):
    async def test_where_epochs_are_short_nobody_delays_for_ever_what_is_dropped(self) -> None:
        """One node never posts that it is past an epoch, and each epoch lasts for a third of the patience."""
        memory, now = Memory(), [0.0]
        made = appender.Recorder(memory)
        self.addCleanup(made.state.close)
        self.enterContext(mock.patch.object(compaction.time, "time", lambda: now[0]))
        keeper = Keeper(made, 30.0)
        await found(memory)
        await made.catch_up()
        for epoch in range(10):
            texts = [*(turn(epoch) if epoch else [FOUNDED]), registration("publisher", epoch, 99)]
            for text in [*texts, *(entry_key(it, "past", epoch) for it in NODES[:3])]:
                said = made.post([text])
                await made.append()
                self.assertIsInstance((await said)[0], int)
            for _ in range(3):
                await keeper.look()
            now[0] += 10.0
        marks = [(it.epoch, it.dropped) for it in memory.marked]
        self.assertEqual(marks, [(1, False), (1, True), (5, False), (5, True), (9, False)])
        before, last = memory.marked[-2].place, memory.marked[-1].place
        self.assertEqual((min(memory.kept), {place for place, _ in memory.pieces}), (before + 1, {before, last}))


class Steps(unittest.IsolatedAsyncioTestCase):
    """Keepers over an etcd in memory, each call of which fails in turn, with recorders that end at any step. Some have
    their state in files. Nodes, which do not exist, count as if they had told their addresses."""

    async def asyncSetUp(self) -> None:
        asyncio.get_running_loop().set_debug(False)
        self.enterContext(mock.patch.object(Ledger, "no_nodes", lambda *_: []))

    sleep = staticmethod(asyncio.sleep)

    async def no_sleep(self, seconds: float) -> None:
        await self.sleep(min(seconds, 0.001))

    async def go(self, memory: Memory, drawn: random.Random, plan: bool) -> None:
        made, tasks = list[appender.Recorder](), list["asyncio.Task[None]"]()
        folder = self.enterContext(tempfile.TemporaryDirectory())

        def start(count: int) -> None:
            for _ in range(count):
                state = State(drawn.choice(["", f"{folder}/{len(made)}"]))
                self.addCleanup(state.close)
                made.append(appender.Recorder(memory, state))
                tasks.extend(map(asyncio.create_task, (made[-1].run(), Keeper(made[-1], 0.0).run())))

        start(2)
        try:
            for epoch in range(5):
                poster = [registration(f"poster-{epoch}", 10 * epoch + number, epoch + 3) for number in range(3)]
                for text in [*(turn(epoch) if epoch else [FOUNDED]), *poster]:
                    said: object = None
                    while said is None:
                        with contextlib.suppress(TimeoutError):
                            async with asyncio.timeout(0.2):
                                [said] = await drawn.choice(made[-2:]).post([text])
                    self.assertTrue(isinstance(said, int) or text in memory.all, f"{text}: {said}")
                    if plan and drawn.random() < 0.1:
                        for task in tasks:
                            task.cancel()
                        start(2)
            with contextlib.suppress(TimeoutError):
                async with asyncio.timeout(30):
                    while not memory.marked or memory.marked[-1].epoch < 4 or [it for it in memory.kept if it <= 20]:
                        await asyncio.sleep(0.005)
            self.assertEqual(memory.marked[-1].epoch, 4)
        finally:
            for task in tasks:
                task.cancel()
            said = await asyncio.gather(*tasks, return_exceptions=True)
        self.assertEqual([it for it in said if not isinstance(it, asyncio.CancelledError)], [])
        fresh, whole = appender.Recorder(memory), State()
        memory.plan = {}
        await fresh.catch_up()
        for place, text in enumerate(memory.all, 1):
            whole.ledger.apply(appender.Entry(place, text))
        whole.identity = fresh.state.identity
        whole.save(Chain(0, bytes.fromhex(fresh.state.identity)).behind(memory.all))
        self.assertLessEqual({text for epoch in range(1, 5) for text in turn(epoch)}, {*memory.all})
        self.assertEqual([*fresh.state.written()], [*whole.written()])
        self.assertGreater(min(memory.kept, default=99), 20)

    async def test_each_call_of_who_keeps_fails_in_turn(self) -> None:
        quiet, within = contextlib.redirect_stderr(io.StringIO()), 0
        self.enterContext(mock.patch.object(compaction, "LEAST", 1))
        with mock.patch.object(appender, "POLL", 0.01), mock.patch.multiple(compaction, PAUSE=0.0, GRACE=0.0), quiet:
            with mock.patch.object(compaction.asyncio, "sleep", self.no_sleep):
                for seed in range(12):
                    memory = Memory()
                    first, step = 3 + seed % 6, 5 + seed
                    memory.plan = {it: ("before", "behind")[it % 2] for it in range(first, 3_000, step)}
                    memory.used = 760 * (seed % 3 > 0)  # of a thousand: then checkpoints are written within epochs too
                    await self.go(memory, random.Random(seed), seed % 2 == 1)
                    epochs = [it.epoch for it in memory.marked if it.dropped]
                    within += len(epochs) - len({*epochs})
        self.assertGreater(within, 5)

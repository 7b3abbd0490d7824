"""Recorders over an etcd in memory, each call of which may fail, and recorders with a full disk."""
import asyncio
import contextlib
import dataclasses
import io
import json
import pathlib
import random
import re
import sqlite3
import tempfile
import unittest
from typing import Any
from unittest import mock

from support.ledger_case import FOUNDED, Memory, found, registration
from walrus.network.ledger import state
from walrus.network.ledger.entries import ADDRESS, Chain, entry_key
from walrus.network.ledger.rules import Ledger
from walrus.network.recorder import appender, compaction, server
from walrus.network.recorder.etcd import Batch
from walrus.network.service import certificates
from walrus.network.service.condition import Waiting
from walrus.network.settings.services import RecorderSettings

KILLS = 500  # at most: on a machine too busy for a call between two of them the test would never end


class FullDisk(unittest.IsolatedAsyncioTestCase):
    async def asyncSetUp(self) -> None:
        asyncio.get_running_loop().set_debug(False)

    async def test_what_etcd_has_is_told_with_its_place(self) -> None:
        class Full(sqlite3.Connection):
            def execute(self, words: str, *values: Any) -> sqlite3.Cursor:
                if words == "COMMIT" and full:
                    super().execute("ROLLBACK")
                    raise sqlite3.OperationalError("database or disk is full")
                return super().execute(words, *values)

        full, connect = False, sqlite3.connect
        each = mock.patch.object(state, "EACH", 0.0)
        with tempfile.TemporaryDirectory() as folder, contextlib.redirect_stderr(io.StringIO()) as said, each:
            with mock.patch.object(state.sqlite3, "connect", lambda *it, **to: connect(*it, **to, factory=Full)):
                kept = state.State(f"{folder}/kept")
            made = appender.Recorder(Memory(), kept)
            await found(made.etcd)
            running = asyncio.create_task(made.run())
            self.assertEqual(await made.post([FOUNDED]), [1])
            full = True
            texts = [registration("x", 1), *(entry_key("x", ADDRESS, "127.0.0.1", port) for port in (1, 2))]
            for _ in range(2):
                self.assertEqual([*await made.post(texts[:1]), *await made.post(texts[2:])], [2, 3])
            for _ in range(2):
                self.assertEqual(await made.post(texts[1:2]), [4])
            self.assertEqual(await made.post(texts[2:]), [5])  # it was left
            running.cancel()
            kept.close()
        self.assertIn("database or disk is full", said.getvalue())

    async def test_a_recorder_whose_state_cannot_be_opened_says_so(self) -> None:
        with tempfile.TemporaryDirectory() as folder, contextlib.redirect_stderr(io.StringIO()) as said:
            path = pathlib.Path(folder, "kept")
            path.mkdir()
            words = {it.name: "" for it in dataclasses.fields(RecorderSettings) if it.default is dataclasses.MISSING}
            settings = RecorderSettings(**{**words, "name": "recorder-0", "state": str(path)})
            self.assertEqual(await server.serve(settings), 1)
            self.assertTrue(path.exists())
        told = f"recorder-0 cannot start: {path} cannot be opened: unable to open database file\n"
        self.assertIn(told, said.getvalue())

    async def test_no_recorder_that_finds_etcd_empty_advises_to_found_another_ledger(self) -> None:
        other = appender.Recorder(Memory())
        self.addCleanup(other.state.close)
        await other.catch_up()
        words = {it.name: "" for it in dataclasses.fields(RecorderSettings) if it.default is dataclasses.MISSING}
        for etcd, text in ((Memory(), "etcd has no ledger any more"), (other.etcd, "etcd has another ledger")):
            with tempfile.TemporaryDirectory() as folder:
                certificates.make_authority(pathlib.Path(folder, "own"))
                words |= dict.fromkeys(("certificate", "etcd_certificate"), f"{folder}/own.crt")
                settings = RecorderSettings(**{**words, "name": "recorder-0", "state": f"{folder}/kept"})
                kept = state.State.open(settings.state)
                made = appender.Recorder(Memory(), kept)
                await made.catch_up()
                self.assertTrue(await made.step(Batch(made.chain, [FOUNDED])))
                kept.close()
                etcd.aclose = mock.AsyncMock()
                with contextlib.ExitStack() as stack:
                    stack.enter_context(mock.patch.object(server, "etcd_of", lambda _, etcd=etcd: etcd))
                    stack.enter_context(mock.patch.object(server.Service, "listen", mock.AsyncMock(return_value=1)))
                    stack.enter_context(contextlib.redirect_stdout(io.StringIO()))
                    said = stack.enter_context(contextlib.redirect_stderr(io.StringIO()))
                    self.assertEqual(await asyncio.wait_for(server.serve(settings), 60), 1)
                more = f"; remove {settings.state} only if the ledger must stay as etcd has it now"
                more = more if etcd is other.etcd else ""
                advice = re.escape(f": restore it (network/OPERATING.md){more}\n")
                self.assertRegex(said.getvalue(), f"(?m)^recorder-0 must stop: {text}.*{advice}\\Z")

    async def test_a_checkpoint_that_cannot_be_written_is_written_later(self) -> None:
        made, tries = appender.Recorder(Memory()), list[int]()
        keeper = compaction.Keeper(made, 0.0)

        async def look() -> None:
            tries.append(1)
            if len(tries) < 3:
                raise sqlite3.OperationalError("unable to open database file")
            raise asyncio.CancelledError

        with mock.patch.object(compaction, "PAUSE", 0.0), mock.patch.object(keeper, "look", look):
            with contextlib.redirect_stderr(io.StringIO()) as said, self.assertRaises(asyncio.CancelledError):
                await keeper.run()
        self.assertIn("unable to open database file; it is tried again", said.getvalue())


class Heads(unittest.IsolatedAsyncioTestCase):
    """What recorders ask etcd for."""

    async def asyncSetUp(self) -> None:
        asyncio.get_running_loop().set_debug(False)
        self.etcd = Memory()
        self.recorders = [appender.Recorder(self.etcd) for _ in range(2)]
        self.tasks = list["asyncio.Task[None]"]()
        with mock.patch.object(appender, "POLL", 0.01):
            for made in self.recorders:
                self.tasks.append(asyncio.create_task(made.run()))
                self.addCleanup(self.tasks[-1].cancel)
                self.assertTrue(await made.news.until(lambda made=made: made.state.identity, 10))
            await found(self.etcd)
            self.assertEqual(await self.recorders[0].post([FOUNDED]), [1])
        for made in self.recorders:
            self.assertTrue(await made.news.until(lambda made=made: made.chain.place == 1, 10))

    async def test_what_a_recorder_appends_is_not_read_again_and_others_read_it_at_once(self) -> None:
        one, other = self.recorders
        with mock.patch.object(appender, "POLL", 3600.0):
            await asyncio.gather(
                *(it.refresh() for it in self.recorders)
            )  # whatever waits from now on has the long deadline
            self.tasks[1].cancel()
            await asyncio.sleep(0.1)
            calls = self.etcd.calls
            for number in range(20):
                self.assertEqual(await one.post([registration("x", number)]), [number + 2])
                await asyncio.sleep(0)
            await asyncio.sleep(0.1)
            self.assertEqual(self.etcd.calls - calls, 20)
            self.addCleanup(asyncio.create_task(other.run()).cancel)
            await other.refresh()
            self.assertEqual(await one.post([registration("x", 20)]), [22])
            self.assertTrue(await other.news.until(lambda: other.chain.place == 22, 10))

    async def test_followers_are_told_the_same_from_memory_and_from_etcd(self) -> None:
        one, other = self.recorders
        texts = [FOUNDED, *(registration("x", number) for number in range(60))]
        with mock.patch.multiple(appender, POLL=0.01, RECENT=1_000):
            for first in range(1, len(texts), 4):
                await one.post(texts[first:][:4])
            self.assertTrue(await other.news.until(lambda: other.chain.place == len(texts), 10))
        self.assertTrue(0 < one.size <= 1_000 and one.size == sum(it.size for it in one.recent))
        for made in self.recorders:
            for place in range(len(texts)):
                batches = await made.behind(place)
                found = [text for batch in batches for text in batch.entries]
                self.assertEqual(found, texts[place:][: len(found)])
                self.assertGreater(len(found), 0)
                chain = Chain(0, bytes.fromhex(made.state.identity)).behind(texts[:place])
                self.assertEqual(batches[0].before, chain)
                told = [json.loads(batch.line) for batch in batches]
                self.assertEqual([it["entries"] for it in told], [it.entries for it in batches])
                self.assertEqual(told[-1]["digest"], chain.behind(found).digest.hex())
            self.assertEqual(await made.behind(len(texts)), [])


class Waits(unittest.IsolatedAsyncioTestCase):
    async def test_nobody_is_woken_for_whom_it_does_not_hold(self) -> None:
        waiting, said = Waiting(), set[int]()
        tasks = [asyncio.create_task(waiting.until(lambda it=it: it in said, None)) for it in range(3)]
        await asyncio.sleep(0)
        for number in range(3):
            said.add(number)
            await asyncio.sleep(0)
            self.assertFalse(tasks[number].done())
            waiting.tell()
            self.assertTrue(await tasks[number])
            self.assertEqual([it.done() for it in tasks], [it <= number for it in range(3)])
        self.assertTrue(await waiting.until(lambda: 2 in said, 0))
        self.assertFalse(await waiting.until(lambda: 3 in said, 0.01))
        self.assertEqual(waiting.waiting, {})

    async def test_what_fails_is_heard_by_who_asked_for_it_alone(self) -> None:
        waiting, said = Waiting(), dict[str, bool]()
        bad = asyncio.create_task(waiting.until(lambda: said and said["b"], None))
        good = asyncio.create_task(waiting.until(lambda: said, None))
        await asyncio.sleep(0)
        said["a"] = True
        waiting.tell()
        self.assertTrue(await good)
        with self.assertRaises(KeyError):
            await bad


class Steps(unittest.IsolatedAsyncioTestCase):
    """Recorders over an etcd in memory, each call of which fails in turn, before or after it takes effect. Its nodes,
    which do not exist, count as if they had told their addresses."""

    async def asyncSetUp(self) -> None:
        asyncio.get_running_loop().set_debug(False)
        self.enterContext(mock.patch.object(Ledger, "no_nodes", lambda *_: []))

    async def run_one(self, etcd: Memory, texts: list[str], recorders: list[appender.Recorder]) -> None:
        """Posts each entry until a recorder returns its place, which must stay the same."""
        for number, text in enumerate(texts):
            places = set()
            for _ in range(2):
                while True:
                    chosen = self.drawn.choice(recorders)
                    try:
                        async with asyncio.timeout(0.1):
                            [place] = await chosen.post([text])
                    except TimeoutError:
                        continue
                    assert isinstance(place, int), place
                    places.add(place)
                    break
            self.assertEqual(len(places), 1)
            self.places[text] = places.pop()

    async def go(self, etcd: Memory, seed: int, killed: bool) -> None:
        self.drawn, self.places = random.Random(seed), dict[str, int]()
        recorders = [appender.Recorder(etcd) for _ in range(2)]
        tasks = [asyncio.create_task(it.run()) for it in recorders]

        async def revive() -> None:
            while True:
                await self.sleep(0.001)
                for which, task in enumerate(tasks[:2]):
                    if task.cancelled():
                        recorders[which] = appender.Recorder(etcd)
                        tasks[which] = asyncio.create_task(recorders[which].run())

        tasks.append(asyncio.create_task(revive()))
        texts = [[registration(f"poster-{it}", 100 * it + number) for number in range(2)] for it in range(3)]
        try:
            await self.run_one(etcd, [FOUNDED], recorders)
            posters = asyncio.gather(*(self.run_one(etcd, it, recorders) for it in texts))
            kills = KILLS if killed else 0
            while kills and not posters.done():
                kills -= 1
                await asyncio.sleep(self.drawn.uniform(0, 0.004))
                which = self.drawn.randrange(2)
                tasks[which].cancel()
                await asyncio.gather(tasks[which], return_exceptions=True)
                recorders[which] = appender.Recorder(etcd)
                tasks[which] = asyncio.create_task(recorders[which].run())
            await posters
        finally:
            for task in tasks:
                task.cancel()
            await asyncio.gather(*tasks, return_exceptions=True)
        entries = etcd.entries()
        self.assertEqual(sorted(entries), sorted([FOUNDED, *(it for each in texts for it in each)]))
        self.assertEqual({text: entries.index(text) + 1 for text in entries}, self.places)

    async def test_each_call_fails_in_turn(self) -> None:
        with mock.patch.multiple(appender, POLL=0.01), contextlib.redirect_stderr(None):
            whole = Memory()
            await self.go(whole, 0, False)
            for call in range(1, min(whole.calls, 30)):
                for when in ("before", "behind"):
                    etcd = Memory()
                    etcd.plan = {call: when}
                    with mock.patch.object(appender.asyncio, "sleep", self.no_sleep):
                        await self.go(etcd, call, False)

    async def test_a_recorder_is_killed_at_each_call_in_turn(self) -> None:
        """Its last call takes effect or not; entries that it had not answered are posted again, to any recorder."""
        with mock.patch.multiple(appender, POLL=0.01), contextlib.redirect_stderr(None):
            ended = 0
            for call in range(1, 25):
                for when in ("killed before", "killed behind"):
                    etcd = Memory()
                    etcd.plan = {call: when, call + 7: when}
                    with mock.patch.object(appender.asyncio, "sleep", self.no_sleep):
                        await self.go(etcd, call, False)
                    ended += etcd.ended
            self.assertGreater(ended, 30)

    sleep = staticmethod(asyncio.sleep)

    async def no_sleep(self, seconds: float) -> None:
        await self.sleep(min(seconds, 0.001))

    async def test_recorders_are_killed_at_any_step(self) -> None:
        with mock.patch.multiple(appender, POLL=0.01), contextlib.redirect_stderr(None):
            for seed in range(8):
                etcd = Memory()
                etcd.plan = {call: random.Random(call + seed).choice(("before", "behind")) for call in range(5, 400, 7)}
                with mock.patch.object(appender.asyncio, "sleep", self.no_sleep):
                    await self.go(etcd, seed, True)

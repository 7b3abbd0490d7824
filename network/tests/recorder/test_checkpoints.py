"""Recorders and followers that write or load a checkpoint, and what they answer meanwhile."""
import asyncio
import contextlib
import io
import json
import sqlite3
import tempfile
import threading
import time
import zlib
from typing import Any, AsyncIterator, Callable, Iterator
from unittest import mock

from support.ledger_case import FOUNDED, Memory, registration, turn
from support.recorder_case import RecorderCase
from walrus.network.ledger import state
from walrus.network.ledger.checkpoint import read, written
from walrus.network.ledger.entries import Chain
from walrus.network.ledger.follower import News, View
from walrus.network.ledger.state import State
from walrus.network.peers.network import Network
from walrus.network.recorder import server
from walrus.network.recorder.appender import Recorder
from walrus.network.recorder.compaction import Keeper
from walrus.network.recorder.etcd import Batch


class Taking(RecorderCase):
    async def test_what_was_before_a_checkpoint_is_told_to_nobody_who_asks_behind_it(self) -> None:
        late = await self.recorder(FOUNDED, registration("x", 1))
        ahead = await self.recorder(*turn(1), registration("x", 2))
        self.assertTrue(ahead.state.settle())
        await Keeper(ahead, 0.0).write(None)
        [mark] = self.etcd.marked
        await self.etcd.put_mark(mark._replace(dropped=True), mark)
        await self.etcd.drop(mark)
        seen, forget = list[Any](), late.state.forget_places

        async def watched(place: int) -> None:
            seen.append((place, late.chain, late.size, [*late.recent], await late.behind(mark.place)))
            await forget(place)

        self.assertGreater(late.size, 0)
        with mock.patch.object(late.state, "forget_places", watched):
            await late.catch_up()
        self.assertEqual(seen, [(mark.place, mark.chain, 0, [], [])])
        self.assertEqual((late.ledger.epoch, late.state.place_of(registration("x", 1))), (1, None))

    async def test_a_recorder_that_has_not_read_up_to_a_checkpoint_does_not_say_that_all_nodes_have(self) -> None:
        ahead, late = await self.recorder(FOUNDED, *turn(1)), Recorder(self.etcd)
        self.addCleanup(late.state.close)
        await Keeper(ahead, 99.0).write(None)
        for made in (ahead, late):
            await Keeper(made, 99.0).look()
            self.assertEqual([it.dropped for it in self.etcd.marked], [False])
        self.assertNotEqual(ahead.ledger.nodes, [])

    async def test_others_are_answered_while_a_checkpoint_is_written_and_while_it_is_taken(self) -> None:
        """They see all of it or nothing. Each row waits for a turn of the event loop."""
        texts = [FOUNDED, registration("x", 1), *turn(1), *(registration("y", number) for number in range(2, 40))]
        with tempfile.TemporaryDirectory() as folder:
            late, ahead = (Recorder(self.etcd, State(f"{folder}/{name}")) for name in ("late", "ahead"))
            for made, first, last in ((late, 0, 2), (ahead, 2, len(texts))):
                self.addCleanup(made.state.close)
                await made.catch_up()
                self.assertTrue(await made.step(Batch(made.chain, texts[first:last])))
            turns, blobs, keeper = list[tuple[int, int, bool]](), set[int](), Keeper(late, 0.0)

            def waiting(real: Callable[..., Iterator[Any]]) -> Callable[..., Iterator[Any]]:
                def rows(*words: Any) -> Iterator[Any]:
                    for row in real(*words):
                        count, end = len(turns), time.monotonic() + 60
                        while len(turns) == count:
                            assert time.monotonic() < end, "the loop is held"
                            time.sleep(0.0001)
                        yield row

                return rows

            async def others() -> None:
                while True:
                    told = json.loads((await server.Service(late, mock.Mock()).status(mock.Mock())).body)
                    turns.append((told["place"], told["epoch"], late.state.settle()))
                    blobs.add(len(late.ledger.blobs))
                    await keeper.look()

            with mock.patch.multiple(state.checkpoint, written=waiting(written), read=waiting(read)):
                task = asyncio.create_task(others())
                await Keeper(ahead, 0.0).write(None)
                self.assertGreaterEqual(len(turns), 39)  # a row for each blob, and some for the rest of the state
                self.assertEqual(({*turns}, blobs), ({(2, 0, True)}, {1}))
                [mark] = self.etcd.marked
                turns.clear()
                await self.etcd.put_mark(mark._replace(dropped=True), mark)
                await self.etcd.drop(mark)
                await late.catch_up()
                task.cancel()
            self.assertGreaterEqual(len(turns), 39)
            after = {(len(texts), 1, False), (len(texts), 1, True)}
            self.assertLessEqual({*turns}, {(2, 0, True), (2, 0, False)} | after)
            self.assertLessEqual(blobs, {1, 39})
            self.assertIn((2, 0, False), turns)
            self.assertEqual([*late.state.written()], [*ahead.state.written()])

    async def test_who_asks_while_a_checkpoint_is_taken_has_what_was_saved_until_all_of_it_is_there(self) -> None:
        """The same holds once the thread has committed. What was heard before is saved first, when the disk takes it:
        otherwise others would see an earlier state."""
        ahead, connect = (
            await self.recorder(FOUNDED, *turn(1), *(registration("y", it) for it in range(9))),
            sqlite3.connect,
        )
        pieces, ended = [*map(zlib.compress, ahead.state.written())], list[str]()

        class Slow(sqlite3.Connection):
            def execute(self, words: str, *values: Any) -> sqlite3.Cursor:
                found = super().execute(words, *values)
                if words in ("COMMIT", "DELETE FROM entries"):
                    ended.append(words)
                    time.sleep(0.1)
                return found

        for full, tail in ((False, 0), (True, 0), (False, 2)):  # of a recorder or gateway, and of a node
            with self.subTest(full=full, tail=tail), tempfile.TemporaryDirectory() as folder:
                with mock.patch.object(sqlite3, "connect", lambda *it, **to: connect(*it, **to, factory=Slow)):
                    late, seen = Recorder(Memory(), State(f"{folder}/late", tail)), set[tuple[int, int, int]]()
                self.addCleanup(late.state.close)
                await late.catch_up()
                late.state.settle()
                late.state.again = time.monotonic() + 0.2 * full
                self.assertTrue(await late.step(Batch(late.chain, [FOUNDED, registration("x", 1)])))
                late.state.due = 0
                task = asyncio.create_task(late.state.take(pieces))
                turns = await asyncio.sleep(0, 0)
                while not task.done():
                    seen.add((late.chain.place, late.ledger.epoch, len(late.ledger.blobs)))
                    turns += late.state.entering
                    await asyncio.sleep(0.001)
                await task
                self.assertGreater(turns, 9)  # the event loop goes on meanwhile
                self.assertEqual(ended[-2:], ["DELETE FROM entries", "COMMIT"])
                self.assertLessEqual(seen, {(2, 0, 1), (ahead.chain.place, 1, 9)})
                self.assertEqual(([*late.state.written()], late.state.whole), ([*ahead.state.written()], True))

    async def test_who_ends_while_a_checkpoint_is_taken_has_all_of_it_at_the_next_start_or_nothing(self) -> None:
        ahead, begun, goes_on = await self.recorder(FOUNDED, registration("x", 1)), threading.Event(), threading.Event()
        pieces = [*map(zlib.compress, ahead.state.written())]

        def slow(*words: Any) -> Iterator[Any]:
            begun.set()
            self.assertTrue(goes_on.wait(60))
            yield from read(*words)

        with tempfile.TemporaryDirectory() as folder, mock.patch.object(state.checkpoint, "read", slow):
            made = State(f"{folder}/made")
            task = asyncio.create_task(made.take(pieces))
            self.assertTrue(await asyncio.to_thread(begun.wait, 60))
            task.cancel()
            await asyncio.gather(task, return_exceptions=True)
            self.assertEqual((len(made.ledger.blobs), made.whole), (0, False))
            threading.Timer(0.1, goes_on.set).start()
            made.close()
            again = State(f"{folder}/made")
            self.addCleanup(again.close)
            self.assertEqual([*again.written()], [*ahead.state.written()])

    async def test_a_line_longer_than_a_piece_is_a_piece_of_its_own(self) -> None:
        """As of a blob that very many names keep; several lines may not be as long together."""
        line = state.checkpoint.line_of(["past", "x" * state.checkpoint.LONGEST, 1])
        self.assertEqual(state.checkpoint.unpacked(zlib.compress(line)), line)
        for text in (line + line, b"x" * (state.checkpoint.MOST_FIELDS + 1)):
            with self.assertRaises(state.checkpoint.Unfit):
                state.checkpoint.unpacked(zlib.compress(text))

    async def test_who_is_new_waits_for_a_checkpoint_however_long_it_takes(self) -> None:
        ahead, until = await self.recorder(FOUNDED, registration("x", 1)), View.until
        pieces = [*map(zlib.compress, ahead.state.written())]

        class Told:
            said, aclose, pieces = "it is too slow", mock.AsyncMock(), list[bytes]()

            async def follow(self, *_: object) -> AsyncIterator[News]:
                yield News(ahead.chain, [], ahead.chain.place, ahead.state.identity, pieces)
                await asyncio.Event().wait()

        def slow(*words: Any) -> Iterator[Any]:
            time.sleep(1)
            yield from read(*words)

        with tempfile.TemporaryDirectory() as folder, mock.patch.object(state.checkpoint, "read", slow):
            made: Any = Network.__new__(Network)
            View.__init__(made, Told(), State(f"{folder}/new"))  # type: ignore[arg-type]
            made.late, made.walrus = set(), mock.Mock()
            made.peers = made.holders = mock.AsyncMock()
            with mock.patch.object(View, "until", lambda it, holds, seconds: until(it, holds, seconds / 100)):
                async with made:
                    self.assertEqual((made.chain, len(made.ledger.blobs)), (ahead.chain, 1))

    async def test_of_a_checkpoint_that_cannot_be_taken_nothing_is_there_and_the_next_one_is_taken(self) -> None:
        ahead = await self.recorder(FOUNDED, registration("x", 1), registration("y", 2))
        pieces = [*ahead.state.written()]
        lines = b"".join(pieces).splitlines(keepends=True)
        cut, rest = b"".join([*lines[:-1], b"[1]\n"]), b"".join(it for it in lines if b"faults" not in it)
        with tempfile.TemporaryDirectory() as folder:
            for name, tail in (("recorder", 0), ("node", 2), ("", 0)):
                with self.subTest(name=name):
                    made = State(name and f"{folder}/{name}", tail)
                    self.addCleanup(made.close)
                    for wrong in (cut, rest):
                        with self.assertRaises((ValueError, LookupError, TypeError, sqlite3.Error)):
                            await made.take([zlib.compress(wrong)])
                        self.assertEqual((len(made.ledger.blobs), made.chain, made.whole), (0, None, True))
                    await made.take(map(zlib.compress, pieces))
                    self.assertEqual(([*made.written()], len(made.ledger.blobs)), (pieces, 2))

    async def test_a_checkpoint_that_a_full_disk_does_not_take_is_taken_once_it_does(self) -> None:
        """Otherwise a node or a recorder would end, or lose what the disk did not take before."""
        heard = [FOUNDED, registration("x", 1), registration("y", 2)]
        ahead = await self.recorder(*heard)
        self.assertTrue(await ahead.step(Batch(ahead.chain, [registration("y", it) for it in range(3, 500)])))
        pieces, born = [*map(zlib.compress, ahead.state.written())], Chain(0, bytes.fromhex(ahead.state.identity))
        self.enterContext(mock.patch.object(state, "LATER", 0.05))
        for name, tail in (("recorder", 0), ("node", 2)):
            folder = self.enterContext(tempfile.TemporaryDirectory())
            with self.subTest(name=name), contextlib.redirect_stderr(io.StringIO()) as said:
                made = State(f"{folder}/{name}", tail)
                self.addCleanup(made.close)
                view = View(mock.Mock(), made)
                for texts, chain in ((heard[:2], born), (heard[2:], born.behind(heard[:2]))):
                    news = News(chain.behind(texts), chain.followed(texts), 3, ahead.state.identity)
                    await view.enter(news)
                    made.again = time.monotonic() + 0.2  # the disk takes the first of this at once, and then the rest
                made.base.execute("PRAGMA max_page_count = 1")  # no more than it has
                news = News(ahead.chain, [], ahead.chain.place, ahead.state.identity, pieces)
                entering = asyncio.create_task(view.enter(news))
                while not entering.done() and (made.entering or not said.getvalue()):
                    await asyncio.sleep(0.001)
                self.assertIn("database or disk is full", said.getvalue())
                self.assertEqual((entering.done(), view.chain, made.whole), (False, born.behind(heard), True))
                self.assertEqual(len(made.ledger.blobs), 2)
                made.base.execute("PRAGMA max_page_count = 100000")
                await asyncio.wait_for(entering, 60)
                self.assertEqual(([*made.written()], made.whole), ([*ahead.state.written()], True))

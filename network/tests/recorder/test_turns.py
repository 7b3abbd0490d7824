"""A recorder's turns: who asks for much of what etcd alone has, and what is told to a follower at once."""
import asyncio
import collections
import contextlib
import io
import json
import sqlite3
import tempfile
from typing import Any
from unittest import mock

import aiohttp
from support.ledger_case import FOUNDED, LedgerCase, registration, turn
from support.recorder_case import RecorderCase
from walrus.network.ledger import state
from walrus.network.ledger.checkpoint import Mark
from walrus.network.ledger.state import State
from walrus.network.recorder import compaction, server
from walrus.network.recorder.appender import Recorder
from walrus.network.recorder.compaction import Keeper
from walrus.network.recorder.etcd import Batch, Failed


async def settled() -> None:
    """Lets all tasks go on as far as they can."""
    for _ in range(50):
        await asyncio.sleep(0)


class Noting(collections.defaultdict[str, asyncio.Lock]):
    """The turns of names, which notes of whom they were taken."""

    def __init__(self) -> None:
        super().__init__(asyncio.Lock)
        self.taken = list[str]()

    def __getitem__(self, name: str) -> asyncio.Lock:
        self.taken.append(name)
        return super().__getitem__(name)


class Full(sqlite3.Connection):
    """A database on a full disk: no transaction comes to its end."""

    def execute(self, words: str, *values: Any) -> sqlite3.Cursor:
        if words == "COMMIT":
            super().execute("ROLLBACK")
            raise sqlite3.OperationalError("database or disk is full")
        return super().execute(words, *values)


class Turns(RecorderCase):
    async def test_a_name_waits_in_one_place_however_often_it_asks(self) -> None:
        made = await self.recorder(FOUNDED, registration("x", 1))
        made.recent.clear()  # so that etcd alone has them
        goes_on, answered, batches = asyncio.Semaphore(0), list[str](), self.etcd.batches

        async def slow(place: int) -> list[Batch]:
            await goes_on.acquire()
            return await batches(place)

        async def ask(name: str) -> None:
            found = await made.behind(0, name)
            self.assertEqual([text for it in found for text in it.entries], [FOUNDED, registration("x", 1)])
            answered.append(name)

        with mock.patch.object(self.etcd, "batches", slow):
            tasks = [asyncio.create_task(ask(name)) for name in "aaaaabbc"]
            await settled()
            for count in range(len(tasks)):
                self.assertEqual(len(answered), count)  # one is asked for at a time
                goes_on.release()
                await settled()
        self.assertEqual("".join(answered[:3]), "abc")
        self.assertEqual(sorted(answered), [*"aaaaabbc"])

    async def test_a_piece_that_etcd_does_not_take_at_once_is_put_again_in_its_place(self) -> None:
        made = await self.recorder(FOUNDED, *turn(1), *(registration("x", number) for number in range(20)))
        self.assertTrue(made.state.settle())
        tried, put = list[int](), self.etcd.put_piece

        async def slow(place: int, number: int, piece: bytes) -> None:
            tried.append(number)
            if tried.count(number) == 1:
                raise Failed("it does not hear it in time")
            await put(place, number, piece)
            if tried.count(number) == 2:
                raise Failed("it does not answer in time")

        self.enterContext(mock.patch.multiple(compaction, PAUSE=0.0, TRIES=3))
        with mock.patch.object(self.etcd, "put_piece", slow), mock.patch.object(state.checkpoint, "LONGEST", 300):
            await Keeper(made, 0.0).write(None)
        [mark] = self.etcd.marked
        self.assertGreater(mark.pieces, 5)
        self.assertEqual({*self.etcd.pieces}, {(mark.place, number) for number in range(mark.pieces)})

    async def test_a_follower_is_told_parts_of_a_batch_s_size_each_with_a_deadline_of_its_own(self) -> None:
        made, told = await self.recorder(FOUNDED), list[bytes]()
        for size in (1, 1, 15, 15, 15, 1, 1):
            self.assertTrue(await made.step(Batch(made.chain, [f"x/{it}/".ljust(16_384, "y") for it in range(size)])))
        lines = [it.line for it in made.recent]

        class Response(mock.MagicMock):
            async def write(self, part: bytes) -> None:
                told.append(part)
                if sum(map(len, told[1:])) >= sum(map(len, lines)):
                    raise ConnectionResetError

        request, real = mock.MagicMock(), asyncio.timeout
        request.query.get.return_value, request.transport.is_closing.return_value = "0", False
        request.__getitem__.return_value = "x"
        service, running = server.Service(made, mock.Mock()), asyncio.create_task(made.run())
        self.addCleanup(running.cancel)
        with mock.patch.object(server.web, "StreamResponse", lambda **_: Response(prepare=mock.AsyncMock())):
            with mock.patch.object(server.asyncio, "timeout", side_effect=real) as deadlines:
                async with real(30):
                    await service.follow(request)
        self.assertEqual(b"".join(told[1:]), b"".join(lines))
        self.assertEqual([it.count(b"\n") for it in told[1:]], [3, 1, 1, 1, 2])  # a line has its digest too
        self.assertEqual(deadlines.call_args_list.count(mock.call(server.REQUEST)), len(told))

    async def test_a_recorder_whose_disk_takes_nothing_at_first_knows_its_places(self) -> None:
        texts, connect = [FOUNDED, *(registration("x", number) for number in range(200))], sqlite3.connect
        with tempfile.TemporaryDirectory() as folder, contextlib.redirect_stderr(io.StringIO()) as said:
            with mock.patch.object(sqlite3, "connect", lambda *it, **to: connect(*it, **to, factory=Full)):
                kept = State(f"{folder}/kept")
            self.addCleanup(kept.base.close)
            made = Recorder(self.etcd, kept)
            await made.catch_up()
            with mock.patch.object(state, "EACH", 0):
                self.assertTrue(await made.step(Batch(made.chain, texts)))
            self.assertIn("database or disk is full", said.getvalue())
            self.assertEqual((kept.whole, made.ledger.posted["x"]), (False, 200))
            self.assertEqual([made.state.place_of(it) for it in texts], [*range(1, 202)])

    async def test_a_batch_that_is_longer_than_what_waits_for_a_follower_is_told_all_the_same(self) -> None:
        made = await self.recorder(FOUNDED, registration("x", 1), registration("x", 2))
        with mock.patch("walrus.network.recorder.appender.HELD", 1):
            self.assertEqual([it.entries for it in await made.behind(1)], [[registration("x", 1)]])


class Names(LedgerCase):
    async def test_each_name_has_its_own_turn_for_entries_and_for_pieces(self) -> None:
        one = self.recorders[0]
        one.turns = noting = Noting()
        await self.publisher.post(registration("publisher", 1))
        await one.refresh()
        one.recent.clear()
        self.assertEqual(await self.first_lines("publisher", 2), 2)
        self.assertEqual({*noting.taken}, {"publisher"})
        mark, pieces = one.chain, [*one.state.written()]
        told = Mark(mark.place, 0, mark.digest.hex(), "", len(pieces), 0.0, True)
        await self.newcomer("mallory")
        with mock.patch.multiple(
            one.etcd, mark=mock.AsyncMock(return_value=told), piece=mock.AsyncMock(return_value=b"")
        ):
            self.assertEqual(await self.first_lines("mallory", 1 + len(pieces)), 1 + len(pieces))
        self.assertEqual({*noting.taken}, {"publisher", "mallory"})

    async def first_lines(self, name: str, count: int) -> int:
        """How many of the first lines that a follower is told are JSON, of so many."""
        async with aiohttp.ClientSession() as session:
            url = f"https://{self.local.told()['recorders'][0]}/v1/entries?after=0"
            async with session.get(url, ssl=self.context(name)) as said:
                lines = [json.loads(await said.content.readline()) for _ in range(count)]
                return sum(isinstance(it, dict) for it in lines)

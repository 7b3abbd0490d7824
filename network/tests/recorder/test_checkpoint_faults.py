"""Writing and loading checkpoints, and defragmenting etcd, on bad days: all recorders at the same moment, with a clock
that was wrong, or without a free descriptor."""
import asyncio
import contextlib
import io
import os
import resource
import tempfile
import time
import unittest
import zlib
from typing import Any
from unittest import mock

from support.ledger_case import FOUNDED, LedgerCase, Memory, registration, turn
from walrus.network.ledger import state
from walrus.network.ledger.state import State
from walrus.network.recorder.appender import Recorder
from walrus.network.recorder.compaction import Keeper
from walrus.network.recorder.etcd import Batch, Etcd, Failed


class Defragmented(LedgerCase):
    async def test_one_member_of_etcd_at_a_time_gives_back_what_it_has_free(self) -> None:
        """All recorders notice free bytes at the same moment, as all members have the same keys."""
        one, other = (it.etcd for it in self.recorders)
        call, begun, goes_on = Etcd.call, list[Etcd](), asyncio.Event()

        async def slow(etcd: Etcd, path: str, *words: Any) -> dict[str, Any]:
            if path != "maintenance/defragment":
                return await call(etcd, path, *words)
            begun.append(etcd)
            await goes_on.wait()
            if len(begun) > 2:
                raise Failed("it is too slow")
            return {}

        with mock.patch.object(Etcd, "call", slow):
            first = asyncio.create_task(one.defragment())
            while not begun:
                await asyncio.sleep(0.01)
            await asyncio.wait_for(other.defragment(), 30)
            self.assertEqual(begun, [one])
            goes_on.set()
            await first
            await other.defragment()
            self.assertEqual(begun, [one, other])
            with self.assertRaises(Failed):
                await one.defragment()
            await other.defragment()  # the first member may still be defragmenting
            self.assertEqual(begun, [one, other, one])

    async def test_above_its_quota_etcd_gives_no_turns_and_gives_back_what_it_has_free(self) -> None:
        call, begun = Etcd.call, list[str]()

        async def full(etcd: Etcd, path: str, *words: Any) -> dict[str, Any]:
            begun.append(path)
            if path.startswith("lease"):
                raise Failed("etcd at .. does not answer: etcdserver: mvcc: database space exceeded")
            return await call(etcd, path, *words)

        with mock.patch.object(Etcd, "call", full):
            await self.recorders[0].etcd.defragment()
        self.assertEqual([it for it in begun if "kv" not in it], ["lease/grant", "maintenance/defragment"])

    async def test_no_recorder_puts_a_piece_in_place_of_another_one_s(self) -> None:
        """Recorders of two versions may write checkpoints of one place: then the pieces of one do not fit its mark."""
        one, other = (it.etcd for it in self.recorders)
        text = b"a line of many\n" * 1_000
        piece = zlib.compress(text, 1)
        for etcd in (one, other):
            await etcd.put_piece(5, 0, piece)
        await other.put_piece(5, 0, zlib.compress(text, 9))  # the same text, as another zlib compresses it
        for another in (zlib.compress(b"another"), b"packed by nothing that is known"):
            with self.assertRaisesRegex(Failed, "a different checkpoint of this place"):
                await other.put_piece(5, 0, another)
        self.assertEqual(await one.piece(5, 0), piece)


class Checkpoints(unittest.IsolatedAsyncioTestCase):
    """A recorder over an etcd in memory."""

    async def asyncSetUp(self) -> None:
        asyncio.get_running_loop().set_debug(False)
        self.etcd = Memory()
        self.recorder = Recorder(self.etcd)
        self.addCleanup(self.recorder.state.close)
        await self.recorder.catch_up()
        texts = [FOUNDED, registration("x", 1), *turn(1)]
        self.assertTrue(await self.recorder.step(Batch(self.recorder.chain, texts)))

    async def test_a_checkpoint_whose_writer_had_a_clock_far_ahead_is_over_in_time(self) -> None:
        """No node ever posts that it is past its epoch."""
        keeper, later = Keeper(self.recorder, 0.2), time.time() + 10 * 365 * 86_400
        with mock.patch.object(time, "time", lambda: later):
            await keeper.write(None)
        await keeper.look()
        self.assertEqual([it.dropped for it in self.etcd.marked], [False])
        await asyncio.sleep(0.3)
        for _ in range(2):
            await keeper.look()
        self.assertEqual(([it.dropped for it in self.etcd.marked], self.etcd.kept), ([False, True], {}))

    async def test_a_checkpoint_for_which_no_descriptor_is_free_is_taken_once_there_is_one(self) -> None:
        made = State(f"{self.enterContext(tempfile.TemporaryDirectory())}/made")
        self.addCleanup(made.close)
        self.enterContext(mock.patch.object(state, "LATER", 0.05))
        said = self.enterContext(contextlib.redirect_stderr(io.StringIO()))
        pieces = [*map(zlib.compress, self.recorder.state.written())]
        limits = resource.getrlimit(resource.RLIMIT_NOFILE)
        self.addCleanup(resource.setrlimit, resource.RLIMIT_NOFILE, limits)
        free = os.dup(0)
        os.close(free)
        resource.setrlimit(resource.RLIMIT_NOFILE, (free, limits[1]))
        taking = asyncio.create_task(made.take(pieces))
        while not said.getvalue() and not taking.done():
            await asyncio.sleep(0.001)
        resource.setrlimit(resource.RLIMIT_NOFILE, limits)
        await asyncio.wait_for(taking, 60)
        self.assertIn("unable to open database file", said.getvalue())
        self.assertEqual(([*made.written()], made.whole), ([*self.recorder.state.written()], True))

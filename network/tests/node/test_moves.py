"""What a node does in a handover and in a recovery, apart from its disk and from other nodes."""
import asyncio
import contextlib
import io
import types
import unittest
from typing import Any
from unittest import mock

from walrus import client
from walrus.format.frames import answer
from walrus.network.node import handover
from walrus.network.node.recovery import Own
from walrus.network.service.condition import Waiting


class Moves(unittest.IsolatedAsyncioTestCase):
    async def test_what_is_lacking_is_not_looked_for_anew_at_each_entry(self) -> None:
        """Otherwise a node reads all live blobs without a pause while others register."""
        settled, waiting = 0, Waiting()

        async def settle(*_: object) -> int:
            nonlocal settled
            settled += 1
            await asyncio.sleep(0.1)
            return 1

        ledger: Any = types.SimpleNamespace(epoch=0, moving=True, ready=frozenset(), quorum=3, revision=0)
        ledger.must_hold = list

        async def until(holds: Any, seconds: float) -> None:
            await waiting.until(lambda: holds(ledger), seconds)

        node: Any = types.SimpleNamespace(ledger=ledger, name="a", sides={1: {0: None}}, until=until)
        self.enterContext(contextlib.redirect_stderr(io.StringIO()))
        self.enterContext(mock.patch.object(handover, "settle", settle))
        moving = asyncio.create_task(handover.move(node))
        begun = asyncio.get_running_loop().time()
        while asyncio.get_running_loop().time() < begun + 2:
            ledger.revision += 1
            waiting.tell()
            await asyncio.sleep(0.01)
        moving.cancel()
        self.assertIn(settled, range(2, 9))

    async def test_a_node_is_not_ready_before_the_epoch_has_its_least_length(self) -> None:
        clock, posted = asyncio.get_running_loop().time, list[tuple[str, float]]()
        ledger: Any = types.SimpleNamespace(epoch=0, moving=True, ready=frozenset(), quorum=3, revision=0)
        ledger.must_hold, begun, waiting = list, clock(), Waiting()

        class Age:
            @property
            def seconds(self) -> float:
                return clock() - begun

        async def post(text: str) -> None:
            posted.append((text, clock() - begun))
            ledger.moving = False

        async def until(holds: Any, seconds: float) -> None:
            await waiting.until(lambda: holds(ledger), seconds)

        node: Any = types.SimpleNamespace(
            ledger=ledger, name="a", sides={1: {0: None}}, until=until, state=types.SimpleNamespace(begun=Age())
        )
        node.settings, node.recorders = types.SimpleNamespace(least=1.0), types.SimpleNamespace(post=post)
        self.enterContext(mock.patch.object(handover, "settle", mock.AsyncMock(return_value=0)))
        with contextlib.redirect_stderr(io.StringIO()) as said:
            await asyncio.wait_for(handover.move(node), 60)
        [(text, seconds)] = posted
        self.assertEqual(text, "a/ready/1")
        self.assertGreaterEqual(seconds, 1.0)
        self.assertIn("a: epoch 1: epoch 0 lasts at least 1 s by this clock, so ready in 1 s\n", said.getvalue())


class Cancelled(unittest.IsolatedAsyncioTestCase):
    async def test_the_own_shard_answers_to_its_end_though_nobody_waits(self) -> None:
        """Its judge runs in a thread that cannot be stopped, and has its memory until it ends."""
        begun, goes_on, ended = asyncio.Event(), asyncio.Event(), asyncio.Event()

        async def answered(request: bytes) -> list[bytes]:
            begun.set()
            await goes_on.wait()
            ended.set()
            return [answer(client.DONE)]

        shard: Any = types.SimpleNamespace(number=0, ledger=types.SimpleNamespace(faults=1), answer=answered)
        asking = asyncio.create_task(Own(shard).ask(client.write_frame(client.Read(bytes(32)))))
        async with asyncio.timeout(30):
            await begun.wait()
            asking.cancel()
            with self.assertRaises(asyncio.CancelledError):
                await asking
            goes_on.set()
            await ended.wait()

"""Calls in threads: whose caller is gone keeps its memory until the thread has ended."""
import asyncio
import concurrent.futures
import threading
import unittest
from typing import Any
from unittest import mock

from walrus.engines.backends import Ran
from walrus.network.gateway.resources.memory import Memory, need_of
from walrus.network.gateway.write.writer import Writer
from walrus.network.peers.engine import Calls
from walrus.network.service.threads import to_the_end


class Threads(unittest.IsolatedAsyncioTestCase):
    """A writer whose program works until it may end."""

    async def asyncSetUp(self) -> None:
        asyncio.get_running_loop().set_debug(False)
        self.entered, self.goes_on, self.ran = threading.Event(), threading.Event(), list[bytes]()
        self.addCleanup(self.goes_on.set)
        calls = Calls("walrus")
        calls.engine = mock.Mock(run=self.run_slowly)
        calls.pool = concurrent.futures.ThreadPoolExecutor(1)
        self.addCleanup(calls.pool.shutdown)
        self.memory, ledger = Memory(1_000_000_000), mock.Mock(faults=1)
        self.writer = Writer(mock.Mock(walrus=calls, ledger=ledger, left=lambda _: []), self.memory, 2)

    def run_slowly(self, words: Any, data: Any, room: Any) -> Ran:
        self.entered.set()
        self.goes_on.wait(60)
        self.ran.append(bytes(data))
        return Ran(1, memoryview(b"it is told to fail"))

    async def begun(self, *blobs: bytes) -> "list[asyncio.Task[Any]]":
        """Begins to store these blobs; returns once the first one is being encoded."""
        tasks = [asyncio.create_task(self.writer.store_blob(blob, 5)) for blob in blobs]
        async with asyncio.timeout(60):
            while not self.entered.is_set():
                await asyncio.sleep(0.001)
        return tasks

    async def test_an_upload_that_breaks_off_holds_its_memory_while_it_is_encoded(self) -> None:
        [task] = await self.begun(bytes(1_000_000))
        for _ in range(3):  # such as one for the request, and one for the gateway that ends
            task.cancel()
            await asyncio.sleep(0.01)
        self.assertEqual((self.memory.taken, task.done()), (need_of(1_000_000, 1), False))
        self.goes_on.set()
        with self.assertRaises(asyncio.CancelledError):
            await task
        self.assertEqual((self.memory.taken, self.ran), (0, [bytes(1_000_000)]))

    async def test_one_that_has_not_begun_gives_it_back_at_once(self) -> None:
        one, other = await self.begun(b"one", b"other")
        other.cancel()
        async with asyncio.timeout(60):
            with self.assertRaises(asyncio.CancelledError):
                await other
        self.assertEqual(self.memory.taken, need_of(3, 1))
        self.goes_on.set()
        await asyncio.gather(one, return_exceptions=True)
        self.assertEqual((self.memory.taken, self.ran), (0, [b"one"]))

    async def test_an_error_of_a_call_whose_caller_is_gone_is_no_noise(self) -> None:
        def fail() -> None:
            self.entered.set()
            self.goes_on.wait(60)
            raise ValueError("it fails")

        told = list[Any]()
        asyncio.get_running_loop().set_exception_handler(lambda _, context: told.append(context))
        task = asyncio.create_task(to_the_end(fail))
        while not self.entered.is_set():
            await asyncio.sleep(0.001)
        task.cancel()
        self.goes_on.set()
        with self.assertRaises(asyncio.CancelledError):
            await task
        del task
        await asyncio.sleep(0.01)
        self.assertEqual(told, [])

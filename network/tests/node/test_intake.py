"""What comes to a node: nothing is confirmed before it is on the disk, and clients that give up leave nothing there."""
import asyncio
import errno
import threading
import types
import unittest
from typing import Any, Awaitable
from unittest import mock

from support.harness import lacking
from support.shard_case import LARGE, ShardCase
from walrus import client
from walrus.format.envelopes import parts
from walrus.format.frames import PRIMARY, SECONDARY, code_of
from walrus.network.node import judge, recovery, shard
from walrus.network.node.disk.content_files import Files
from walrus.network.node.intake import Intake
from walrus.network.node.judge import Judges, Unjudged
from walrus.network.node.node import Node
from walrus.network.node.whole_blob import Whole
from walrus.network.peers.parts import WHOLE


class Held:
    """Wraps `Files.write`: it counts calls, and writes nothing before it is released."""

    def __init__(self) -> None:
        self.true, self.begun, self.goes_on, self.ended = Files.write, 0, threading.Event(), 0

    def write(self, files: Files, *words: Any) -> list[str]:
        self.begun += 1
        self.goes_on.wait()
        try:
            return self.true(files, *words)
        finally:
            self.ended += 1


async def turns(count: int = 50) -> None:
    """Let all tasks and threads run that can."""
    for _ in range(count):
        await asyncio.sleep(0.002)


@unittest.skipIf(lacking(), f"{lacking()} is not here (network/install)")
class GivenUp(ShardCase):
    async def nothing_stays(self, storing: Awaitable[object], ends: Any, fault: type[BaseException]) -> None:
        """Let a client give up while files are being written: none of them is there once that has ended."""
        held, task = Held(), asyncio.ensure_future(storing)
        self.addCleanup(held.goes_on.set)
        with mock.patch.object(Files, "write", lambda *words: held.write(*words)):
            while not held.begun:
                await asyncio.sleep(0.002)
            ends(task)
            await turns()
            self.assertFalse(task.done())  # it waits, as the parts are in memory meanwhile, and count
            held.goes_on.set()
            with self.assertRaises(fault):
                await task
            self.assertEqual(held.ended, held.begun)
        self.open()  # waits until files are removed
        self.assertEqual(self.files(), [])

    async def test_a_part_for_which_nobody_waits_leaves_no_file(self) -> None:
        metadata, primary, _ = await self.parts(bytes(LARGE))
        self.assertEqual(code_of(await self.shard.put(metadata)), client.DONE)
        await self.nothing_stays(self.shard.put(primary), asyncio.Task.cancel, asyncio.CancelledError)
        self.assertEqual(code_of(await self.shard.put(primary)), client.DONE)

    async def test_a_blob_for_which_nobody_waits_leaves_no_file(self) -> None:
        whole = await self.whole(LARGE)
        await self.nothing_stays(self.shard.put_whole(whole), asyncio.Task.cancel, asyncio.CancelledError)
        self.assertEqual(code_of(await self.shard.put_whole(whole)), 13)
        self.assertEqual(len(self.files()), 2)

    async def test_a_blob_over_which_no_judgement_comes_leaves_no_file(self) -> None:
        whole, asked = await self.whole(LARGE), threading.Event()

        def run(*_: object) -> None:
            asked.wait()
            raise Unjudged("walrus serve ended")

        self.enterContext(mock.patch.object(judge, "SHORT", 0))
        with mock.patch.object(type(self.judges.engine), "run", run):
            await self.nothing_stays(self.shard.put_whole(whole), lambda _: asked.set(), Unjudged)
        self.assertEqual(code_of(await self.shard.put_whole(whole)), 13)
        self.assertEqual(len(self.files()), 2)


@unittest.skipIf(lacking(), f"{lacking()} is not here (network/install)")
class Told(ShardCase):
    """Replies of a node that has only this shard."""

    async def asyncSetUp(self) -> None:
        await super().asyncSetUp()
        self.node: Any = types.SimpleNamespace(
            name="a", ledger=self.ledger, store=self.store, sides={0: {0: self.shard}}, posted=list[str]()
        )
        self.node.port = types.SimpleNamespace(shape=client.Shape(1))
        self.node.recorders = types.SimpleNamespace(leave=self.leave)
        self.node.route = types.MethodType(Node.route, self.node)
        self.node.intake = Intake(self.node)
        self.addAsyncCleanup(self.node.intake.close)

    def leave(self, word: str) -> "asyncio.Future[int]":
        self.node.posted.append(word)
        taken: "asyncio.Future[int]" = asyncio.get_running_loop().create_future()
        taken.set_result(1)
        return taken

    def request(self, whole: Whole) -> memoryview:
        """Return a request as it came to the port."""
        return whole.memory[whole.start : whole.end]  # noqa: E203

    async def test_nothing_is_told_before_it_is_on_the_disk(self) -> None:
        assert self.store
        request, flush = self.request(await self.whole(250)), self.store.flush
        self.enterContext(mock.patch.object(self.store, "flush"))  # the disk takes nothing until the test says so
        said = await Node.reply(self.node, 0, request)  # type: ignore[arg-type]
        self.assertEqual(client.split(b"".join(said.parts)), [(0, b"\x30" + bytes([client.DONE]) + bytes(8))])
        assert said.written
        await turns()
        self.assertEqual((said.written.done(), self.node.posted), (False, []))  # and it is not acknowledged
        self.assertTrue(flush())
        self.assertTrue(await said.written)
        await turns()
        self.assertEqual([it.split("/")[:2] for it in self.node.posted], [["a", "ack"]])

    async def test_what_the_disk_loses_is_told_as_refused(self) -> None:
        assert self.store
        whole = await self.whole(250)
        said = await Node.reply(self.node, 0, self.request(whole))  # type: ignore[arg-type]
        assert said.written
        self.store.lose(OSError(errno.ENOSPC, "No space left on device"))
        self.assertFalse(await said.written)
        [(sender, payload)] = client.split(said.lost)
        self.assertEqual((sender, payload[:2]), (0, bytes([0x30, shard.FULL])))
        await turns()
        self.assertEqual((self.node.posted, self.shard.lacks(whole.identifier)), ([], [0, 1, 2]))
        again = await Node.reply(self.node, 0, self.request(whole))  # type: ignore[arg-type]
        self.assertEqual(again.parts, said.parts)

    async def test_what_the_disk_loses_as_soon_as_it_is_kept_is_told_as_refused(self) -> None:
        """Otherwise clients hear that parts are stored, and the ledger that the node has them, though they are lost."""
        assert self.store
        put = self.store.put
        for is_whole in (True, False):
            whole = await self.whole(LARGE + 250 * is_whole)
            if not is_whole:
                self.assertEqual(code_of(await self.shard.put(bytes(whole.parts[0]))), client.DONE)
                self.assertTrue(self.store.flush())

            def lost(*words: Any) -> None:
                """Lose what is staged right after the last part, before any other task has a turn."""
                assert self.store
                put(*words)
                if words[3] == (SECONDARY if is_whole else PRIMARY):
                    full = OSError(errno.ENOSPC, "No space left on device")
                    asyncio.get_running_loop().call_soon(self.store.lose, full)

            request = self.request(whole) if is_whole else bytes(whole.parts[1])
            with mock.patch.object(self.store, "put", lost):
                said = await Node.reply(self.node, 0, request)  # type: ignore[arg-type]
            assert said.written
            self.assertFalse(await said.written)
            self.assertEqual(client.split(said.lost)[0][1][:2], bytes([0x30, shard.FULL]))
            await turns()
            self.assertEqual(self.node.posted, [])
            self.assertIn(PRIMARY, self.shard.lacks(whole.identifier))

    async def test_no_word_is_given_for_what_is_lost_while_it_is_judged(self) -> None:
        """Otherwise the ledger certifies a blob of which this node has nothing."""
        assert self.store
        whole, ask, lose = await self.whole(250), self.judges.ask, self.store.lose
        self.assertEqual(code_of(await self.shard.put(bytes(whole.parts[0]))), client.DONE)  # so it is held in part

        async def judged(size: int, step: Any, request: bytes, *words: Any) -> Any:
            if request == whole.wish:
                lose(OSError(errno.ENOSPC, "No space left on device"))
            return await ask(size, step, request, *words)

        with mock.patch.object(self.judges, "ask", judged):
            said = await Node.reply(self.node, 0, self.request(whole))  # type: ignore[arg-type]
        [(_, payload)] = client.split(b"".join(said.parts))
        await turns()
        self.assertEqual((payload[:2], self.node.posted), (bytes([0x30, shard.FULL]), []))
        self.assertEqual(self.shard.lacks(whole.identifier), [0, 1, 2])

    async def test_a_node_is_not_ready_by_what_is_not_on_the_disk_yet(self) -> None:
        assert self.store
        whole, flush = await self.whole(250), self.store.flush
        self.enterContext(mock.patch.object(self.store, "flush"))
        for ends, left in ((lambda: self.store.lose(OSError(errno.ENOSPC, "it is full")), 1), (flush, 0)):
            await self.shard.put_whole(whole)
            settling = asyncio.create_task(recovery.settle(self.node, 0, [whole.identifier]))
            await turns()
            self.assertFalse(settling.done())
            ends()
            self.assertEqual(await settling, left)

    async def test_what_is_refused_waits_for_no_disk(self) -> None:
        assert self.store
        whole = await self.whole(250)
        whole.parts[2][-1] ^= 1
        [other, *_] = await self.parts(b"another blob")
        self.assertEqual(code_of(await self.shard.put(other)), client.DONE)
        self.assertIsNotNone(self.store.pending)
        said = await Node.reply(self.node, 0, self.request(whole))  # type: ignore[arg-type]
        self.assertIsNone(said.written)

    async def test_a_small_reply_keeps_no_more_memory_than_it_has_bytes(self) -> None:
        metadata, primary, _ = await self.put(b"read")
        said = await Node.reply(self.node, 0, client.write_frame(client.Read(primary[1:33])))
        answered = bytes([client.ANSWER, client.DONE, 0, 0, 0, 2]) + bytes(4)  # after two frames
        self.assertEqual(client.split(b"".join(said.parts)), [(0, metadata), (0, primary), (0, answered)])
        self.assertEqual([len(memoryview(memoryview(it).obj)) for it in said.parts], [said.size])

    async def test_a_large_reply_is_not_copied(self) -> None:
        payload = memoryview(bytearray(100_000))
        self.node.route = mock.AsyncMock(return_value=[payload])
        said = await Node.reply(self.node, 0, client.write_frame(client.Read(bytes(32))))
        self.assertIs(memoryview(said.parts[1]).obj, payload.obj)
        self.assertEqual(b"".join(said.parts), b"".join(parts([payload])))

    async def test_what_comes_whole_is_taken_by_its_kind(self) -> None:
        request = self.request(await self.whole(250))
        self.assertEqual(request[0], WHOLE)
        await Node.reply(self.node, 0, request)  # type: ignore[arg-type]
        self.assertEqual(request[0], WHOLE)


class Wanting(unittest.IsolatedAsyncioTestCase):
    """Steps for which the system has no memory; it reports that by one of two exceptions."""

    async def asyncSetUp(self) -> None:
        asyncio.get_running_loop().set_debug(False)
        with mock.patch.object(judge, "engine_of"):
            self.judges = Judges("walrus", 100_000_000)
        self.addCleanup(self.judges.close)
        self.judges.keep(1)

    async def test_it_goes_on_by_what_is_kept(self) -> None:
        for fault in (MemoryError(), OSError(errno.ENOMEM, "Cannot allocate memory")):
            for here in (True, False):
                kept = list[bool]()

                def step(word: str) -> str:
                    kept.append(self.judges.kept is not None)
                    if kept == [True]:
                        raise fault
                    return word

                self.assertEqual(await self.judges.work(step, "done", here=here), "done")
                self.assertEqual((kept, self.judges.kept is not None), ([True, False], True))

    async def test_where_even_that_is_too_little_the_request_alone_fails(self) -> None:
        for fault in (MemoryError(), OSError(errno.ENOMEM, "Cannot allocate memory")):
            step = mock.Mock(side_effect=fault)
            with self.assertRaisesRegex(Unjudged, "there is no memory, not even for one judge"):
                await self.judges.work(step)
            self.assertEqual((step.call_count, self.judges.kept is not None), (2, True))

    async def test_other_faults_of_the_system_are_told_at_once(self) -> None:
        step = mock.Mock(side_effect=OSError(errno.EIO, "Input/output error"))
        with self.assertRaisesRegex(OSError, "Input/output error"):
            await self.judges.work(step)
        self.assertEqual(step.call_count, 1)

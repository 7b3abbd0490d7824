"""Small requests that wait for a shard go to it together, and small replies come back so."""
import asyncio
import types
import unittest
from typing import Any, Callable, Optional, Sequence
from unittest import mock

from walrus import client
from walrus.format import frames, kinds
from walrus.format.frames import answer
from walrus.network.peers.seats import LARGE, MANY, SMALL, TOGETHER, Seat
from walrus.wire import connection, port, served_client

DONE, FULL = client.Answer(client.DONE, 0, 0), client.Answer(kinds.UNVERIFIED, 0, 0)
UNVERIFIED = "store at shard 2: unverified"


class Storing(unittest.IsolatedAsyncioTestCase):
    """A seat whose exchanges end when the test says so."""

    async def asyncSetUp(self) -> None:
        asyncio.get_running_loop().set_debug(False)
        peers: Any = types.SimpleNamespace(seconds=30)
        self.seat, self.registered = Seat(peers, "node-2", 2, 1), asyncio.Event()
        self.registered.set()
        self.sent = list[list[bytes]]()
        self.heard = list[Callable[[client.Reply], object]]()
        self.due = list["asyncio.Future[list[client.Reply]]"]()
        self.enterContext(mock.patch.object(self.seat, "exchange", self.exchange))

    async def exchange(
        self, requests: Sequence[list[client.Data]], heard: Callable[[client.Reply], object]
    ) -> list[client.Reply]:
        self.sent.append([b"".join(request) for request in requests])
        self.heard.append(heard)
        self.due.append(asyncio.get_running_loop().create_future())
        return await self.due[-1]

    def answer(self, *ends: Any, fault: Optional[Exception] = None) -> None:
        """Ends the exchange that is under way for longest, after these replies."""
        heard, due = self.heard.pop(0), self.due.pop(0)
        replies = [client.Reply({}, end) for end in ends]
        for reply in replies:
            heard(reply)
        due.set_exception(fault) if fault else due.set_result(replies)

    async def store(self, *requests: bytes, registered: Optional[asyncio.Event] = None) -> "list[asyncio.Task[str]]":
        """Has these blobs stored as far as that goes."""
        known = registered or self.registered
        tasks = [asyncio.create_task(self.seat.store([it[:1], it[1:]], known)) for it in requests]
        await self.turns()
        return tasks

    async def turns(self) -> None:
        for _ in range(20):
            await asyncio.sleep(0)

    async def test_those_that_wait_go_in_one_exchange_and_each_has_its_own_reply(self) -> None:
        [first] = await self.store(b"first", registered=asyncio.Event())  # ahead of its registration, as it is alone
        others = await self.store(b"one", b"two", b"three")
        self.assertEqual(self.sent, [[b"first"]])
        self.answer(DONE)
        await self.turns()
        self.assertEqual((first.result(), self.sent[1:]), ("", [[b"one", b"two", b"three"]]))
        more = await self.store(b"four")
        self.answer(DONE, FULL, DONE)
        await self.turns()
        self.assertEqual([it.result() for it in others], ["", UNVERIFIED, ""])
        self.assertEqual(self.sent[2:], [[b"four"]])
        self.answer(FULL)
        self.assertEqual(await more[0], UNVERIFIED)
        await self.turns()
        self.assertEqual((len(self.seat.exchanges), self.seat.waiting), (0, {}))

    async def test_no_blob_has_others_wait_for_its_registration(self) -> None:
        registered = asyncio.Event()
        await self.store(b"first")
        await self.store(b"late", registered=registered)
        await self.store(b"one", b"two")
        self.answer(DONE)
        await self.turns()
        self.assertEqual(self.sent[1:], [[b"one", b"two"]])
        registered.set()
        self.answer(DONE, DONE)
        await self.turns()
        self.assertEqual(self.sent[2:], [[b"late"]])

    async def test_who_gives_up_is_left_out_or_takes_nobody_elses_reply(self) -> None:
        await self.store(b"first")
        early, late, last = await self.store(b"early", b"late", b"last")
        early.cancel()
        await self.turns()
        self.assertEqual(len(self.seat.waiting), 2)  # nothing of it is in memory
        self.answer(DONE)
        await self.turns()
        self.assertEqual(self.sent[1:], [[b"late", b"last"]])
        late.cancel()
        await self.turns()
        self.answer(DONE, FULL)
        self.assertEqual(await last, UNVERIFIED)

    async def test_a_fault_reaches_each_that_has_no_reply_and_the_next_go_on(self) -> None:
        await self.store(b"first")
        tasks = await self.store(b"one", b"two", b"three")
        self.answer(DONE)
        await self.turns()
        next_ones = await self.store(b"four", b"five")
        self.answer(DONE, fault=ConnectionError("it ended"))
        self.assertEqual(await asyncio.gather(*tasks), ["", "it ended", "it ended"])
        await self.turns()
        self.answer(DONE, DONE)
        self.assertEqual(await asyncio.gather(*next_ones), ["", ""])

    async def test_each_hears_its_reply_as_soon_as_it_came(self) -> None:
        await self.store(b"first")
        one, two = await self.store(b"one", b"two")
        self.answer(DONE)
        await self.turns()
        self.heard[0](client.Reply({}, DONE))
        self.assertEqual((await one, two.done()), ("", False))

    async def test_behind_a_clash_it_is_told_to_each(self) -> None:
        await self.store(b"first")
        tasks = await self.store(b"one", b"two", b"three")
        self.answer(DONE)
        await self.turns()
        self.answer(DONE, client.Clash(b"\x31\x01a\x01b"))
        first, clash, last = await asyncio.gather(*tasks)
        self.assertEqual((first, last), ("", "the exchange ended with a clash"))
        self.assertIn("clash", clash)

    async def test_larger_ones_go_alone_and_at_once(self) -> None:
        await self.store(b"first")
        await self.store(bytes(SMALL + 1), bytes(LARGE))
        self.assertEqual([len(requests) for requests in self.sent], [1, 1, 1])

    async def test_so_many_go_together_and_no_more(self) -> None:
        await self.store(b"first")
        for size, most in ((10, MANY), (SMALL, TOGETHER // SMALL)):
            await self.store(*[bytes(size)] * (most + 1))
            self.answer(DONE)
            await self.turns()
            self.assertEqual(len(self.sent[-1]), most)
            self.answer(*[DONE] * most)
            await self.turns()
            self.assertEqual(len(self.sent[-1]), 1)

    async def test_who_waits_when_it_ends_is_let_go(self) -> None:
        await self.store(b"first")
        sent = await self.store(b"sent")
        self.answer(DONE)
        await self.turns()
        waiting = await self.store(b"waiting")
        await self.seat.close()
        await self.turns()
        self.assertEqual([it.cancelled() for it in (*sent, *waiting)], [True, True])


class Replies(unittest.IsolatedAsyncioTestCase):
    """A port whose replies rest on a disk."""

    async def asyncSetUp(self) -> None:
        asyncio.get_running_loop().set_debug(False)
        self.asked, self.writes, self.long = 0, list[int](), set[int]()
        self.written: "asyncio.Future[bool]" = asyncio.get_running_loop().create_future()
        self.served = port.Port(self.reply, client.Shape(1), port.Bounds())
        self.addAsyncCleanup(self.served.close_port)
        self.own = await connection.connect("127.0.0.1", await self.served.listen("127.0.0.1", 0))
        self.addCleanup(self.own.transport.abort)
        self.enterContext(mock.patch.object(port, "write_parts", self.write_parts))

    async def reply(self, shard: int, request: bytes) -> port.Said:
        self.asked += 1
        size = served_client.SMALL + 1 if self.asked in self.long else 10
        lost = client.envelope(answer(client.MALFORMED), shard)
        return port.Said([client.envelope(b"\x30" + bytes([self.asked]) + bytes(size - 2))], self.written, lost)

    async def write_parts(self, stream: Any, parts: Sequence[client.Data]) -> None:
        self.writes.append(len(parts))
        stream.write(b"".join(parts))
        await stream.drain()

    async def ask(self, count: int) -> None:
        self.own.write(client.envelope(client.write_frame(client.Read(bytes(32)))) * count)
        async with asyncio.timeout(60):
            while self.asked < count or self.served.asking:
                await asyncio.sleep(0.001)

    async def hear(self) -> int:
        _, payload = await client.take_envelope(self.own, 65_536)
        return payload[1]

    async def until_kept(self, count: int) -> None:
        """Waits until so many replies of 17 bytes are kept, and no other."""
        async with asyncio.timeout(60):
            while self.served.kept != 17 * count:
                await asyncio.sleep(0.001)

    async def test_what_is_due_at_once_goes_in_one_write(self) -> None:
        await self.ask(5)
        self.assertEqual((self.writes, self.served.kept), ([], 5 * 17))
        self.written.set_result(True)
        self.assertEqual([await self.hear() for _ in range(5)], [1, 2, 3, 4, 5])
        await self.until_kept(0)
        [known] = self.served.connections
        await asyncio.wait_for(known.replies.join(), 60)  # it is known that all of them are sent
        self.assertEqual((self.writes, known.kept), ([5], 0))

    async def test_a_long_one_goes_alone_and_all_in_their_order(self) -> None:
        self.long = {3}
        await self.ask(5)
        self.written.set_result(True)
        self.assertEqual([await self.hear() for _ in range(5)], [1, 2, 3, 4, 5])
        self.assertEqual(self.writes, [2, 1, 2])
        await self.until_kept(0)

    async def test_those_that_wait_for_a_later_commit_do_not_delay_the_others(self) -> None:
        await self.ask(2)
        first, self.written = self.written, asyncio.get_running_loop().create_future()
        self.own.write(client.envelope(client.write_frame(client.Read(bytes(32)))) * 2)
        async with asyncio.timeout(60):
            while self.asked < 4 or self.served.asking:
                await asyncio.sleep(0.001)
        first.set_result(True)
        self.assertEqual([await self.hear() for _ in range(2)], [1, 2])
        await self.until_kept(2)
        self.assertEqual(self.writes, [2])
        self.written.set_result(False)
        self.assertEqual([await self.hear() for _ in range(2)], [client.MALFORMED] * 2)
        await self.until_kept(0)

    async def test_of_who_is_cut_off_in_the_middle_nothing_is_kept(self) -> None:
        await self.ask(3)
        begun, goes_on = asyncio.Event(), asyncio.Event()

        async def write_parts(*_: object) -> None:
            begun.set()
            await goes_on.wait()

        with mock.patch.object(port, "write_parts", write_parts):
            self.written.set_result(True)
            await asyncio.wait_for(begun.wait(), 60)
            self.assertEqual(self.served.kept, 3 * 17)
            [known] = self.served.connections
            self.served.cut_off(known)
            await self.until_kept(0)
        self.assertEqual((known.kept, len(self.served.connections)), (0, 0))


class Sending(unittest.IsolatedAsyncioTestCase):
    async def test_requests_of_an_exchange_go_in_one_write(self) -> None:
        writer = mock.Mock(drain=mock.AsyncMock())
        requests: list[client.Request] = [client.write_frame(client.Read(bytes(32))), [b"in ", b"parts"]]
        await client.Shard(3, 1).send(writer, requests)
        [written] = [bytes(call.args[0]) for call in writer.write.call_args_list]
        self.assertEqual(client.split(written), [(3, requests[0]), (3, b"in parts")])
        self.assertEqual(frames.read_frame(client.split(written)[0][1]), client.Read(bytes(32)))

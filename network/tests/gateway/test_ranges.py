"""Parts of the gateway and its commands that need no network: ranges, a progress bar, groups of tasks."""
import asyncio
import io
import random
import unittest
from typing import AsyncIterator
from unittest import mock

import aiohttp
from aiohttp import web
from aiohttp.test_utils import TestServer

from walrus import client
from walrus.network.cli import progress_bar, transfers
from walrus.network.gateway.http import ranges
from walrus.network.service import task_groups


class Ranges(unittest.TestCase):
    def test_each_form_of_a_range(self) -> None:
        for header, length, expected in (
            ("bytes=0-499", 10_000, [(0, 500)]),  # the examples of RFC 9110, section 14.1.2
            ("bytes=500-999", 10_000, [(500, 1_000)]),
            ("bytes=-500", 10_000, [(9_500, 10_000)]),
            ("bytes=9500-", 10_000, [(9_500, 10_000)]),
            ("bytes=0-0,-1", 10_000, [(0, 1), (9_999, 10_000)]),
            ("bytes= 0-999, 4500-5499, -1000", 10_000, [(0, 1_000), (4_500, 5_500), (9_000, 10_000)]),
            ("bytes=500-600,601-999", 10_000, [(500, 1_000)]),
            ("bytes=500-700,601-999", 10_000, [(500, 1_000)]),
            ("bytes=5-6,0-1", 10, [(5, 7), (0, 2)]),
            ("bytes=5-99999999999999999999", 10, [(5, 10)]),
            ("bytes=-99", 10, [(0, 10)]),
            ("bytes=10-", 10, []),
            ("bytes=-0", 10, []),
            ("bytes=10-11,3-3", 10, [(3, 4)]),
            ("BYTES=1-2", 10, [(1, 3)]),
            ("bytes=0-", 0, []),
            ("bytes=-5", 0, None),
            ("bytes=", 10, None),
            ("bytes=,", 10, None),
            ("bytes=-", 10, None),
            ("bytes=7-3", 10, None),
            ("bytes=+1-3", 10, None),
            ("bytes=1-3;2-4", 10, None),
            ("bytes=0x1-3", 10, None),
            ("bytes=\u0661-\u0663", 10, None),
            ("lines=1-3", 10, None),
            ("bytes 1-3", 10, None),
            ("", 10, None),
            ("bytes=" + ",".join(f"{it}-{it}" for it in range(0, 200, 2)), 1_000, None),
        ):
            self.assertEqual(ranges.spans(header, length), expected, header)

    def test_spans_cover_what_was_asked_and_do_not_meet(self) -> None:
        drawn = random.Random(3)
        for _ in range(500):
            asked = [
                (start, start + drawn.randrange(1, 9)) for start in drawn.choices(range(60), k=drawn.randrange(1, 9))
            ]
            found = ranges.joined(asked)
            self.assertEqual(
                {it for span in found for it in range(*span)}, {it for span in asked for it in range(*span)}
            )
            ends = sorted(found)
            self.assertTrue(all(one[1] < two[0] for one, two in zip(ends, ends[1:])), found)


class Commands(unittest.IsolatedAsyncioTestCase):
    def test_a_bar_is_drawn_on_a_terminal_after_a_second(self) -> None:
        for terminal, expected in ((True, 15), (False, 0)):
            error = mock.MagicMock(wraps=io.StringIO(), isatty=lambda terminal=terminal: terminal)
            times = mock.patch.object(progress_bar.time, "monotonic", side_effect=[0.0, 0.5, 1.5, 1.55])
            with mock.patch("sys.stderr", error), times, progress_bar.Bar("file", 100) as drawn:
                for _ in range(3):
                    drawn.add(25)
            text = "".join(call.args[0] for call in error.write.call_args_list)
            self.assertEqual(text.count("#"), expected, text)  # once, when half is done, and not again at once
            self.assertEqual(text.count("\r"), 2 * bool(expected), text)  # drawn, and removed

    async def test_a_fetch_goes_on_where_the_connection_broke(self) -> None:
        data, asked = random.Random(5).randbytes(100_000), list[str]()

        async def answer(request: web.Request) -> web.StreamResponse:
            asked.append(request.headers.get("Range", ""))
            start = int(asked[-1].strip("bytes=-") or 0)
            headers = {"Content-Length": str(len(data) - start)}
            response = web.StreamResponse(status=206 if start else 200, headers=headers)
            await response.prepare(request)
            await response.write(data[start:][: 40_000 + 60_000 * (len(asked) > 1)])
            if len(asked) == 1:
                assert request.transport
                request.transport.close()
            return response

        app = web.Application()
        app.router.add_get("/v1/blobs/name", answer)
        server = await self.enterAsyncContext(TestServer(app))
        out = io.BytesIO()
        async with aiohttp.ClientSession(server.make_url("")) as session:
            naming = mock.Mock(add=mock.AsyncMock())
            self.assertEqual(await transfers.receive(session, "name", out, naming), len(data))
        self.assertTrue(b"".join(call.args[0] for call in naming.add.call_args_list) == data)
        self.assertTrue(out.getvalue() == data)
        self.assertEqual((len(asked), asked[0]), (2, ""))

    async def test_what_is_sent_may_take_as_long_as_it_goes_on(self) -> None:
        goes_on, is_over = asyncio.Event(), asyncio.Event()

        async def answer(request: web.Request) -> web.Response:
            if request.query["epochs"] == "9":
                await goes_on.wait()  # and reads nothing
            try:
                return web.json_response({"size": len(await request.read())})
            finally:
                is_over.set()

        async def parts(part: bytes, pause: float) -> AsyncIterator[bytes]:
            for _ in range(25):
                await asyncio.sleep(pause)
                yield part

        app = web.Application(client_max_size=2**30)
        app.router.add_put("/v1/blobs", answer)
        server = await self.enterAsyncContext(TestServer(app))
        limit = aiohttp.ClientTimeout(total=None, sock_connect=10, sock_read=1)
        async with aiohttp.ClientSession(server.make_url(""), timeout=limit) as session:
            with mock.patch.object(transfers, "PATIENCE", 1):
                self.assertEqual(await transfers.put(session, parts(b"part", 0.06), 5), {"size": 100})
                with self.assertRaisesRegex(TimeoutError, "the gateway took nothing, and did not answer, for 1 s"):
                    is_over.clear()
                    await transfers.put(session, parts(bytes(10**6), 0), 9)
            goes_on.set()
            await is_over.wait()


class Groups(unittest.IsolatedAsyncioTestCase):
    """Groups of tasks that run at once."""

    async def asyncSetUp(self) -> None:
        self.running = self.most = self.done = self.ended = 0

    async def work(self, turns: int = 3) -> int:
        self.running += 1
        self.most = max(self.most, self.running)
        try:
            for _ in range(turns):
                await asyncio.sleep(0)
            self.done += 1
        except asyncio.CancelledError:
            self.ended += 1
            raise
        finally:
            self.running -= 1
        return turns

    async def fail(self) -> int:
        await asyncio.sleep(0)
        raise client.Failed("it is told to fail", {})

    async def test_all_run_at_once_and_what_they_return_is_in_their_order(self) -> None:
        self.assertEqual(await task_groups.all_of(self.work(it) for it in (3, 1, 2)), [3, 1, 2])
        self.assertEqual((self.most, self.done, await task_groups.all_of([])), (3, 3, []))

    async def test_where_one_fails_the_others_are_ended_and_its_fault_is_raised(self) -> None:
        for failing in (self.fail(), task_groups.all_of([self.fail(), self.work(10**9)])):
            with self.assertRaises(client.Failed):
                await task_groups.all_of([self.work(10**9), failing, self.work(10**9)])
            self.assertEqual(self.running, 0)
        self.assertEqual((self.done, self.ended), (0, 5))

    async def test_behind_a_fault_a_deadline_still_ends_as_one(self) -> None:
        with self.assertRaises(client.Failed):
            await task_groups.all_of([self.fail(), self.work(10**9)])
        with self.assertRaises(TimeoutError):
            async with asyncio.timeout(0):
                await asyncio.sleep(9)

    async def test_who_is_ended_ends_all(self) -> None:
        task = asyncio.create_task(task_groups.all_of([self.work(10**9), self.work(10**9)]))
        while self.running < 2:
            await asyncio.sleep(0)
        task.cancel()
        await asyncio.wait([task])
        self.assertEqual((task.cancelled(), self.running, self.ended), (True, 0, 2))

    async def test_so_many_run_at_once_and_none_begins_behind_a_fault(self) -> None:
        await task_groups.several((self.work() for _ in range(20)), 3)
        self.assertEqual((self.most, self.done), (3, 20))
        left = iter(
            [self.work(10**9), self.fail(), self.work(10**9), *[7] * 9]
        )  # of which the last ones cannot run
        with self.assertRaises(client.Failed):
            await task_groups.several(left, 3)  # type: ignore[arg-type]
        self.assertEqual((self.running, self.ended, len([*left])), (0, 2, 9))

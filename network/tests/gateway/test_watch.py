"""A gateway asks the nodes, challenges them and stores at them, whatever one of them does that nobody foresaw."""
import asyncio
import collections
import contextlib
import io
import pathlib
import types
import unittest
from typing import Any, Callable
from unittest import mock

from walrus import audit, client
from walrus.network.cli import transfers
from walrus.network.gateway.http.errors import Problem
from walrus.network.gateway.read import announcer
from walrus.network.gateway.resources.memory import Memory
from walrus.network.gateway.resources.turns import ASKING
from walrus.network.gateway.status import watch as page
from walrus.network.ledger import entries
from walrus.network.ledger.entries import OPERATOR, Entry, entry_key
from walrus.network.ledger.live_blob import Blob
from walrus.network.ledger.rules import Ledger
from walrus.network.peers.network import Network
from walrus.network.service.condition import Waiting
from walrus.network.settings.gateway_options import Options

NAME = bytes(range(32))


async def settled() -> None:
    """Lets all tasks go on as far as they can."""
    for _ in range(50):
        await asyncio.sleep(0)


class Challenges(unittest.IsolatedAsyncioTestCase):
    async def asyncSetUp(self) -> None:
        asyncio.get_running_loop().set_debug(False)
        self.ledger, self.asked = Ledger(), 0
        for poster, kind, *fields in (
            (OPERATOR, "begin", 0, 1, "a,b,c,d"),
            ("x", "register", NAME.hex(), 9),
            *((it, "ack", 0, NAME.hex()) for it in "abc"),
        ):
            self.assertTrue(self.ledger.apply(Entry(self.ledger.revision + 1, entry_key(poster, kind, *fields))))
        files = {"authority": pathlib.Path("authority"), "files": ("", "")}
        network: Any = types.SimpleNamespace(ledger=self.ledger, walrus=None, **files)
        self.enterContext(mock.patch.object(page, "Peers"))
        self.enterContext(mock.patch.object(page.Watch, "ask", self.ask))
        self.enterContext(mock.patch.object(page.Watch, "seat", lambda *_: types.SimpleNamespace(number=0)))
        self.enterContext(mock.patch.object(page.Watch, "proves", mock.AsyncMock(return_value=False)))
        self.memory = Memory(4 * page.need_of(1))
        self.watch = page.Watch(network, self.memory, Options(probe=0.0001, challenge=0.0001, stale=60))
        self.watch.peers = mock.AsyncMock()
        self.addAsyncCleanup(self.watch.close)

    async def ask(self, name: str) -> None:
        self.asked += 1

    async def test_a_challenge_that_fails_in_any_way_ends_nothing(self) -> None:
        faults = [
            ZeroDivisionError("unforeseen"),
            ValueError("a beacon has 32 bytes"),
            Problem(404, "no node of this name"),
            client.Failed("told to fail", {}),
            client.Refused(4, b"", {}, client.Code.NONE),
            OSError(11, "no process can be had"),
        ]
        count, shown = len(faults), audit.Audit(True, "accept")

        async def challenged(*_: object) -> audit.Audit:
            if faults:
                raise faults.pop()
            return shown

        with contextlib.redirect_stderr(io.StringIO()) as said, mock.patch.object(audit, "audit", challenged):
            while not self.watch.findings:
                self.assertFalse(self.watch.task.done())
                await asyncio.sleep(0.001)
            before = self.asked
            while self.asked == before:  # nor do the nodes go unasked
                await asyncio.sleep(0.001)
        self.assertEqual((faults, self.watch.task.done(), self.watch.findings[0]["holds"]), ([], False, True))
        lines = said.getvalue().splitlines()
        self.assertEqual([it.partition(":")[0] for it in lines], ["a challenge fails"] * count)
        self.assertEqual(lines[-1], "a challenge fails: ZeroDivisionError: unforeseen")

    async def test_of_one_who_has_nodes_challenged_few_challenges_are_under_way_within_the_memory(self) -> None:
        await self.watch.close()
        running, goes_on = list[str](), asyncio.Semaphore(0)

        async def challenged(*_: object) -> audit.Audit:
            running.append(ASKING.get())
            await goes_on.acquire()
            return audit.Audit(True, "accept")

        async def challenge(whom: str) -> None:
            ASKING.set(whom)
            await self.watch.challenge(NAME, "a")

        with mock.patch.object(audit, "audit", challenged):
            tasks = [asyncio.create_task(challenge(whom)) for whom in ("a",) * 9 + ("b", "c", "d")]
            await settled()
            self.assertEqual((running, self.memory.taken), (["a", "a", "b", "c"], self.memory.size))
            for _ in tasks:
                goes_on.release()
            await asyncio.gather(*tasks)
        self.assertEqual((len(running), self.memory.taken, self.watch.held["held"]), (12, 0, 12))

    async def test_clients_read_the_longest_status(self) -> None:
        """That of a handover to 1,000 other nodes, with names as long as an entry has room for."""
        ledger, faults, each = Ledger(), entries.MOST_FAULTS, range(3 * entries.MOST_FAULTS + 1)
        nodes = [[f"{epoch}{number:04}".rjust(15, "n") for number in each] for epoch in range(2)]
        for epoch, names in enumerate(nodes):
            self.assertTrue(
                ledger.apply(Entry(epoch + 1, entry_key(OPERATOR, "begin", epoch, faults, ",".join(names))))
            )
        blob = Blob(9, "x").voted(entries.ACK, 0, sum(1 << it for it in each), ledger.quorum)
        for number in range(page.RECENT):
            ledger.blobs[number.to_bytes(32, "big")] = blob
        self.watch.network.ledger = ledger
        self.enterContext(mock.patch.object(self.watch, "away", return_value={"stale": False, "place": 1}))
        self.watch.faults = dict.fromkeys(sum(nodes, []), "")
        told = {group: dict.fromkeys(names, 2.0**62) for group, names in page.FIGURE_NAMES.items()}
        self.watch.figures = dict.fromkeys(self.watch.faults, told)
        said = "; ".join(f"shard {it}: {'it is not reached within 10 seconds'.ljust(60)}" for it in each)
        self.watch.announced = [{"blob": NAME.hex(), "invalid": False, "said": said}] * announcer.TOLD
        self.assertLess(len(self.watch.status_text()), transfers.MOST_JSON)

    async def test_nodes_are_asked_while_a_blob_is_long_in_coming_and_whatever_it_comes_to(self) -> None:
        learned, goes_on = list[object](), asyncio.Event()

        async def learn(blobs: object) -> None:
            learned.append(blobs)
            await goes_on.wait()
            raise RuntimeError("can't start new thread")

        sorter: Any = types.SimpleNamespace(learn=learn, files=list)
        watch = page.Watch(self.watch.network, self.memory, Options(probe=0.0001, challenge=0, stale=60), sorter)
        watch.peers = mock.AsyncMock()
        self.addAsyncCleanup(watch.close)
        await self.watch.close()
        async with asyncio.timeout(30):
            while not learned:
                await asyncio.sleep(0.001)
            before = self.asked
            while self.asked < before + 100:
                await asyncio.sleep(0.001)
            self.assertEqual(len(learned), 1)
            goes_on.set()
            with contextlib.redirect_stderr(io.StringIO()) as said:
                while len(learned) < 3:
                    await asyncio.sleep(0.001)
        self.assertIn("a blob's length is not known: can't start new thread", said.getvalue())
        self.assertFalse(watch.task.done())


class Storing(unittest.IsolatedAsyncioTestCase):
    """What a publisher stores at several nodes at once."""

    async def asyncSetUp(self) -> None:
        asyncio.get_running_loop().set_debug(False)
        self.ends = {name: asyncio.get_running_loop().create_future() for name in "abcd"}
        self.ended = dict[str, str]()
        self.network: Any = types.SimpleNamespace(
            waiting=Waiting(), behind=collections.Counter[str](), late=set[Any](), put_at=self.put_at, ledger=Ledger()
        )
        self.network.leave_behind = types.MethodType(Network.leave_behind, self.network)
        self.seats: Any = [types.SimpleNamespace(name=name, number=number) for number, name in enumerate("abcd")]
        self.encoded = client.Encoded(NAME, b"metadata", [(b"primary", b"secondary")] * 4)

        async def until(holds: Callable[[Ledger], object], seconds: object) -> bool:
            return await self.network.waiting.until(lambda: holds(self.network.ledger), None)

        self.network.until = until

    async def put_at(self, seats: Any, encoded: client.Encoded, registered: asyncio.Event) -> dict[int, str]:
        name = seats[0].name
        try:
            said: str = await self.ends[name]
        except asyncio.CancelledError:
            self.ended[name] = "let go"
            raise
        self.ended[name] = said
        return {seats[0].number: said}

    async def put_all(self, is_over: Callable[[Ledger], bool] = lambda _: False) -> dict[int, str]:
        return await Network.put_all(self.network, self.encoded, self.seats, is_over, asyncio.Event(), set())

    async def test_what_each_said_is_told(self) -> None:
        storing = asyncio.create_task(self.put_all())
        for number, name in enumerate("abcd"):
            await settled()
            self.assertFalse(storing.done())
            self.ends[name].set_result("" if number else "refused")
        self.assertEqual(await storing, {0: "refused", 1: "", 2: "", 3: ""})

    async def test_where_one_fails_in_a_way_that_nobody_foresaw_the_others_are_let_go(self) -> None:
        over = False
        storing = asyncio.create_task(self.put_all(lambda _: over))
        await settled()
        self.ends["b"].set_exception(ZeroDivisionError("unforeseen"))
        self.ends["a"].set_result("")
        self.network.behind |= {"d": 1, "c": 1}  # nobody waits for these
        over = True
        self.network.waiting.tell()
        with self.assertRaisesRegex(ZeroDivisionError, "unforeseen"):
            await storing
        await settled()
        self.assertEqual(self.ended, {"a": "", "c": "let go", "d": "let go"})
        self.assertEqual((self.network.late, +self.network.behind), (set(), {"c": 1, "d": 1}))

    async def test_who_is_late_goes_on_alone(self) -> None:
        over = False
        storing = asyncio.create_task(self.put_all(lambda _: over))
        await settled()
        for name in "abc":
            self.ends[name].set_result("")
        await settled()
        self.network.behind["d"] = 1
        over = True
        self.network.waiting.tell()
        self.assertEqual(await storing, {0: "", 1: "", 2: ""})
        self.assertEqual(len(self.network.late), 1)
        self.ends["d"].set_result("")
        await settled()
        self.assertEqual((self.ended["d"], self.network.late, self.network.behind["d"]), ("", set(), 1))

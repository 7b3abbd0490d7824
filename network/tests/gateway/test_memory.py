"""The memory of a gateway: who has a share of it."""
import asyncio
import contextlib
import random
import types
import unittest
from unittest import mock

from walrus import client
from walrus.network.gateway.resources import memory
from walrus.network.gateway.resources.memory import Memory
from walrus.network.gateway.resources.turns import ASKING
from walrus.network.gateway.write.writer import Writer


async def settled() -> None:
    """Lets all tasks go on as far as they can."""
    for _ in range(20):
        await asyncio.sleep(0)


class Shares(unittest.IsolatedAsyncioTestCase):
    async def asyncSetUp(self) -> None:
        asyncio.get_running_loop().set_debug(False)
        self.memory, self.steps = Memory(10), list[str]()
        self.tasks = dict[str, "asyncio.Task[None]"]()
        self.ends = dict[str, asyncio.Event]()

    async def begin(self, name: str, size: int, later: int = 0) -> None:
        """Has somebody take a share, and as much more as he said, until the event `ends` of his name."""

        async def work() -> None:
            async with self.memory.share(size, later) as share:
                self.steps.append(name)
                if later:
                    async with share.more(later):
                        self.steps.append(f"{name} more")
                        await self.ends[name].wait()
                else:
                    await self.ends[name].wait()

        self.ends[name] = asyncio.Event()
        self.tasks[name] = asyncio.create_task(work())
        await settled()

    async def end(self, name: str) -> list[str]:
        """Ends what somebody does; what went on by that."""
        before = len(self.steps)
        self.ends[name].set()
        await self.tasks.pop(name)
        await settled()
        return self.steps[before:]

    async def test_who_comes_while_another_uses_more(self) -> None:
        await self.begin("a", 2, 6)
        self.assertEqual((self.steps, self.memory.taken), (["a", "a more"], 8))
        await self.begin("b", 2, 6)  # he finds more once the first has ended
        await self.begin("c", 1)
        self.assertEqual((self.steps, self.memory.taken), (["a", "a more", "b"], 10))
        self.assertEqual(await self.end("a"), ["b more", "c"])
        await self.begin("d", 2, 6)  # nothing is left for him to come
        self.assertEqual((len(self.steps), self.memory.taken), (5, 9))
        await self.end("c")
        self.assertEqual((self.steps[5:], self.memory.taken, self.memory.grown), (["d"], 10, 6))
        self.assertEqual(await self.end("b"), ["d more"])
        await self.end("d")
        self.assertEqual((self.memory.taken, self.memory.grown), (0, 0))

    async def test_nobody_begins_while_one_waits_for_more(self) -> None:
        share = self.memory.share(2, 6)
        first = await share.__aenter__()
        await self.begin("whole", 7)
        more = first.more(6)
        grown = asyncio.create_task(more.__aenter__())
        await self.begin("small", 1)
        self.assertEqual((self.steps, self.memory.taken), (["whole"], 9))
        self.assertEqual(await self.end("whole"), ["small"])
        await grown
        self.assertEqual(self.memory.taken, 9)
        await more.__aexit__(None, None, None)
        await share.__aexit__(None, None, None)
        await self.end("small")
        self.assertEqual(self.memory.taken, 0)

    async def test_reads_go_on_while_what_is_stored_hangs(self) -> None:
        await self.begin("stored 1", 4)
        await self.begin("stored 2", 4)
        await self.begin("stored 3", 5)
        await self.begin("read 1", 1, 1)
        self.assertEqual(self.steps, ["stored 1", "stored 2"])  # for a moment nobody passes another one
        async with asyncio.timeout(60):
            while len(self.steps) < 4:
                await asyncio.sleep(0.01)
        await self.begin("read 2", 1, 1)
        await self.begin("stored 4", 1)
        self.assertEqual(self.steps[2:], ["read 1", "read 1 more"])
        self.assertEqual(await self.end("read 1"), ["read 2", "read 2 more"])
        self.assertEqual(await self.end("stored 1"), [])  # the third one waits for the second read alone
        await self.begin("read 3", 1, 1)
        self.assertEqual(len(self.steps), 6)  # and so there is room for another read, but it does not pass
        self.assertEqual(await self.end("read 2"), ["stored 3"])
        self.assertEqual(await self.end("stored 2"), ["read 3", "read 3 more", "stored 4"])
        for name in ("stored 3", "stored 4", "read 3"):
            await self.end(name)
        self.assertEqual((self.memory.taken, self.memory.read, self.memory.grown), (0, 0, 0))

    async def test_reads_go_on_while_a_large_one_waits_for_more_beside_what_hangs(self) -> None:
        share = self.memory.share(1, 6)
        large = await share.__aenter__()
        await self.begin("stored 1", 3)
        await self.begin("stored 2", 3)
        with mock.patch.object(memory, "PATIENCE", 0.05):
            more = large.more(6)
            growing = asyncio.create_task(more.__aenter__())
            await settled()
            await self.begin("read 1", 1, 1)
            await self.begin("stored 3", 1)
            self.assertEqual(self.steps, ["stored 1", "stored 2"])  # for a moment nobody begins
            await asyncio.sleep(0.2)
        self.assertEqual(self.steps[2:], ["read 1", "read 1 more"])
        self.assertEqual(await self.end("stored 1"), [])  # the large one waits for the other read alone
        await self.begin("read 2", 1, 1)
        self.assertEqual(await self.end("read 1"), [])
        await growing
        await more.__aexit__(None, None, None)
        await share.__aexit__(None, None, None)
        await settled()
        for name in ("stored 2", "stored 3", "read 2"):
            await self.end(name)
        self.assertEqual((self.memory.taken, self.memory.read, self.memory.grown), (0, 0, 0))

    async def test_reads_do_not_pass_for_ever_what_wants_more_than_there_is(self) -> None:
        with mock.patch.object(memory, "PATIENCE", 0.0):
            await self.begin("stored", 3)
            await self.begin("read 1", 1, 1)
            await self.begin("whole", 11)
            await asyncio.sleep(0.02)
            await self.begin("read 2", 1, 1)
            self.assertEqual(await self.end("stored"), [])
            await self.begin("read 3", 1, 1)
            self.assertEqual(await self.end("read 1"), [])
            self.assertEqual(await self.end("read 2"), ["whole"])
            self.assertEqual(await self.end("whole"), ["read 3", "read 3 more"])
            await self.end("read 3")

    async def test_who_wants_more_than_there_is_has_it_alone(self) -> None:
        await self.begin("a", 8, 9)
        await self.begin("b", 8, 9)
        self.assertEqual((self.steps, self.memory.taken), (["a", "a more"], 17))
        self.assertEqual(await self.end("a"), ["b", "b more"])
        await self.end("b")

    async def test_what_is_late_gives_its_memory_to_who_waits(self) -> None:
        late = asyncio.create_task(asyncio.sleep(3600))
        self.memory.late.add(late)
        await self.begin("a", 10)
        late.add_done_callback(lambda _: self.ends["a"].set())
        with mock.patch.object(memory, "PATIENCE", 1.0):
            await self.begin("b", 10)
            self.assertEqual((self.steps, late.done()), (["a"], False))  # for a moment nothing is ended
            await asyncio.wait([late], timeout=10)
        await settled()
        self.assertEqual((self.steps, late.cancelled()), (["a", "b"], True))
        await self.end("b")

    async def test_who_finds_memory_ends_nothing(self) -> None:
        late = asyncio.create_task(asyncio.sleep(3600))
        self.memory.late.add(late)
        with mock.patch.object(memory, "PATIENCE", 0.0):
            await self.begin("a", 10)
            await asyncio.sleep(0.02)
        self.assertFalse(late.done())
        late.cancel()
        await self.end("a")

    async def test_nobody_waits_behind_all_that_another_one_sends(self) -> None:
        await self.begin("large", 10)
        for name in ("a1", "a2", "a3", "b1", "a4", "b2", "c1"):
            ASKING.set(name[0])
            await self.begin(name, 10)
        self.tasks.pop("a2").cancel()
        await settled()
        order = ["large", "a1", "b1", "c1", "a3", "b2", "a4"]
        for name, behind in zip(order, [*order[1:], ""]):
            self.assertEqual(await self.end(name), [behind] if behind else [])
        self.assertEqual((self.memory.taken, [*self.memory.waiting]), (0, []))

    async def test_nobody_waits_to_be_encoded_behind_all_that_another_one_sends(self) -> None:
        encoded, goes_on = list[bytes](), asyncio.Semaphore(0)

        async def encode(blob: bytes, faults: int) -> None:
            encoded.append(blob)
            await goes_on.acquire()
            raise client.Failed("it is not stored", {})

        network = types.SimpleNamespace(walrus=types.SimpleNamespace(encode=encode), left=lambda _: [])
        network.ledger = types.SimpleNamespace(faults=1)
        writer, storing = Writer(network, Memory(2**30), 1), list[asyncio.Task[object]]()  # type: ignore[arg-type]
        for name in (b"a1", b"a2", b"a3", b"b1"):
            ASKING.set(name[:1].decode())
            storing.append(asyncio.create_task(writer.store_blob(name, 1)))
            await settled()
        for count in range(1, 5):
            self.assertEqual(len(encoded), count)
            goes_on.release()
            await settled()
        self.assertEqual(encoded, [b"a1", b"a2", b"b1", b"a3"])
        said = await asyncio.gather(*storing, return_exceptions=True)
        self.assertEqual([type(it) for it in said], [client.Failed] * 4)

    async def test_who_gives_up_leaves_nothing_behind(self) -> None:
        await self.begin("a", 6)
        await self.begin("b", 5)
        self.tasks.pop("b").cancel()
        await settled()
        self.assertEqual((len(self.memory.waiting), self.memory.taken), (0, 6))
        await self.end("a")
        share = self.memory.share(1, 4)
        first = await share.__aenter__()
        await self.begin("c", 9)
        more = first.more(4)
        growing = asyncio.create_task(more.__aenter__())
        await settled()
        growing.cancel()
        await settled()
        self.assertEqual((self.memory.growing, self.memory.taken), ([], 10))
        await self.end("c")
        await share.__aexit__(None, None, None)
        self.assertEqual(self.memory.taken, 0)

    async def test_many_of_all_sizes_all_end(self) -> None:
        drawn, most = random.Random(7), 0

        async def work() -> None:
            nonlocal most
            size, later = drawn.randrange(1, 6), drawn.choice((0, drawn.randrange(1, 6)))
            with contextlib.suppress(TimeoutError):
                async with asyncio.timeout(drawn.choice((0.002, None))):
                    async with self.memory.share(size, later) as share:
                        await asyncio.sleep(drawn.random() / 1_000)
                        async with share.more(later) if later else contextlib.nullcontext():
                            most = max(most, self.memory.taken)
                            await asyncio.sleep(drawn.random() / 1_000)
                        share.shrink(size // 2)

        async with asyncio.timeout(300):  # for ever, if one waits for what nobody gives back
            await asyncio.gather(*(work() for _ in range(500)))
        self.assertEqual((self.memory.taken, self.memory.read, self.memory.grown), (0, 0, 0))
        self.assertEqual(self.memory.growing, [])
        self.assertEqual(list(self.memory.waiting), [])
        self.assertIn(most, (9, 10))

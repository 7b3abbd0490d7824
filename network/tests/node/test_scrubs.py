"""What a scrub reads, finds and drops of a shard."""
import asyncio
import contextlib
import errno
import io
import json
import os
import shutil
import time
import types
import unittest
from typing import Any
from unittest import mock

from support.harness import lacking
from support.shard_case import LARGE, SMALL, NodeCase
from walrus.format.frames import METADATA, PRIMARY
from walrus.network.ledger.entries import OPERATOR, Entry, entry_key
from walrus.network.ledger.rules import Ledger
from walrus.network.node import handover, recovery, scrub
from walrus.network.node.disk.content_files import Files


@unittest.skipIf(lacking(), f"{lacking()} is not here (network/install)")
class Scrubs(NodeCase):
    async def test_a_scrub_reads_no_more_than_its_rate_and_does_not_make_up_for_lost_time(self) -> None:
        for size in (900, 3_000, 2_000, 90, 2_500):
            await self.put(self.drawn.randbytes(size))
        now, sleep, check, read = 1_000.0, asyncio.sleep, self.shard.check, list[tuple[float, int]]()

        async def sleeping(seconds: float) -> None:
            nonlocal now
            now += max(seconds, 0)
            await sleep(0)

        async def checking(identifier: bytes) -> tuple[int, bool]:
            nonlocal now
            begun, found = now, await check(identifier)
            now += 30.0 if len(read) == 1 else 0.5  # seconds for a judgement; one takes long
            read.append((begun, found[0]))
            return found

        node = self.node({0: {0: self.shard}})
        node.settings.scrub_rate = 1_000
        done = scrub.Scrub(node)
        clock = types.SimpleNamespace(monotonic=lambda: now, time=lambda: now)
        with mock.patch.object(scrub, "time", clock), mock.patch.object(asyncio, "sleep", sleeping):
            with mock.patch.object(self.shard, "check", checking):
                await done.scrub()
        self.assertEqual((done.figures.blobs, done.figures.wrong, len(read)), (5, 0, 5))
        self.assertGreater(min(size for _, size in read), 90)
        ends = [begun for begun, _ in read[1:]] + [now]
        for (begun, size), end in zip(read, ends):
            self.assertGreaterEqual(end - begun, max(size, scrub.LEAST) / 1_000 - 1e-6)  # before the next one is read

    async def test_a_scrub_that_ended_while_the_clock_was_ahead_keeps_none_from_beginning(self) -> None:
        assert self.store
        node, now, begun = self.node({0: {0: self.shard}}), time.time(), asyncio.Event()
        node.settings.scrub = 1.0
        done = scrub.Scrub(node)
        done.figures.ended = now + 365 * scrub.DAY
        done.note()

        async def scrubbing() -> None:
            begun.set()
            await asyncio.Event().wait()

        clock = types.SimpleNamespace(monotonic=time.monotonic, time=lambda: now)
        with mock.patch.multiple(scrub, LOOKED=0.01, time=clock), mock.patch.object(done, "scrub", scrubbing):
            task = asyncio.create_task(done.run())
            await asyncio.sleep(0.1)
            self.assertFalse(begun.is_set())
            self.assertEqual(json.loads(self.store.state("scrub"))["ended"], now)  # so that a restart has it too
            now += 1.01 * scrub.DAY
            await asyncio.wait_for(begun.wait(), 30)
            task.cancel()

    async def test_a_scrub_drops_what_the_whole_ledger_has_not_named_for_a_while(self) -> None:
        """Such as blobs that expired by a checkpoint, if the node was killed after it loaded that."""
        assert self.store
        kept, over = [(await self.put(data))[1][1:33] for data in (b"kept", bytes(LARGE))]
        node, now, blobs = self.node({0: {0: self.shard}}), time.time(), {kept: None}
        node.ledger = types.SimpleNamespace(blobs=blobs)
        self.assertGreater(count := len(self.files()), 0)
        clock = types.SimpleNamespace(monotonic=time.monotonic, time=lambda: now)
        steps = [(False, 0.0, 3), (True, 0.0, 3), (True, -99.0, 3), (True, 3_500.0, 3), (True, 7_000.0, 3)]
        with mock.patch.object(scrub, "time", clock), mock.patch("walrus.network.node.disk.store.time", clock):
            for heard, seconds, held in (*steps, (True, 3_700.0, 3), (True, 3_700.0, 0)):
                node.caught_up, now = heard, now + seconds
                blobs.update({over: None} if seconds == 7_000 else {})  # it is named in between, and counts anew
                if seconds != 7_000:
                    blobs.pop(over, None)
                await scrub.Scrub(node).scrub()
                await self.left(count if held else 0)
                sizes = [self.store.sizes(self.shard.holding, 0, name) for name in (kept, over)]
                self.assertEqual([*map(len, sizes)], [3, held], seconds)

    async def test_what_no_entry_names_stays_for_its_time_where_the_disk_has_no_room_too(self) -> None:
        """Anybody who may post can fill a disk up to the reserve."""
        assert self.store
        name = (await self.put(bytes(LARGE)))[1][1:33]
        node = self.node({0: {0: self.shard}})
        node.ledger, self.shard.reserve = types.SimpleNamespace(blobs={}), 0.1
        for free in (0.2, 0.05):
            with self.free(free):
                await scrub.Scrub(node).scrub()
            self.assertEqual(len(self.store.sizes(self.shard.holding, 0, name)), 3)

    async def test_what_is_named_again_begins_a_new_time_when_it_is_unnamed_once_more(self) -> None:
        assert self.store
        name = (await self.put(bytes(LARGE)))[1][1:33]
        node, holding = self.node({0: {0: self.shard}}), self.shard.holding
        node.ledger = types.SimpleNamespace(blobs={})
        await scrub.Scrub(node).scrub()
        self.assertEqual(self.store.unnamed_after(0, b"", 9), [(holding, name)])
        node.ledger = types.SimpleNamespace(blobs={name: None})
        await scrub.Scrub(node).recall()
        self.assertEqual(self.store.unnamed_after(0, b"", 9), [])

    async def test_the_number_of_a_holding_that_is_gone_brings_no_old_time_back(self) -> None:
        assert self.store
        gone = self.store.stage("INSERT INTO holdings VALUES (NULL)").lastrowid
        assert gone
        self.store.unnamed(gone, bytes(32), True)
        while self.store.sweep():
            pass
        self.assertEqual(self.store.unnamed_after(0, b"", 9), [])

    async def test_a_file_without_a_row_is_kept_aside_for_a_while_and_goes_back_if_it_is_named_again(self) -> None:
        assert self.store
        await self.put(bytes(LARGE))
        node, [file, *others] = self.node({0: {0: self.shard}}), self.files()
        row = self.store.base.execute("SELECT * FROM contents WHERE file = ?", (file.name,)).fetchone()
        aside, half = self.store.files.folder / "unnamed" / file.name, file.with_name("1.half")
        self.close()
        self.open()  # what this process wrote itself is not touched
        node.store = self.store
        half.touch()
        self.store.base.execute("DELETE FROM contents WHERE file = ?", (file.name,))
        sweeping = scrub.Scrub(node)
        await sweeping.sweep()
        self.assertEqual((aside.exists(), file.exists(), half.exists()), (True, False, False))
        await sweeping.sweep()
        self.assertTrue(aside.exists())
        self.store.base.execute("INSERT INTO contents VALUES (?, ?, ?)", row)
        await sweeping.sweep()
        self.assertEqual((aside.exists(), file.exists(), self.store.counts()["wrong"]), (False, True, 0))
        self.store.base.execute("DELETE FROM contents WHERE file = ?", (file.name,))
        for age, is_there in ((-99_999, True), (3_500, True), (3_700, False)):
            await sweeping.sweep()
            self.assertTrue(aside.exists())
            os.utime(aside, (time.time() - age,) * 2)
            await sweeping.sweep()
            self.assertEqual(aside.exists(), is_there, age)
        self.assertTrue(all(it.exists() for it in others))

    async def test_what_is_wrong_stays_so_while_nothing_is_judged_of_it(self) -> None:
        """Otherwise a node without its ledger, or in a committee after a blob's last epoch, would report it as held."""
        assert self.store
        name = (await self.put(self.drawn.randbytes(700)))[1][1:33]
        self.store.mark(self.shard.holding, name, PRIMARY, True)
        unheard = Ledger()
        unheard.apply(Entry(1, entry_key(OPERATOR, "begin", 0, 1, "a,b,c,d")))
        for is_known, wrong in ((False, {PRIMARY}), (True, set())):
            self.shard.ledger = self.ledger if is_known else unheard
            found = await self.shard.check(name)
            self.assertEqual((self.store.wrong(self.shard.holding, name), found[1]), (wrong, is_known))

    async def test_a_scrub_passes_over_what_a_shard_held_that_is_here_no_more(self) -> None:
        """A node that loses a large shard in the middle of a scrub serves others meanwhile."""
        assert self.store
        gone, count = self.store.stage("INSERT INTO holdings VALUES (NULL)").lastrowid, 500
        rows = ((gone, self.drawn.randbytes(32), METADATA, 0, None, 0, 274, 1) for _ in range(count))
        self.store.base.executemany("INSERT INTO held VALUES (?, ?, ?, ?, ?, ?, ?, ?)", rows)
        name = await self.certified(b"it is held")
        node = self.node({0: {0: self.shard}})
        node.settings.scrub_rate = 1_000_000
        for node.caught_up in (False, True):
            scrubbing = scrub.Scrub(node)
            following = mock.Mock(side_effect=self.store.next)
            with mock.patch.object(self.store, "next", following), mock.patch.object(scrubbing, "sweep"):
                await scrubbing.scrub()
            self.assertLess(following.call_count, 5)
            self.assertEqual(scrubbing.figures.blobs, 1)
        self.assertTrue(self.shard.settled(name))


@unittest.skipIf(lacking(), f"{lacking()} is not here (network/install)")
class Missing(NodeCase):
    """Files that are missing, such as after a copy that was not complete."""

    async def asyncSetUp(self) -> None:
        await super().asyncSetUp()
        blobs = [self.drawn.randbytes(LARGE) for _ in range(3)]
        self.names = [await self.certified(it) for it in blobs]
        self.others |= {name: await self.walrus.encode(it, 1) for name, it in zip(self.names, blobs)}
        self.here = self.node({0: {0: self.shard}})
        self.scrub = self.here.scrub = scrub.Scrub(self.here)
        self.said = self.enterContext(contextlib.redirect_stderr(io.StringIO()))

    async def lacked(self) -> dict[int, dict[bytes, bool]]:
        return (await handover.survey(self.here))[0]

    async def test_a_sweep_finds_files_that_are_missing_and_their_blobs_are_lacking(self) -> None:
        files = self.files()
        for count, name in enumerate(self.names[:2], 1):
            gone = next(it for it in files if it.name.startswith(name.hex()))
            sound = gone.read_bytes()
            gone.unlink()
            self.assertEqual(await self.lacked(), {})
            for _ in range(2):
                await self.scrub.sweep()
            self.assertEqual(await self.lacked(), {0: {name: True}})
            self.assertEqual(self.said.getvalue().count("a: 1 files are missing in "), count)
            if name == self.names[0]:
                gone.write_bytes(sound)  # as its disk is mounted after all: then nobody is asked
            self.assertEqual(await recovery.settle(self.here, 0, self.names), 0)
            self.assertEqual(any(it.asked for it in self.seats), name == self.names[1])
            self.assertEqual((len(self.files()), await self.lacked()), (6, {}))

    async def test_if_one_of_the_folders_is_lost_the_others_stay(self) -> None:
        assert self.store
        name = self.names[0]
        lost = self.store.files.path(name.hex()).parent
        self.close()
        shutil.rmtree(lost)
        with self.assertRaisesRegex(OSError, r"if only some of its folders 00 to ff are lost, make them \(mkdir"):
            self.open()
        lost.mkdir()
        self.open()
        self.here = self.node({0: {0: self.shard}})
        await scrub.Scrub(self.here).sweep()
        self.assertEqual(await self.lacked(), {0: {name: True}})
        self.assertEqual(await recovery.settle(self.here, 0, self.names), 0)
        self.assertEqual((len(self.files()), await self.lacked()), (6, {}))

    async def test_nothing_is_fetched_for_a_folder_that_cannot_be_read_or_written(self) -> None:
        """Otherwise all of its blobs are, in each round, for as long as its disk is away, or another user's."""
        assert self.store
        self.enterContext(mock.patch.object(recovery, "SMALL", SMALL))
        here, folder, small = self.node({0: {0: self.shard}}), self.store.files.folder, await self.lacks(60)
        away = folder.rename(folder.with_name("away"))
        folder.mkdir()  # where it was mounted
        await self.scrub.sweep()
        self.assertEqual((await self.lacked())[0], {name: True for name in self.names} | {small: False})
        self.assertEqual(await recovery.settle(here, 0, [small]), 0)
        for seat in self.seats:
            seat.asked.clear()
        for place, code in (
            ("FileNotFoundError", errno.ENOENT),
            ("os.scandir", errno.EIO),
            ("tempfile.TemporaryFile", errno.EACCES),
        ):
            fault = OSError(code, "it is told to fail", str(folder))
            failing: Any = mock.patch(place, side_effect=fault) if "." in place else contextlib.nullcontext()
            with failing:
                for _ in range(2):
                    self.assertEqual(await recovery.settle(here, 0, self.names), 3)
            self.assertEqual([it.asked for it in self.seats], [[]] * 4)
            lines = [it for it in self.said.getvalue().splitlines() if f"[Errno {code}]" in it and str(folder) in it]
            self.assertEqual(len(lines), 1)
            Files(folder)
        shutil.rmtree(folder)  # such as a link that leads nowhere
        self.assertEqual(await recovery.settle(here, 0, [*self.names, await self.lacks(61)]), 3)
        away.rename(folder)
        for seat in self.seats:
            seat.asked.clear()
        self.assertEqual(await recovery.settle(here, 0, self.names), 0)
        self.assertEqual(([it.asked for it in self.seats], await self.lacked()), ([[]] * 4, {}))

    async def test_nothing_is_said_in_a_handover_before_missing_files_are_known(self) -> None:
        async def wait(node: object) -> None:
            await asyncio.Event().wait()

        moving = mock.AsyncMock(side_effect=wait)
        with mock.patch.object(handover, "move", moving):
            task = asyncio.create_task(handover.hand_over(self.here))
            for count, step in (0, asyncio.sleep(0.05)), (1, self.scrub.sweep()):
                await step
                await asyncio.sleep(0.05)
                self.assertEqual(moving.await_count, count)
            task.cancel()

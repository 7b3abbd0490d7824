"""A shard with its disk: what it answers, and what a bad disk changes about that."""
import asyncio
import shutil
import sqlite3
import struct
import threading
import unittest
from typing import Any
from unittest import mock

from support.harness import lacking
from support.shard_case import LARGE, SMALL, ShardCase
from walrus import client
from walrus.client import shards
from walrus.format.frames import METADATA, PRIMARY, SECONDARY, answer, code_of
from walrus.network.node import shard
from walrus.network.node.disk.content_files import ASIDE
from walrus.network.node.disk.store import Store


@unittest.skipIf(lacking(), f"{lacking()} is not here (network/install)")
class Disk(ShardCase):
    async def test_what_was_stored_is_read_after_a_start(self) -> None:
        for size, files in ((0, 0), (700, 0), (LARGE, 2)):
            metadata, primary, secondary = await self.put(bytes(range(250)) * (size // 250))
            self.assertEqual(len(self.files()), files)
            self.open()
            self.assertEqual(await self.read(primary[1:33]), [metadata, primary])
            for part in (metadata, primary, secondary):
                self.assertEqual(code_of(await self.shard.put(part)), client.HELD)
            ack = client.write_frame(client.Ack(primary[1:33]))
            self.assertEqual(code_of(await self.shard.answer(ack)), 13)
        self.assertEqual(
            code_of(await self.shard.put((await self.walrus.encode(b"x", 1)).metadata)), shard.UNREGISTERED
        )

    async def test_who_wants_the_metadata_alone_costs_no_sliver(self) -> None:
        metadata, primary, _ = await self.put(bytes(range(250)) * (LARGE // 250))
        sizes, ask = list[int](), self.judges.ask

        async def measured(size: int, *words: Any) -> Any:
            sizes.append(size)
            return await ask(size, *words)

        with mock.patch.object(self.judges, "ask", measured):
            for index in (999, 4, 3):
                symbol = client.write_frame(client.Symbol(primary[1:33], client.PRIMARY, index))
                said = await self.shard.answer(symbol)
                self.assertEqual((said[0], len(said)), (metadata, 3 if index == 3 else 2))
        self.assertEqual([size < SMALL for size in sizes], [True, True, False], sizes)

    async def flip(self, spoil: Any) -> None:
        """Spoil a part behind the node's back: it is never sent, stays marked after a restart, and can be replaced."""
        metadata, primary, secondary = await self.put(bytes(range(250)) * (LARGE // 250))
        identifier = primary[1:33]
        spoil()
        self.assertEqual(await self.read(identifier), [metadata])
        self.assertEqual(self.damaged, [identifier])
        self.assertFalse(self.shard.settled(identifier))
        self.assertEqual(code_of(await self.shard.answer(client.write_frame(client.Ack(identifier)))), shard.DECLINED)
        self.assertEqual(self.shard.lacks(identifier), [PRIMARY])
        self.open()
        self.assertEqual(await self.read(identifier), [metadata])
        self.assertEqual(self.damaged, [])  # it is marked already
        self.assertEqual(code_of(await self.shard.put(primary)), client.DONE)
        self.assertEqual(await self.read(identifier), [metadata, primary])
        self.assertTrue(self.shard.settled(identifier))

    async def test_a_bit_flipped_in_a_file(self) -> None:
        def spoil() -> None:
            path = self.parts_of_files()[PRIMARY]
            data = bytearray(path.read_bytes())
            data[len(data) // 2] ^= 4
            path.write_bytes(data)

        await self.flip(spoil)

    async def test_a_file_gone(self) -> None:
        await self.flip(lambda: self.parts_of_files()[PRIMARY].unlink())

    async def test_a_file_of_another_blob_in_its_place(self) -> None:
        other = (await self.put(bytes(LARGE)))[1]
        own = {*self.files()}

        def spoil() -> None:
            [path] = [it for it in self.files() if it not in own and it.read_bytes()[33] == 0]
            path.write_bytes(other)

        await self.flip(spoil)

    async def test_the_other_sliver_in_its_place(self) -> None:
        def spoil() -> None:
            paths = self.parts_of_files()
            paths[PRIMARY].write_bytes(paths[SECONDARY].read_bytes())

        await self.flip(spoil)

    async def test_a_registration_in_place_of_a_metadata(self) -> None:
        """Bytes to which the judge gives the same code as to the part do not count as the part."""
        metadata, primary, _ = await self.put(b"small")
        assert self.store
        entry = client.write_frame(client.RegisterEntry(primary[1:33], 9))
        self.store.base.execute("UPDATE contents SET payload = ? WHERE payload = ?", (entry, metadata))
        self.store.base.execute("UPDATE held SET size = ? WHERE part = 0", (len(entry),))
        self.assertEqual(await self.read(primary[1:33]), [])
        self.assertEqual(self.damaged, [primary[1:33]])
        self.assertEqual(code_of(await self.shard.put(metadata)), client.DONE)
        self.assertEqual(await self.read(primary[1:33]), [metadata, primary])

    async def test_a_bit_flipped_in_a_page_of_the_database(self) -> None:
        metadata, primary, _ = await self.put(bytes(range(200)))
        self.close()
        data = bytearray(self.path.read_bytes())
        place = data.find(primary[40:])
        self.assertGreater(place, 0)
        data[place + 9] ^= 1
        self.path.write_bytes(data)
        self.open()
        self.assertEqual(await self.read(primary[1:33]), [metadata])
        self.assertEqual(self.damaged, [primary[1:33]])
        size, fine = await self.shard.check(primary[1:33])
        self.assertFalse(fine)
        self.assertEqual(len(self.damaged), 1)  # a marked part is not reported again
        self.close()
        data = bytearray(self.path.read_bytes())
        data[place + 9] ^= 1  # and it is sound again
        self.path.write_bytes(data)
        self.open()
        self.assertEqual(await self.shard.check(primary[1:33]), (size, True))
        self.assertEqual(await self.read(primary[1:33]), [metadata, primary])

    async def test_what_nothing_names_is_put_aside(self) -> None:
        await self.put(bytes(LARGE))
        assert self.store
        named = self.files()
        folder = named[0].parent
        (folder / "half-written.half").write_bytes(b"x" * 9)
        (folder / "unnamed").write_bytes(b"x")
        [fresh] = self.store.files.write(bytes(32), bytes(100))  # it has no row yet, and is to get one
        swept = self.store.files.sweep(folder.name, {it.name for it in named})
        self.assertEqual(swept, (2, set()))
        aside = self.store.files.folder / ASIDE / "unnamed"
        self.assertEqual({*self.files()}, {*named, self.store.files.path(fresh), aside})

    async def test_names_that_are_looked_up_for_long_hold_up_nothing_of_the_disk(self) -> None:
        assert self.store
        parts, ends, loop = await self.put(b"held"), threading.Event(), asyncio.get_running_loop()
        lookups = [loop.run_in_executor(None, ends.wait) for _ in range(64)]
        try:
            async with asyncio.timeout(120):
                self.assertEqual(await self.store.settled(self.shard.holding, 0), {parts[1][1:33]})
        finally:
            ends.set()
            await asyncio.gather(*lookups)

    async def test_another_process_does_not_get_the_database(self) -> None:
        link = self.path.with_name("b.db")
        link.symlink_to(self.path)
        for path in (self.path, link):
            with self.assertRaisesRegex(OSError, "another process runs over"):
                Store(path)
        self.close()
        Store(link).close()

    async def test_a_start_that_fails_gives_the_database_up(self) -> None:
        self.close()
        parts = self.path.with_suffix(".parts")
        shutil.rmtree(parts)
        parts.touch()  # where the folder of files should be
        try:
            Store(self.path)
        except FileExistsError:  # keeps all that was opened alive while it is handled
            parts.unlink()
            Store(self.path).close()
        self.assertTrue(parts.is_dir())

    async def test_requests_of_one_blob_are_judged_one_after_the_other_and_of_several_at_once(self) -> None:
        names = [(await self.put(blob))[1][1:33] for blob in (b"one", b"two", b"three")]
        judged, ask, goes_on = list[bytes](), self.judges.ask, asyncio.Event()

        async def wait(size: int, step: Any, request: bytes, *words: Any) -> Any:
            judged.append(request[1:33])
            await goes_on.wait()
            return await ask(size, step, request, *words)

        with mock.patch.object(self.judges, "ask", wait):
            reading = [asyncio.create_task(self.read(name)) for name in (*names, names[0])]
            for _ in range(20):
                await asyncio.sleep(0)
            self.assertEqual(judged, names)
            goes_on.set()
            said = await asyncio.gather(*reading)
        self.assertEqual((judged, said[3]), ([*names, names[0]], said[0]))

    async def test_the_lengths_of_replies_are_those_that_the_metadata_of_a_blob_tells_and_no_other(self) -> None:
        shape = client.Shape(1)
        other, _, _ = await self.put(bytes(5_000))
        metadata, primary, _ = await self.put(bytes(range(250)) * 1_200)
        for request in (client.Read(primary[1:33]), client.Symbol(primary[1:33], client.PRIMARY, 2)):
            asked = shards.Asked.of(client.write_frame(request), 2, 4)
            for false in (b"", other, metadata[:-1], metadata[:-1] + bytes([metadata[-1] ^ 1]), primary):
                asked.hear(shape, false)
            self.assertEqual((asked.basket.size, asked.basket.proofs), (0, ()))
            asked.hear(shape, metadata)
            said = await self.shard.answer(asked)
            self.assertEqual((said[0], asked.basket.size), (metadata, len(said[1])))
            for axis, length in enumerate(asked.basket.proofs):
                proof = bytes([client.PROOF]) + primary[1:33] + bytes([axis]) + bytes(length - 34)
                self.assertTrue(shape.allows(proof))
            asked.hear(shape, other)
            self.assertEqual(asked.basket.size, len(said[1]))

    async def test_a_part_has_one_row(self) -> None:
        metadata, primary, _ = await self.put(bytes(700))
        assert self.store
        with self.assertRaises(sqlite3.IntegrityError):
            self.store.put(self.shard.holding, self.shard.epoch, primary[1:33], METADATA, metadata, None)

    async def test_below_the_reserve_parts_are_refused_and_all_else_goes_on(self) -> None:
        metadata, primary, secondary = await self.put(b"before")
        parts = await self.parts(b"behind")
        self.shard.reserve = 1.0
        [reply] = await self.shard.put(parts[0])
        self.assertEqual(client.Answer(*struct.unpack(">BII", reply[1:])), client.Answer(shard.FULL, 1, 0))
        self.assertEqual(await self.read(primary[1:33]), [metadata, primary])
        with self.free(0.3):  # of the disk, all of which is reserve
            self.assertEqual(code_of(await self.shard.put(parts[0], mends=True)), client.DONE)

    async def test_of_the_reserve_a_part_is_left_for_what_must_be_noted(self) -> None:
        """Otherwise anybody who encodes many blobs badly fills all disks with their proofs, and no epoch can end."""
        parts = await self.parts(b"behind")
        self.shard.reserve, proof = 1.0, bytes([client.PROOF]) + parts[1][1:33] + bytes(9)
        takes = mock.AsyncMock(return_value=([[answer(client.DONE)]], []))
        for free, code in ((0.1, shard.FULL), (0.3, client.DONE)):
            with self.free(free), mock.patch.object(self.judges, "ask", takes):
                for payload, mends in ((parts[0], True), (proof, False)):
                    [reply] = await self.shard.put(payload, mends)
                    self.assertEqual(reply[1], code)

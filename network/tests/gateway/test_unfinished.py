"""Unfinished uploads: how many a client may have, and until when."""
import os
import pathlib
import tempfile
import time
import unittest
from unittest import mock

from support.upload_case import UploadCase
from walrus.network.gateway.write import unfinished


class Unfinished(UploadCase):
    async def test_what_is_not_finished_is_bounded_and_ends(self) -> None:
        self.token("anyone", "read")
        alice, bob = (self.token(name, blobs=100) for name in ("alice", "bob"))
        await self.start()
        with mock.patch.object(unfinished, "ALL", 10):
            found = [await self.begin(b"x", **alice) for _ in range(9)]
            self.assertEqual([status for status, _, _ in found], [201] * 8 + [429])
            self.assertEqual(self.used("alice"), (8, 8))  # refused uploads cost nothing
            found_ = [(await self.begin(b"x", **bob))[0] for _ in range(3)]
            self.assertEqual(found_, [201, 201, 503])
            path = found[0][1]["location"]
            self.assertEqual(
                [(await self.ask("HEAD", path, headers=it))[0] for it in (alice, bob, {})], [200, 404, 401]
            )
            self.assertEqual((await self.go_on(path, 1, b"y", **bob))[0], 404)
            self.assertEqual((await self.go_on(path, 1, b"y", end=True, **alice))[0], 201)
            self.assertEqual((await self.begin(b"x", **alice))[0], 201)  # finished uploads do not count
            next(self.folder.glob("tokens.uploads/*/about")).unlink()  # it broke off as it began
            for it in [*self.folder.glob("tokens.uploads/*/about"), *self.folder.glob("tokens.uploads/*")]:
                os.utime(it, (time.time() - 86_500, time.time() - 86_500))
            self.assertEqual((await self.begin(b"x", **bob))[0], 201)
            self.assertEqual(len(list(self.folder.glob("tokens.uploads/*"))), 1)
        with mock.patch.object(unfinished, "FINISHED", 3):
            for number in range(6):
                self.assertEqual((await self.begin(b"x", end=True, **bob))[0], 200 if number else 201)
            self.assertLessEqual(len(list(self.folder.glob("tokens.uploads/*/told"))), 4)

    async def test_uploads_whose_replies_were_lost_leave_their_places_soon(self) -> None:
        """No client knows their URLs, so none of them is continued or ended."""
        await self.start()
        paths = [(await self.begin(b"x" * (number == 3)))[1]["location"] for number in range(unfinished.OF_ONE)]

        self.age(unfinished.UNHEARD - 30, paths)
        self.assertEqual((await self.begin())[0], 429)
        self.age(unfinished.UNHEARD + 1, paths[:5])
        for _ in range(4):
            self.assertEqual((await self.begin())[0], 201)
        self.assertEqual((await self.begin())[0], 429)  # one has a byte, and the others may still be continued
        found = [(await self.ask("HEAD", path))[0] for path in paths]
        self.assertEqual(found, [404, 404, 404, 200, 404, 200, 200, 200])
        self.age(unfinished.UNHEARD + 1, paths[6:7])
        name = paths[6].rpartition("/")[2]
        with unfinished.Unfinished(self.folder / "tokens.uploads").lock("address 127.0.0.1", name) as lock:
            self.assertIsNotNone(lock)
            self.assertEqual((await self.begin())[0], 429)  # a request works on it
        self.assertEqual((await self.begin())[0], 201)

    async def test_uploads_that_had_bytes_leave_their_places_to_their_client_s_next(self) -> None:
        """Otherwise a client that sends a file with each POST and misses eight replies can store nothing for a day."""
        alice, bob = self.token("alice"), self.token("bob")
        await self.start()
        paths = [(await self.begin(b"x", **alice))[1]["location"] for _ in range(unfinished.OF_ONE)]
        other = (await self.begin(b"x", **bob))[1]["location"]
        self.age(unfinished.LULL - 30, paths)
        self.age(unfinished.LULL + 99, [other])
        self.assertEqual((await self.begin(b"x", **alice))[0], 429)  # these may still be continued
        self.age(unfinished.LULL + 1, [paths[2]])
        self.age(unfinished.LULL + 9, [paths[5]])
        self.assertEqual((await self.begin(b"x", **alice))[0], 201)
        found = [(await self.ask("HEAD", path, headers=alice))[0] for path in paths]
        self.assertEqual(found, [200] * 5 + [404] + [200] * 2)  # it was idle for longest
        self.assertEqual((await self.go_on(paths[2], 1, b"y", **alice))[0], 204)
        self.assertEqual((await self.begin(b"x", **alice))[0], 429)  # data came to all of them
        self.assertEqual(await self.offset(other, **bob), 1)

    async def test_what_could_not_begin_has_no_place(self) -> None:
        await self.start()
        with mock.patch.object(unfinished, "write", mock.Mock(side_effect=OSError(28, "No space left on device"))):
            self.assertEqual([(await self.begin())[0] for _ in range(unfinished.OF_ONE + 1)], [503] * 9)
        self.assertEqual(list(self.folder.glob("tokens.uploads/*")), [])
        self.assertEqual((await self.begin())[0], 201)


class Clocks(unittest.TestCase):
    """Uploads at gateways whose clock jumps by a month."""

    def test_a_jump_drops_nothing_young_and_keeps_nothing_for_ever(self) -> None:
        folder, month, day = pathlib.Path(self.enterContext(tempfile.TemporaryDirectory())), 30 * 86_400, 86_400
        kept, usual, begun = unfinished.Unfinished(folder), time.time, unfinished.BEGUN
        young = kept.create("token a", {"until": 9, "epoch": 0, "length": None})
        for ahead in (month, -month):
            with mock.patch.object(time, "time", lambda: usual() + ahead):
                self.assertEqual([*kept.sweep()], [young.folder.name])
                young.touch()
        self.assertEqual([*kept.sweep()], [young.folder.name])
        for ahead in (month, -month, 0):  # clocks of gateways that start meanwhile
            with mock.patch.object(unfinished, "BEGUN", begun + ahead):
                started = unfinished.Unfinished(folder)
                self.assertEqual([*started.sweep()], [young.folder.name])
                started.find(young.folder.name).touch()
        os.utime(young.folder / "about", (usual() + month, usual() + month))
        self.assertEqual([*kept.sweep()], [young.folder.name])
        with mock.patch.object(unfinished, "BEGUN", begun + day + 60):  # as if this much time had passed
            self.assertEqual([*kept.sweep()], [])

    def test_what_is_over_when_a_gateway_starts_goes_an_hour_later(self) -> None:
        folder = pathlib.Path(self.enterContext(tempfile.TemporaryDirectory()))
        old = unfinished.Unfinished(folder).create("token a", {"until": 9, "epoch": 0, "length": None})
        os.utime(old.folder / "about", (time.time() - 90_000, time.time() - 90_000))
        started = unfinished.Unfinished(folder)
        for passed, left in ((unfinished.LATER - 60, 1), (unfinished.LATER + 60, 0)):
            with mock.patch.object(unfinished, "BEGUN", unfinished.BEGUN + passed):
                self.assertEqual(len(started.sweep()), left)

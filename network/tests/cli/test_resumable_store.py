"""Resumable uploads when more than a connection breaks: after a power loss of the gateway, and while it answers that
it cannot continue at present."""
import asyncio
import concurrent.futures
import os
import pathlib
import resource
import signal
import tempfile
import unittest
from typing import Any
from unittest import mock

from support.upload_case import UploadCase
from walrus.network.cli import resumable_store
from walrus.network.cli.transfers import TRIES
from walrus.network.gateway.write import unfinished
from walrus.network.service.failure import Failure


class PowerLoss(UploadCase):
    async def test_an_upload_of_which_the_disk_has_an_empty_file_begins_anew(self) -> None:
        await self.start()
        uploads = self.folder / "tokens.uploads"
        for name, is_last in (("about", False), ("told", True)):
            self.assertEqual((await self.begin(b"data", is_last))[0], 201)
            [folder] = uploads.iterdir()
            os.truncate(folder / name, 0)
            self.assertEqual((await self.ask("GET", f"/v1/uploads/{folder.name}"))[0], 404)
            self.assertEqual([*uploads.iterdir()], [])

    async def test_such_an_upload_leaves_its_place(self) -> None:
        await self.start()
        for _ in range(unfinished.OF_ONE):
            await self.begin()
        for path in self.folder.glob("tokens.uploads/*/about"):
            os.truncate(path, 0)
        self.assertEqual((await self.begin())[0], 429)  # one of them may have just begun
        self.age(unfinished.UNHEARD + 1, [it.name for it in (self.folder / "tokens.uploads").iterdir()])
        self.assertEqual((await self.begin())[0], 201)


class Beside(unittest.TestCase):
    def test_commands_side_by_side_lose_no_entry(self) -> None:
        folder = self.enterContext(tempfile.TemporaryDirectory())
        self.enterContext(mock.patch.dict(os.environ, {"XDG_STATE_HOME": folder}))
        with concurrent.futures.ThreadPoolExecutor(8) as pool:
            list(pool.map(lambda it: resumable_store.Known([it]).keep(f"/v1/uploads/{it}"), range(80)))
        self.assertEqual(
            [resumable_store.Known([it]).find() for it in range(80)], [f"/v1/uploads/{it}" for it in range(80)]
        )
        self.assertEqual(sorted(os.listdir(pathlib.Path(folder, "walrus"))), ["uploads.json", "uploads.lock"])


class Full(unittest.TestCase):
    def test_a_disk_that_takes_a_part_of_a_piece_s_name_loses_neither_that_name_nor_the_piece(self) -> None:
        """The first 4 of its 33 bytes are the last ones in a page of the disk."""
        folder, count = pathlib.Path(self.enterContext(tempfile.TemporaryDirectory())), 124
        (folder / "about").write_text("{}")
        (folder / "names").write_bytes(bytes(33 * count))
        for number in (count, count + 1):
            (folder / f"{number}.piece").write_bytes(b"piece")
        upload, limits = unfinished.Upload(folder), resource.getrlimit(resource.RLIMIT_FSIZE)
        self.addCleanup(signal.signal, signal.SIGXFSZ, signal.signal(signal.SIGXFSZ, signal.SIG_IGN))
        self.addCleanup(resource.setrlimit, resource.RLIMIT_FSIZE, limits)
        resource.setrlimit(resource.RLIMIT_FSIZE, (4_096, limits[1]))
        with self.assertRaises(OSError):
            upload.record(b"a" * 32, False)
        resource.setrlimit(resource.RLIMIT_FSIZE, limits)
        self.assertTrue((folder / f"{count}.piece").exists())
        for name in (b"a" * 32, b"b" * 32):
            upload.record(name, False)
        self.assertEqual(unfinished.Upload(folder).names[count:], [b"a" * 32, b"b" * 32])


class Homeless(unittest.TestCase):
    def test_a_user_without_a_home_begins_each_upload_anew(self) -> None:
        with mock.patch.dict(os.environ), mock.patch("pwd.getpwuid", side_effect=KeyError):
            for name in ("XDG_STATE_HOME", "HOME"):
                os.environ.pop(name, None)
            known = resumable_store.Known(["url"])
            known.keep("/v1/uploads/1")
            self.assertEqual(known.find(), "")


class Away(unittest.IsolatedAsyncioTestCase):
    """The command, which knows the URL of an upload that it began before."""

    async def send(self, *said: Any) -> Any:
        """Returns the outcome if the gateway gives these replies about the upload, one after the other."""
        sending = resumable_store.Sending(mock.Mock(), mock.Mock(), mock.Mock(), mock.Mock())
        known = mock.Mock(**{"find.return_value": "/v1/uploads/1"})
        with (
            mock.patch.object(sending, "look", side_effect=said),
            mock.patch.object(resumable_store, "ask", return_value={"epoch": 0, "moving": False}),
            mock.patch.object(asyncio, "sleep"),
        ):
            return await sending.send(known, 5)

    async def test_a_gateway_that_cannot_go_on_just_now_is_asked_again(self) -> None:
        away, file = resumable_store.Broken("the ledger is away"), {"blobId": "00"}
        done = {"offset": 9, "complete": True, "endEpoch": 5, "file": file}
        self.assertEqual(await self.send(away, done, away, done), file)
        with self.assertRaises(Failure) as caught:
            await self.send(*[away] * TRIES)
        text = f"the ledger is away: it broke off {TRIES} times; the same command goes on from there"
        self.assertEqual(caught.exception.args, (text, 4))

    async def test_an_upload_goes_on_only_if_it_is_kept_for_as_long_as_a_new_one(self) -> None:
        """During a handover a new one is kept from the next epoch on."""
        for moving, until, expected in ((False, 7, "1"), (True, 7, "2"), (True, 8, "1")):
            said = mock.Mock(status=201, headers={"Location": "/v1/uploads/2"})
            session = mock.Mock(post=mock.MagicMock(**{"return_value.__aenter__.return_value": said}))
            sending = resumable_store.Sending(session, mock.Mock(), mock.Mock(), mock.Mock())
            known = mock.Mock(**{"find.return_value": "/v1/uploads/1"})
            with (
                mock.patch.object(sending, "look", return_value={"endEpoch": until}),
                mock.patch.object(resumable_store, "ask", return_value={"epoch": 2, "moving": moving}),
            ):
                self.assertEqual(await sending.place_of(known, 5), f"/v1/uploads/{expected}")

    async def test_a_gateway_that_goes_back_and_forth_is_given_up(self) -> None:
        """Else a lying one has the whole file sent again and again, without an end."""
        states = [{"offset": number % 2, "complete": False, "endEpoch": 5} for number in range(99)]
        with mock.patch.object(resumable_store.Sending, "go_on", side_effect=resumable_store.Broken("later")) as sent:
            with self.assertRaisesRegex(Failure, f"later: it broke off {TRIES} times at byte 1; "):
                await self.send(states[0], *states)
        self.assertEqual(sent.call_count, TRIES + 1)  # the second one had come further

    async def test_a_request_that_breaks_off_takes_nothing_from_the_identifier(self) -> None:
        """The request's task is cancelled, perhaps while the program computes the identifier of a piece."""
        added, goes_on = list[bytes](), asyncio.Event()

        async def add(part: bytes) -> None:
            await goes_on.wait()
            added.append(part)

        with tempfile.TemporaryFile() as file:
            file.write(b"first, second")
            file.flush()
            sending = resumable_store.Sending(mock.Mock(), file, mock.Mock(add=add), mock.Mock(size=13))
            with mock.patch.object(resumable_store, "PART", 7):
                broken = asyncio.create_task(sending.name(13))
                await asyncio.sleep(0.01)
                broken.cancel()
                await asyncio.gather(broken, return_exceptions=True)
                goes_on.set()
                await sending.name(13)
        self.assertEqual(added, [b"first, ", b"second"])

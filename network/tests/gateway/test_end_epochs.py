"""Until when a file or a folder is kept, as is told of it: until the first of its parts ends."""
import contextlib
import hashlib
import itertools
import pathlib
import tempfile
import types
import unittest
from typing import Any, AsyncIterator, Optional
from unittest import mock

from support.upload_case import UploadCase
from walrus.network.cli import folder_store
from walrus.network.cli.progress_bar import Bar
from walrus.network.cli.transfers import Busy
from walrus.network.files import file_list
from walrus.network.files.naming import Naming
from walrus.network.files.packing import SMALL
from walrus.network.gateway.auth.shares import Charge
from walrus.network.gateway.http.errors import Problem
from walrus.network.gateway.read.listing import Lister
from walrus.network.gateway.resources.memory import Memory
from walrus.network.gateway.write import writer
from walrus.network.gateway.write.folder_upload import Costs, Storing, Upload, once
from walrus.network.ledger.entries import Entry, entry_key
from walrus.network.ledger.follower import Refused
from walrus.network.ledger.live_blob import Blob
from walrus.network.ledger.rules import Ledger
from walrus.network.service.failure import Failure

SIZE = 1_000  # of a piece


class Ends(unittest.IsolatedAsyncioTestCase):
    """Files in a network that keeps what it is told as long as it is told."""

    async def asyncSetUp(self) -> None:
        self.enterContext(mock.patch.object(file_list, "PIECE", SIZE))
        self.blobs, self.asked = dict[bytes, Blob](), list[bytes]()
        ledger = types.SimpleNamespace(writing_epoch=0, blobs=self.blobs, invalid=lambda _: False, now=None, faults=1)
        ledger.certificate = lambda name: (0, 4) if name in self.blobs else None
        ledger.planned = lambda _: None
        self.network: Any = types.SimpleNamespace(ledger=ledger, register=self.register)
        self.writer = writer.Writer(self.network, Memory(2**30), 1)
        self.enterContext(mock.patch.object(writer.Writer, "store_blob", self.store_blob))

    async def register(self, name: bytes, until: int) -> None:
        self.asked.append(name)
        self.blobs[name] = Blob(max(until, self.blobs[name].until), "publisher")

    async def store_blob(self, blob: bytes, until: int) -> tuple[bytes, bool]:
        name = hashlib.sha256(blob).digest()
        was_there = name in self.blobs and self.blobs[name].until >= until
        self.blobs.setdefault(name, Blob(until, "publisher"))
        await self.register(name, until)
        return name, was_there

    def storing(self, epochs: int) -> Storing:
        return Storing(self.writer, Costs(Charge(None, None, 0)), epochs, [])

    async def test_a_file_ends_with_the_first_of_its_pieces(self) -> None:
        data = b"a" * SIZE + b"b" * SIZE + b"c"
        told = await self.writer.store(once(data), 5)
        name = bytes.fromhex(told["blobId"])
        self.assertEqual((told["endEpoch"], len(self.blobs)), (5, 4))
        await self.register(name, 50)  # as anybody may
        told = await self.writer.store(once(data), 6)
        self.assertEqual((told["blobId"], told["endEpoch"]), (name.hex(), 6))

    async def test_a_file_with_its_name_ends_with_the_first_of_both(self) -> None:
        await self.writer.store(once(b"data"), 50)
        told = await self.storing(5).store_named("x", "text/plain", once(b"data"))
        self.assertEqual(told["endEpoch"], 5)
        await self.register(bytes.fromhex(told["named"]["folder"]), 60)
        self.assertEqual((await self.storing(5).store_named("x", "text/plain", once(b"data")))["endEpoch"], 50)

    async def test_a_folder_ends_with_the_first_of_its_files(self) -> None:
        form = b'--B\r\nContent-Disposition: form-data; name="f"; filename="a"\r\n\r\ndata\r\n--B--\r\n'
        for until in (5, 6):
            upload = Upload(self.writer, Costs(Charge(None, None, 0)), until, 0.0, [])
            told = await upload.store_folder("multipart/form-data; boundary=B", once(form))
            self.assertEqual(told["endEpoch"], until)
            await self.register(bytes.fromhex(told["blobId"]), 50)

    async def test_what_is_kept_for_longer_ends_with_the_first_of_its_blobs(self) -> None:
        names = [bytes([it]) * 32 for it in range(5)]
        self.blobs |= {name: Blob(50 - place, "publisher") for place, name in enumerate(names)}
        shelf = mock.Mock(consists=mock.AsyncMock(return_value=dict.fromkeys(names, 9)))
        lister = Lister(self.network, mock.Mock(), shelf)
        for epochs, expected, asked in ((9, 46, []), (48, 48, names[3:]), (60, 60, names)):
            self.asked.clear()
            with mock.patch("walrus.network.gateway.read.listing.date_of"):
                told = await lister.extend(names[0], epochs, mock.Mock())
            self.assertEqual((told["endEpoch"], {*self.asked}), (expected, {*asked}))
        self.assertEqual(self.asked[-1], names[0])  # the list, once its pieces are kept

    async def test_what_is_kept_for_longer_costs_its_bytes_whatever_is_kept_beside_it(self) -> None:
        names, kept = [bytes([it]) * 32 for it in range(9)], dict[bytes, int]()
        sizes = dict.fromkeys(names, 1) | {names[7]: 2_000, names[8]: 3_000}

        async def register(name: bytes, _: int) -> None:
            if len(kept) == left:
                raise Refused("the epoch is changing")
            kept[name] = sizes[name]

        self.blobs |= {name: Blob(5 if name in (names[0], *names[7:]) else 50, "publisher") for name in names}
        self.network.register = register
        for left in (1, 2, 9):
            kept.clear()
            charge, shelf = mock.Mock(), mock.Mock(consists=mock.AsyncMock(return_value=sizes))
            with mock.patch("walrus.network.gateway.read.listing.date_of"), contextlib.suppress(Refused):
                await Lister(self.network, mock.Mock(), shelf).extend(names[0], 9, charge)
            self.assertEqual(charge.set_to.call_args_list[0], mock.call(5_001, 3))
            self.assertEqual(charge.set_to.call_args, mock.call(sum(kept.values()), len(kept)))

    async def test_what_ended_just_before_is_not_kept_for_longer(self) -> None:
        name, ledger, places, charge = bytes([7]) * 32, Ledger(), itertools.count(1), mock.Mock()
        begin = [entry_key("operator", "begin", epoch, 1, "a,b,c,d") for epoch in range(2)]
        ready, finish = [entry_key(node, "ready", 1) for node in "abc"], entry_key("a", "finish", 1)
        acks = [entry_key(node, "ack", 0, name.hex()) for node in "abc"]

        async def enter(*texts: str) -> None:
            for text in texts:
                ledger.apply(Entry(next(places), text))

        async def register(name: bytes, until: int) -> None:
            await enter(finish, entry_key("publisher", "register", name.hex(), until))

        await enter(begin[0], entry_key("publisher", "register", name.hex(), 1), *acks, begin[1], *ready)
        network: Any = types.SimpleNamespace(ledger=ledger, register=register)
        shelf = mock.Mock(consists=mock.AsyncMock(return_value={name: 9}))
        with self.assertRaisesRegex(Problem, "its time ended before"):
            await Lister(network, mock.Mock(), shelf).extend(name, 5, charge)
        self.assertEqual((ledger.epoch, ledger.blobs[name].until), (1, 6))  # it is registered, as a new blob
        self.assertEqual(charge.set_to.call_args_list, [mock.call(9, 1), mock.call(0, 0)])


class Trees(unittest.IsolatedAsyncioTestCase):
    async def asyncSetUp(self) -> None:
        self.top = pathlib.Path(self.enterContext(tempfile.TemporaryDirectory()))
        (self.top / "large").write_bytes(bytes(SMALL + 1))
        (self.top / "small").write_bytes(b"small")
        self.kept, self.ends = dict[str, int](), [8, 8, 9]  # of what is there, and of what is sent
        self.asked, self.refused = 0, set[int]()
        self.enterContext(mock.patch.object(folder_store, "ask", self.ask))
        self.enterContext(mock.patch.object(folder_store, "put", self.put))

    async def output(self, *_: object, data: bytes) -> bytes:
        return hashlib.sha256(data).hexdigest().encode()

    async def ask(self, _: object, __: str, path: str, params: dict[str, str]) -> Any:
        self.must_be_few()
        if (end := self.kept.get(path.rpartition("/")[2])) is None:
            raise Failure("no such blob", 4)
        return {"certificate": {"epoch": 3, "count": 4}, "invalid": False, "endEpoch": end, "held": "held" in params}

    async def put(self, _: object, parts: AsyncIterator[bytes], __: int) -> dict[str, Any]:
        self.must_be_few()
        name = hashlib.sha256(b"".join([part async for part in parts])).hexdigest()
        self.kept[name] = self.ends.pop(0)
        return {"blobId": name, "endEpoch": self.kept[name]}

    def must_be_few(self) -> None:
        self.asked += 1
        if self.asked % 3 in self.refused:
            raise Busy("too much at once", 1)

    async def end(self, until: int) -> Optional[int]:
        naming = Naming(mock.Mock(output=self.output), 1)
        sending = folder_store.Sending(mock.Mock(), naming, 5, until, Bar(""))
        self.addCleanup(sending.folder.close)
        told = await sending.send_all(bytes(self.top))
        self.assertEqual(self.ends, [])
        end: int = told["endEpoch"]
        return end

    async def test_a_folder_that_a_turn_of_the_epoch_finds_half_sent_ends_with_what_was_sent_before(self) -> None:
        self.assertEqual(await self.end(8), 8)

    async def test_a_folder_is_stored_even_if_the_gateway_refuses_many_requests(self) -> None:
        self.refused = {0, 1}
        with mock.patch("asyncio.sleep") as slept:
            self.assertEqual(await self.end(8), 8)
            self.kept, self.ends = dict.fromkeys(self.kept, 20), [30]
            self.assertEqual(await self.end(8), 20)  # what is there is not sent again
            self.refused, self.ends = {0, 1, 2}, []
            slept.reset_mock()
            with self.assertRaisesRegex(Failure, "too much at once"):
                await self.end(8)
            self.assertEqual(slept.call_count, 4)  # for the first request, and then no other is sent

    async def test_a_large_file_that_changes_between_its_readings_is_no_proof_of_a_lie(self) -> None:
        async def ask(*_: object, **__: object) -> Any:
            (self.top / "large").write_bytes(b"other" * SMALL)
            raise Failure("no such blob", 4)

        with mock.patch.object(folder_store, "ask", ask), self.assertRaisesRegex(
            Failure, "unless it changed meanwhile, is"
        ):
            await self.end(8)

    async def test_a_folder_of_which_all_was_there_ends_with_the_first_of_it(self) -> None:
        await self.end(8)
        self.kept, self.ends = {name: 20 - place for place, name in enumerate(self.kept)}, [30]
        self.assertEqual(await self.end(8), 19)


class Uploads(UploadCase):
    async def test_an_upload_ends_with_the_first_of_its_pieces(self) -> None:
        await self.start()
        data = b"a" * SIZE + b"b" * SIZE + b"c"
        _, _, told = await self.begin(data, True)
        name, end = bytes.fromhex(told["blobId"]), told["endEpoch"]
        store_blob = self.store_blob

        async def store_and_list(blob: bytes, until: int) -> tuple[bytes, bool]:
            stored = await store_blob(blob, until)
            self.kept[name] = Blob(until + 45, "somebody else")
            return stored

        with mock.patch.object(self.gateway.publisher.writer, "store_blob", store_and_list):
            _, _, told = await self.begin(data, True)
        self.assertEqual((told["blobId"], told["endEpoch"]), (name.hex(), end))

"""What walrus-net stores from a pipe, which may pause, and what of it is in memory."""
import asyncio
import contextlib
import json
import os
import socket
import struct
import threading
import time
from typing import IO, Any, Union
from unittest import mock

import aiohttp
from aiohttp import web
from support.harness import HERE
from support.http_case import GatewayCase
from support.transfer_case import DRAWN, TransferCase
from support.upload_case import UploadCase
from walrus.network.cli import pipes as piped, resumable_store
from walrus.network.files.file_list import MARK, PIECE
from walrus.network.gateway.read import reader
from walrus.network.gateway.resources import spool as pieces
from walrus.network.gateway.write import unfinished
from walrus.network.service.failure import Failure

PAUSE = 0.6  # seconds, which is longer than the gateway of these tests takes of a client that sends nothing


class Named:
    """Records what an identifier is computed of."""

    def __init__(self) -> None:
        self.data = b""

    async def add(self, part: bytes) -> None:
        await asyncio.sleep(0.001)
        self.data += part


class Pauses(UploadCase):
    """Pieces have 1,000 bytes, and a gateway waits for 0.3 s."""

    async def start(self, host: str = "127.0.0.1", **options: Any) -> None:
        for module, name, value in ((piped, "PIECE", 1_000), (piped, "WINDOW", 2_500), (reader, "SILENCE", 0.3)):
            self.enterContext(mock.patch.object(module, name, value))
        for module in (piped, resumable_store):
            self.enterContext(mock.patch.object(module, "PART", 300))
        self.enterContext(mock.patch.object(piped, "QUIET", 0.05))
        await super().start(host, **options)

    async def put_piped(self, *parts: Union[bytes, float]) -> Any:
        """Stores these parts from a pipe, whose writer sleeps for so many seconds in place of numbers."""
        inner, outer = os.pipe()

        def write() -> None:
            with contextlib.suppress(BrokenPipeError), open(outer, "wb", buffering=0) as out:
                for part in parts:
                    out.write(part) if isinstance(part, bytes) else time.sleep(part)

        writer = threading.Thread(target=write)
        writer.start()
        self.addCleanup(writer.join)
        with open(inner, "rb", buffering=0) as source:
            return await self.put_from(source, b"".join(part for part in parts if isinstance(part, bytes)))

    async def put_from(self, source: IO[bytes], data: bytes) -> Any:
        """Stores what comes from `source`, and expects that it is `data`."""
        named = Named()
        with piped.keeping() as kept:
            async with aiohttp.ClientSession(self.url) as session:
                self.sending = piped.Piped(session, source, kept, named, mock.Mock(size=0))  # type: ignore[arg-type]
                told = await self.sending.send_all(5)
                await self.sending.name(self.sending.end)
            self.assertLessEqual(os.fstat(kept.fileno()).st_size, 2_500 + 300)
        self.assertEqual(named.data, data)
        return told["blobId"]

    def uploads(self) -> list[str]:
        return [it.name for it in self.folder.glob("tokens.uploads/*")]

    async def test_it_may_pause_before_it_begins_in_its_midst_and_at_its_end(self) -> None:
        await self.start()
        data = os.urandom(9_321)
        parts = PAUSE, data[:1_200], PAUSE, data[1_200:6_000], PAUSE, data[6_000:9_300], PAUSE, data[9_300:], PAUSE
        self.assertEqual(await self.put_piped(*parts), self.name_of(data))
        self.assertEqual(len(self.blobs), 10 + 1)

    async def test_slowly_and_in_each_length_it_has_the_name_that_a_put_gives(self) -> None:
        await self.start()
        for size in (0, 1, 999, 1_000, 1_001, 2_500, 3_000, 4_300):
            data = os.urandom(size)
            self.assertEqual(await self.put_piped(data), self.name_of(data))
        short, slow = os.urandom(700), os.urandom(2_400)
        self.assertEqual(await self.put_piped(PAUSE, short[:9], PAUSE, short[9:], PAUSE), self.name_of(short))
        steps = list[Union[bytes, float]]()
        for place in range(0, 2_400, 400):
            steps += [slow[place : place + 400], 0.2]  # noqa: E203
        self.assertEqual(await self.put_piped(*steps), self.name_of(slow))
        self.assertEqual(await self.put_piped(MARK, PAUSE, bytes(999)), self.name_of(MARK + bytes(999)))

    async def test_it_goes_on_after_the_gateway_could_not_store_it(self) -> None:
        await self.start()
        data, self.away = os.urandom(7_000), "the nodes are away"
        task = asyncio.create_task(self.put_piped(data[:1_700], PAUSE, data[1_700:5_000], 3.0, data[5_000:]))
        await asyncio.sleep(2 * PAUSE)
        self.away = ""
        self.assertEqual(await task, self.name_of(data))

    async def test_what_nobody_can_continue_leaves_its_place(self) -> None:
        await self.start()
        self.away = "the nodes are away"
        with mock.patch.object(resumable_store, "TRIES", 2):
            with self.assertRaisesRegex(Failure, "it broke off 2 times .*; store it again"):
                await self.put_piped(os.urandom(5_000))
        self.assertEqual(self.uploads(), [])
        self.away = ""
        task = asyncio.create_task(self.put_piped(os.urandom(2_000), 1.0))
        async with asyncio.timeout(60):
            while not self.uploads():
                await asyncio.sleep(0.01)
        task.cancel()
        await asyncio.gather(task, return_exceptions=True)
        self.assertEqual(self.uploads(), [])

    async def test_what_comes_from_a_connection_that_is_reset_is_not_stored(self) -> None:
        """The error is reported once. A read after it returns nothing, as at the end."""
        await self.start()
        for quiet in (60.0, 0.05):  # with a request under way, and with none
            with mock.patch.object(piped, "QUIET", quiet), mock.patch.object(reader, "SILENCE", 60.0):
                with socket.create_server(("127.0.0.1", 0)) as server:
                    outer = socket.create_connection(server.getsockname())
                    inner, _ = server.accept()
                with inner, outer, inner.makefile("rb", buffering=0) as source:
                    task = asyncio.create_task(self.put_from(source, b""))
                    outer.sendall(os.urandom(2_100))
                    async with asyncio.timeout(60):
                        while not self.uploads():
                            await asyncio.sleep(0.01)
                        await self.comes(self.uploads()[0], 2_100)
                    await asyncio.sleep(0.3)
                    self.assertFalse(task.done())
                    outer.setsockopt(socket.SOL_SOCKET, socket.SO_LINGER, struct.pack("ii", 1, 0))
                    outer.close()
                    with self.assertRaisesRegex(Failure, "cannot be read any more: .*reset by peer; store it again"):
                        await task
                    with self.assertRaisesRegex(Failure, "cannot be read any more: .*reset by peer"):
                        await self.sending.fill()  # even if aiohttp has lost the first one
                self.assertEqual(self.uploads(), [])

    async def test_a_gateway_that_calls_a_part_of_it_stored_is_not_believed(self) -> None:
        await self.start()
        look, data, lie = resumable_store.Sending.look, os.urandom(7_000), {"blobId": "00"}

        async def lying(sending: resumable_store.Sending, place: str) -> Any:
            state = await look(sending, place)
            return state and {**state, "complete": state["offset"] > 0, "file": lie}

        self.away = "the nodes are away"
        with mock.patch.object(resumable_store.Sending, "look", lying):
            with self.assertRaisesRegex(Failure, "before all of it was sent: this gateway lies"):
                await self.put_piped(data[:1_700], 3.0, data[1_700:])
        with mock.patch.object(unfinished, "OF_ONE", 0), mock.patch.object(piped, "put", return_value=lie):
            with self.assertRaisesRegex(Failure, "before all of it was sent: this gateway lies"):
                await self.put_piped(data)

    async def test_a_gateway_without_a_place_for_its_upload_has_one_for_a_put(self) -> None:
        await self.start()
        self.assertEqual((await self.begin())[0], 201)
        for name, status in (("OF_ONE", 429), ("ALL", 503)):
            data = os.urandom(5_000)
            with mock.patch.object(unfinished, name, 1):
                self.assertEqual((await self.begin())[0], status)
                await self.put_piped(data[:1_400], 0.1, data[1_400:])
            self.assertTrue(self.stored.pop() == data)
            self.assertEqual((self.stored, len(self.uploads())), ([], 1))

    async def test_without_a_disk_for_temporary_files_it_is_kept_in_memory(self) -> None:
        await self.start()
        data, fault = os.urandom(5_000), FileNotFoundError(2, "No usable temporary directory found")
        with mock.patch.object(piped, "tempfile", mock.Mock(**{"TemporaryFile.side_effect": fault})):
            self.assertEqual(await self.put_piped(data[:1_700], PAUSE, data[1_700:]), self.name_of(data))

    async def test_a_disk_that_is_full_is_not_taken_for_a_break_of_the_connection(self) -> None:
        """What it has no room for is sent once the gateway has the rest. Without room for a part, the command ends."""
        await self.start()
        room = 300

        def write(file: IO[bytes], data: memoryview) -> None:
            if file.tell() + len(data) > room:
                pieces.write(file, data[: max(0, room - file.tell())])
                raise OSError(28, "No space left on device")
            pieces.write(file, data)

        with mock.patch.object(piped, "write", write):
            for room in (300, 700, 1_500):
                for size in (500, 1_000, 5_000):
                    data = os.urandom(size)
                    self.assertEqual(await self.put_piped(data[:400], 0.1, data[400:]), self.name_of(data))
            data, self.away = os.urandom(3_000), "the nodes are away"
            task = asyncio.create_task(self.put_piped(data[:1_900], 3.0, data[1_900:]))
            await asyncio.sleep(2 * PAUSE)
            self.away = ""
            self.assertEqual(await task, self.name_of(data))
            room, before = 299, self.uploads()
            full = "does not take 300 bytes of the input: .* No space left on device; name a folder in TMPDIR with"
            with self.assertRaisesRegex(Failure, full):
                await self.put_piped(os.urandom(5_000))
        self.assertCountEqual(self.uploads(), before)


class Memory(TransferCase):
    """The command, at a gateway that keeps what it is sent."""

    async def asyncSetUp(self) -> None:
        await super().asyncSetUp()
        self.sent = bytearray()

    async def look(self, _: web.Request) -> web.Response:
        return web.json_response({"offset": len(self.sent), "complete": False, "endEpoch": 5, "file": None})

    async def take(self, request: web.Request) -> web.Response:
        if request.headers.get("Upload-Complete") != "?0":
            return await super().take(request)
        async for part in request.content.iter_any():
            self.sent += part
        return web.Response(status=204, headers={"Upload-Offset": str(len(self.sent))})

    async def test_two_pieces_of_what_comes_are_in_memory_at_most(self) -> None:
        pieces = [DRAWN.randbytes(PIECE) for _ in range(6)]
        long, names = b"".join(pieces), b"".join([await self.id(piece) for piece in pieces])
        name, peaks = (await self.id(MARK + len(long).to_bytes(8, "big") + names)).hex(), list[int]()
        for data, self.named, self.resumes in ((b"short", (await self.id(b"short")).hex(), True), (long, name, True)):
            peaks.append(await self.peak_of("store", "-", "--epochs", "1", data=data))
            self.assertTrue(self.sent + self.bodies.pop() == data)
        self.assertEqual(self.paths, ["/v1/blobs", "/v1/uploads/1"])
        self.assertLess(peaks[1] - peaks[0], 3 * PIECE)

    async def test_a_file_or_folder_of_the_name_of_standard_input_is_not_stored_in_its_place(self) -> None:
        self.named, place = (await self.id(b"x")).hex(), self.folder / "here" / "-"
        place.parent.mkdir()
        with contextlib.chdir(place.parent):
            place.write_bytes(b"old")
            await self.run_net("store", "-", "--epochs", "1", data=b"x")
            place.unlink()
            place.mkdir()
            await self.run_net("store", "-", "--epochs", "1", data=b"x")
        self.assertEqual(self.bodies, [b"x"] * 2)


class Story(GatewayCase):
    """The command over a network, whose gateway waits for two seconds."""

    async def test_a_pipe_that_pauses_is_stored(self) -> None:
        await self.start()
        self.enterContext(mock.patch.object(reader, "SILENCE", 2.0))
        data, pipes = DRAWN.randbytes(PIECE + 3_000_000), {it: asyncio.subprocess.PIPE for it in ("stdin", "stdout")}
        line = [str(HERE.parent / "walrus-net"), "store", "-", "--epochs", "5", "--json"]
        environment = {**os.environ, "WALRUS_GATEWAY": f"http://127.0.0.1:{self.port}"}
        process = await asyncio.create_subprocess_exec(*line, env=environment, **pipes)
        assert process.stdin and process.stdout
        for place, end in ((0, 9), (9, PIECE + 1_500_000), (PIECE + 1_500_000, len(data))):
            await asyncio.sleep(5)
            process.stdin.write(data[place:end])
            await process.stdin.drain()
        out, _ = await process.communicate(b"")  # and so ends the input
        self.assertEqual(process.returncode, 0)
        told = json.loads(out)
        self.assertEqual((told["size"], told["pieces"]), (len(data), 2))
        self.assertTrue((await self.get(told["blobId"]))[2] == data)

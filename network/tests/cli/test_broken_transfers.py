"""A fetch that was broken off goes on with the same command, and what came before is checked; answers without end."""
import asyncio
import contextlib
import gzip
import pathlib
import signal

from aiohttp import web
from support.transfer_case import DRAWN, LIE, MARK, PIECE, TransferCase
from walrus.network.cli import transfers

LENGTH = 268_435_456


class Broken(TransferCase):
    async def long_file(self) -> tuple[bytes, str, pathlib.Path]:
        """Returns a file of several pieces that the gateway has, its identifier, and the path of its part."""
        pieces = [DRAWN.randbytes(PIECE), DRAWN.randbytes(PIECE), DRAWN.randbytes(999)]
        blob, names = b"".join(pieces), b"".join([await self.id(piece) for piece in pieces])
        name = (await self.id(MARK + len(blob).to_bytes(8, "big") + names)).hex()
        self.files = {name: blob}
        return blob, name, self.folder / f"out.{name}.part"

    async def test_a_file_goes_on_where_an_interrupt_ended_it(self) -> None:
        blob, name, part = await self.long_file()
        self.out.write_bytes(b"before")
        self.stalls = True
        process = await self.start("fetch", name, "--output", self.out)
        async with asyncio.timeout(60):
            while not part.exists() or part.stat().st_size < PIECE:
                await asyncio.sleep(0.05)
        process.send_signal(signal.SIGINT)
        _, error = await process.communicate()
        self.assertEqual((process.returncode, error), (130, b"walrus-net fetch: interrupted\n"))
        self.assertEqual((self.out.read_bytes(), self.left()), (b"before", ["out", part.name]))
        self.stalls, size = False, part.stat().st_size
        self.assertTrue(PIECE <= size < len(blob) and part.read_bytes() == blob[:size])
        short = DRAWN.randbytes(99)
        self.files |= {(await self.id(short)).hex(): short, name.upper(): blob}
        await self.run_net("fetch", (await self.id(short)).hex(), "--output", self.out)  # another version
        self.assertEqual((self.out.read_bytes(), self.left()), (short, ["out", part.name]))
        await self.run_net("fetch", name.upper(), "--output", self.out)
        self.assertEqual((self.out.read_bytes() == blob, self.left()), (True, ["out"]))
        self.assertEqual(self.starts, [0, 0, size])

    async def test_of_a_liar_no_more_is_taken_than_the_file_has(self) -> None:
        blob, long, _ = await self.long_file()
        short = (await self.id(b"short")).hex()
        self.files |= {short: bytes(5 * PIECE), long: blob + bytes(3 * PIECE)}
        for name, lists, said in (
            (short, {}, "more than 16 MiB for an identifier of a shorter file: this gateway lies"),
            (
                short,
                {short: self.lists[long]},
                "more than 16 MiB for an identifier of a shorter file",
            ),  # of another file
            (short, {short: bytes(2 * PIECE)}, "more than 16 MiB for an identifier of a shorter file"),
            (long, {}, "more than 16 MiB for an identifier of a shorter file"),
            (long, self.lists, f"gives more than the {len(blob)} bytes that the file may have"),
        ):
            kept, self.lists = self.lists, lists
            _, error = await self.run_net("fetch", name, "--output", self.out, status=3 if lists is kept else 1)
            self.lists = kept
            self.assertIn(said, error)
            self.assertEqual(self.left(), [])

    async def test_a_file_goes_on_after_its_gateway_went(self) -> None:
        blob, name, part = await self.long_file()
        self.gone = True
        _, said = await self.run_net("fetch", name, "--output", self.out, status=1)
        self.assertIn("is the gateway running", said)
        self.assertEqual(self.left(), [part.name])
        self.gone, size = False, part.stat().st_size
        await self.listen(self.port)
        await self.run_net("fetch", name, "--output", self.out)
        self.assertEqual((self.out.read_bytes() == blob, self.left(), self.starts), (True, ["out"], [0, size]))

    async def test_what_came_before_is_checked_before_it_counts(self) -> None:
        blob, name, part = await self.long_file()
        at = PIECE // 2
        for before, starts in (
            (blob[:at] + LIE + blob[at + 3 : PIECE], [PIECE, 0]),  # noqa: E203
            (blob, [len(blob)]),  # it ended before the file was renamed
            (blob + b"more", [len(blob) + 4, 0]),
            (b"", [0]),
        ):
            part.write_bytes(before)
            self.starts = []
            await self.run_net("fetch", name, "--output", self.out)
            self.assertEqual((self.out.read_bytes() == blob, self.left(), self.starts), (True, ["out"], starts))
        self.files = {name: blob[:at] + LIE + blob[at + 3 :]}  # noqa: E203
        part.write_bytes(blob[:at])
        _, said = await self.run_net("fetch", name, "--output", self.out, status=1)
        self.assertIn("this gateway lies", said)
        self.assertEqual((self.out.read_bytes() == blob, self.left()), (True, ["out"]))

    async def test_what_stays_is_told_and_nothing_stays_of_no_use(self) -> None:
        blob, name, part = await self.long_file()
        fetch = "fetch", name, "--output", self.out
        _, said = await self.run_net(*fetch, "--only", "x", status=4)
        self.assertEqual(self.left(), [], said)
        self.files = {}
        part.write_bytes(blob[:PIECE])
        _, said = await self.run_net(*fetch, status=4)
        self.assertEqual(
            (said, self.left()), (f"walrus-net fetch: no such blob; what has come stays in {part}\n", [part.name])
        )
        self.missing = 410
        _, said = await self.run_net(*fetch, status=3)
        self.assertEqual((said, self.left()), ("walrus-net fetch: no such blob\n", []))

    async def test_a_server_that_hears_no_ranges_gives_the_rest_too(self) -> None:
        blob, name, part = await self.long_file()
        part.write_bytes(blob[: PIECE + 7])
        self.whole = True
        await self.run_net("fetch", name, "--output", self.out)
        self.assertEqual((self.out.read_bytes() == blob, self.left(), self.starts), (True, ["out"], [0]))


class Breaking(TransferCase):
    """A gateway that breaks each answer off after 1,000 bytes. It is away for a while after the first one, and answers
    that it is not ready before the third."""

    async def give(self, request: web.Request) -> web.StreamResponse:
        data, start = self.files[request.match_info["name"]], int(request.headers.get("Range", "bytes=0-")[6:-1])
        self.starts.append(start)
        if len(self.starts) == 3:
            return web.json_response({"error": {"text": "it has just started"}}, status=503)
        response = web.StreamResponse(status=206 if start else 200, headers={"Content-Length": str(len(data) - start)})
        await response.prepare(request)
        await response.write(data[start : start + 1_000])  # noqa: E203
        if not start:
            self.returning = asyncio.create_task(self.go_away())
        if start + 1_000 < len(data):
            assert request.transport
            request.transport.close()
        return response

    async def go_away(self) -> None:
        assert self.site._server
        self.site._server.close()  # nothing listens there any more
        await asyncio.sleep(1.5)
        await self.listen(self.port)

    async def test_a_fetch_goes_on_as_long_as_more_comes(self) -> None:
        blob = DRAWN.randbytes(transfers.TRIES * 1_000 + 1)
        name = (await self.id(blob)).hex()
        self.files = {name: blob}
        await self.run_net("fetch", name, "--output", self.out)
        self.assertEqual(self.out.read_bytes(), blob)
        self.assertEqual(self.starts, [0, 1_000, 2_000, *range(2_000, len(blob), 1_000)])


class Long(TransferCase):
    """A gateway that wants the memory of its clients: its answers have 256 MiB."""

    async def asyncSetUp(self) -> None:
        self.long = ""
        await super().asyncSetUp()

    async def answer(self, request: web.Request, status: int) -> web.StreamResponse:
        words = {"Content-Type": "application/json"}
        if self.long == "zipped":
            body = gzip.compress(bytes([32]) * LENGTH, 1)
            return web.Response(body=body, status=status, headers={**words, "Content-Encoding": "gzip"})
        response = web.StreamResponse(status=status, headers=words)
        await response.prepare(request)
        with contextlib.suppress(ConnectionError):
            for _ in range(LENGTH // PIECE):
                await response.write(bytes([32]) * PIECE)
        return response

    async def status(self, request: web.Request) -> web.StreamResponse:  # type: ignore[override]
        return await (self.answer(request, 200) if self.long else super().status(request))

    async def give(self, request: web.Request) -> web.StreamResponse:
        return await self.answer(request, 404)

    async def look(self, request: web.Request) -> web.StreamResponse:  # type: ignore[override]
        return await self.answer(request, 200)

    async def test_an_answer_of_any_length_takes_little_memory(self) -> None:
        self.out.write_bytes(bytes(PIECE + 1))
        self.resumes, usual = True, await self.peak_of("status")
        for way, status, *words in (
            ("", 4, "fetch", "0" * 64),
            ("", 1, "store", self.out, "--epochs", "1"),
            ("endless", 1, "status"),
            ("endless", 1, "fetch", "0" * 64),
            ("zipped", 1, "status"),
        ):
            with self.subTest(way=way, words=words):
                self.long = way
                self.assertLess(await self.peak_of(*words, status=status) - usual, 3 * PIECE)

"""The aggregator: sends files over HTTP, whole or in ranges, from verified blobs that are kept in a cache."""
import asyncio
import collections
import contextlib
import itertools
import secrets
import sys
import tempfile
from typing import AsyncIterator, Awaitable, Callable, Iterable, Optional, TypeVar, Union

from aiohttp import web

from walrus import client
from walrus.network.files.file_list import NAME, File
from walrus.network.files.sealed import Blob, Damaged, Data, Sealed, put_away
from walrus.network.gateway.auth.rate_limits import Flow
from walrus.network.gateway.http import digests, ranges
from walrus.network.gateway.http.conditions import condition
from walrus.network.gateway.http.errors import ALONE, BAD, NO_BLOB, Problem
from walrus.network.gateway.resources.cache import Cache
from walrus.network.gateway.resources.memory import Memory, reading_needs
from walrus.network.gateway.resources.spool import lack_at, part_of
from walrus.network.gateway.resources.turns import ASKING, PARTS, WAITING, Together, Turns, owner_of
from walrus.network.peers.network import Network
from walrus.network.service.threads import to_the_end
from walrus.network.settings.gateway_options import Options

from .lengths import Lengths
from .sending import PART, SLICE, Sending, ending_early


KIND = "application/octet-stream"
PROMPT, TRIES = 1.0, 3  # seconds in which a client takes a part if it is not slow; readings of a blob on a bad disk
BARE, READINGS = 73_400_320, 16  # bytes that an idle gateway takes; blobs that are read at once, if memory allows
AHEAD, LOOK = 5, 1.0  # pieces of a file that are read at once for one client; seconds between two looks at the disk
SILENCE, SUMS = 30.0, 65_536  # deadline in seconds to send a slice or receive anything; the most digests that are kept
GRACE, LEAST = 60.0, 32_768  # seconds by which a client may lag, in all, behind LEAST bytes a second
FOREVER = {"Cache-Control": "public, max-age=31536000, immutable", "Accept-Ranges": "bytes"}
Result = TypeVar("Result")


class Reader:
    """Reads files of a network for the gateway's clients."""

    def __init__(self, network: Network, options: Options):
        self.network, self.options = network, options
        self.memory = Memory(max(0, options.memory - BARE))
        self.cache = Cache(self.fetch, options.room, READINGS)
        self.readings = Turns(READINGS, READINGS // 2)  # so that no client waits for everything that another one reads
        self.ahead = set["asyncio.Task[None]"]()  # reads of pieces that are needed next
        self.keeping, self.is_short = None, False  # type: Optional["asyncio.Task[None]"], bool
        self.bytes, self.lengths = collections.Counter[str](), Lengths(network)
        self.rejected: Callable[[bytes], None] = lambda identifier: None  # called for each badly encoded blob
        self.sendings = Turns(options.connections, max(1, options.room // client.LARGEST_BLOB // PARTS))
        self.together = Together(self.sendings, self.sendings.each // PARTS)  # one place for a piece sent many times
        self.sums: "collections.OrderedDict[bytes, bytes]" = collections.OrderedDict()

    def must_stand(self, name: bytes) -> None:
        """Raises `Problem` if the ledger shows that a blob, or a member of it, cannot be read."""
        ledger, identifier = self.network.ledger, name[:NAME]
        if ledger.invalid(identifier):
            raise Problem(410, BAD, invalid=True)
        if identifier not in ledger.blobs:
            raise Problem(404, NO_BLOB)
        if not ledger.certificate(identifier):
            raise Problem(404, "the blob is registered, but too few shards have acknowledged it: it may come yet")

    def stands(self, name: bytes) -> bool:
        """Whether the ledger has a certificate for a blob and does not declare it invalid."""
        ledger, identifier = self.network.ledger, name[:NAME]
        return bool(ledger.certificate(identifier)) and not ledger.invalid(identifier)

    async def fetch(self, name: bytes, size: int) -> Blob:
        """Reads a blob, or a member of it, from the network; a large one is returned in a file without a name. It takes
        memory for the largest blob. If that is short, nodes are asked for the length, unless `size` is the largest: a
        smaller one is only a claim."""
        number = int.from_bytes(name[NAME:], "big") if name[NAME:] else None
        length: Optional[int] = client.LARGEST_BLOB
        if size != length and self.memory.is_short(sum(reading_needs(client.LARGEST_BLOB))):
            length = await self.lengths.of_blob(name[:NAME])
        first, later = reading_needs(client.LARGEST_BLOB if length is None else length)
        async with self.memory.share(first, later) as share:
            calls = self.network.walrus.within(lambda: share.more(later))
            try:
                blob = await self.network.fetch(name[:NAME], self.options.seconds, number, calls)
            except client.BadlyEncoded:
                self.rejected(name[:NAME])
                raise
            return await self.put_away(blob) if len(blob) > SLICE else blob

    async def put_away(self, blob: bytes) -> Sealed:
        """Moves a blob to a file without a name, for which others that nobody uses give way if the disk is short."""
        await self.make_room(len(blob))
        try:  # not in asyncio's own threads, in which name look-ups may take long
            return await to_the_end(put_away, blob, pool=self.network.walrus.pool)
        except OSError as fault:
            raise Problem(503, f"the gateway cannot put what is read on its disk ({fault}): try again later") from None

    async def make_room(self, size: int = 0) -> None:
        """Drops cached blobs that nobody uses if `size` more bytes would not leave `reserve` of the disk free, and as
        much again, but at most `room`: so uploads find room there, and so do nodes and etcd, which may share it."""
        words = lack_at, tempfile.gettempdir(), size, self.options.reserve, self.options.room
        lack = await asyncio.get_running_loop().run_in_executor(self.network.walrus.pool, *words)
        self.is_short = not self.cache.give_way(lack)

    async def keep_room(self) -> None:
        """Makes room regularly, also while nothing is read."""
        while True:
            await asyncio.sleep(LOOK)
            with contextlib.suppress(OSError):
                await self.make_room()

    @contextlib.asynccontextmanager
    async def blob(self, identifier: bytes, size: Optional[int] = None) -> AsyncIterator[Blob]:
        """Holds a blob in the cache while the context runs. Raises `Problem` if it has another length than `size`."""
        self.must_stand(identifier)
        async with contextlib.AsyncExitStack() as stack:
            is_begun = identifier in self.cache.entries  # if so, no second read begins, and it needs no place
            turn = contextlib.nullcontext() if is_begun else self.readings.take(ASKING.get())
            async with turn, asyncio.timeout(WAITING):  # counted from when it has its place
                found = await stack.enter_async_context(self.cache.use(identifier, size or 0))
            if size not in (None, len(found)):
                raise Problem(410, "the file's list is false: one of its pieces has another length", invalid=True)
            yield found

    async def within(
        self, name: bytes, work: Callable[[Blob], Awaitable[Result]], size: Optional[int] = None
    ) -> Result:
        """Returns what `work` returns for a blob. If the disk gives back something else than was read, the blob is read
        from the network anew, and `work` called again. Raises `Damaged` if that does not help, and as `blob` does."""
        for left in reversed(range(TRIES)):
            async with self.blob(name, size) as blob:
                try:
                    return await work(blob)
                except Damaged as fault:
                    print(f"{name[:NAME].hex()} is read anew: {fault}", file=sys.stderr, flush=True)
                    if not left:
                        raise
        raise AssertionError

    async def answer(self, request: web.Request, name: bytes) -> web.StreamResponse:
        """Answers a GET or a HEAD of a file."""
        self.must_stand(name)
        number = f"/{int.from_bytes(name[NAME:], 'big')}" if name[NAME:] else ""
        tag = f'"{name[:NAME].hex()}{number}"'
        headers = {**ALONE, **FOREVER, "ETag": tag}
        if (found := condition(request, tag, headers)) is not None:
            return found
        length = await self.length_alone(request, name)
        if length is not None:
            file = File(length, name)
        else:
            async with self.blob(name) as blob:
                file = File.of(name, blob)
                del blob
                headers |= await self.digest(name) if digests.wanted(request) and file.names == name else {}
        return await self.give(request, file, tag, headers)

    async def digest(self, name: bytes) -> dict[str, str]:
        """Returns the headers with a blob's SHA-256. It is computed once, in a thread, so that others need not wait."""
        found = self.sums.get(name)
        if found is None:
            pool = self.network.walrus.pool
            run = asyncio.get_running_loop().run_in_executor
            found = await self.within(name, lambda blob: run(pool, digests.sum_of, blob))
            self.sums[name] = found
            if len(self.sums) > SUMS:
                self.sums.popitem(last=False)
        return digests.fields(found)

    async def give(
        self, request: web.Request, file: File, tag: str, headers: dict[str, str], kind: str = KIND
    ) -> web.StreamResponse:
        """Sends a file of this tag and media type, or the ranges of it that are asked for."""
        asked = None
        if request.method == "GET" and "Range" in request.headers and request.headers.get("If-Range", tag) == tag:
            asked = ranges.spans(",".join(request.headers.getall("Range")), file.length)
        if asked == []:
            headers["Content-Range"] = f"bytes */{file.length}"
            raise Problem(416, f"the file has {file.length} bytes, and none in these ranges", headers)
        return await self.send(request, file, asked, headers, kind)

    async def length_alone(self, request: web.Request, name: bytes) -> Optional[int]:
        """Returns the length of a file from its metadata, without reading it. None if the request needs more, if the
        file is in the cache, or if the metadata does not settle it."""
        if request.method != "HEAD" or name[NAME:] or name in self.cache.entries or digests.wanted(request):
            return None
        turn = contextlib.nullcontext() if name in self.lengths.known else self.readings.take(ASKING.get())
        async with turn:  # shards are asked for it, so it needs the same kind of place as a read
            return await self.lengths.of_file(name)

    async def send(
        self,
        request: web.Request,
        file: File,
        asked: Optional[list[ranges.Span]],
        headers: dict[str, str],
        kind: str = KIND,
    ) -> web.StreamResponse:
        """Sends a file, or spans of it; if it cannot go on, the connection ends before `Content-Length` is reached."""
        spans, bound = asked or [(0, file.length)], secrets.token_hex(16)
        heads = ranges.heads(spans, file.length, kind, bound) if len(spans) > 1 else [b"", b""]
        size = sum(end - start for start, end in spans) + sum(map(len, heads))
        if len(spans) > 1:
            kind = f"multipart/byteranges; boundary={bound}"
        elif asked:
            headers["Content-Range"] = f"bytes {spans[0][0]}-{spans[0][1] - 1}/{file.length}"
        headers |= {"Content-Length": str(size), "Content-Type": kind}
        response = web.StreamResponse(status=206 if asked else 200, headers=headers)
        if request.method == "HEAD":
            await response.prepare(request)
            return response
        self.read_ahead(itertools.islice(file.pieces(*spans[0]), 1, AHEAD))
        ready = list[Data]()
        for name, length, start, end in file.pieces(*spans[0]):  # before the response begins, so that it can be refused
            ready.append(await self.within(name, lambda blob: part_of(blob, start, min(end, start + PART)), length))
            break
        await response.prepare(request)
        pace = Pace(request.get("flow"))
        with ending_early(request):
            for head, span in zip(heads, spans):
                await self.write(pace, response, head)
                await self.send_span(pace, response, file, span, owner_of(request), ready)
            await self.write(pace, response, heads[-1])
        return response

    def read_ahead(self, pieces: Iterable[tuple[bytes, int, int, int]]) -> None:
        """Begins to read pieces that are needed next, as far as the client's places allow while one stays free."""
        left = 0 if self.is_short else self.readings.left(ASKING.get()) - 1  # dropped before they are sent
        for name, size, _, _ in pieces:
            if left > 0 and self.stands(name) and name not in self.cache.entries:
                left -= 1
                task = asyncio.create_task(self.have_read(name, size))
                self.ahead.add(task)
                task.add_done_callback(self.ahead.discard)

    async def close(self) -> None:
        for task in [*self.ahead, *filter(None, [self.keeping])]:
            task.cancel()
        await self.cache.close()

    async def have_read(self, name: bytes, size: int) -> None:
        with contextlib.suppress(Exception):  # the send that needs the piece reads it again, and reports the error
            async with self.blob(name, size):
                pass

    async def send_span(
        self, pace: "Pace", response: web.StreamResponse, file: File, span: ranges.Span, owner: str, ready: list[Data]
    ) -> None:
        self.read_ahead(itertools.islice(file.pieces(*span), 1, AHEAD))
        following = itertools.islice(file.pieces(*span), AHEAD, None)
        for name, size, start, end in file.pieces(*span):
            sending = Sending(self.write, pace, response, start, end, ready)

            async def send(blob: Blob, sending: Sending = sending) -> None:
                self.read_ahead(itertools.islice(following, 1))
                await sending.send(blob)

            async with self.together.take(owner, name, size <= SLICE):  # a slow client keeps its piece in the cache
                await self.within(name, send, size)

    async def write(self, pace: "Pace", response: web.StreamResponse, data: Union[bytes, memoryview]) -> None:
        if data:
            async with pace.next(len(data)):
                await response.write(data)
        self.bytes['way="out"'] += len(data)


class Pace:
    """The pace at which a client takes or sends bytes; time for which it waits for the gateway does not count."""

    def __init__(self, flow: Optional[Flow] = None) -> None:
        self.allowed, self.flow = GRACE, flow
        self.is_prompt = False  # whether the client took at once what was sent last

    @contextlib.asynccontextmanager
    async def next(self, size: int = 0) -> AsyncIterator[None]:
        """Times one step of a client, of `size` bytes if that is known; raises `TimeoutError` if it takes too long."""
        clock = asyncio.get_running_loop().time
        begun = clock()
        async with asyncio.timeout(min(SILENCE, self.allowed)):
            yield
        self.is_prompt = clock() - begun < PROMPT
        self.allowed += size / LEAST - (clock() - begun)
        if self.flow and size:
            await self.flow.spend(size)


async def send_text(request: web.Request, text: Blob, headers: dict[str, str]) -> web.StreamResponse:
    """Sends a text that may be long, in parts. If it is in a file, or shared with others, a client that does not read
    holds no more memory than the parts that were sent last."""
    response = web.StreamResponse(headers={**headers, "Content-Length": str(len(text))})
    part, place = await part_of(text, 0, min(PART, len(text))), 0  # before the response begins, so that it may fail
    await response.prepare(request)
    pace = Pace(request.get("flow"))
    with ending_early(request):
        while part and request.method == "GET":
            async with pace.next(len(part)):
                await response.write(part)
            place += len(part)
            part = await part_of(text, place, min(place + PART, len(text)))
    return response

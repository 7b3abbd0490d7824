"""Stores what a pipe brings, such as standard input: its length is not known, and it may pause."""
import asyncio
import contextlib
import errno
import os
import tempfile
from typing import IO, Any, AsyncIterator, Optional

import aiohttp


from walrus.network.files.file_list import PIECE
from walrus.network.files.naming import Naming
from walrus.network.gateway.resources.spool import write
from walrus.network.service.failure import Failure

from .progress_bar import Bar
from .resumable_store import Broken, Sending
from .transfers import PART, must_name, naming_of, put

QUIET = 2.0  # seconds without a part after which a request ends: a gateway takes longer pauses for a broken client
WINDOW = 4 * PIECE  # bytes that are kept at most until the gateway has them; fewer if the disk has no room for them
FULL = errno.ENOSPC, errno.EDQUOT
PARTING = 5.0  # seconds for a gateway to drop an upload that is given up


async def store_piped(session: aiohttp.ClientSession, path: str, epochs: int) -> Any:
    """Stores what a pipe, a device or standard input (`-`) brings; more than a piece as a resumable upload. Returns the
    gateway's answer, and raises `Failure` if it names another identifier than the one computed here."""
    naming = await naming_of(session)
    with open(0 if path == "-" else path, "rb", buffering=0) as source, keeping() as kept:
        with Bar(os.path.basename(path), os.fstat(source.fileno()).st_size) as bar:
            piped = Piped(session, source, kept, naming, bar)
            told = await piped.send_all(epochs)
            await piped.name(piped.end)
    must_name(told, await naming.identifiers(), "the file")
    return told


class Piped(Sending):
    """Input from `source` that is being sent. What the gateway may lack of it is kept in `file`. While nothing comes no
    request is under way, so that the gateway does not end it as too slow."""

    advice = "store it again"

    def __init__(self, session: aiohttp.ClientSession, source: IO[bytes], file: IO[bytes], naming: Naming, bar: Bar):
        super().__init__(session, file, naming, bar)
        self.source, self.ahead = source.fileno(), bytearray()  # what was read, and is not in `file` yet
        self.end, self.is_over, self.turn = 0, False, asyncio.Lock()
        self.fault: Optional[Failure] = None  # why nothing can be read any more

    async def send_all(self, epochs: int) -> Any:
        """Sends all that comes, and returns the gateway's answer. Raises `Failure` if it comes too early."""
        while self.end <= PIECE and not (self.is_over or self.ahead):
            await self.fill()
            await self.take()
        if self.end <= PIECE and not self.ahead:
            return await put(self.session, self.parts(0), epochs)
        try:
            told = await self.send(None, epochs)
        except BaseException:
            await self.give_up()
            raise
        if not self.place:  # an older gateway, or one without a place
            told = await put(self.session, self.all_parts(), epochs)
        if self.ahead or not self.is_over:
            raise Failure("the gateway reports it as stored before all of it was sent: this gateway lies", 1)
        return told

    async def give_up(self) -> None:
        """Ends the upload, which nobody can continue, as long as the gateway answers soon."""
        with contextlib.suppress(aiohttp.ClientError, OSError):
            async with asyncio.timeout(PARTING):
                if self.place:
                    async with self.session.delete(self.place):
                        pass

    async def fill(self) -> None:
        """Reads until there is a whole part, or the input is over. After a read that failed none is tried, as a socket
        that was reset then reads as if it were over."""
        async with self.turn:  # a request that broke off may still be here
            while len(self.ahead) < PART and not self.is_over:
                if self.fault:
                    raise self.fault
                await readable(self.source)
                try:
                    data = os.read(self.source, PART - len(self.ahead))
                except OSError as fault:
                    self.fault = Failure(f"the input cannot be read any more: {fault}; {self.advice}", 1)
                    continue
                self.ahead += data
                self.is_over = not data

    async def take(self) -> bytes:
        """Moves what was read to `file` and into the identifier, and returns it. Returns nothing, and leaves it where
        it is, if the disk has no room for it before the gateway has what is kept already."""
        part = bytes(self.ahead)
        try:
            self.file.seek(self.end - self.start)
            write(self.file, memoryview(part))
        except OSError as fault:  # and not as a break of the connection, which aiohttp would make of it
            if fault.errno in FULL and self.end > self.start:
                return b""
            said = f"the disk for temporary files does not take {len(part)} bytes of the input: {fault}"
            mend = f"name a folder in TMPDIR with at least {PART >> 20} MiB free, or {WINDOW >> 20} MiB to be fast"
            raise Failure(f"{said}; {mend}, and {self.advice}", 1) from None
        self.ahead.clear()
        self.end += len(part)
        await self.name(self.end)
        return part

    async def go_on(self, offset: int) -> Any:
        """Sends the input from `offset` on, in as many requests as it takes, and returns the gateway's answer."""
        while True:
            if offset < self.start:
                raise Failure(f"the gateway has lost what it had of the upload: {self.advice}", 4)
            if offset == self.end:
                self.start = offset
                self.file.truncate(0)
                await self.fill()  # for as long as it takes
            if self.is_over:
                await self.take()
                if not self.ahead:
                    return await super().go_on(offset)
            async with self.patch(offset, {"Upload-Complete": "?0"}) as said:
                if said.headers.get("Upload-Offset") != str(self.end):
                    raise Broken("the gateway has not taken all that it was sent")
            offset = self.end

    async def parts(self, place: int) -> AsyncIterator[bytes]:
        """Yields what is kept from a place on, then what comes, until nothing comes for a while or enough is kept."""
        async for part in super().parts(place):
            yield part
        while self.end - self.start < WINDOW:
            try:
                async with asyncio.timeout(QUIET):
                    await self.fill()
            except TimeoutError:
                return
            if not self.ahead or not (part := await self.take()):
                return
            yield part
            self.bar.add(len(part))

    async def all_parts(self) -> AsyncIterator[bytes]:
        """Yields what is kept, and then all that comes, however long that takes."""
        async for part in super().parts(0):
            yield part
        while True:
            self.start = self.end
            self.file.truncate(0)
            with contextlib.suppress(TimeoutError):  # what has come by then is sent: a gateway waits for 30 s only
                async with asyncio.timeout(QUIET):
                    await self.fill()
            if self.is_over and not self.ahead:
                return
            if self.ahead:
                part = await self.take()
                yield part
                self.bar.add(len(part))


def keeping() -> IO[bytes]:
    """Returns a file without a name; it is in memory if no disk has room for it."""
    try:
        return tempfile.TemporaryFile(buffering=0)
    except OSError:
        return open(os.memfd_create("walrus"), "w+b", buffering=0)


async def readable(source: int) -> None:
    """Waits until something can be read from a descriptor. What cannot be waited for, such as a file, can be read."""
    loop, ready = asyncio.get_running_loop(), asyncio.Event()
    try:
        loop.add_reader(source, ready.set)
    except OSError:
        return
    try:
        await ready.wait()
    finally:
        loop.remove_reader(source)

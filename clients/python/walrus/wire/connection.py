"""A connection whose bytes are read straight into the caller's memory, also over TLS: asyncio's streams copy each byte
six times. It has those methods of a `StreamReader` and a `StreamWriter` that envelopes need."""
import asyncio
import collections
import errno
import mmap
import socket
from collections.abc import Callable, Coroutine, Sequence
from typing import Any, Optional, Union, cast


from walrus.engines import buffers

LANDING, LARGE = 16_384, 65_536  # bytes received ahead of a reader; bytes from which data has a mapping of its own
LACKING, LULL = (errno.EMFILE, errno.ENFILE, errno.ENOBUFS, errno.ENOMEM), 1.0  # passing errors; seconds until a retry
Data = Union[bytes, bytearray, memoryview]


def memory(size: int) -> memoryview:
    """Return memory for `size` bytes; a large one takes little until it is written."""
    return memoryview(bytearray(size) if size < LARGE else buffers.mapped(size))[:size]


def filling(place: memoryview) -> memoryview:
    """Use large pages from now on for a mapping that will soon be filled, and return it."""
    if isinstance(place.obj, mmap.mmap):
        buffers.in_large_pages(place.obj)
    return place


def joined(parts: Sequence[Data]) -> Data:
    """Return the parts joined, in one memory."""
    size, place = sum(map(len, parts)), 0
    data = filling(memory(size))
    for part in parts:
        data[place:][: len(part)] = part
        place += len(part)
    return data


class Wire(asyncio.BufferedProtocol):
    """Reads from a connection and writes to it. At most one task reads at a time."""

    transport: asyncio.Transport

    def __init__(self) -> None:
        self.landing, self.first, self.last = memoryview(bytearray(LANDING)), 0, 0  # bytes received, but not yet read
        self.target: Optional[memoryview] = None  # the rest of the memory that `readinto` is filling
        self.ended, self.paused, self.full = False, False, False
        self.fault: Optional[BaseException] = None
        self.waiting: Optional["asyncio.Future[None]"] = None
        self.draining: "collections.deque[asyncio.Future[None]]" = collections.deque()

    def connection_made(self, transport: asyncio.BaseTransport) -> None:
        self.transport = cast(asyncio.Transport, transport)  # those of uvloop over TLS are no `asyncio.Transport`

    def get_buffer(self, sizehint: int) -> memoryview:
        if self.target:
            return self.target
        if self.first and self.last == LANDING:
            left = bytes(self.landing[self.first :])  # noqa: E203
            self.first, self.last = 0, len(left)
            self.landing[: len(left)] = left
        return self.landing[self.last :]  # noqa: E203

    def buffer_updated(self, nbytes: int) -> None:
        if self.target:
            self.target = self.target[nbytes:]
            if self.target:
                return  # the reader is woken once all of it has arrived
        else:
            self.last += nbytes
            if self.last == LANDING and not self.paused:
                self.paused = True
                self.transport.pause_reading()
        self.wake()

    def eof_received(self) -> bool:
        self.ended = True
        self.wake()
        return self.transport.get_extra_info("sslcontext") is None  # over TLS nothing can be sent after the end

    def connection_lost(self, exc: Optional[BaseException]) -> None:
        self.ended, self.fault = True, exc
        self.wake()
        self.resume_writing()

    def wake(self) -> None:
        if self.waiting and not self.waiting.done():
            self.waiting.set_result(None)

    def at_eof(self) -> bool:
        return self.ended and self.first == self.last

    def exception(self) -> Optional[BaseException]:
        return self.fault

    async def more(self) -> None:
        """Wait until more bytes have arrived, or none will. Raises if the connection has ended already."""
        if self.ended:
            raise self.fault or asyncio.IncompleteReadError(b"", None)
        if self.paused:
            self.paused = False
            self.transport.resume_reading()
        self.waiting = asyncio.get_running_loop().create_future()
        try:
            await self.waiting
        finally:
            self.waiting = None

    def take(self, most: int) -> memoryview:
        """Return what has arrived, at most `most` bytes: a view that is valid until more bytes arrive."""
        found = self.landing[self.first : self.last][:most]  # noqa: E203
        self.first += len(found)
        if self.first == self.last:
            self.first = self.last = 0
        return found

    async def read(self, most: int) -> bytes:
        """Wait for bytes and return them, from one to `most`; none if the connection has ended."""
        while self.first == self.last:
            if self.ended:
                return b""
            await self.more()
        return bytes(self.take(most))

    async def readinto(self, target: memoryview) -> None:
        """Read until the target is full. Raises `EOFError`, or the connection's fault, if it ends before that."""
        found = self.take(len(target))
        target[: len(found)] = found
        self.target = target[len(found) :]  # noqa: E203
        try:
            while self.target:
                await self.more()
        finally:
            self.target = None

    def divert(self) -> None:
        """Make the pending `readinto` write to other memory from now on, since its target gets another use."""
        if self.target:
            self.target = memoryview(bytearray(len(self.target)))

    async def readexactly(self, size: int) -> Data:
        """Return the next `size` bytes, as `bytes` if they are few, otherwise as a read-only view of a mapping."""
        target = filling(memory(size))
        await self.readinto(target)
        return bytes(target) if size < LARGE else target.toreadonly()

    def write(self, data: Data) -> None:
        self.transport.write(data)

    def pause_writing(self) -> None:
        self.full = True

    def resume_writing(self) -> None:
        self.full = False
        for waiting in self.draining:
            if not waiting.done():
                waiting.set_result(None)
        self.draining.clear()

    async def drain(self) -> None:
        """Wait while the write buffer is full. Raises `ConnectionError`, or the connection's fault, if it was lost."""
        if self.full and not self.ended:
            waiting = asyncio.get_running_loop().create_future()
            self.draining.append(waiting)
            await waiting
        if self.transport.is_closing() or self.fault:
            raise self.fault or ConnectionResetError("the connection was lost")

    def get_extra_info(self, name: str) -> Any:
        return self.transport.get_extra_info(name)

    def close(self) -> None:
        self.transport.close()


async def connect(host: str, port: int, **words: Any) -> Wire:
    """Connect to an address; `words` are further arguments of `create_connection`."""
    _, wire = await asyncio.get_running_loop().create_connection(Wire, host, port, **words)
    return wire


def bound(host: str, port: int) -> list[socket.socket]:
    """Return listening sockets, one for each address of a host, except for address families that this system lacks."""
    made = list[socket.socket]()
    try:
        found = socket.getaddrinfo(host or None, port, type=socket.SOCK_STREAM, flags=socket.AI_PASSIVE)
        for family, _, _, _, address in dict.fromkeys(found):  # a name may have the same address twice
            try:
                made.append(socket.create_server(address, family=family, backlog=1024))
            except OSError as fault:
                if fault.errno != errno.EAFNOSUPPORT or len(found) == 1:
                    raise
            else:
                made[-1].setblocking(False)
    except OSError:
        for listening in made:
            listening.close()
        raise
    return made


async def accept(listening: socket.socket, come: Callable[[socket.socket, Any], Coroutine[Any, Any, None]]) -> None:
    """Accept connections, and start a task `come` with each and its address before anything is read from it. A lack of
    resources, such as descriptors, is reported to the loop's exception handler, and accepting is retried."""
    loop = asyncio.get_running_loop()
    with listening:
        while True:
            pause = 0.0  # other tasks run between two connections
            try:
                loop.create_task(come(*await loop.sock_accept(listening)))
            except OSError as fault:
                if fault.errno in LACKING:
                    pause = LULL
                    loop.call_exception_handler({"message": "no connection can be accepted now", "exception": fault})
            await asyncio.sleep(pause)

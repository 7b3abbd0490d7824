"""The body of a request with several files, a tar or a form, as a stream that is read in amounts of any size."""
from typing import AsyncGenerator, AsyncIterator


from walrus.network.gateway.http.errors import Problem

HEAD = 4_096  # the most bytes of a file's head in a form, and of what a form has beside each file
MARKS = 32  # the most semicolons in such a head: parsing each parameter takes longer the more there are
BROKEN = "the tar breaks off or is malformed: make it with tar --create, without compression"
Parts = AsyncIterator[bytes]


class Source:
    """A buffered stream with the methods that aiohttp's reader of forms needs (the last four)."""

    def __init__(self, stream: Parts):
        self.stream, self.kept, self.is_over = stream, bytearray(), False
        self.head = self.marks = 0  # bytes and semicolons of the present head so far

    async def fill(self) -> bool:
        """Buffers the next part of the stream; returns whether there was one."""
        part = await anext(self.stream, None)
        self.kept += part or b""
        self.is_over = part is None
        return not self.is_over

    def take(self, size: int) -> bytes:
        taken = bytes(self.kept[:size])
        del self.kept[:size]
        return taken

    async def exactly(self, size: int) -> bytes:
        """Returns `size` bytes, or fewer if the stream ends before."""
        while len(self.kept) < size and await self.fill():
            pass
        return self.take(size)

    async def parts(self, size: int) -> AsyncGenerator[bytes, None]:
        """Yields `size` bytes in parts; raises `Problem` if the stream ends before."""
        while size:
            if not self.kept and not await self.fill():
                raise Problem(400, BROKEN)
            part = self.take(size)
            size -= len(part)
            yield part

    async def zeros(self) -> None:
        """Reads the rest of the stream; raises `Problem` if it has a byte other than zero."""
        while self.kept or await self.fill():
            if self.take(len(self.kept)).strip(b"\0"):
                raise Problem(400, "something follows the end of the tar: store one tar at a time")

    async def rest(self) -> None:
        """Reads and discards the rest of the stream."""
        while self.kept or await self.fill():
            self.kept.clear()

    async def read(self, size: int) -> bytes:
        """Returns `size` bytes of a file, fewer only at the end: aiohttp misses a boundary that spans three reads."""
        self.head = self.marks = 0
        return await self.exactly(size)

    async def readline(self, **_: int) -> bytes:
        """Returns a line of a file's head; raises `Problem` if the head is too long or has too many semicolons."""
        while not (end := self.kept.find(b"\n") + 1) and len(self.kept) <= HEAD and await self.fill():
            pass
        line = self.take(end or len(self.kept))
        self.head, self.marks = self.head + len(line), self.marks + line.count(b";")
        if self.head > HEAD:
            raise Problem(400, f"the head of a file has more than {HEAD} bytes: give it a shorter name")
        if self.marks > MARKS:
            raise Problem(400, f"the head of a file has more than {MARKS} semicolons: give it a name with fewer")
        return line

    def unread_data(self, data: bytes) -> None:
        self.kept[:0] = data

    def at_eof(self) -> bool:
        return self.is_over and not self.kept

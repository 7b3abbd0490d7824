"""The pieces of files that are received or sent, while they wait.

A piece that arrives slowly takes hardly any memory: all but a little goes to a file without a name, which is mapped
once it is the piece's turn. A piece that was read is kept in such a file, too, until it is sent."""
import os
import pathlib
import threading
from typing import IO, AsyncGenerator, AsyncIterator, Optional, Union

from walrus.network.files.sealed import CHUNK, Away, Blob, Data, Sealed
from walrus.network.gateway.http.errors import Problem
from walrus.network.service.threads import DISK, in_thread, to_the_end

AHEAD = 131_072  # bytes of a piece that stay in memory while it arrives
FULL = "not all of it is stored: the gateway has too little room on its disk for it; send it again later"


def write(file: IO[bytes], data: memoryview) -> None:
    """Writes all of `data` to an unbuffered file, of which one call may write only a part."""
    while data:
        data = data[file.write(data) :]  # noqa: E203


def lack_at(place: Union[int, str, pathlib.Path], size: int, reserve: float, beside: int = 0) -> float:
    """Returns the bytes that a disk lacks for `size` more ones if `reserve`, a part of it, stays free, and as much
    again, but at most `beside` bytes; 0 or less if none."""
    disk = os.statvfs(place)
    kept = reserve * disk.f_blocks * disk.f_frsize
    return kept + min(kept, beside) + size - disk.f_bavail * disk.f_frsize


def must_fit(place: Union[int, pathlib.Path], size: int, reserve: float, full: str) -> None:
    """Raises `Problem` (507, with the text `full`) if a disk lacks room for `size` more bytes beside `reserve`."""
    if lack_at(place, size, reserve) > 0:
        raise Problem(507, full)


async def part_of(blob: Blob, start: int, end: int) -> Union[bytes, memoryview]:
    """Returns a span of a blob; raises `Damaged` if it is in a file, and the disk gives back something else. A thread
    reads it only if the system does not have it in memory: to go there and back takes as long as to read 256 KiB."""
    if not isinstance(blob, Away):
        return memoryview(blob)[start:end]
    found = blob.at_once(start, end) if isinstance(blob, Sealed) and start < end else None
    return await in_thread(blob.read, start, end) if found is None else found


async def parts_of(blob: Blob, start: int = 0) -> AsyncIterator[Union[bytes, memoryview]]:
    """Yields a blob from a byte on in parts; raises as `part_of` does. A chunk of a file is read and checked once."""
    while start < len(blob):
        end = min((start // CHUNK + 1) * CHUNK, len(blob))
        yield await part_of(blob, start, end)
        start = end


async def in_memory(blob: Blob) -> Union[bytes, memoryview]:
    """Returns all of a blob in memory; raises as `part_of` does."""
    return await to_the_end(blob.read, 0, len(blob)) if isinstance(blob, Away) else blob


class Spool:
    """Data that arrives: the end of it is in memory, and all before that in a file without a name. Threads write and
    read the file, so that a busy disk holds up nobody else. `reserve` is the fraction of the disk that stays free."""

    chunk = CHUNK  # bytes of the file that are read, and checked, together
    full = FULL  # the text of the error if less than that would stay free

    def __init__(self, reserve: float = 0.0) -> None:
        self.reserve = reserve
        self.kept, self.start = bytearray(), 0  # data in memory, and the number of bytes before it
        self.file: Optional[Sealed] = None  # made by the first thread that writes
        self.turn, self.is_away = threading.RLock(), False  # guards the file; whether any data went to it

    @property
    def end(self) -> int:
        return self.start + len(self.kept)

    async def add(self, data: Union[bytes, memoryview]) -> None:
        if len(self.kept) + len(data) <= AHEAD:
            self.kept += data
        else:
            await self.flush(data)

    async def flush(self, data: Union[bytes, memoryview] = b"") -> None:
        """Writes the data in memory, followed by `data`, to the file."""
        kept, place = self.taken()
        self.start += len(data)
        await in_thread(self.write, place, kept, data)

    def taken(self) -> tuple[bytearray, int]:
        """Takes the data out of memory, and returns it with its place in the file."""
        kept, place = self.kept, self.start
        self.kept, self.start, self.is_away = bytearray(), self.end, True
        return kept, place

    def write(self, place: int, *parts: Data) -> Sealed:
        with self.turn:
            if self.file is None:
                self.file = Sealed(self.chunk)
            must_fit(self.file.file, sum(map(len, parts)), self.reserve, self.full)
            if place < len(self.file):
                self.file.cut(place)
            self.file.add(b"".join(parts))
            return self.file

    async def whole(self) -> Blob:
        """Returns all data that arrived, in its file if a part is there. May be called only once."""
        if not self.is_away:
            return bytes(self.kept)
        kept, place = self.taken()
        file, self.file = await in_thread(self.write, place, kept), None
        return file

    def close(self) -> None:
        """Drops the file once no thread uses it, in a thread: to free the room of a long one takes a while."""
        if self.is_away:
            DISK.submit(self.drop)

    def drop(self) -> None:
        with self.turn:
            self.file = None


async def split(stream: AsyncIterator[Data], size: int, reserve: float = 0.0) -> AsyncGenerator[Blob, None]:
    """Yields the pieces, of `size` bytes, of a file that arrives in parts of any length; one at least, maybe empty."""
    spool, full = Spool(reserve), list[Blob]()
    try:
        async for part in stream:
            view = memoryview(part)
            while spool.end + len(view) > size:  # a piece is yielded once something follows it
                rest = size - spool.end
                await spool.add(view[:rest])
                full.append(await spool.whole())
                view, spool = view[rest:], Spool(reserve)
                yield full.pop()  # so that no reference to it stays here
            await spool.add(view)
        yield await spool.whole()
    finally:
        spool.close()

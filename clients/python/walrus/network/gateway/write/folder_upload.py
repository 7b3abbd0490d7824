"""Receives a folder over HTTP. Its bytes wait in a file without a name until the last one has arrived, so that nothing
of a refused folder is stored. Then large files are stored, small ones in packs, and the manifest last."""
import asyncio
import contextlib
import copy
import hashlib
import sqlite3
from typing import Any, AsyncIterator, Coroutine, Iterator


from walrus.network.files.file_list import PIECE
from walrus.network.files.manifest import MARK, Place, TooMany, Wrong
from walrus.network.files.packing import SMALL, WRITTEN, Folder
from walrus.network.gateway.auth.shares import Charge, count_of
from walrus.network.gateway.bodies.archives import Coming, opened
from walrus.network.gateway.bodies.source import Source
from walrus.network.gateway.http.errors import Problem
from walrus.network.gateway.resources import spool
from walrus.network.ledger.entries import LAST_UNTIL
from walrus.network.service.task_groups import several
from walrus.network.service.threads import in_thread

from .writer import Told, Writer

AT_ONCE, AHEAD = 16, 4  # folders received at once; files and packs of one folder that are stored at once
FULL = (
    "the folder is not stored: the gateway keeps all of it on its disk until the last name is known, and has too little"
    " room there; use walrus-net store FOLDER, which checks the names first and sends one file after the other"
)


class Costs(Charge):
    """What a folder costs of a token's share: its bytes as they arrive, and in the end only what is stored and new."""

    def __init__(self, charge: Charge, least: int = 1):
        super().__init__(charge.shares, charge.token, charge.epoch)
        self.stored, self.count, self.least = 0, 0, least  # bytes and blobs stored; the least number of blobs

    def replace(self, size: int) -> None:
        self.take(size, self.stored, self.count)
        self.size = size

    def take(self, size: int, stored: int, count: int) -> None:
        """Charges for a folder of which `size` bytes have arrived, and `stored` bytes in `count` blobs are stored."""
        self.set_to(max(size, stored), max(self.least, count))

    def more(self, size: int, count: int) -> None:
        """Charges for `size` more bytes and `count` more blobs. Raises as `add` does; then they are not counted."""
        self.take(self.size, self.stored + size, self.count + count)
        self.stored, self.count = self.stored + size, self.count + count

    def less(self, size: int, count: int) -> None:
        """Stops counting these bytes and blobs. The share gets them back with the next charge."""
        self.stored, self.count = self.stored - size, self.count - count

    def settle(self, is_stored: bool, is_new: bool) -> None:
        self.set_to(self.stored, self.count)


class Storing:
    """Files that are stored together until the same epoch. Identifiers of certified pieces are added to `stored`."""

    def __init__(self, writer: Writer, costs: Costs, epochs: int, stored: list[bytes]):
        self.writer, self.costs, self.stored, self.is_new = writer, costs, stored, False
        self.until = writer.network.ledger.writing_epoch + epochs
        self.end = LAST_UNTIL  # the first epoch in which one of the stored files is not kept

    async def store(self, stream: AsyncIterator[bytes]) -> Told:
        """Stores a file until the epoch that was fixed when the first one began to arrive. Each part is charged before
        it is stored; if the file fails, only its whole pieces remain charged."""
        size = 0

        async def counted() -> AsyncIterator[bytes]:
            nonlocal size
            async for part in stream:
                self.costs.more(len(part), count_of(size + len(part)) - count_of(size))
                size += len(part)
                yield part

        self.costs.more(0, count_of(0))
        try:
            epochs = max(0, self.until - self.writer.network.ledger.writing_epoch)
            told = await self.writer.store(counted(), epochs, self.stored)
        except BaseException:  # for example, another file of the folder failed
            whole = max(0, size - 1) // PIECE
            self.costs.less(size - whole * PIECE, count_of(size) - whole)
            raise
        self.end = min(self.end, told["endEpoch"])
        if told["alreadyCertified"]:
            self.costs.less(size, count_of(size))
        else:
            self.is_new = True
        return told

    async def store_named(self, path: str, kind: str, stream: AsyncIterator[bytes]) -> Told:
        """Stores a file, and the manifest of a folder that has this file alone, as `path` with media type `kind`."""
        told = await self.store(stream)
        size, file = told["size"], bytes.fromhex(told["blobId"])
        offset = 0 if 0 < size <= SMALL else None  # a small file is a pack of its own
        manifest = MARK + Place(path, kind, size, file if size else b"", offset).line()
        folder = await self.store(once(manifest))
        return self.of_all(told) | {"named": {"folder": folder["blobId"], "type": kind}}

    def of_all(self, told: Told) -> Told:
        """Returns the answer for one file with what is true of all: whether any is new, and until when all are kept."""
        return {**told, "alreadyCertified": not self.is_new, "endEpoch": self.end}


class Spool(spool.Spool):
    """Holds the bytes of a folder as they arrive."""

    chunk = 65_536  # small files are read one by one
    full = FULL

    def cut(self, end: int) -> None:
        """Drops everything from offset `end` on: what arrives next takes its place."""
        del self.kept[max(0, end - self.start) :]  # noqa: E203
        self.start = min(self.start, end)

    async def read(self, *spans: tuple[int, int]) -> bytes:
        """Returns the bytes at these (length, offset) spans, concatenated; `flush` must have written them. They are
        read in the order of the file, so that each chunk of it is read and checked once."""

        def read() -> bytes:
            with self.turn:
                assert self.file is not None
                found = {at: self.file.peek(at, at + length) for length, at in sorted(spans, key=lambda it: it[1])}
                return b"".join(found[at] for _, at in spans)

        return await in_thread(read)


class Upload(Storing):
    """The upload of one folder. `reserve` is the fraction of the disk that stays free while it arrives."""

    def __init__(self, writer: Writer, costs: Costs, epochs: int, reserve: float, stored: list[bytes]):
        super().__init__(copy.copy(writer), costs, epochs, stored)
        self.folder, self.spool = Folder(), Spool(reserve)
        self.writer.reserve = 0.0  # a folder that has arrived whole is not refused for lack of room

    async def store_folder(self, kind: str, stream: AsyncIterator[bytes]) -> Told:
        """Receives a whole body of media type `kind`, then stores its files, and the manifest last."""
        try:
            async with contextlib.aclosing(opened(kind)(Source(stream))) as files:
                async for coming in files:
                    await self.take(coming)
            await self.spool.flush()
            await several(self.parts(), AHEAD)
            told = await self.store(spread(self.folder))
            found = {"files": self.folder.count, "bytes": self.folder.bytes}
            return self.of_all(told) | {"folder": found}
        except sqlite3.Error as fault:
            words = f"the gateway cannot keep what it knows of the folder: {fault}; try again later"
            raise Problem(503, words) from None
        finally:
            self.folder.close()
            self.spool.close()

    async def take(self, coming: Coming) -> None:
        """Keeps the next file in the spool until all names are known."""
        path, start, digest = coming.path, self.spool.end, hashlib.sha256()
        await asyncio.sleep(0)  # many files may arrive in one part: other tasks run between them
        try:
            self.folder.begin(path)
        except Wrong as fault:
            raise Problem(413 if isinstance(fault, TooMany) else 400, f"{fault}; no folder is stored") from None
        async for part in coming.parts:
            await self.spool.add(part)
            if self.spool.end - start <= SMALL:
                digest.update(part)
        size = self.spool.end - start
        if size > SMALL:
            self.folder.add_large(path, size, start)
        elif size:
            if self.folder.knows(digest.digest()):
                self.spool.cut(start)  # its bytes are there: the next file takes its place
            self.folder.add_small(path, size, digest.digest(), start)

    async def kept(self, length: int, start: int) -> AsyncIterator[bytes]:
        """Yields `length` bytes of the spool from `start` on, in parts: other tasks run between them."""
        for at in range(start, start + length, WRITTEN):
            yield await self.spool.read((min(WRITTEN, start + length - at), at))

    async def store_file(self, path: str, length: int, start: int) -> None:
        told = await self.store(self.kept(length, start))
        self.folder.add(path, length, bytes.fromhex(told["blobId"]))

    async def store_pack(self, number: int, pack: list[tuple[bytes, int, Any]]) -> None:
        told = await self.store(once(await self.spool.read(*((length, at) for _, length, at in pack))))
        self.folder.place(number, bytes.fromhex(told["blobId"]))

    def parts(self) -> Iterator[Coroutine[Any, Any, None]]:
        """Yields the coroutines that store each large file, and each pack."""
        for file in self.folder.large():
            yield self.store_file(*file)
        for number, pack in enumerate(self.folder.packs()):
            yield self.store_pack(number, pack)


async def once(data: bytes) -> AsyncIterator[bytes]:
    yield data


async def spread(folder: Folder) -> AsyncIterator[bytes]:
    """Yields the manifest of a folder in parts: other tasks run between them."""
    for part in folder.manifest():
        await asyncio.sleep(0)
        yield part

"""Caches manifests that were read and checked. What turned out to be no manifest is kept too, so it is read once."""
import asyncio
import collections
import concurrent.futures
import dataclasses
from typing import Callable, Iterator, Optional, Sized, TypeVar


from walrus.network.files.file_list import MOST_PIECES, NAME, PIECE, File
from walrus.network.files.manifest import MARK, MOST_BYTES, Foreign, Manifest, Place, Wrong
from walrus.network.files.sealed import Blob, Damaged, Sealed, front_of, is_away
from walrus.network.gateway.http.errors import Problem
from walrus.network.gateway.resources.spool import in_memory, parts_of
from walrus.network.gateway.resources.turns import ASKING, Turns
from walrus.network.service.threads import in_thread, to_the_end

from .reader import TRIES, Reader

MOST, ROOM, SLIGHT = 128, 67_108_864, 65_536  # most manifests kept; their bytes; bytes of one that memory holds
CHUNK = 16_384  # bytes of a manifest that are read, and checked, to look up a line of it
WAITING = 8  # clients that wait for a manifest at once; one manifest at a time is read
TOGETHER = 1_024  # blobs or files that are handled before other tasks run
MOST_BLOBS = MOST_PIECES + 1  # most that one request keeps for longer: those of the longest file
MANY = f"it has more than {MOST_BLOBS:,} blobs: keep parts of it for longer, such as each file of a folder"
Result = TypeVar("Result")
NO_FOLDER = "the blob is no folder: read it under /v1/blobs"
LISTS = concurrent.futures.ThreadPoolExecutor(5, "lists")  # two lists of folders, two of blobs, and
# one manifest that is read: each takes seconds, in which other threads encode blobs


class Many(Problem):
    """A file or folder has more blobs than the caller allows."""


@dataclasses.dataclass(frozen=True)
class Part(File):
    """A file that is a part of another one."""

    file: File
    offset: int

    def pieces(self, start: int, end: int) -> Iterator[tuple[bytes, int, int, int]]:
        return self.file.pieces(start + self.offset, end + self.offset)


class Shelf:
    """The manifests of folders, by identifier."""

    def __init__(self, reader: Reader):
        self.reader, self.turn = reader, asyncio.Semaphore(1)
        self.turns = Turns(WAITING, 1)  # of clients that wait for one to be read
        self.loading = dict[bytes, "asyncio.Task[None]"]()
        self.kept: "collections.OrderedDict[bytes, Manifest]" = collections.OrderedDict()
        self.none = dict[bytes, tuple[int, str]]()  # status and text of the error for what is no manifest

    async def manifest(self, name: bytes) -> Manifest:
        """Returns the manifest of a folder; raises `Problem` if it is none, or cannot be read."""
        self.reader.must_stand(name)
        while (found := self.known(name)) is None:
            async with self.turns.take(ASKING.get()):
                if self.known(name) is None:
                    if name not in self.loading:
                        self.loading[name] = task = asyncio.create_task(self.load(name))
                        task.add_done_callback(lambda it: it.cancelled() or it.exception())  # even if nobody waits
                    await asyncio.shield(self.loading[name])
        return found

    async def look(self, name: bytes, work: Callable[[Manifest], Result]) -> Result:
        """Returns what `work` finds in a manifest, in a thread if that is in a file. If the disk gives back something
        else than was read, the manifest is read anew. Raises as `manifest` does, and `Damaged` if that does not help.
        """
        for left in reversed(range(TRIES)):
            found = await self.manifest(name)
            try:
                return await in_thread(work, found) if is_away(found.data) else work(found)
            except Damaged:
                if not left:
                    raise
        raise AssertionError

    def known(self, name: bytes) -> Optional[Manifest]:
        """Returns a manifest if it is kept, else None; raises `Problem` for what is known to be none."""
        if name in self.none:
            raise Problem(*self.none[name], manifest=False)
        if name in self.kept and self.kept[name].is_damaged():
            del self.kept[name]
        if name in self.kept:
            self.kept.move_to_end(name)
        return self.kept.get(name)

    async def load(self, name: bytes) -> None:
        """Reads what may be a manifest, and keeps it, or why it is none: what is none never displaces a manifest."""
        # In this task alone: other clients wait for it too, and must not wait behind all that the first one asks for.
        ASKING.set("folders")
        try:
            async with self.turn:
                data = await self.read(name)
                self.kept[name] = await asyncio.get_running_loop().run_in_executor(LISTS, Manifest, data)
        except Foreign:
            self.none[name] = 404, NO_FOLDER
        except Wrong as fault:
            self.none[name] = 410, f"the folder's manifest is malformed: {fault}"
        finally:
            del self.loading[name]
        if len(self.none) > MOST:
            del self.none[next(iter(self.none))]
        while len(self.kept) > MOST or len(self.kept) > 1 and sum(len(it.data) for it in self.kept.values()) > ROOM:
            self.kept.popitem(last=False)

    async def read(self, name: bytes) -> Blob:
        """Returns the bytes of what may be a manifest, in a file without a name if they are many."""
        async with self.reader.blob(name) as blob:
            file = File.of(name, blob)
            if file.names == name and front_of(blob, len(MARK)) != MARK:
                raise Foreign("it does not begin as a manifest does")
            if file.length <= SLIGHT and file.names == name:
                return bytes(await in_memory(blob))
            del blob
        out = Sealed(CHUNK)

        async def copy(blob: Blob) -> None:
            if not len(out) and front_of(blob, len(MARK)) != MARK:
                raise Foreign("it does not begin as a manifest does")
            if file.length > MOST_BYTES:
                raise Wrong(f"it has more than {MOST_BYTES} bytes")
            async for part in parts_of(blob, len(out) % PIECE):
                await to_the_end(out.add, part)

        for piece, size, _, _ in file.pieces(0, file.length):
            await self.reader.within(piece, copy, size)
        return out

    async def file(self, place: Place) -> File:
        """Returns the file at a place; raises 410 if it has another length than its manifest says."""
        if not place.length:
            return File(0, b"")
        async with self.reader.blob(place.file) as blob:
            file = File.of(place.file, blob)
        end = (place.offset or 0) + place.length
        if end > file.length or file.length > (place.length if place.offset is None else PIECE):
            raise Problem(410, "the folder's manifest is false: this file has another length")
        return file if place.offset is None else Part(place.length, b"", file, place.offset)

    async def consists(self, name: bytes, most: int) -> dict[bytes, int]:
        """Returns the blobs of a file, or of all of a folder, the one of this name first, with the bytes of each: of a
        list those of its names. Raises `Problem` if one is uncertified or invalid, and `Many` if they are more than
        `most`."""
        async with self.reader.blob(name) as blob:
            file, front = File.of(name, blob), front_of(blob, len(MARK))
        found = dict[bytes, int]()
        await self.add_blobs(found, name, file, most)
        if file.names != name and file.length <= MOST_BYTES:
            async with self.reader.blob(next(file.pieces(0, 1))[0]) as blob:
                front = front_of(blob, len(MARK))
        if front != MARK:
            return found
        try:
            manifest = await self.manifest(name)
        except Problem as fault:
            if "manifest" in fault.more:  # it begins as one but is none: an ordinary file
                return found
            raise
        sizes = dict[bytes, int]()
        for number, place in enumerate(manifest):
            if place.length:
                self.reader.must_stand(place.file)
                sizes[place.file] = max(sizes.get(place.file, 0), (place.offset or 0) + place.length)
                must_be_few(sizes, most)
            if number % TOGETHER == 0:
                await asyncio.sleep(0)
        for other, size in sizes.items():
            self.reader.must_stand(other)
            length = None if size > PIECE else await self.reader.lengths.of_file(other)
            if length is None:
                async with self.reader.blob(other) as blob:
                    await self.add_blobs(found, other, File.of(other, blob), most)
            else:  # not what the manifest says: anybody may write less there
                await self.add_blobs(found, other, File(length, other), most)
        return found

    async def add_blobs(self, found: dict[bytes, int], name: bytes, file: File, most: int) -> None:
        """Adds the blobs of a file, each after a check that it is certified: invented identifiers take no memory. This
        takes seconds for the longest file; other tasks run meanwhile."""
        found.setdefault(name, 0 if file.names == name else len(file.names))  # anybody may list 16 MiB of equal names
        for number, (piece, size, _, _) in enumerate(file.pieces(0, file.length)):
            if number % TOGETHER == 0:
                await asyncio.sleep(0)
            if len(piece) == NAME:
                self.reader.must_stand(piece)
                found[piece] = max(size, found.get(piece, 0))
                must_be_few(found, most)
        if file.names != name:  # its last piece may be longer than its list says
            found[piece] = max(found[piece], await self.reader.lengths.of_blob(piece) or 0)

    async def close(self) -> None:
        tasks = [*self.loading.values()]
        for task in tasks:
            task.cancel()
        await asyncio.gather(*tasks, return_exceptions=True)


def must_be_few(found: Sized, most: int) -> None:
    """Raises `Many` if there are more than `most` blobs."""
    if len(found) > most:
        raise Many(413, MANY)

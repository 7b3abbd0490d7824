"""Caches blobs that were read and checked. Many requests for one blob at once cause one read. Small blobs are in
memory, others in files without a name, so that a client that reads slowly holds no memory."""
import asyncio
import collections
import contextlib
import dataclasses
import functools
from typing import AsyncIterator, Awaitable, Callable


from walrus import client
from walrus.network.files.sealed import Blob, Sealed, is_away


# How blobs count towards the room: the least for one in a file; the factor for bytes in memory.
LEAST, TIMES = 8_388_608, 64
EXTRA = TIMES * 1_024  # what an entry counts for beside its blob, as it is in memory
LASTING = client.BadlyEncoded, client.NoBundle  # faults of the blob itself, which stay


@dataclasses.dataclass(eq=False)
class Entry:
    """A blob that was read or is being read, the bytes that it counts for, and the number of its users just now."""

    task: "asyncio.Task[Blob]"
    size: int = client.LARGEST_BLOB + EXTRA
    users: int = 0

    def found(self) -> Blob:
        """Returns the blob, or nothing if it has not been read."""
        is_read = self.task.done() and not self.task.cancelled() and not self.task.exception()
        return self.task.result() if is_read else b""

    def droppable(self) -> int:
        """Returns the bytes of the disk that are free once this is dropped; 0 if it is used, or not in a file."""
        return len(self.found()) if not self.users and is_away(self.found()) else 0

    def is_damaged(self) -> bool:
        """Whether the disk has given back something else than what was read."""
        blob = self.found()
        return isinstance(blob, Sealed) and blob.is_damaged


class Cache:
    """Blobs by identifier, within `room` bytes, in which those being read and those being sent count too."""

    def __init__(self, read: Callable[[bytes, int], Awaitable[Blob]], room: int, turns: int):
        self.read, self.room = read, max(room, client.LARGEST_BLOB + EXTRA)
        self.turns = asyncio.Semaphore(turns)
        self.entries: "collections.OrderedDict[bytes, Entry]" = collections.OrderedDict()
        self.freed = asyncio.Event()
        self.size = self.hits = self.reads = 0

    @contextlib.asynccontextmanager
    async def use(self, identifier: bytes, size: int = 0) -> AsyncIterator[Blob]:
        """Yields a blob, which stays in the cache while it is used. `size` is its expected size, 0 if none is known.
        Raises what reading the blob raises."""
        while not (entry := self.find(identifier, size)):
            self.freed.clear()
            await self.freed.wait()
        entry.users += 1
        try:
            try:
                blob = await asyncio.shield(entry.task)
            except LASTING as fault:
                raise afresh(fault) from None
            yield blob
        finally:
            entry.users -= 1
            self.freed.set()

    def find(self, identifier: bytes, size: int = 0) -> "Entry | None":
        """Returns the entry of a blob, and begins to read it if there is none, or if the disk has damaged it; None if
        there is no room for it."""
        entry = self.entries.get(identifier)
        if entry and entry.is_damaged():
            self.size, entry = self.size - self.entries.pop(identifier).size, None
        if entry:
            self.hits += 1
            self.entries.move_to_end(identifier)
        elif self.make_room():
            entry = self.entries[identifier] = Entry(asyncio.create_task(self.load(identifier, size)))
            self.size += entry.size
            entry.task.add_done_callback(functools.partial(self.loaded, identifier, entry))
        return entry

    def make_room(self) -> bool:
        """Drops unused entries, the least recently wanted first, until the largest blob has room. Returns whether it
        has."""
        while self.size + client.LARGEST_BLOB + EXTRA > self.room:
            unused = next((it for it, entry in self.entries.items() if entry.task.done() and not entry.users), None)
            if unused is None:
                return False
            self.size -= self.entries.pop(unused).size
        return True

    def give_way(self, size: float) -> bool:
        """Drops unused blobs in files, the least recently wanted first, until that frees `size` bytes of the disk.
        Returns whether it does."""
        for identifier, entry in [*self.entries.items()] if size > 0 else []:
            if size > 0 and (freed := entry.droppable()):
                self.size -= self.entries.pop(identifier).size
                size -= freed
        return size <= 0

    async def load(self, identifier: bytes, size: int) -> Blob:
        async with self.turns:
            self.reads += 1
            try:
                return await self.read(identifier, size)
            except LASTING as fault:
                told = afresh(fault)
        raise told  # not in the `except` clause, as `fault` would be its context

    def loaded(self, identifier: bytes, entry: Entry, task: "asyncio.Task[Blob]") -> None:
        self.freed.set()
        fault = None if task.cancelled() else task.exception()
        if self.entries.get(identifier) is not entry:  # it was dropped as soon as the task had ended
            return
        self.size -= entry.size
        if task.cancelled() or fault and not isinstance(fault, LASTING):
            del self.entries[identifier]
        else:  # it was read, or has a fault that stays
            entry.size = EXTRA + (0 if fault else cost_of(task.result()))
            self.size += entry.size

    async def close(self) -> None:
        for entry in self.entries.values():
            entry.task.cancel()
        await asyncio.gather(*(it.task for it in self.entries.values()), return_exceptions=True)


def cost_of(blob: Blob) -> int:
    """Returns the bytes that a blob counts for in the room."""
    return max(LEAST, len(blob)) if is_away(blob) else min(TIMES * len(blob), client.LARGEST_BLOB)


def afresh(fault: client.Refused) -> client.Refused:
    """Returns a fault like this one, but without its traceback and what each shard said: if they were kept with it, all
    that was read would stay in memory."""
    return type(fault)(fault.status, fault.text, {}, fault.code)

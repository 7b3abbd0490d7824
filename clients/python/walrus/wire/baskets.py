"""Memory for large payloads of several replies that are needed together, and for no more of them than are needed."""

import mmap
import time
from collections.abc import Sequence
from typing import Optional, Union


from walrus.format.envelopes import HEAD, MARK

from . import connection as wire
from .connection import Data

FRONT = 131_072  # bytes reserved before the large payloads, enough for the longest metadata
PART = 262_144  # the most bytes of a payload that are read at once
PATIENCE = 1.0  # seconds for a payload to arrive; after them a surplus one may take its place
PAST = memoryview(bytearray(65_536))  # scratch memory for bytes that are discarded
PASSED = memoryview(b"")  # returned for a payload that was discarded (compared by identity)
OFFERED = memoryview(b"")  # returned for a discarded payload that is as long as a proof


class Place:
    """The place of one payload that arrives on a wire: its memory, while it is needed, and how many bytes arrived."""

    def __init__(self, wire: wire.Wire, memory: Optional[memoryview] = None) -> None:
        self.wire, self.memory, self.came, self.since = wire, memory, 0, time.monotonic()


class Basket:
    """One memory into which several shards' large payloads are read at the same time. Each is in an envelope, one after
    the other, so together they are one stream without a copy; in front is room for small payloads. All payloads have
    the length `size`. A surplus payload takes the place of a slow one. If none is slow, it is discarded: read to its
    end, so that the connection stays in step, but not kept. So are payloads that are no longer needed or have another
    length. One as long as a proof, which any shard may send, is reported as `OFFERED`: it must be requested alone."""

    def __init__(self, count: int, most: int = 0, size: int = 0) -> None:
        self.count, self.most, self.size = count, max(count, most), size  # places now and at most, and bytes of each
        self.proofs: tuple[int, ...] = ()  # the lengths that a proof may have, in bytes
        self.memory, self.places = memoryview(b""), list[Place]()
        self.is_read, self.is_closed = False, False

    def takes(self, size: int) -> bool:
        """Whether this object receives a payload of `size` bytes (to keep or discard it), instead of the caller."""
        return size >= wire.LARGE

    async def receive(self, stream: wire.Wire, size: int) -> Data:
        """Read a payload of `size` bytes from a wire and return it, read-only. A discarded one gives `PASSED` if it
        lacked a place, `OFFERED` if it is as long as a proof, and otherwise an empty `bytes`."""
        place = self.place(stream, size)
        try:
            while place.came < size:
                target = PAST if place.memory is None else place.memory[place.came :][:PART]  # noqa: E203
                target = target[: size - place.came]
                await stream.readinto(target)
                place.came += len(target)
        except BaseException:
            self.empty(place)
            raise
        return self.instead(size) if place.memory is None else place.memory.toreadonly()

    def instead(self, size: int) -> Data:
        """Return what `receive` returns in place of a discarded payload of `size` bytes."""
        return PASSED if self.is_closed or size == self.size else OFFERED if size in self.proofs else b""

    def place(self, stream: wire.Wire, size: int) -> Place:
        """Return a place for a payload; if there is none for it, one without memory, so that it is discarded."""
        if self.is_closed or size != self.size:
            return Place(stream)
        if not self.memory:  # pages of it that are never written take no memory
            self.memory = wire.filling(wire.memory(FRONT + self.most * (HEAD.size + size)))
        number = self.vacant()
        if number >= self.count and not self.give_way():
            return Place(stream)
        number = self.vacant()
        start = FRONT + number * (HEAD.size + size)
        HEAD.pack_into(self.memory, start, MARK, 0, size)
        place = Place(stream, self.memory[start + HEAD.size :][:size])  # noqa: E203
        self.places[number : number + 1] = [place]  # noqa: E203
        return place

    def vacant(self) -> int:
        """Return the number of the first free place."""
        return next((it for it, place in enumerate(self.places) if place.memory is None), len(self.places))

    def give_way(self) -> bool:
        """Make a place for one more payload, and return whether that was possible. If payloads are slow, the one with
        the fewest bytes loses its place. If all arrived a while ago and nobody reads them, a place is added."""
        slow = [place for place in self.places if time.monotonic() - place.since > PATIENCE]
        if coming := [place for place in slow if place.came < self.size]:
            self.empty(min(coming, key=lambda it: it.came))
            return True
        if self.is_read or len(slow) < len(self.places) or self.count == self.most:
            return False
        self.want(self.count + 1)
        return True

    def want(self, count: int) -> None:
        """Allow `count` places from now on, at most `most`; their number never falls."""
        self.count = min(max(count, self.count), self.most)

    def empty(self, place: Place) -> None:
        """Free the memory of a place for others; the rest of an unfinished payload is discarded."""
        if place.memory is not None and place.came < len(place.memory):
            place.wire.divert()
        place.memory = None

    def stream(self, payloads: Sequence[Data]) -> Union[Data, list[Data]]:
        """Return payloads as a stream of envelopes, which counts as being read until the caller resets `is_read`. It is
        one view if payloads here fill all places and the others fit in front of them, and a list of parts otherwise."""
        parts, count, self.is_read = list[Data](), 0, True
        for it in payloads:
            if isinstance(it, memoryview) and it.obj is self.memory.obj:
                count += 1
            else:
                parts += [HEAD.pack(MARK, 0, len(it)), it]
        start, end = FRONT - sum(map(len, parts)), FRONT + len(self.places) * (HEAD.size + self.size)
        if not count or count < len(self.places) or start < 0:
            return [part for it in payloads for part in (HEAD.pack(MARK, 0, len(it)), it)]
        self.memory[start:FRONT] = b"".join(parts)
        return self.memory[start:end]

    def close(self) -> None:
        """Return the memory to the system, unless it is still being read; whatever still arrives is discarded."""
        self.is_closed = True
        for place in self.places:
            self.empty(place)
        if isinstance(self.memory.obj, mmap.mmap) and not self.is_read:
            self.memory.obj.madvise(mmap.MADV_DONTNEED)


class Sieve(Basket):
    """Separate memory for each of `count` large payloads, all of the length `size`, or of the lengths of proofs. All
    others are discarded, so a lying shard takes no more memory than one that replies what was requested."""

    def __init__(self, count: int, is_for_proofs: bool = False) -> None:
        super().__init__(count)
        self.is_for_proofs = is_for_proofs

    def place(self, stream: wire.Wire, size: int) -> Place:
        wanted = size in self.proofs if self.is_for_proofs else size == self.size
        if self.is_closed or not wanted or not self.count:
            return Place(stream)
        self.count -= 1
        self.places.append(Place(stream, wire.filling(wire.memory(size))))
        return self.places[-1]

    async def receive(self, stream: wire.Wire, size: int) -> Data:
        try:
            return await super().receive(stream, size)
        finally:
            self.places = [it for it in self.places if it.wire is not stream]  # only the caller refers to it now

    def empty(self, place: Place) -> None:
        memory = place.memory
        super().empty(place)
        if memory is not None and isinstance(memory.obj, mmap.mmap):  # a pending read still refers to it
            memory.obj.madvise(mmap.MADV_DONTNEED)

    def instead(self, size: int) -> Data:
        return OFFERED if size in self.proofs else b""

"""The judge that decides what shards reply: `walrus serve`, given a request and what ledger and disk have of its blob.

It is one call of the library if that is installed, and otherwise a process that exits after its answer; neither keeps
any state. Each call first reserves memory and a processor, so both are bounded whatever is held and asked."""
import asyncio
import concurrent.futures
import contextlib
import ctypes
import errno
import mmap
import os
import threading
from typing import AsyncIterator, Callable, Optional, TypeVar, Union

from walrus import client
from walrus.engines.backends import Engine, Library, Ran
from walrus.format.envelopes import parts
from walrus.format.frames import METADATA, PRIMARY, PROOF, SECONDARY, pages_of
from walrus.network.peers.engine import SHORT, engine_of
from walrus.serving import status_in_words
from walrus.wire import connection

Result = TypeVar("Result")
Found = tuple[list[list[bytes]], list[int]]  # a judge's reply to each request, and the parts that are wrong
PARTS = client.METADATA, client.SECOND_METADATA, client.SLIVER, client.PROOF
NO_MEMORY, PATIENCE = 5, 20.0  # an exit status of the program; seconds to wait for memory
BESIDE, TIMES = 13_631_488, 6  # a judge's bytes: BESIDE, and TIMES those of its parts and request
LONG = 1_048_576  # a call over more bytes returns its free memory to the system
TRIM_THRESHOLD, MMAP_THRESHOLD, ARENA_MAX = -1, -3, -8  # options of `mallopt`


class Unjudged(ConnectionError):
    """The program gave no reply: only this request fails."""


class Clash(Exception):
    """A hash collision, two different texts with the same digest: the node must stop."""


class Busy(Exception):
    """No memory was freed in time: the client should retry."""


def keep_memory() -> None:
    """Let malloc keep the memory of one call of the library for the next one. A call allocates 45 MB and writes to few
    of them. If they are returned in between, the system maps and clears them again: 3.8 ms of a processor, not 0.4."""
    with contextlib.suppress(AttributeError):  # another C library has no `mallopt`
        for option, value in ((TRIM_THRESHOLD, 67_108_864), (MMAP_THRESHOLD, 33_554_432), (ARENA_MAX, 1)):
            ctypes.CDLL(None).mallopt(option, value)


def trimmed(step: Callable[..., Result], *words: object) -> Result:
    """Return the result of a step, and return its free memory to the system."""
    try:
        return step(*words)
    finally:
        with contextlib.suppress(AttributeError):
            ctypes.CDLL(None).malloc_trim(0)


def judge(engine: Engine, faults: int, shard: int, requests: list[client.Data]) -> list[list[bytes]]:
    """Return the replies of a shard that holds nothing to requests, judged one after the other. Empties the list, so
    that the requests are in memory only once."""
    pages, count = sum(pages_of(it) for it in requests if it[0] in PARTS), len(requests)
    data = connection.joined(parts(requests))
    requests.clear()
    return serve(engine, faults, shard, pages, data, count, len(data) + 512 * count)


def serve(
    engine: Engine, faults: int, shard: int, pages: int, data: client.Data, count: int, room: int
) -> list[list[bytes]]:
    """Return the replies to `count` requests whose parts take `pages` pages; they are views of the program's output."""
    words = ["serve", faults, shard, "--pages", pages + 1, "--blobs", count // 2 + 1]
    status, text = engine.run([*map(str, words)], data, room)
    if status == NO_MEMORY:
        raise MemoryError("walrus serve wants memory")
    replies: list[list[bytes]] = [[]]
    while text:
        end = client.HEAD.size + client.HEAD.unpack_from(text)[2]
        payload, text = text[client.HEAD.size : end], text[end:]  # noqa: E203
        replies[-1].append(payload)
        if payload[0] == client.CLASH:
            raise Clash(f"two texts with one digest, keep them: {payload.hex()}")
        if payload[0] == client.ANSWER:
            replies.append([])
    if status or len(replies) != count + 1 or replies.pop():
        raise Unjudged(f"walrus serve ended with {status_in_words(status)}")
    return replies


class Room:
    """Memory that is shared: a caller that needs more than is free waits, first come, first served."""

    def __init__(self, size: int):
        self.size = self.free = size
        self.turn, self.freed = asyncio.Lock(), asyncio.Event()

    def grow(self, least: int) -> None:
        """Have at least `least` bytes in all."""
        more = max(0, least - self.size)
        self.size, self.free = self.size + more, self.free + more

    @contextlib.asynccontextmanager
    async def take(self, size: int, seconds: Optional[float] = PATIENCE) -> AsyncIterator[None]:
        """Reserve `size` bytes, or all if there are fewer, for the body; raises `Busy` if they are not free in time."""
        size = min(size, self.size)
        try:
            async with asyncio.timeout(seconds), self.turn:
                while self.free < size:
                    self.freed.clear()
                    await self.freed.wait()
                self.free -= size
        except TimeoutError:
            raise Busy(f"{self.size - self.free} of {self.size} bytes are taken") from None
        try:
            yield
        finally:
            self.free += size
            self.freed.set()


def must_want_memory(fault: Union[MemoryError, OSError]) -> None:
    """Raise a fault again unless it is a lack of memory; the system reports a failed mapping as `OSError`."""
    if isinstance(fault, OSError) and fault.errno != errno.ENOMEM:
        raise fault


def need_of(size: int) -> int:
    """Return the memory that a judge takes for parts and a request of `size` bytes, as a library or a process."""
    return BESIDE + TIMES * size


class Judges:
    """At most one judge for each processor, as memory allows; memory for the largest one is kept from the start."""

    def __init__(self, program: str, memory: int):
        keep_memory()
        self.engine, self.room = engine_of(program), Room(memory)
        self.kept, self.least = None, 0  # type: Optional[mmap.mmap], int
        self.pool = concurrent.futures.ThreadPoolExecutor(len(os.sched_getaffinity(0)), "judge")
        self.alone, self.count = threading.Lock(), 0

    def keep(self, faults: int) -> None:
        """Keep enough memory for the largest judge, over a sliver and a proof of the largest blob: if the system has no
        other memory, requests are still answered, one after the other."""
        self.least = need_of(2 * client.Shape(faults).longest)
        self.room.grow(self.least)
        self.kept = mmap.mmap(-1, self.least)

    async def work(self, step: Callable[..., Result], *words: object, here: bool = False) -> Result:
        """Return the result of a step, run in a thread unless `here`; again in the kept memory if there is no other."""
        self.count += 1
        loop = asyncio.get_running_loop()
        try:
            return step(*words) if here else await loop.run_in_executor(self.pool, step, *words)
        except (MemoryError, OSError) as fault:
            must_want_memory(fault)
        return await loop.run_in_executor(self.pool, self.with_kept, step, *words)

    def with_kept(self, step: Callable[..., Result], *words: object) -> Result:
        """Run a step in the kept memory, one step at a time; raises `Unjudged` if that is not enough either."""
        with self.alone:
            self.kept = None
            try:
                return step(*words)
            except (MemoryError, OSError) as fault:
                must_want_memory(fault)
                raise Unjudged("there is no memory, not even for one judge") from None
            finally:
                with contextlib.suppress(OSError):
                    self.kept = mmap.mmap(-1, self.least) if self.least else None

    async def ask(self, size: int, step: Callable[..., Result], *words: object) -> Result:
        """Return the result of a judge's step over `size` bytes, once its memory is reserved."""
        async with self.room.take(need_of(size)):
            if size > LONG:
                return await self.work(trimmed, step, *words)
            return await self.work(step, *words, here=size < SHORT and isinstance(self.engine, Library))

    async def run(self, *words: object, data: Union[client.Data, list[client.Data]] = b"") -> tuple[int, client.Data]:
        """Return the program's status and output as `client.Walrus` does; a long output is a view and not copied."""
        size = sum(map(len, data)) if isinstance(data, list) else len(data)

        def run() -> Ran:
            whole = connection.joined(data) if isinstance(data, list) else data
            return self.engine.run([*map(str, words)], whole, size + 4_096)

        status, text = await self.ask(2 * size, run)  # its output is as long as its input
        return status, text if len(text) > SHORT else bytes(text)

    def code(self, status: int, text: client.Data) -> client.Code:
        return self.engine.code(status, text)

    def close(self) -> None:
        self.pool.shutdown(wait=False, cancel_futures=True)


def parts_for(request: bytes, shards: int) -> tuple[int, ...]:
    """Return the parts of a blob on which the reply to a request depends, possibly with others."""
    match request[0]:
        case client.READ:
            return METADATA, PRIMARY, PROOF
        case client.SYMBOL if int.from_bytes(request[34:36], "big") >= shards:  # the client wants the metadata alone
            return METADATA, PROOF
        case client.SYMBOL:  # a sliver of the other axis has the symbol
            return METADATA, PRIMARY + 1 - request[33], PROOF
        case client.SLIVER:
            return METADATA, PRIMARY + request[33]
        case client.METADATA | client.SECOND_METADATA:
            return (METADATA,)
    return METADATA, PRIMARY, SECONDARY, PROOF

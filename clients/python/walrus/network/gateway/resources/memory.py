"""The memory of a gateway: each task takes a share of it before it begins, and clients take turns."""
import asyncio
import contextlib
import dataclasses
from typing import Any, AsyncIterator

from walrus.wire.fairness import Line

from .turns import ASKING

LEAST, LATER = 1_048_576, 3.25  # bytes that any piece takes; further memory to decode one, in multiples of its length
TIMES, MORE = 8, 11  # memory to encode a piece, in multiples of its length, at f = 1 and above
PATIENCE = 1.0  # seconds for which a request for memory waits before reads may pass it, and late tasks are cancelled


class Share:
    """A number of bytes that was taken from a `Memory`, by a read if more will be asked for."""

    def __init__(self, memory: "Memory", size: int, reads: bool):
        self.memory, self.size, self.reads = memory, size, reads

    def shrink(self, size: int) -> None:
        """Gives back what exceeds `size` bytes."""
        if size < self.size:
            self.memory.taken -= self.size - size
            self.memory.read -= (self.size - size) * self.reads
            self.size = size
            self.memory.serve()

    @contextlib.asynccontextmanager
    async def more(self, size: int) -> AsyncIterator[None]:
        """Waits for `size` further bytes, and holds them while the context runs."""
        await self.memory.wait(Wish(size, 0, self))
        try:
            yield
        finally:
            self.memory.grown -= size
            self.shrink(self.size - size)


@dataclasses.dataclass(eq=False)
class Wish:
    """A request for `size` bytes, before one for `later` more. If its share has some already, it is that second one."""

    size: int
    later: int
    share: Share
    is_late: bool = False
    owner: str = ""
    granted: "asyncio.Future[None]" = dataclasses.field(default_factory=lambda: asyncio.Future())


class Memory:
    """The memory, in bytes, for all that a gateway does. Requests that find too little wait; clients take turns.

    A request that will want more begins only if that would be free too once others have given back their later parts,
    and none begins while one waits for more. So one that waits for more always gets it once the others have ended.
    Reads that fit pass either if it has waited long, and would not fit beside all that is stored."""

    def __init__(self, size: int):
        self.size, self.taken, self.read, self.grown = size, 0, 0, 0  # bytes in all, taken, by reads, by `Share.more`
        self.waiting, self.growing = Line[Wish](), list[Wish]()
        self.late: "set[asyncio.Task[Any]]" = set()  # tasks that are cancelled if others want the memory they hold

    def end_late(self, wish: Wish) -> None:
        wish.is_late = True
        self.serve()
        for task in self.late:
            task.cancel()

    def is_short(self, size: int) -> bool:
        """Whether a request for `size` bytes would have to wait."""
        return bool(self.waiting or self.growing) or self.taken + size > self.size

    def serve(self) -> None:
        """Grants the requests for which there is room now; one is granted in any case if nothing else runs."""
        for wish in [*self.growing]:
            if self.taken + wish.size <= self.size:
                self.growing.remove(wish)
                self.grant(wish)
        if self.growing and self.taken == sum(it.share.size for it in self.growing):  # all that have memory want more
            self.grant(self.growing.pop(0))
        while self.waiting:
            wishes, room = [next(iter(it)) for it in self.waiting.values()], self.size - self.taken
            head = (self.growing or wishes)[0]
            beside = max(0, self.size - head.share.size - head.size - head.later)  # bytes that may be stored beside it
            gives_way = head.is_late and self.taken - self.read > beside
            wishes = [it for it in wishes if it.later] if gives_way else wishes[: not self.growing]
            able = [it for it in wishes if not self.taken or it.size + max(0, it.later - self.grown) <= room]
            if not able:
                return
            self.waiting.move_to_end(able[0].owner, last=False)
            self.grant(self.waiting.take())

    def grant(self, wish: Wish) -> None:
        self.taken, self.read = self.taken + wish.size, self.read + wish.size * wish.share.reads
        self.grown += wish.size if wish.share.size else 0
        wish.share.size += wish.size
        wish.granted.set_result(None)

    async def wait(self, wish: Wish) -> None:
        """Waits until a request is granted; if cancelled, withdraws it or gives the memory back."""
        if wish.share.size:
            self.growing.append(wish)
        else:
            self.waiting.add(wish.owner, wish)
        self.serve()
        ending = asyncio.get_running_loop().call_later(PATIENCE, self.end_late, wish)
        try:
            await asyncio.shield(wish.granted)
        except asyncio.CancelledError:
            if wish.granted.done():
                self.grown -= wish.size if wish.share.size > wish.size else 0
                wish.share.shrink(wish.share.size - wish.size)
            elif wish in self.growing:
                self.growing.remove(wish)
            else:
                self.waiting.drop(wish.owner, wish)
            self.serve()
            raise
        finally:
            ending.cancel()

    @contextlib.asynccontextmanager
    async def share(self, size: int, later: int = 0) -> AsyncIterator[Share]:
        """Holds `size` bytes while the context runs, or fewer after `shrink`; `later` is what `more` will take."""
        share = Share(self, 0, later > 0)
        await self.wait(Wish(size, later, share, owner=ASKING.get() + " reads" * share.reads))
        try:
            yield share
        finally:
            share.shrink(0)


def need_of(size: int, faults: int) -> int:
    """Returns the memory that a piece takes while it is encoded, or a form that becomes a bundle, as measured."""
    return LEAST + (TIMES if faults == 1 else MORE) * size


def reading_needs(size: int) -> tuple[int, int]:
    """Returns the memory that a piece takes while it is fetched, and what it takes in addition while it is decoded."""
    return LEAST + size, max(1, int(LATER * size))  # `Memory` takes what has no later part for no read

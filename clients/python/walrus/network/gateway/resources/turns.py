"""Fair semaphores for long tasks: a bounded number of places, and one client has only a part of them."""
import asyncio
import collections
import contextlib
import contextvars
import dataclasses
import weakref
from typing import AsyncIterator, Optional

from aiohttp import web


from walrus.wire.fairness import Fair, key_of

WAITING = 60.0  # seconds to wait for a place before `TimeoutError`
MOST = 1_000  # the most waiting requests of one client; more than all connections, as closed ones still wait
PARTS = 4  # one client has at most one of PARTS equal parts of the places, unless `each` says otherwise
ASKING = contextvars.ContextVar("asking", default="")  # the client (`owner_of`) for whom a task runs; empty for none


class Turns:
    """`most` places, of which one owner has at most `each`. Owners that wait get them in turn."""

    def __init__(self, most: int, each: int = 0):
        self.all, self.each = Fair(most), each or max(1, most // PARTS)
        self.own: "weakref.WeakValueDictionary[str, Fair]" = weakref.WeakValueDictionary()

    @contextlib.asynccontextmanager
    async def take(self, owner: str) -> AsyncIterator[None]:
        """Holds a place while the context runs. Raises `TimeoutError` if none is free in time, or too many wait."""
        own = self.own.setdefault(owner, Fair(self.each))  # dropped with the last reference to it
        if len(own.waiting.get(owner, ())) >= MOST:
            raise TimeoutError
        async with contextlib.AsyncExitStack() as stack:
            async with asyncio.timeout(WAITING):
                await stack.enter_async_context(own.place(owner))
                await stack.enter_async_context(self.all.place(owner))
            yield

    def left(self, owner: str) -> int:
        """Returns the number of further places that an owner may have, whether they are free now or not."""
        own = self.own.get(owner)
        return own.free if own else self.each


@dataclasses.dataclass
class Group:
    """The tasks of one owner that use the same thing, and the place that they share."""

    users: int = 0
    place: Optional[contextlib.AsyncExitStack] = None
    lock: asyncio.Lock = dataclasses.field(default_factory=asyncio.Lock)


class Together:
    """Places of which the tasks of one owner that use the same thing share one. Small things need no place, up to `few`
    of one owner at once: they cost little, and a client that takes them promptly is not held up."""

    def __init__(self, turns: Turns, few: int = 0):
        self.turns, self.groups = turns, dict[tuple[str, bytes], Group]()
        self.few, self.small = few, collections.Counter[str]()

    @contextlib.asynccontextmanager
    async def take(self, owner: str, name: bytes, is_small: bool = False) -> AsyncIterator[None]:
        """Has a part in a place while the context runs. Raises `TimeoutError` if none is free in time, or if too many
        tasks use the same."""
        if is_small and self.small[owner] < self.few:
            self.small[owner] += 1
            try:
                yield
            finally:
                self.small[owner] -= 1
                if not self.small[owner]:
                    del self.small[owner]
            return
        group = self.groups.setdefault((owner, name), Group())
        if group.users >= MOST:
            raise TimeoutError
        group.users += 1
        try:
            async with asyncio.timeout(WAITING), group.lock:
                if not group.place:
                    place = contextlib.AsyncExitStack()
                    await place.enter_async_context(self.turns.take(owner))
                    group.place = place
            yield
        finally:
            group.users -= 1
            if not group.users:
                del self.groups[owner, name]
                if group.place:
                    await group.place.aclose()


def owner_of(request: web.Request) -> str:
    """Returns the key of the client: its token, or its address if it shows none."""
    token = request["token"]
    shown = token and "Authorization" in request.headers
    return f"token {token.name}" if shown else f"address {key_of(request['address'])}"

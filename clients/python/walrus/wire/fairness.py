"""A fair semaphore: its places go round-robin to the origins of the waiters, such as client addresses. So no waiter has
to wait behind all waiters of another origin."""

import asyncio
import collections
import contextlib
import ipaddress
from typing import AsyncIterator, TypeVar

Waiter = TypeVar("Waiter")


class Line(collections.OrderedDict[str, "collections.OrderedDict[Waiter, None]"]):
    """A queue of waiters by origin: the first waiter of each origin comes first, then the second of each."""

    def add(self, whom: str, waiter: Waiter) -> None:
        self.setdefault(whom, collections.OrderedDict())[waiter] = None

    def first(self) -> Waiter:
        return next(iter(next(iter(self.values()))))

    def take(self) -> Waiter:
        """Remove the first waiter and return it; the origin's other waiters go behind those of all other origins."""
        whom, waiters = self.popitem(last=False)
        first, _ = waiters.popitem(last=False)
        if waiters:
            self[whom] = waiters
        return first

    def drop(self, whom: str, waiter: Waiter) -> None:
        """Remove a waiter, if it is still in the queue."""
        if waiters := self.get(whom):
            waiters.pop(waiter, None)
            if not waiters:
                del self[whom]


class Fair:
    """A semaphore of `count` places, which the origins of the waiters get in turn."""

    def __init__(self, count: int) -> None:
        self.free, self.waiting = count, Line["asyncio.Future[None]"]()

    @contextlib.asynccontextmanager
    async def place(self, whom: str) -> AsyncIterator[None]:
        """Hold a place during the block."""
        await self.acquire(whom)
        try:
            yield
        finally:
            self.release()

    async def acquire(self, whom: str) -> None:
        """Wait for a turn and take a place; the caller must `release` it."""
        place: "asyncio.Future[None]" = asyncio.get_running_loop().create_future()
        self.waiting.add(whom, place)
        self.serve()
        try:
            await place
        except asyncio.CancelledError:
            if place.done() and not place.cancelled():  # it had just got a place
                self.release()
            self.waiting.drop(whom, place)  # else the queue would grow with waiters that gave up, until a release
            raise

    def release(self) -> None:
        """Give a place back."""
        self.free += 1
        self.serve()

    def serve(self) -> None:
        """Give the free places to the waiters whose turn it is. A waiter that gave up costs nobody a turn."""
        while self.free and self.waiting:
            if (place := self.waiting.first()).done():
                self.waiting.drop(next(iter(self.waiting)), place)
            else:
                self.free -= 1
                self.waiting.take().set_result(None)


def key_of(address: str) -> str:
    """Return the origin under which an address is counted: for IPv6 the /64 network, which one customer has."""
    try:
        found = ipaddress.ip_address(address.partition("%")[0])
    except ValueError:
        return address
    if found.version == 6:
        return str(found.ipv4_mapped or ipaddress.ip_network((found, 64), strict=False))
    return address

"""Envelopes in the streams of connections: read whole, and written in slices."""

from collections.abc import Sequence
from typing import Any, Optional, Protocol


from walrus.format.envelopes import HEAD, MARK
from walrus.format.kinds import Fault

from . import connection
from .baskets import Basket
from .connection import Data

SLICE = 262_144  # bytes of a long request that are written at once


class Source(Protocol):
    """What a shard sends: a `StreamReader`, or another object with these methods."""

    async def readexactly(self, n: int, /) -> Any:
        ...

    def at_eof(self) -> bool:
        ...

    def exception(self) -> Optional[BaseException]:
        ...


class Sink(Protocol):
    """What a shard is sent: a `StreamWriter`, or another object with these methods."""

    @property
    def transport(self) -> Any:
        ...

    def write(self, data: Any, /) -> None:
        ...

    async def drain(self) -> None:
        ...


Streams = tuple[Source, Sink]


def envelope(payload: bytes, sender: int = 0) -> bytes:
    return HEAD.pack(MARK, sender, len(payload)) + payload


def split(stream: bytes) -> list[tuple[int, bytes]]:
    """Returns the sender and payload of each envelope; raises `Fault` with the place of the first that is not whole."""
    found, place = [], 0
    while place < len(stream):
        start = place + HEAD.size
        mark, sender, size = HEAD.unpack(bytes(stream[place:start]).ljust(HEAD.size, b"\xff"))
        end = start + size
        if mark != MARK or end > len(stream):
            raise Fault("malformed", place)
        found.append((sender, stream[start:end]))
        place = end
    return found


async def take_envelope(stream: Source, longest: int, basket: Optional[Basket] = None) -> tuple[int, bytes]:
    """Returns the sender and the payload of the next envelope; raises `Fault` if it is none, or longer than this. With
    a basket, large payloads come there, or are skipped and replaced by a mark such as `PASSED`."""
    mark, sender, size = HEAD.unpack(await stream.readexactly(HEAD.size))
    if mark != MARK or size > longest:
        raise Fault("too long" if mark == MARK else "no envelope")
    if basket and isinstance(stream, connection.Wire) and basket.takes(size):
        return sender, await basket.receive(stream, size)
    return sender, await stream.readexactly(size)


async def write_parts(stream: Sink, parts: Sequence[Data]) -> None:
    """Writes parts one after the other: short ones joined, long ones in slices, which are drained one by one."""
    ahead = bytearray()
    for part in map(memoryview, parts):
        if len(ahead) + len(part) < SLICE:
            ahead += part
            continue
        stream.write(ahead)
        ahead = bytearray()
        for start in range(0, len(part), SLICE):
            stream.write(part[start : start + SLICE])  # noqa: E203
            await stream.drain()
    stream.write(ahead)
    await stream.drain()

"""A blob that comes to a shard whole: one request has its metadata and both slivers, and asks for an acknowledgement.

The judge reads the request where it is in memory: the ledger's entries are written in front of the parts, and the
request for an acknowledgement behind them."""
import dataclasses
import itertools
from typing import Optional, Sequence

from walrus import client
from walrus.client import HEAD, METADATA, PRIMARY, SECONDARY, SECOND_METADATA, SLIVER
from walrus.engines.backends import Engine
from walrus.format.envelopes import split
from walrus.format.frames import pages_of
from walrus.network.peers.parts import WHOLE
from walrus.wire import connection

from . import judge

WISH = HEAD.size + 33  # bytes of an envelope that asks for an acknowledgement


def front(shape: client.Shape) -> int:
    """Return the number of bytes to keep free before a request, enough for all that the ledger says about a blob."""
    return (2 * shape.shards + 1) * (HEAD.size + 37)


def longest(shape: client.Shape) -> int:
    """Return the length of the longest request, in bytes."""
    return 1 + 3 * (HEAD.size + 40) + 64 * shape.shards + sum(shape.symbols) * shape.widest


def place(shape: client.Shape, size: int) -> memoryview:
    """Return memory for a request of `size` bytes; the object below it has room before and after the request."""
    before = front(shape)
    return connection.memory(before + size + WISH)[before:][:size]


@dataclasses.dataclass
class Whole:
    """A request: the memory that it is in, where it begins and ends there, and its contents."""

    memory: memoryview
    start: int
    end: int
    identifier: bytes
    parts: list[memoryview]

    @classmethod
    def read(cls, shape: client.Shape, request: memoryview) -> Optional["Whole"]:
        """Return the contents of a request whose memory `place` returned, or None if it is malformed. At most four
        envelopes are read, as anybody may send two million of them."""
        try:
            came = [part for _, part in itertools.islice(split(request[1:]), 4)]
        except ValueError:
            return None
        if [part[0] if part else 0 for part in came[1:]] != [SLIVER, SLIVER] or not all(map(shape.allows, came)):
            return None
        name, axes = bytes(came[1][1:33]), [part[33] for part in came[1:]]
        if came[0][0] not in (METADATA, SECOND_METADATA) or came[2][1:33] != name or axes != [PRIMARY, SECONDARY]:
            return None
        memory, start = memoryview(request.obj), front(shape)
        return cls(memory, start, start + len(request), name, came)

    def judge(self, engine: Engine, faults: int, shard: int, told: Sequence[bytes]) -> judge.Found:
        """Return the replies of a shard that holds nothing to the parts and to the request for an acknowledgement, once
        it has the entries in `told`; and no wrong parts, as it holds none."""
        words = b"".join(map(client.envelope, told))
        begin = self.start + 1 - len(words)  # their last byte takes the place of the kind, just before the first part
        self.memory[begin : self.start + 1] = words  # noqa: E203
        self.memory[self.end :][:WISH] = client.envelope(self.wish)  # noqa: E203
        pages = sum(pages_of(part) for part in self.parts)
        data, count = self.memory[begin:][: len(words) + self.end - self.start - 1 + WISH], len(told) + 4
        try:
            return judge.serve(engine, faults, shard, pages, data, count, 512 * count)[len(told) :], []  # noqa: E203
        finally:
            self.memory[self.start] = WHOLE  # restored, as `Node.reply` looks at the kind

    @property
    def wish(self) -> bytes:
        return bytes([client.ACK]) + self.identifier

"""Envelopes, which contain frames, or the members of a bundle (docs/FORMATS.md)."""

import struct
from collections.abc import Iterable, Iterator
from typing import NamedTuple, Union


from walrus.engines.buffers import Buffer

HEAD, MARK = struct.Struct(">BHI"), 0x57  # the mark, the sender, the payload's length
Payloads = Union[Buffer, Iterable[Buffer]]  # a stream of envelopes, or payloads that are not in envelopes yet


def parts(payloads: Iterable[Buffer], sender: int = 0) -> list[Union[bytes, memoryview]]:
    """Return a stream of envelopes with these payloads, in parts: the head of each, and its payload uncopied."""
    found: list[Union[bytes, memoryview]] = []
    for payload in payloads:
        view = memoryview(payload).cast("B")
        found += [HEAD.pack(MARK, sender, len(view)), view]
    return found


def stream(payloads: Iterable[Buffer], sender: int = 0) -> bytes:
    """Return a stream of envelopes with these payloads."""
    return b"".join(parts(payloads, sender))


def streamed(payloads: Payloads) -> Buffer:
    """Return a stream of envelopes unchanged, and other payloads as such a stream."""
    if isinstance(payloads, Buffer):  # type: ignore[arg-type, misc]
        return payloads  # type: ignore[return-value]
    return stream(payloads)  # type: ignore[arg-type]


class Envelope(NamedTuple):
    """The number of the sender, which is not authenticated, and the payload, a view of the stream."""

    sender: int
    payload: memoryview


def split(envelopes: Buffer) -> Iterator[Envelope]:
    """Yield the envelopes of a stream, uncopied. Raises `ValueError` with the first byte outside of a whole one."""
    view, place = memoryview(envelopes).cast("B"), 0
    while place < len(view):
        start = place + HEAD.size
        mark, sender, size = HEAD.unpack(bytes(view[place:start]).ljust(HEAD.size, b"\xff"))
        end = start + size
        if mark != MARK or end > len(view):
            raise ValueError(f"no whole envelope begins at byte {place}")
        yield Envelope(sender, view[start:end])
        place = end

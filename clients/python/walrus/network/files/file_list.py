"""Files of any length as blobs of at most 16 MiB: a longer file is split, and the list of its pieces is a blob too.

A list is the mark, the file's length (u64, big-endian), and the identifiers of the pieces, each of 16 MiB but the last.
Every blob of this form is a list. A file that itself begins with the mark is stored as a list of one piece, so that it
is not mistaken for a list."""
import dataclasses
import struct
from typing import Iterator, Union

from walrus import client

from .sealed import Away, Blob, Span, front_of

PIECE = client.LARGEST_BLOB
HEAD = struct.Struct(">16sQ")
MARK, NAME = b"\x00walrus list \x00\x00\x01", 32
MOST_PIECES = (PIECE - HEAD.size) // NAME
LONGEST = MOST_PIECES * PIECE


@dataclasses.dataclass(frozen=True)
class File:
    """A file's length, and the identifiers of its pieces, concatenated. A file that is one blob has one name alone: an
    identifier, or that of a bundle's member, which is the bundle's identifier followed by the member's number."""

    length: int
    names: Union[bytes, memoryview, Span]  # for a list a view of its blob, so that its readers share one copy

    @classmethod
    def of(cls, identifier: bytes, blob: Blob) -> "File":
        """Returns the file that a blob's name stands for: what the blob lists, or else the blob itself. A bundle's
        member is never a list."""
        if len(identifier) == NAME and len(blob) > HEAD.size and not (len(blob) - HEAD.size) % NAME:
            mark, length = HEAD.unpack(front_of(blob, HEAD.size))
            if mark == MARK and 0 < length <= LONGEST and (length - 1) // PIECE == (len(blob) - HEAD.size) // NAME - 1:
                if isinstance(blob, Away):
                    return cls(length, Span(blob, HEAD.size))
                return cls(length, memoryview(blob)[HEAD.size :])  # noqa: E203
        return cls(len(blob), identifier)

    def pieces(self, start: int, end: int) -> Iterator[tuple[bytes, int, int, int]]:
        """Yields for each blob that a span of the file touches its identifier, its length, and the span within it."""
        for number in range(start // PIECE, (end - 1) // PIECE + 1 if start < end else 0):
            before = number * PIECE
            size = min(PIECE, self.length - before)
            at, behind = number * NAME, (number + 1) * NAME if self.length > PIECE else len(self.names)
            yield bytes(self.names[at:behind]), size, max(start - before, 0), min(end - before, size)

    def listed(self) -> bytes:
        return HEAD.pack(MARK, self.length) + self.names[:]

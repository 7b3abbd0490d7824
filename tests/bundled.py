"""Bundles laid out by hand, and what shards hold of small blobs of any kind, over docs/worked_blob.py."""

import pathlib
import struct
import sys
from collections.abc import Sequence

TOP = pathlib.Path(__file__).resolve().parents[1]
sys.path[:0] = [str(TOP / "docs"), str(TOP / "hostile")]

from worked import Committed  # noqa: E402
from worked_blob import columns_of  # noqa: E402


def committed(faults: int, blob: bytes, version: int = 1) -> Committed:
    """The matrix of a blob as an honest writer commits it."""
    columns = columns_of(faults, blob)
    return Committed(list(zip(*columns)), columns, len(blob), version)


def block(faults: int, size: int, *columns: bytes) -> bytes:
    """The source block with these columns, each filled up with zeros and the rest zero: row by row, in symbols of this size."""
    rows, count = faults + 1, 2 * faults + 1
    filled = [column.ljust(rows * size, b"\0") for column in columns] + [bytes(rows * size)] * (count - len(columns))
    places = [(column, row * size) for row in range(rows) for column in range(count)]
    return b"".join(filled[column][start : start + size] for column, start in places)


def index(*entries: tuple[int, int]) -> bytes:
    """The index of members with these first columns and lengths."""
    return struct.pack(">H", len(entries)) + b"".join(struct.pack(">HI", *entry) for entry in entries)


def cut(data: bytes, size: int) -> Sequence[bytes]:
    return [data[start : start + size] for start in range(0, len(data), size)]

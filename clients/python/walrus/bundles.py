"""Bundles of small files: one blob contains up to 2f files, its members; one is read from the columns that it fills.

`walrus bundle` makes a bundle, which is published like any other blob. A column is a secondary sliver. The shard that
holds it replies its symbols one by one; if that shard is lost or lies, the column is recovered from openings of f+1
others. `walrus member` reports which column it needs next, and verifies everything that shards replied."""
import asyncio
import collections
import contextlib
import itertools
import struct
from collections.abc import Sequence


from walrus.client import METADATA, OPENING, SECOND_METADATA, SLIVER
from walrus.client.program import refusal
from walrus.client.shards import Asked
from walrus.engines.codes import Code, numbers_of
from walrus.format.envelopes import parts

from . import client

COUNT, ENTRY = struct.Struct(">H"), struct.Struct(">HI")  # of the index: number of members; first column and length


def lines_of(size: int, column: int) -> int:
    """Return the number of columns, of `column` bytes each, that `size` bytes fill."""
    return -(-size // column)


def index_size(count: int) -> int:
    return COUNT.size + ENTRY.size * count


def pack(sizes: Sequence[int], faults: int) -> list[range]:
    """Group files of these sizes, in order, into ranges, one for each bundle. A range of one file needs no bundle."""
    rows, most = faults + 1, 2 * faults
    column = rows * (client.LARGEST_BLOB // (rows * (most + 1)) // 2 * 2)
    room = most + 1 - lines_of(index_size(most), column)
    packed, start, filled = list[range](), 0, 0
    for place, size in enumerate(sizes):
        lines = lines_of(size, column)
        if place > start and (place - start == most or filled + lines > room):
            packed.append(range(start, place))
            start, filled = place, 0
        filled += lines
    return [*packed, range(start, len(sizes))] if sizes else []


async def join(members: Sequence[bytes], faults: int, walrus: client.Walrus) -> bytes:
    """Return the bundle of these members, at most 2f. Raises `Refused` if they do not fit."""
    return await walrus.output("bundle", faults, data=b"".join(map(client.envelope, members)))


def read_index(text: bytes) -> list[tuple[int, int]]:
    """Return the first column and the length of each member, for as much of the index as `text` contains."""
    count = COUNT.unpack_from(text)[0] if len(text) >= COUNT.size else 0
    starts = range(COUNT.size, len(text) - ENTRY.size + 1, ENTRY.size)
    return [ENTRY.unpack_from(text, start) for start in starts[:count]]  # type: ignore[misc]


def starts_of(lengths: Sequence[int], column: int) -> list[int]:
    """Return the first column of each member, and last the number of columns that the index and all members fill."""
    filled = [lines_of(length, column) for length in lengths]
    return list(itertools.accumulate(filled, initial=lines_of(index_size(len(lengths)), column)))


def split(bundle: bytes, faults: int) -> list[bytes]:
    """Return the members of a whole bundle. Raises `ValueError` if the blob is no bundle."""
    rows, count = faults + 1, 2 * faults + 1
    size = 2 * max(1, lines_of(len(bundle), 2 * rows * count))
    starts = [(row * count + column) * size for column in range(count) for row in range(rows)]
    cells = [(start, start + size) for start in starts]
    padded = bundle.ljust(rows * count * size, b"\0")
    columns = b"".join(padded[start:end] for start, end in cells)
    entries = read_index(columns)
    lengths = [length for _, length in entries]
    *starts, filled = starts_of(lengths, rows * size)
    is_least = size == 2 or starts_of(lengths, rows * (size - 2))[-1] > count
    told = COUNT.unpack_from(columns)[0]
    if starts != [first for first, _ in entries] or not told == len(entries) < count >= filled or not is_least:
        raise ValueError("this blob is no bundle")
    spans = [(first * rows * size, first * rows * size + length) for first, length in entries]
    return [columns[start:end] for start, end in spans]


def read_opening(payload: bytes, levels: int) -> tuple[int, bytes]:
    """Return the cross and the symbol of an opening whose path has `levels` digests."""
    end = len(payload) - 1 - 32 * levels
    return int.from_bytes(payload[36:38], "big"), payload[42:end]


class Columns:
    """What shards replied about a bundle's columns; nothing is verified here."""

    def __init__(self, shards: client.Shards, identifier: bytes, walrus: client.Walrus) -> None:
        self.shape = client.shape_of(shards)
        self.shards, self.identifier, self.walrus = {shard.number: shard for shard in shards}, identifier, walrus
        self.metadata, self.slivers = collections.Counter[bytes](), dict[int, bytes]()  # contents of slivers, by column
        self.said, self.tried, self.recovered = dict[int, str](), set[tuple[int, int]](), set[int]()

    def holder(self, column: int) -> int:
        """Return the number of the shard that holds a column, by the format of the most frequent metadata."""
        [(told, _)] = self.metadata.most_common(1) or [(b"", 0)]
        return self.shape.shards - 1 - column if told[:1] == bytes([SECOND_METADATA]) else column

    def wanted(self, column: int, number: int) -> range:
        """Return the columns to ask for: `column`, and those behind it up to the known end of the index or member."""
        text = b"".join(itertools.takewhile(bool, (self.slivers.get(place, b"") for place in itertools.count())))
        end, size, entries = 0, len(self.slivers.get(0, b"")), read_index(text)
        if size:
            end = lines_of(index_size(COUNT.unpack_from(text)[0]), size)
        if size and column >= end and number < len(entries):
            first, length = entries[number]
            end = first + lines_of(length, size)
        return range(column, max(column + 1, min(end, self.shape.symbols[client.PRIMARY])))

    async def hear_holder(self, column: int) -> None:
        """Ask the shard that should hold a column for all of its symbols; on failure record why in `said`."""
        number = self.holder(column)
        self.tried.add((column, number))
        rows = range(self.shape.symbols[client.SECONDARY])
        symbols = [client.write_frame(client.Symbol(self.identifier, client.PRIMARY, row)) for row in rows]
        if number not in self.shards:
            return
        shard, requests = self.shards[number], Asked.each(symbols)
        if shard.late:  # it is asked only if the others are not enough
            self.said[number] = "it is late"
            return
        try:
            with contextlib.closing(requests[0].basket):  # if it does not reply in time, no memory is kept for it
                async with asyncio.timeout(client.patience_for([shard])):
                    replies = await shard.ask(*requests)
        except ConnectionError as error:
            self.said[number] = str(error)
            return
        except TimeoutError:
            self.said[number], shard.late = "it is late", True
            return
        self.metadata.update({reply.kept[METADATA] for reply in replies if METADATA in reply.kept})
        opened = [read_opening(reply.kept[OPENING], self.shape.levels) for reply in replies if OPENING in reply.kept]
        if len(opened) < len(requests):
            refusals = [reply.end for reply in replies if getattr(reply.end, "code", None) != client.DONE]
            self.said[number] = client.in_words(refusals[0]) if refusals else f"it does not hold column {column}"
        elif {cross for cross, _ in opened} == {column}:
            self.slivers[column] = b"".join(symbol for _, symbol in opened)

    async def recover(self, column: int) -> None:
        """Recover a column from openings of f+1 other shards; its holder is asked too if it was late. Raises `Refused`
        if too few openings are valid, or the bundle was badly encoded."""
        self.recovered.add(column)
        others = [it for it in self.shards.values() if it.late or it.number != self.holder(column)]
        target = client.Symbol(self.identifier, client.SECONDARY, column)
        words = "recover", self.identifier.hex(), "secondary", column
        try:
            status, text = await client.collect(others, target, self.walrus, *words, told=self.metadata)
        except client.Refused as fault:
            raise refusal(fault.status, fault.text, self.said | fault.said, fault.code) from None
        if status:
            code = self.walrus.code(status, text)
            raise client.BadlyEncoded(status, b"the bundle was badly encoded", self.said, code)
        self.slivers[column] = client.split(text)[0][1][40:]

    async def find(self, column: int, number: int) -> bool:
        """Ask for a column in the next way that was not tried yet; return False if none is left."""
        if (column, self.holder(column)) not in self.tried:
            wanted = [it for it in self.wanted(column, number) if (it, self.holder(it)) not in self.tried]
            await asyncio.gather(*map(self.hear_holder, wanted))
        elif column not in self.recovered:
            await self.recover(column)
        else:
            return False
        return True

    def stream(self) -> list[client.Data]:
        """Return the input of `walrus member`, in parts: the metadata, and the columns as secondary slivers."""
        front, told = bytes([SLIVER]) + self.identifier + bytes([client.SECONDARY]), parts(self.metadata)
        for column, data in self.slivers.items():
            head = front + struct.pack(">HI", column, len(data))
            told += [client.HEAD.pack(client.MARK, 0, len(head) + len(data)) + head, data]
        return told


async def fetch_member(shards: client.Shards, identifier: bytes, number: int, walrus: client.Walrus) -> bytes:
    """Return a member of the bundle with this identifier. Raises `Refused` if it cannot be read.

    The columns of the index and the member come from the shards that hold them, or else from openings of f+1 others."""
    columns, column = Columns(shards, identifier, walrus), 0
    while await columns.find(column, number):
        status, text = await walrus.run("member", identifier.hex(), number, data=columns.stream())
        if status == 0:
            return text
        code = walrus.code(status, text)
        if code is Code.MISSING_COLUMN:
            [column] = numbers_of(text)
        elif code is not Code.NO_METADATA:
            break
    raise refusal(status, text, columns.said, code)

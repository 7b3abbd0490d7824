"""A second implementation of bundles: layout, valid slivers and openings, and the answers of `bundle` and `member`."""
import bisect
import hashlib
import struct
from collections.abc import Iterator, Sequence
from dataclasses import dataclass

import forms
from codes import extended, symbol_at
from forms import SECONDARY

LARGEST = 16777216
ENTRY = struct.Struct(">HI")  # of the index, for a member: its first column and its length
Answer = tuple[int, bytes]


def lines_of(length: int, column: int) -> int:
    """Return the number of columns of `column` bytes that `length` bytes fill."""
    return -(-length // column)


def columns_used(faults: int, lengths: Sequence[int], size: int) -> int:
    column = (faults + 1) * size
    return lines_of(2 + ENTRY.size * len(lengths), column) + sum(lines_of(length, column) for length in lengths)


def symbol_size(faults: int, lengths: Sequence[int]) -> int:
    """Return the smallest even size of a symbol, at least 2, such that index and members fit into 2f+1 columns."""
    fits = lambda half: columns_used(faults, lengths, 2 * half) <= 2 * faults + 1  # noqa: E731
    halves = range(1, sum(lengths) + 4096)
    return 2 * halves[bisect.bisect_left(halves, True, key=fits)]


def index_of(faults: int, lengths: Sequence[int], size: int) -> bytes:
    """Return the index: the number of members, and the first column and length of each."""
    column = (faults + 1) * size
    text, first = struct.pack(">H", len(lengths)), lines_of(2 + ENTRY.size * len(lengths), column)
    for length in lengths:
        text += ENTRY.pack(first, length)
        first += lines_of(length, column)
    return text


def bundle_of(faults: int, members: Sequence[bytes]) -> Answer:
    """Return status and output for these members: the source block with them in its columns, or why there is none."""
    if len(members) > 2 * faults:
        return 4, b"too many members\n"
    lengths = [len(member) for member in members]
    size = symbol_size(faults, lengths)
    rows, columns = faults + 1, 2 * faults + 1
    if rows * columns * size > LARGEST:
        return 4, b"bundle too long\n"
    pieces = [index_of(faults, lengths, size), *members]
    filled = b"".join(piece.ljust(lines_of(len(piece), rows * size) * rows * size, b"\0") for piece in pieces)
    filled = filled.ljust(rows * columns * size, b"\0")
    places = (row * size + column * rows * size for row in range(rows) for column in range(columns))
    return 0, b"".join(filled[place : place + size] for place in places)


@dataclass
class Metadata:
    """A frame of metadata: f, the size of a symbol, and the roots by axis and index."""

    faults: int
    size: int
    roots: tuple[list[bytes], list[bytes]]

    @property
    def shards(self) -> int:
        return 3 * self.faults + 1

    @property
    def column(self) -> int:
        return (self.faults + 1) * self.size


def read_metadata(payload: bytes) -> Metadata | None:
    """Return the metadata that a payload spells, or None if it is no metadata."""
    if payload[:1] not in (b"\x10", b"\x14") or (payload[0] == 0x14 and payload[1:2] != b"\2"):
        return None
    place = forms.numbers_at(payload)
    if len(payload) < place + 10:
        return None
    faults, length = struct.unpack_from(">HQ", payload, place)
    if not 1 <= faults <= 333 or length > LARGEST or len(payload) != place + 10 + 64 * (3 * faults + 1):
        return None
    digests = [payload[start : start + 32] for start in range(place + 10, len(payload), 32)]
    cells = (faults + 1) * (2 * faults + 1)
    size = 2 * max(1, -(-length // (2 * cells)))
    secondary = digests[1::2] if payload[0] == 0x10 else digests[1::2][::-1]
    return Metadata(faults, size, (digests[::2], secondary))


def sliver_in(payload: bytes, identifier: bytes, index: int) -> bytes | None:
    """Return the bytes of the secondary sliver with this index, if the payload is such a frame of the identifier."""
    front = forms.target(forms.SLIVER, identifier, SECONDARY, index)
    content = payload[40:]
    return content if payload == front + forms.number(len(content), 4) + content and len(content) <= LARGEST else None


def opening_in(payload: bytes, identifier: bytes, index: int) -> tuple[int, bytes, list[bytes]] | None:
    """Return cross, symbol and path of an opening of this secondary sliver, if the payload is such a frame."""
    if not payload.startswith(forms.target(forms.OPENING, identifier, SECONDARY, index)) or len(payload) < 43:
        return None
    cross, size = struct.unpack_from(">HI", payload, 36)
    symbol, path = payload[42 : 42 + size], payload[43 + size :]
    if cross > 999 or size > LARGEST or len(payload) < 43 + size or payload[42 + size] > 10:
        return None
    siblings = [path[start : start + 32] for start in range(0, len(path), 32)]
    return (cross, symbol, siblings) if len(path) == 32 * payload[42 + size] else None


def leads_to(place: int, leaf: bytes, siblings: Sequence[bytes]) -> bytes:
    """Return the root to which a path leads."""
    digest = hashlib.sha256(b"\0" + leaf).digest()
    for sibling in siblings:
        pair = sibling + digest if place % 2 else digest + sibling
        digest, place = hashlib.sha256(b"\1" + pair).digest(), place // 2
    return digest


def recovered(m: Metadata, identifier: bytes, index: int, payloads: Sequence[bytes]) -> bytes | None:
    """Return the sliver that the first valid openings of f+1 crosses give, if it has the right root."""
    known: dict[int, bytes] = {}
    for payload in payloads:
        found = opening_in(payload, identifier, index) if index < m.shards else None
        if found and found[0] < m.shards and found[0] not in known and len(known) <= m.faults:
            cross, symbol, siblings = found
            fits = len(symbol) == m.size and len(siblings) == (m.shards - 1).bit_length()
            if fits and leads_to(index, symbol, siblings) == m.roots[0][cross]:
                known[cross] = symbol
    if len(known) <= m.faults:
        return None
    line = [symbol_at(known, place) for place in range(m.shards)]
    return b"".join(line[: m.faults + 1]) if forms.root_of(line) == m.roots[SECONDARY][index] else None


def column_of(m: Metadata, identifier: bytes, index: int, payloads: Sequence[bytes]) -> bytes | None:
    """Return the bytes of a column, from the first valid sliver or else from openings."""
    for payload in payloads:
        content = sliver_in(payload, identifier, index)
        if content is not None and len(content) == m.column and index < m.shards:
            symbols = [content[start : start + m.size] for start in range(0, m.column, m.size)]
            if forms.root_of(extended(symbols, m.shards)) == m.roots[SECONDARY][index]:
                return content
    return recovered(m, identifier, index, payloads)


class Missing(Exception):
    """A column that cannot be read."""


def joined(m: Metadata, identifier: bytes, wanted: range, payloads: Sequence[bytes]) -> bytes:
    def found() -> Iterator[bytes]:
        for index in wanted:
            column = column_of(m, identifier, index, payloads)
            if column is None:
                raise Missing(index)
            yield column

    return b"".join(found())


def read_index(m: Metadata, text: bytes, count: int) -> list[tuple[int, int]] | None:
    """Return the first column and length of each member, if this is the index of a bundle with these lengths."""
    entries = [ENTRY.unpack_from(text, 2 + ENTRY.size * place) for place in range(count)]
    lengths = [length for _, length in entries]
    is_own = symbol_size(m.faults, lengths) == m.size and index_of(m.faults, lengths, m.size) == text
    return entries if is_own else None


def member_in(m: Metadata, identifier: bytes, number: int, payloads: Sequence[bytes]) -> Answer:
    front = joined(m, identifier, range(1), payloads)
    count = forms.value_of(front[:2])
    if count > 2 * m.faults:
        return 3, b"bad index\n"
    size = 2 + ENTRY.size * count
    front += joined(m, identifier, range(1, lines_of(size, m.column)), payloads)
    entries = read_index(m, front[:size], count)
    if entries is None:
        return 3, b"bad index\n"
    if number >= count:
        return 4, b"no member of %d\n" % count
    first, length = entries[number]
    return 0, joined(m, identifier, range(first, first + lines_of(length, m.column)), payloads)[:length]


def member_of(identifier: bytes, number: int, payloads: Sequence[bytes]) -> Answer:
    """Return status and output for a member. Two metadata with one identifier, a hash collision, are not looked for."""
    of_it = [payload for payload in payloads if read_metadata(payload) and forms.identifier_of(payload) == identifier]
    found = read_metadata(of_it[0]) if of_it else None
    if found is None:
        return 4, b"no metadata\n"
    try:
        return member_in(found, identifier, number, payloads)
    except Missing as missing:
        return 4, b"missing column %d\n" % missing.args[0]

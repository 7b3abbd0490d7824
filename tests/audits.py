"""Storage challenges over hashlib alone: what is drawn, what a shard answers, and what is said of an answer."""

import dataclasses
import struct
from collections.abc import Sequence

from worked import Committed, digest, envelope

BEACON = bytes(range(32))
LARGEST_SYMBOL, MOST_DIGESTS = 16777216, 10


def draw(beacon: bytes, identifier: bytes, shards: int, shard: int, number: int) -> tuple[int, int]:
    """The axis and the place of a draw, by the digest of its 69 bytes."""
    drawn = digest(b"\4", beacon, identifier, struct.pack(">HH", shard, number))
    return drawn[0] & 1, int.from_bytes(drawn[3:5], "big") % shards


def shards_of(committed: Committed) -> int:
    return 3 * committed.faults + 1


def held(committed: Committed, axis: int, shard: int) -> int:
    """The index of the sliver of this axis that a shard holds."""
    return committed.held[shard] if axis else shard


def drawn(committed: Committed, shard: int, beacon: bytes, number: int) -> tuple[int, int, int]:
    """The axis and the index of the target of a draw, and the cross: the place on the shard's own sliver is opened."""
    axis, place = draw(beacon, committed.id, shards_of(committed), shard, number)
    return 1 - axis, place, held(committed, axis, shard)


def claims(committed: Committed, shard: int, beacon: bytes, count: int) -> list[bytes]:
    """The frames by which an honest shard answers."""
    opened: dict[tuple[int, int, int], bytes] = {}
    targets = [drawn(committed, shard, beacon, number) for number in range(count)]
    for target in targets:
        if target not in opened:
            opened[target] = committed.opening(*target)
    return [opened[target] for target in targets]


def answered(committed: Committed, shard: int, beacon: bytes, count: int) -> tuple[int, bytes]:
    """How a challenge of this shard ends: its claims, in envelopes from its number."""
    return 0, b"".join(envelope(shard, claim) for claim in claims(committed, shard, beacon, count))


@dataclasses.dataclass(frozen=True)
class Claim:
    """A frame of an opening, read."""

    axis: int
    index: int
    cross: int
    symbol: bytes
    path: list[bytes]


def read_claim(payload: bytes, identifier: bytes) -> Claim | None:
    """The opening of this blob that a payload is, or none."""
    if payload[:33] != b"\x12" + identifier or len(payload) < 43:
        return None
    axis, index, cross, size = struct.unpack(">BHHI", payload[33:42])
    symbol, behind = payload[42 : 42 + size], payload[42 + size :]
    fits = axis <= 1 and index <= 999 and cross <= 999 and size <= LARGEST_SYMBOL and len(symbol) == size
    if not fits or not behind or behind[0] > MOST_DIGESTS or len(behind) != 1 + 32 * behind[0]:
        return None
    return Claim(axis, index, cross, symbol, [behind[place : place + 32] for place in range(1, len(behind), 32)])


def leads_to(claim: Claim) -> bytes:
    """The root to which the path of a claim leads from its symbol."""
    node, place = digest(b"\0", claim.symbol), claim.index
    for sibling in claim.path:
        node = digest(b"\1", *((sibling, node) if place & 1 else (node, sibling)))
        place >>= 1
    return node


def is_held(committed: Committed, claim: Claim) -> bool:
    """Whether a claim's numbers and its symbol's length are right, and its path leads to the root of its cross."""
    shards, size = shards_of(committed), len(committed.lines[0][0][0])
    if claim.index >= shards or claim.cross >= shards or len(claim.symbol) != size:
        return False
    if len(claim.path) != (shards - 1).bit_length():
        return False
    return leads_to(claim) == committed.roots[1 - claim.axis][claim.cross]


def verdict(
    committed: Committed, shard: int, beacon: bytes, count: int, payloads: Sequence[bytes]
) -> tuple[int, bytes]:
    """What is said of an answer, where the metadata is there and the shard is one."""
    found = [claim for claim in (read_claim(payload, committed.id) for payload in payloads) if claim]
    if len(found) != count:
        return 4, b"wrong count %d of %d\n" % (len(found), count)
    for number, claim in enumerate(found):
        wanted = drawn(committed, shard, beacon, number)
        if (claim.axis, claim.index, claim.cross) != wanted or not is_held(committed, claim):
            return 3, b"wrong %d\n" % number
    return 0, b"accepted\n"

"""What follows from f, the number of shards that may lie: the forms and lengths of payloads."""

import hashlib
import struct

from .kinds import LARGEST_BLOB, METADATA, MOST_FAULTS, OPENING, PRIMARY, PROOF, READ, SECOND_METADATA, SLIVER, SYMBOL


def name_of(metadata: bytes) -> bytes:
    """Returns the identifier of the blob that a metadata belongs to."""
    front = 11 + (metadata[0] == SECOND_METADATA)
    level = [hashlib.sha256(b"\0" + leaf).digest() for (leaf,) in struct.iter_unpack("64s", metadata[front:])]
    while len(level) > 1:
        level += [bytes(32)] * (len(level) % 2)
        level = [hashlib.sha256(b"\1" + one + two).digest() for one, two in zip(level[::2], level[1::2])]
    form = b"\x02" if metadata[0] == METADATA else b"\x03"
    return hashlib.sha256(form + metadata[1:front] + level[0]).digest()


class Shape:
    """What follows from f, the number of shards that may lie: how many there are, and how long frames can be."""

    def __init__(self, faults: int) -> None:
        if not 1 <= faults <= MOST_FAULTS:
            raise ValueError(f"f is {faults}, and should be 1 to {MOST_FAULTS}")
        self.faults, self.shards, self.quorum = faults, 3 * faults + 1, 2 * faults + 1
        self.symbols = 2 * faults + 1, faults + 1  # symbols of a sliver, by its axis
        self.widest = 2 * -(-LARGEST_BLOB // (2 * self.symbols[0] * self.symbols[1]))  # most bytes of a symbol
        self.longest = 38 + self.symbols[0] * (self.widest + 327)  # most bytes of a payload that shards examine
        self.levels = (self.shards - 1).bit_length()  # digests of a Merkle path

    def allows(self, payload: bytes) -> bool:
        """Whether a payload has the length and numbers of a metadata, sliver, opening or proof of a blob of this f."""
        kind, opened = payload[0] if payload else 0, 7 + 32 * self.levels
        if kind in (METADATA, SECOND_METADATA):
            front = bytes([kind, 2] if kind == SECOND_METADATA else [kind]) + self.faults.to_bytes(2, "big")
            return payload[: len(front)] == front and len(payload) == len(front) + 8 + 64 * self.shards
        if len(payload) < 40 or payload[33] > 1 or int.from_bytes(payload[34:36], "big") >= self.shards:
            return False
        count = self.symbols[payload[33]]
        lengths = {SLIVER: (40, count, 0), OPENING: (36, 1, opened), PROOF: (38, count, opened)}
        ahead, count, beside = lengths.get(kind, (len(payload), 1, 0))  # bytes ahead; symbols; bytes beside each
        symbol, rest = divmod(len(payload) - ahead, count)
        return rest == 0 and symbol - beside in range(2, self.widest + 1, 2)

    def symbol_of(self, metadata: bytes) -> int:
        """Returns the bytes of each symbol of a blob with this metadata."""
        front = 3 + (metadata[0] == SECOND_METADATA)
        length = int.from_bytes(metadata[front:][:8], "big")
        return 2 * max(1, -(-length // (2 * self.symbols[0] * self.symbols[1])))

    def lengths_of(self, metadata: bytes, request: bytes) -> tuple[int, tuple[int, ...]]:
        """Returns the bytes of the part of a blob that a read or a request for a symbol gets, and those of proofs."""
        symbol, opened = self.symbol_of(metadata), 7 + 32 * self.levels
        length = 40 + self.symbols[PRIMARY] * symbol if request[0] == READ else 36 + opened + symbol
        return length, tuple(38 + count * (symbol + opened) for count in self.symbols)

    def keeps(self, payload: bytes, request: bytes, shard: int) -> int:
        """Returns the kind, of `KINDS`, of a payload if this shard may reply so to a read or symbol request, else 0."""
        own = {READ: (SLIVER, request[1:33] + struct.pack(">BH", PRIMARY, shard)), SYMBOL: (OPENING, request[1:])}
        fronts = {METADATA: b"", SECOND_METADATA: b"", PROOF: request[1:33], **dict([own.get(request[0], (0, b""))])}
        if request[0] not in own or not self.allows(payload) or payload[0] not in fronts:
            return 0
        kind, front = METADATA if payload[0] == SECOND_METADATA else payload[0], fronts[payload[0]]
        return kind if payload[1 : 1 + len(front)] == front else 0  # noqa: E203

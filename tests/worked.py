"""The worked blob, six words of two bytes for one fault, and false metadata beside it: frames over hashlib alone."""

import hashlib
import struct
from collections.abc import Sequence

SIX_WORDS = bytes.fromhex("000100020003000400050006")
ROWS = ((1, 2, 3, 0), (4, 5, 6, 7), (11, 12, 9, 14), (14, 11, 12, 9))
FALSE_ROW = (14, 11, 13, 8)  # a codeword that is no row of this matrix
PRIMARY, SECONDARY = 0, 1
AXES = ("primary", "secondary")


def digest(*pieces: bytes) -> bytes:
    return hashlib.sha256(b"".join(pieces)).digest()


def levels(leaves: Sequence[bytes]) -> list[list[bytes]]:
    """The digests of a tree, from those of its leaves up to its root; a level of odd length is filled up with zeros."""
    tree = [[digest(b"\0", leaf) for leaf in leaves]]
    while len(tree[-1]) > 1:
        tree[-1] += [bytes(32)] * (len(tree[-1]) % 2)
        tree.append([digest(b"\1", left, right) for left, right in zip(tree[-1][::2], tree[-1][1::2])])
    return tree


def root(leaves: Sequence[bytes]) -> bytes:
    return levels(leaves)[-1][0]


def path_in(tree: Sequence[Sequence[bytes]], place: int) -> bytes:
    return b"".join(level[(place >> height) ^ 1] for height, level in enumerate(tree[:-1]))


def envelope(sender: int, payload: bytes) -> bytes:
    return b"\x57" + struct.pack(">HI", sender, len(payload)) + payload


def stream(*payloads: bytes) -> bytes:
    return b"".join(envelope(0, payload) for payload in payloads)


def answer(code: int, a: int = 0, b: int = 0) -> bytes:
    """What shard 0 answers with one frame."""
    return envelope(0, struct.pack(">BBII", 0x30, code, a, b))


def symbols(words: Sequence[int]) -> list[bytes]:
    return [struct.pack(">H", word) for word in words]


class Committed:
    """Metadata over the rows and columns of a matrix, lists of symbols: its identifier, and frames that name it."""

    def __init__(
        self, rows: Sequence[Sequence[bytes]], columns: Sequence[Sequence[bytes]], length: int, version: int = 1
    ):
        shards = len(rows)
        self.faults, self.lines, self.length = (shards - 1) // 3, (rows, columns), length
        self.held = range(shards) if version == 1 else range(shards)[::-1]
        self.trees = [[levels(line) for line in lines] for lines in (rows, columns)]
        self.roots = [[tree[-1][0] for tree in trees] for trees in self.trees]
        pairs = [self.roots[PRIMARY][shard] + self.roots[SECONDARY][held] for shard, held in enumerate(self.held)]
        numbers = b"\2"[: version - 1] + struct.pack(">HQ", self.faults, length)
        self.id = digest(bytes([version + 1]) + numbers, root(pairs))
        self.metadata = (b"\x10" if version == 1 else b"\x14") + numbers + b"".join(pairs)

    def sliver(self, axis: int, index: int) -> bytes:
        size = self.faults + 1 if axis == SECONDARY else 2 * self.faults + 1
        content = b"".join(self.lines[axis][index][:size])
        return b"\x11" + self.id + struct.pack(">BHI", axis, index, len(content)) + content

    def body(self, axis: int, index: int, cross: int) -> bytes:
        """The opening of the sliver of this axis and index that the crossing line shows."""
        symbol, siblings = self.lines[1 - axis][cross][index], path_in(self.trees[1 - axis][cross], index)
        return struct.pack(">HI", cross, len(symbol)) + symbol + bytes([len(siblings) // 32]) + siblings

    def opening(self, axis: int, index: int, cross: int) -> bytes:
        return b"\x12" + self.id + struct.pack(">BH", axis, index) + self.body(axis, index, cross)

    def proof(self, axis: int, index: int, *crosses: int) -> bytes:
        bodies = [self.body(axis, index, cross) for cross in crosses]
        return b"\x13" + self.id + struct.pack(">BHH", axis, index, len(bodies)) + b"".join(bodies)

    def envelopes(self) -> bytes:
        """What is written for the whole blob: the metadata, and the slivers of each shard."""
        written = envelope(0, self.metadata)
        for shard, held in enumerate(self.held):
            written += envelope(shard, self.sliver(PRIMARY, shard)) + envelope(shard, self.sliver(SECONDARY, held))
        return written


MATRIX = [symbols(row) for row in ROWS]
COLUMNS = [symbols(column) for column in zip(*ROWS)]
HONEST = Committed(MATRIX, COLUMNS, 12)
SECOND = Committed(MATRIX, COLUMNS, 12, version=2)
ELEVEN = Committed(MATRIX, COLUMNS, 11)  # its twelfth byte is not zero
FALSE = Committed(MATRIX[:3] + [symbols(FALSE_ROW)], COLUMNS, 12)


def ladder(faults: int, version: int = 1) -> Committed:
    """The blob of one word a symbol whose row i and column j cross in the word i ^ j, a line of degree one in both."""
    lines = [symbols([row ^ column for column in range(3 * faults + 1)]) for row in range(3 * faults + 1)]
    return Committed(lines, lines, 2 * (faults + 1) * (2 * faults + 1), version)

"""Tries what the program writes for images of journals: python3 -m unittest.

What is expected is worked by hand, or computed by tests/worked.py and hostile/images.py over hashlib.
"""

import random
import unittest

import bundled  # noqa: F401  # which makes the modules of hostile/ known
from rows import Row, Rows, malformed
from test_pages import needs_program
from test_rows import USAGE
from worked import ELEVEN, FALSE, HONEST, PRIMARY, SECOND, SECONDARY, Committed, envelope, stream

from images import PUT, record

X = b"\xaa" * 32
LARGEST = 16777216
MOST = 134217728
CLOSED = b"\0"
EMPTY = 0, b""
TOO_LONG = 9, b"too long\n"
Image = tuple[int, bytes]


def sliver(identifier: bytes, axis: int, index: int, content: bytes) -> bytes:
    return b"\x11" + identifier + bytes([axis, 0, index]) + len(content).to_bytes(4, "big") + content


def full(needed: int, free: int) -> Image:
    return 4, b"disk full needed %d free %d\n" % (needed, free)


def image_row(room: int, payloads: list[bytes], ends: Image) -> Row:
    return Row(["image", str(room)], stream(*payloads), ends)


def parts_row(payloads: list[bytes], *records: bytes) -> Row:
    """The image of these payloads, on a disk that has room for these records and no byte more."""
    whole = b"".join(records) + CLOSED
    return image_row(len(whole), payloads, (0, whole))


def listed(*parts: tuple[bytes, str, int]) -> Image:
    return 0, "".join(f"{identifier.hex()} {part} {size}\n" for identifier, part, size in parts).encode()


FOUR = bytes.fromhex("00010004")
WORKED = sliver(X, SECONDARY, 0, FOUR)
WORKED_IMAGE = bytes.fromhex("0101" + "aa" * 32 + "02000000040001000400")
PROOF = FALSE.proof(SECONDARY, 2, 1, 3)


def parts_of(blob: Committed, shard: int) -> list[bytes]:
    return [blob.metadata, blob.sliver(PRIMARY, shard), blob.sliver(SECONDARY, shard)]


def puts(*payloads: bytes) -> list[bytes]:
    """The records of metadata, slivers and proofs of the worked blobs."""
    found = []
    for payload in payloads:
        blob = next(it for it in (HONEST, SECOND, ELEVEN, FALSE) if payload == it.metadata or payload[1:33] == it.id)
        part = {0x10: 0, 0x14: 0, 0x13: 3}.get(payload[0], 1 + payload[33])
        start = {0x10: 1, 0x14: 1, 0x13: 33}.get(payload[0], 40)
        found.append(record(PUT, blob.id, part, payload[start:]))
    return found


def proof_of(size: int) -> bytes:
    """A proof of one opening that takes so many bytes as a part."""
    symbol = size - 5 - 7
    return b"\x13" + X + b"\0\0\0\0\1" + b"\0\0" + symbol.to_bytes(4, "big") + bytes(symbol) + b"\0"


@needs_program
class Writing(Rows):
    def test_the_worked_one(self) -> None:
        self.assertEqual(record(PUT, X, 2, FOUR) + CLOSED, WORKED_IMAGE)
        self.check(
            "worked",
            image_row(44, [WORKED], (0, WORKED_IMAGE)),
            image_row(43, [WORKED], full(43, 42)),
            image_row(1, [WORKED], full(43, 0)),
            image_row(MOST, [WORKED], (0, WORKED_IMAGE)),
            Row(["image", "1"], b"", (0, CLOSED)),
            Row(["image", str(MOST)], b"", (0, CLOSED)),
        )

    def test_what_a_frame_has(self) -> None:
        """Its part under its identifier, whether it verifies or not: that of a metadata is the one that it commits."""
        payloads = [*parts_of(HONEST, 0), *parts_of(SECOND, 1), FALSE.metadata, PROOF]
        self.check(
            "parts",
            parts_row(payloads, *puts(*payloads)),
            parts_row(payloads[::-1], *puts(*payloads[::-1])),
            parts_row([HONEST.sliver(PRIMARY, 3)], *puts(HONEST.sliver(PRIMARY, 3))),
            parts_row([b"\x13" + X + b"\1\3\xe7\0\0"], record(PUT, X, 3, b"\1\3\xe7\0\0")),
            Row(["image", "44"], envelope(65535, WORKED), (0, WORKED_IMAGE)),
        )

    def test_what_is_passed_over(self) -> None:
        """A part that is held, slivers of no byte, frames of other kinds, and what is no frame."""
        others = [HONEST.opening(SECONDARY, 3, 1), b"\x20" + X, b"\x22" + X, b"\x30" + bytes(9), b"\x40" + X + bytes(4)]
        none = [b"", b"\xff", WORKED + b"\0", WORKED[:-1], HONEST.metadata[:-1], HONEST.metadata + b"\0", PROOF[:-1]]
        wrong = [
            WORKED[:33] + b"\2" + WORKED[34:],  # an axis
            WORKED[:34] + b"\3\xe8" + WORKED[36:],  # an index
            b"\x10\1\x4e" + HONEST.metadata[3:],  # f
            b"\x14\1" + SECOND.metadata[2:],  # a version
            PROOF[:38] + b"\3\xe8" + PROOF[40:],  # a cross
        ]
        again = [WORKED, sliver(X, SECONDARY, 1, b"other")]
        self.check(
            "passed over",
            image_row(1, [sliver(X, PRIMARY, 0, b"")] + others + none + wrong, (0, CLOSED)),
            parts_row([*others, WORKED, *none, *wrong], record(PUT, X, 2, FOUR)),
            parts_row([*again, WORKED], record(PUT, X, 2, FOUR)),
            parts_row(again[::-1], record(PUT, X, 2, b"other")),
            parts_row([sliver(X, SECONDARY, 0, b""), WORKED], record(PUT, X, 2, FOUR)),
            parts_row([HONEST.metadata] * 40, *puts(HONEST.metadata)),
        )

    def test_room(self) -> None:
        """Exactly the room and one byte less; what is held needs none; a smaller part behind a large one is not tried."""
        payloads = [*parts_of(HONEST, 0), PROOF]
        sizes = [39 + 266, 39 + 6, 39 + 4, 39 + len(PROOF) - 33]
        whole = b"".join(puts(*payloads)) + CLOSED
        self.assertEqual(len(whole), sum(sizes) + 1)
        rows = [image_row(len(whole), payloads + payloads, (0, whole))]
        for count in range(4):
            used = sum(sizes[:count])
            for free in (0, 1, sizes[count] - 1):
                rows.append(image_row(used + 1 + free, payloads, full(sizes[count], free)))
        rows.append(image_row(400, [*parts_of(HONEST, 0)[:2], PROOF, HONEST.sliver(SECONDARY, 0)], full(sizes[3], 49)))
        self.check("room", *rows)

    def test_the_longest_parts(self) -> None:
        """Of 16,777,216 bytes, which are taken, and of one more, which no keep takes."""
        long = random.Random(1).randbytes(LARGEST)
        proof = proof_of(LARGEST)
        self.assertEqual(len(proof), LARGEST + 33)
        slivers = [sliver(bytes([number]) * 32, PRIMARY, 0, long) for number in range(7)]
        records = [record(PUT, bytes([number]) * 32, 1, long) for number in range(7)]
        self.check(
            "long",
            parts_row([slivers[0]], records[0]),
            parts_row([proof], record(PUT, X, 3, proof[33:])),
            image_row(1, [proof_of(LARGEST + 1)], (0, CLOSED)),
            parts_row([proof_of(LARGEST + 1), WORKED], record(PUT, X, 2, FOUR)),
            image_row(MOST, slivers, (0, b"".join(records) + CLOSED)),
            image_row(7 * (LARGEST + 39), slivers, full(LARGEST + 39, LARGEST + 38)),
        )

    def test_inputs_that_are_none(self) -> None:
        """Too long, then malformed, then full; each front of a stream."""
        self.check(
            "inputs",
            Row(["image", "1"], stream(WORKED) + b"W", malformed(51)),
            Row(["image", "44"], bytes(MOST), malformed(0)),
            Row(["image", "44"], bytes(MOST + 1), TOO_LONG),
        )
        parts = parts_of(HONEST, 0)[1:]
        first, second = puts(*parts)
        told = [(0, 0, CLOSED), (53, 0, first + CLOSED), (104, 0, first + second + CLOSED)]
        self.check_fronts(["image", "89"], stream(*parts), told)
        self.check_fronts(["image", "88"], stream(*parts), [*told[:2], (104, *full(43, 42))])

    def test_words(self) -> None:
        numbers = ["0", "134217729", "01", "+1", "-1", "1.0", "", "x", "18446744073709551617"]
        refused = [["image"], ["image", "1", "1"], ["unpack", "1"], ["unpack", X.hex()], ["unpack", "--pages", "0"]]
        refused += [["image", number] for number in numbers]
        self.check("refused", *[Row(words, b"", (2, USAGE)) for words in refused])
        self.check(
            "taken",
            Row(["--format", "2", "image", "44"], stream(WORKED), (0, WORKED_IMAGE)),
            Row(["unpack", "--blobs=1"], WORKED_IMAGE, listed((X, "secondary", 4))),
        )


if __name__ == "__main__":
    unittest.main()

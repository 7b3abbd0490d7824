"""Tries what the program writes for bundles of small blobs: python3 -m unittest.

What is expected is laid out by hand, or computed by tests/worked.py and hostile/bundles.py over hashlib.
"""

import random
import unittest

from bundled import block, cut, index
from rows import Row, Rows, malformed
from test_pages import needs_program
from test_rows import USAGE
from worked import HONEST, envelope, stream

import bundles

TWO = [b"\xaa\xbb", b"\xcc"]
BUNDLE = bytes.fromhex("0002000100000002 aabb000000000000 cc00000000000000 0002000000010000") + bytes(16)
TOO_MANY, TOO_LONG = (4, b"too many members\n"), (4, b"bundle too long\n")
NO_METADATA = 4, b"no metadata\n"
LONGEST = 5592404  # bytes of a column of the largest bundle for one fault


def bundle_row(faults: int, members: list[bytes], ends: tuple[int, bytes]) -> Row:
    return Row(["bundle", str(faults)], stream(*members), ends)


@needs_program
class Bundling(Rows):
    def test_layouts(self) -> None:
        """The worked one; of no member; of empty ones; of whole columns and one byte more; of many columns."""
        low, high = bytes(range(16)), bytes(range(16, 32))
        long = bytes(range(24))
        fours = [(5, 0)] * 4  # an index of five columns, and the next free one is behind the last
        self.assertEqual(block(1, 8, index((1, 2), (2, 1)), *TWO), BUNDLE)
        self.check(
            "layouts",
            bundle_row(1, TWO, (0, BUNDLE)),
            Row(["bundle", "1"], b"", (0, bytes(12))),
            bundle_row(1, [b""], (0, bytes.fromhex("000100000000000200000000"))),
            bundle_row(1, [b"", b"\7"], (0, block(1, 4, *cut(index((2, 0), (2, 1)), 8), b"\7"))),
            bundle_row(1, [b"\7", b""], (0, block(1, 4, *cut(index((2, 1), (3, 0)), 8), b"\7"))),
            bundle_row(1, [long, b""], (0, block(1, 8, index((1, 24), (3, 0)), long[:16], long[16:]))),
            bundle_row(1, [low, high], (0, block(1, 8, index((1, 16), (2, 16)), low, high))),
            bundle_row(1, [low + b"\0", high], (0, block(1, 10, index((1, 17), (2, 16)), low, high))),
            bundle_row(1, [long], (0, block(1, 6, index((1, 24)), long[:12], long[12:]))),
            bundle_row(1, [long + b"\1"], (0, block(1, 8, index((1, 25)), long[:16], long[16:] + b"\1"))),
            bundle_row(2, [b""] * 4, (0, block(2, 2, *cut(index(*fours), 6)))),
            Row(["bundle", "1"], b"".join(envelope(9, member) for member in TWO), (0, BUNDLE)),
        )

    def test_the_most_members(self) -> None:
        """2f of them and one more, whatever their length."""
        ones = [bytes([number % 256]) for number in range(667)]
        entries = index(*((number, 1) for number in range(1, 667)))
        self.check(
            "members",
            bundle_row(1, TWO + [b""], TOO_MANY),
            bundle_row(2, [b"\7"] * 4, (0, block(2, 10, index((1, 1), (2, 1), (3, 1), (4, 1)), *[b"\7"] * 4))),
            bundle_row(2, [b"\7"] * 5, TOO_MANY),
            bundle_row(333, ones[:666], (0, block(333, 12, entries, *ones[:666]))),
            bundle_row(333, ones, TOO_MANY),
        )

    def test_the_longest_bundles(self) -> None:
        """Of 16,777,212 and 16,485,572 bytes, and with one byte more; too many come before too long."""
        long = random.Random(1).randbytes(2 * LONGEST)
        halves = long[:LONGEST], long[LONGEST:]
        whole = block(1, LONGEST // 2, index((1, len(long))), *halves)
        wide = [long[24716 * number : 24716 * (number + 1)] for number in range(452)] + [b""] * 214
        self.assertEqual(len(whole), 16777212)
        self.check(
            "lengths",
            bundle_row(1, [long], (0, whole)),
            bundle_row(1, list(halves), (0, block(1, LONGEST // 2, index((1, LONGEST), (2, LONGEST)), *halves))),
            bundle_row(1, [long + b"\0"], TOO_LONG),
            bundle_row(1, [long, b"\0"], TOO_LONG),
            bundle_row(1, [long, b"", b"\0"], TOO_MANY),
            bundle_row(333, wide, bundles.bundle_of(333, wide)),
            bundle_row(333, [bytes(24716)] * 666, bundles.bundle_of(333, [bytes(24716)] * 666)),
            bundle_row(333, [bytes(24716)] * 665 + [bytes(24717)], TOO_LONG),
        )
        self.assertEqual(len(bundles.bundle_of(333, wide[:1] * 666)[1]), 16485572)

    def test_inputs_that_are_none(self) -> None:
        """Malformed before too many, and too long before malformed; each front of a stream."""
        self.check(
            "inputs",
            Row(["bundle", "1"], stream(b"", b"", b"") + b"W", malformed(21)),
            Row(["bundle", "1"], bytes(134217728), malformed(0)),
            Row(["bundle", "1"], bytes(134217729), (9, b"too long\n")),
            Row(["member", HONEST.id.hex(), "0"], bytes(134217728), malformed(0)),
            Row(["member", HONEST.id.hex(), "0"], bytes(134217729), (9, b"too long\n")),
        )
        told = [(0, 0, bytes(12)), (9, 0, block(1, 2, *cut(index((2, 2)), 4), TWO[0])), (17, 0, BUNDLE)]
        self.check_fronts(["bundle", "1"], stream(*TWO), told)

    def test_words(self) -> None:
        identifier = HONEST.id.hex()
        refused = [
            ["bundle"],
            ["bundle", "0"],
            ["bundle", "334"],
            ["bundle", "01"],
            ["bundle", "1", "2"],
            ["member", identifier],
            ["member", "0", identifier],
            ["member", identifier[:-1], "0"],
            ["member", identifier, "65536"],
            ["member", identifier, "+1"],
            ["member", identifier, "0", "0"],
            ["bundle", "1", "--format", "3"],
        ]
        self.check("refused", *[Row(words, b"", (2, USAGE)) for words in refused])
        self.check(
            "taken",
            Row(["bundle", "--format", "2", "1"], stream(*TWO), (0, BUNDLE)),
            Row(["bundle", "333"], b"", (0, bytes(445556))),
            Row(["member", identifier.upper(), "65535", "--pages", "1"], b"", NO_METADATA),
        )


if __name__ == "__main__":
    unittest.main()

"""Tries what the program finds for members of bundles: python3 -m unittest.

What is expected is laid out by hand, or computed by tests/worked.py over hashlib.
"""

import random
import unittest

from bundled import block, committed, cut, index
from rows import Row, Rows, run
from test_bundle import BUNDLE, LONGEST, NO_METADATA, TWO
from test_pages import needs_program
from worked import HONEST, PRIMARY, SECONDARY, SIX_WORDS, Committed, stream

import forms

EMPTY = 0, b""
BAD_INDEX = 3, b"bad index\n"


def missing(column: int) -> tuple[int, bytes]:
    return 4, b"missing column %d\n" % column


def no_member(count: int) -> tuple[int, bytes]:
    return 4, b"no member of %d\n" % count


def member_row(blob: Committed, number: int, payloads: list[bytes], ends: tuple[int, bytes]) -> Row:
    return Row(["member", blob.id.hex(), str(number)], stream(blob.metadata, *payloads), ends)


def columns(blob: Committed, *indices: int) -> list[bytes]:
    return [blob.sliver(SECONDARY, column) for column in indices]


FIRST, SECOND = committed(1, BUNDLE), committed(1, BUNDLE, version=2)
SHORT = committed(1, BUNDLE[:-1])  # one zero byte less in its length, and so the same symbols
STUFFED = BUNDLE[:32] + b"\xff" * 16  # behind both members and in their columns


def changed(payload: bytes) -> bytes:
    return payload[:-1] + bytes([payload[-1] ^ 1])


@needs_program
class Members(Rows):
    def test_of_both_formats(self) -> None:
        """Members of the worked bundle, and what is missing, in the order in which it is wanted."""
        for blob in (FIRST, SECOND, SHORT):
            self.check(
                "members",
                member_row(blob, 0, columns(blob, 0, 1), (0, TWO[0])),
                member_row(blob, 1, columns(blob, 0, 2), (0, TWO[1])),
                member_row(blob, 1, columns(blob, 3, 2, 1, 0, 0), (0, TWO[1])),
                member_row(blob, 0, columns(blob, 0, 2), missing(1)),
                member_row(blob, 1, columns(blob, 0), missing(2)),
                member_row(blob, 2, columns(blob, 0), no_member(2)),
                member_row(blob, 65535, columns(blob, 0, 1, 2), no_member(2)),
                member_row(blob, 1, columns(blob, 1, 2, 3), missing(0)),
                member_row(blob, 2, [], missing(0)),
                member_row(blob, 1, [blob.sliver(PRIMARY, row) for row in range(4)], missing(0)),
            )
        self.check(
            "metadata",
            Row(["member", FIRST.id.hex(), "1"], stream(*columns(FIRST, 0, 2)), NO_METADATA),
            Row(["member", FIRST.id.hex(), "1"], stream(*columns(FIRST, 0, 2), FIRST.metadata), (0, TWO[1])),
            Row(["member", FIRST.id.hex(), "1"], stream(SECOND.metadata, *columns(SECOND, 0, 2)), NO_METADATA),
            Row(["member", FIRST.id.hex(), "1"], stream(FIRST.metadata, *columns(SECOND, 0, 2)), missing(0)),
            member_row(FIRST, 1, [SECOND.metadata, FIRST.metadata, b"", b"\xff", *columns(FIRST, 0, 2)], (0, TWO[1])),
        )

    def test_from_openings(self) -> None:
        """A column is there from openings of f+1 crosses that hold, the first of each."""
        for blob in (FIRST, SECOND):
            [front], opened = columns(blob, 0), [blob.opening(SECONDARY, 2, cross) for cross in range(4)]
            others = [blob.opening(SECONDARY, 0, cross) for cross in (3, 1)]
            false = [changed(opening) for opening in opened]
            self.check(
                "openings",
                member_row(blob, 1, [front, opened[3], opened[1]], (0, TWO[1])),
                member_row(blob, 1, [*opened[:2], *others], (0, TWO[1])),
                member_row(blob, 1, [front, opened[1], opened[1]], missing(2)),
                member_row(blob, 1, [front, false[0], false[1], opened[1], *others], missing(2)),
                member_row(blob, 1, [front, false[0], false[1], opened[1], opened[0]], (0, TWO[1])),
                member_row(blob, 1, [front, opened[0], blob.opening(SECONDARY, 1, 1)], missing(2)),
                member_row(blob, 1, [front, opened[0], blob.opening(PRIMARY, 2, 1)], missing(2)),
                member_row(blob, 1, [opened[0], opened[2], changed(columns(blob, 2)[0]), front], (0, TWO[1])),
                member_row(blob, 2, others, no_member(2)),
                member_row(blob, 2, others[:1], missing(0)),
            )

    def test_lies(self) -> None:
        """Slivers that do not hold are passed over: of a false byte, another length, another column or blob."""
        [front, true], named = columns(FIRST, 0, 2), FIRST.sliver(SECONDARY, 1)
        lies = [
            changed(true),
            named[:34] + true[34:36] + named[36:],
            true[:36] + b"\0\0\0\7" + true[40:47],
            true + b"\0",
            true[:33] + b"\0" + true[34:],
            true[:1] + SECOND.id + true[33:],
        ]
        for lie in lies:
            self.check(
                "lies",
                member_row(FIRST, 1, [front, lie], missing(2)),
                member_row(FIRST, 1, [front, lie, true], (0, TWO[1])),
                member_row(FIRST, 1, [lie, front, *[FIRST.opening(SECONDARY, 2, it) for it in (1, 2)]], (0, TWO[1])),
            )

    def test_fronts(self) -> None:
        """Each front of a stream that has all."""
        ends = [274 + 63 * count for count in range(3)]
        data = stream(FIRST.metadata, *columns(FIRST, 0, 2))
        self.assertEqual((len(data), len(stream(FIRST.metadata))), (ends[2], 274))
        told = [(0, *NO_METADATA), (274, *missing(0)), (ends[1], *missing(2)), (ends[2], 0, TWO[1])]
        self.check_fronts(["member", FIRST.id.hex(), "1"], data, told)


def laid(size: int, *pieces: bytes, faults: int = 1) -> Committed:
    return committed(faults, block(faults, size, *pieces))


@needs_program
class Indices(Rows):
    def test_bad_ones(self) -> None:
        """Counts, first columns and lengths that no bundle of this symbol size has; they come before the member."""
        many = committed(1, b"\xff" * 48)
        bad = [
            laid(8, index((2, 2), (1, 1)), *TWO),
            laid(8, index((1, 2), (3, 1)), *TWO),
            laid(8, index((1, 2), (2, 17)), *TWO),
            laid(8, index((1, 2), (2, 2**32 - 1)), *TWO),
            laid(10, index((1, 2), (2, 1)), *TWO),
            laid(8, index((1, 2)), *TWO),
            laid(8, index((0, 2), (2, 1)), *TWO),
            laid(8, b"\0\3" + index((1, 2), (2, 1))[2:], *TWO),
            laid(8),  # no member, and its least symbols have two bytes
        ]
        for blob in bad:
            for number in (0, 1, 2):
                self.check("bad", member_row(blob, number, columns(blob, 0, 1, 2), BAD_INDEX))
        self.check(
            "counts",
            member_row(many, 0, columns(many, 0), BAD_INDEX),
            member_row(many, 0, columns(many, 1), missing(0)),
            *[member_row(laid(2), number, columns(laid(2), 0), no_member(0)) for number in (0, 1)],
        )

    def test_of_many_columns(self) -> None:
        """An index in several columns is wanted whole before anything is said of it, the redundant column too."""
        forged = laid(2, *cut(index((3, 0), (3, 0)), 4)[:3])
        one = HONEST, 1  # whose first column has the count of one member
        self.check(
            "columns",
            *[member_row(forged, 0, columns(forged, *range(count)), missing(count)) for count in range(4)],
            member_row(forged, 0, columns(forged, 0, 1, 2, 3), BAD_INDEX),
            member_row(one[0], 5, columns(one[0], 0), missing(1)),
            member_row(one[0], 5, columns(one[0], 0, 1), BAD_INDEX),
            member_row(one[0], 0, [HONEST.opening(SECONDARY, 0, 2), HONEST.opening(SECONDARY, 0, 3)], missing(1)),
        )
        fours = laid(2, *cut(index(*[(5, 0)] * 4), 6), faults=2)
        self.check(
            "empty members",
            *[member_row(fours, number, columns(fours, 0, 1, 2, 3, 4), EMPTY) for number in range(4)],
            member_row(fours, 4, columns(fours, 0, 1, 2, 3, 4), no_member(4)),
            *[member_row(fours, 0, columns(fours, *range(count), 5, 6), missing(count)) for count in range(5)],
        )

    def test_what_is_not_compared(self) -> None:
        """Bytes behind the index and behind a member, which are zero in a bundle."""
        stuffed = laid(8, index((1, 2), (2, 1)) + b"\xff\xff", TWO[0] + b"\xff" * 14, TWO[1] + b"\xff" * 15)
        self.check(
            "stuffed",
            *[member_row(stuffed, number, columns(stuffed, 0, 1, 2), (0, TWO[number])) for number in (0, 1)],
        )


# A writer that lies: column 2 is committed as that of another blob, and the rows are those of the bundle.
OTHER = committed(1, BUNDLE[:16] + b"\xdd" + BUNDLE[17:])
MIXED = Committed(FIRST.lines[0], [*FIRST.lines[1][:2], OTHER.lines[1][2], FIRST.lines[1][3]], 48)


@needs_program
class Writers(Rows):
    def test_one_that_lies(self) -> None:
        """The committed sliver is what counts; openings that show another one, which has not its root, give none."""
        opened = [MIXED.opening(SECONDARY, 2, cross) for cross in range(4)]
        front, true = columns(MIXED, 0, 2)
        false = true[:40] + FIRST.sliver(SECONDARY, 2)[40:]
        self.check(
            "a false column",
            member_row(MIXED, 1, [front, true], (0, b"\xdd")),
            member_row(MIXED, 1, [front, *opened, true], (0, b"\xdd")),
            member_row(MIXED, 1, [front, *opened, false], missing(2)),
            member_row(MIXED, 0, [front, *opened, *columns(MIXED, 1)], (0, TWO[0])),
        )

    def test_the_worked_six_words(self) -> None:
        """They are no bundle, but they have columns."""
        self.check(
            "no bundle",
            member_row(HONEST, 0, columns(HONEST, 0, 1, 2), BAD_INDEX),
            Row(["bundle", "1"], stream(SIX_WORDS), (0, block(1, 4, index((1, 12)), SIX_WORDS[:8], SIX_WORDS[8:]))),
        )


@needs_program
class Whole(Rows):
    """From members to a bundle, its slivers and members again, by the program itself."""

    def try_members(self, faults: int, members: list[bytes], numbers: list[int], version: int = 1) -> None:
        status, bundle = run(["bundle", str(faults)], stream(*members))
        self.assertEqual((status, len(bundle) % ((faults + 1) * (2 * faults + 1))), (0, 0))
        words = [str(faults), "--format", str(version)]
        identifier = run(["id", *words], bundle)[1].decode().strip()
        envelopes, _ = forms.split(run(["encode", *words], bundle)[1])
        parts = {payload[33:36]: payload for _, payload in envelopes[1:]}
        size = len(bundle) // (2 * faults + 1)
        first = -(-(2 + 6 * len(members)) // size)
        held = range(first)
        for number, member in enumerate(members):
            own = range(first, first - (-len(member) // size))
            if number in numbers:
                told = [parts[bytes([SECONDARY]) + forms.number(column, 2)] for column in (*held, *own)]
                with self.subTest(faults=faults, number=number, version=version):
                    self.assertEqual(
                        run(["member", identifier, str(number)], stream(envelopes[0][1], *told)), (0, member)
                    )
                    if told[1:] and own:
                        data = stream(envelopes[0][1], *told[:-1])
                        self.assertEqual(run(["member", identifier, str(number)], data), missing(own[-1]))
            first += len(own)

    def test_small_ones(self) -> None:
        drawn = random.Random(2)
        for faults, most, version in [(1, 40, 1), (1, 3000, 2), (2, 90, 2), (3, 500, 1), (10, 100, 1), (33, 20, 2)]:
            members = [drawn.randbytes(drawn.randrange(most)) for _ in range(drawn.randrange(1, 2 * faults + 1))]
            self.try_members(faults, members, list(range(len(members))), version)

    def test_large_ones(self) -> None:
        drawn = random.Random(3)
        self.try_members(1, [drawn.randbytes(2 * LONGEST)], [0])
        members = [drawn.randbytes(drawn.randrange(24716)) for _ in range(666)]
        self.try_members(333, members, [0, 1, 400, 665])


if __name__ == "__main__":
    unittest.main()

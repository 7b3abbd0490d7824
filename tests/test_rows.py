"""Tries what the program writes for blobs, envelopes and words: python3 -m unittest.

What is expected is worked by hand or computed by tests/worked.py over hashlib.
"""

import unittest

from rows import Row, Rows, malformed, run, short, zeros
from test_pages import needs_program
from worked import ELEVEN, FALSE, HONEST, PRIMARY, SECOND, SECONDARY, SIX_WORDS, Committed, digest, envelope, stream

COMMANDS = (
    "id F",
    "encode F",
    "read ID",
    "recover ID AXIS INDEX",
    "check ID",
    "serve F SHARD",
    "replay",
    "sample NUMBER",
    "image BYTES",
    "unpack",
    "bundle F",
    "member ID K",
    "challenge ID SHARD BEACON COUNT",
    "verify ID SHARD BEACON COUNT",
    "gateway CAPACITY",
)
USAGE = f"usage: walrus {' | '.join(COMMANDS)}\n".encode()
I, J, SECOND_ID = HONEST.id.hex(), FALSE.id.hex(), SECOND.id.hex()
REJECT = (3, b"reject\n")
NO_METADATA = (4, b"no metadata\n")
METADATA = stream(HONEST.metadata)


def lines_of(digits: list[str]) -> list[list[bytes]]:
    """Four symbols of each line, in digits."""
    return [[bytes.fromhex(symbol) for symbol in line.split()] for line in digits]


# Thirteen bytes, whose symbols have two words: the last byte begins the second row. Of two words a and b in one column,
# the others are 3a + 2b and 2a + 3b; the last symbol of a row is the sum of the others.
THIRTEEN = Committed(
    lines_of(
        [
            "00010002 00030004 00050006 00070000",
            "07000000 00000000 00000000 07000000",
            "0e030006 0005000c 000f000a 0e090000",
            "09020004 00060008 000a000c 090e0000",
        ]
    ),
    lines_of(
        [
            "00010002 07000000 0e030006 09020004",
            "00030004 00000000 0005000c 00060008",
            "00050006 00000000 000f000a 000a000c",
            "00070000 07000000 0e090000 090e0000",
        ]
    ),
    13,
)
ZERO_LEAF = "709e80c88487a2411e1ee4dfb9f22a861492d20c4765150c0c794abd70f8147c"


@needs_program
class Encoding(Rows):
    def test_identifiers(self) -> None:
        """Of no byte, of twelve without padding, of one more, and of the longest blob."""
        self.assertEqual(digest(b"\0", bytes(2)).hex(), ZERO_LEAF)
        self.check(
            "identifiers",
            Row(["id", "1"], b"", (0, zeros(0, 2).id.hex().encode() + b"\n")),
            Row(["id", "1"], SIX_WORDS, (0, I.encode() + b"\n")),
            Row(["id", "1", "--pages", "3"], SIX_WORDS, (0, I.encode() + b"\n")),
            Row(["id", "1", "--format", "2"], SIX_WORDS, (0, SECOND_ID.encode() + b"\n")),
            Row(["id", "1"], SIX_WORDS + b"\7", (0, THIRTEEN.id.hex().encode() + b"\n")),
            Row(["id", "1"], bytes(16777216), (0, zeros(16777216, 2796204).id.hex().encode() + b"\n")),
            Row(["id", "1"], bytes(16777217), (9, b"too long\n")),
            Row(["encode", "1"], bytes(16777217), (9, b"too long\n")),
        )

    def test_envelopes(self) -> None:
        """The metadata and two slivers a shard, in either format, whose spelling is this one."""
        first, second = HONEST.envelopes(), SECOND.envelopes()
        self.assertEqual((len(first), len(second)), (690, 691))
        begins = "5700000000010b10", f"5700000000002e11{I}00000000000006000100020003"
        self.assertEqual((first[:8].hex(), first[274:327].hex()), begins)
        self.assertEqual(first[327:378].hex(), f"5700000000002c11{I}0100000000000400010004")
        self.assertEqual(second[:13].hex(), "5700000000010c140200010000")
        self.assertEqual(second[328:379].hex(), f"5700000000002c11{SECOND_ID}0100030000000400000007")
        self.check(
            "envelopes",
            Row(["encode", "1"], SIX_WORDS, (0, first)),
            Row(["encode", "1", "--format", "2"], SIX_WORDS, (0, second)),
            Row(["read", I], first, (0, SIX_WORDS)),
            Row(["read", SECOND_ID], second, (0, SIX_WORDS)),
        )

    def test_a_file(self) -> None:
        """A million bytes for three faults: ten shards, and slivers of 250,012 and 142,864 bytes."""
        file = bytes(range(250)) * 4000
        status, identifier = run(["id", "3"], file)
        self.assertEqual(status, 0)
        status, encoded = run(["encode", "3"], file)
        self.assertEqual((status, len(encoded)), (0, 3930358))
        self.assertEqual(len(encoded), 7 + 11 + 640 + 10 * (47 + 250012 + 47 + 142864))
        self.assertEqual(run(["read", identifier.decode().strip()], encoded), (0, file))


FALSE_SLIVER = HONEST.sliver(PRIMARY, 0)[:-1] + b"\4"
FALSE_COMMITTED = FALSE.sliver(PRIMARY, 3)  # 14, 11, 13


@needs_program
class Reading(Rows):
    def test_outcomes(self) -> None:
        slivers = [HONEST.sliver(PRIMARY, index) for index in range(4)]
        of_eleven = [ELEVEN.sliver(PRIMARY, index) for index in range(4)]
        of_false = [FALSE.sliver(PRIMARY, index) for index in range(2)]
        false_id = ["read", J]
        self.check(
            "outcomes",
            Row(["read", I], stream(HONEST.metadata, slivers[2], slivers[3]), (0, SIX_WORDS)),
            Row(["read", I], stream(HONEST.metadata, slivers[2], slivers[2], FALSE_SLIVER), short(1, 2)),
            Row(["read", I.upper()], stream(b"\xff", slivers[1], slivers[0], HONEST.metadata), (0, SIX_WORDS)),
            Row(["read", ELEVEN.id.hex()], stream(ELEVEN.metadata, of_eleven[0], of_eleven[1]), REJECT),
            Row(["read", ELEVEN.id.hex()], stream(ELEVEN.metadata, of_eleven[2], of_eleven[3]), REJECT),
            Row(false_id, stream(FALSE.metadata, of_false[0], of_false[1]), REJECT),
            Row(false_id, stream(FALSE.metadata, of_false[1], FALSE_COMMITTED), REJECT),
            Row(false_id, stream(FALSE.metadata, FALSE.proof(SECONDARY, 2, 1, 3)), REJECT),
            Row(["read", I], b"\x57\0\0\0\0\0\1\1\x58", malformed(8)),
            Row(["read", I], bytes(134217729), (9, b"too long\n")),
        )

    def test_fronts(self) -> None:
        """Each front of the whole stream."""
        ends = [327, 378, 431, 482, 535, 586, 639, 690]
        told = [(0, *NO_METADATA), (274, *short(0, 2)), *[(length, *short(1, 2)) for length in ends[:2]]]
        told += [(length, 0, SIX_WORDS) for length in ends[2:]]
        self.check_fronts(["read", I], HONEST.envelopes(), told)


def recovered(committed: Committed, axis: int, index: int) -> tuple[int, bytes]:
    return 0, envelope(index, committed.sliver(axis, index))


@needs_program
class Recovering(Rows):
    def test_outcomes(self) -> None:
        third = ["recover", I, "secondary", "3"]
        column = [HONEST.opening(SECONDARY, 3, cross) for cross in (1, 2)]
        row = [HONEST.opening(PRIMARY, 0, cross) for cross in range(4)]
        false = ["recover", J, "secondary", "2"]
        openings = [FALSE.opening(SECONDARY, 2, cross) for cross in range(4)]
        second = [SECOND.opening(SECONDARY, 3, cross) for cross in (1, 2)]
        self.check(
            "outcomes",
            Row(third, stream(HONEST.metadata, *column), recovered(HONEST, SECONDARY, 3)),
            Row(["recover", I, "primary", "0"], stream(HONEST.metadata, *row[:2]), short(2, 3)),
            Row(["recover", I, "primary", "0"], stream(HONEST.metadata, *row[:2], row[1]), short(2, 3)),
            Row(["recover", I, "primary", "0"], stream(*row[:2], row[3], HONEST.metadata), recovered(HONEST, 0, 0)),
            Row(["recover", I, "primary", "0"], stream(*row), NO_METADATA),
            Row(["recover", I, "secondary", "7"], stream(HONEST.metadata, *column), short(0, 2)),
            Row(
                false,
                stream(FALSE.metadata, openings[1], openings[3]),
                (3, envelope(2, FALSE.proof(SECONDARY, 2, 1, 3))),
            ),
            Row(false, stream(FALSE.metadata, *openings[:2]), recovered(FALSE, SECONDARY, 2)),
            Row(
                ["recover", SECOND_ID, "secondary", "3"],
                stream(SECOND.metadata, *second),
                recovered(SECOND, SECONDARY, 3),
            ),
        )

    def test_fronts(self) -> None:
        """Each front of the metadata and two openings."""
        data = stream(HONEST.metadata, *[HONEST.opening(SECONDARY, 3, cross) for cross in (1, 2)])
        told = [(0, *NO_METADATA), (274, *short(0, 2)), (390, *short(1, 2)), (506, *recovered(HONEST, SECONDARY, 3))]
        self.check_fronts(["recover", I, "secondary", "3"], data, told)


@needs_program
class Checking(Rows):
    def test_verdicts(self) -> None:
        """The first proof of the identifier is the one that counts."""
        bad, true = FALSE.proof(SECONDARY, 2, 1, 3), FALSE.proof(SECONDARY, 2, 0, 1)
        turned = bad[:-1] + bytes([bad[-1] ^ 1])
        honest = HONEST.proof(SECONDARY, 2, 1, 3)
        table = [
            ([bad], (3, b"inconsistent\n")),
            ([turned], (4, b"bad opening 1\n")),
            ([true], (4, b"consistent\n")),
            ([FALSE.proof(SECONDARY, 2, 1, 1)], (4, b"repeated\n")),
            ([FALSE.proof(PRIMARY, 0, 0, 1)], (4, b"wrong count\n")),
            ([true, bad], (4, b"consistent\n")),
            ([honest, bad], (3, b"inconsistent\n")),
            ([honest], (4, b"no proof\n")),
        ]
        self.check("verdicts", *[Row(["check", J], stream(FALSE.metadata, *proofs), ends) for proofs, ends in table])
        second = stream(SECOND.metadata, SECOND.proof(SECONDARY, 3, 1, 2))
        self.check(
            "other metadata",
            Row(["check", J], stream(HONEST.metadata, bad), NO_METADATA),
            Row(["check", SECOND_ID], second, (4, b"consistent\n")),
        )

    def test_fronts(self) -> None:
        """Each front of the metadata and a proof."""
        told = [(0, *NO_METADATA), (274, 4, b"no proof\n"), (465, 3, b"inconsistent\n")]
        self.check_fronts(["check", J], stream(FALSE.metadata, FALSE.proof(SECONDARY, 2, 1, 3)), told)


# Words that ask for nothing.
REFUSED: list[list[str]] = [
    [],
    ["id"],
    ["encode"],
    ["store", "1"],
    ["id", "0"],
    ["id", "334"],
    ["id", "01"],
    ["id", "+1"],
    ["id", "-1"],
    ["id", "1", "2"],
    ["encode", "0"],
    ["id", "1", "--pages", "0"],
    ["id", "1", "--pages", "x"],
    ["id", "1", "--pages", "03"],
    ["id", "1", "--pages", "262145"],
    ["id", "1", "--blobs", "0"],
    ["id", "1", "--blobs", "65537"],
    ["id", "1", "--format", "3"],
    ["id", "1", "--format", "1", "--format", "1"],
    ["id", "1", "--unknown", "1"],
    ["--help"],
    ["read", "00"],
    ["read", I[:-1] + "g"],
    ["recover", I, "other", "1"],
    ["recover", I, "primary", "1000"],
    ["serve", "1"],
    ["serve", "1", "4"],
    ["serve", "0", "0"],
    ["replay", "1"],
    ["sample", "18446744073709551616"],
]


@needs_program
class Words(Rows):
    def test_words_that_ask_for_nothing(self) -> None:
        self.check("refused", *[Row(words, b"", (2, USAGE)) for words in REFUSED])

    def test_words_that_ask_for_something(self) -> None:
        """Numbers at their limits, options in any place, and digits of either case."""
        self.check(
            "taken",
            Row(["encode", "--format=2", "1"], SIX_WORDS, (0, SECOND.envelopes())),
            Row(["--format", "1", "id", "1"], SIX_WORDS, (0, I.encode() + b"\n")),
            Row(["check", "--", I.upper()], b"", NO_METADATA),
            Row(["recover", I, "secondary", "999"], METADATA, short(0, 2)),
            Row(["serve", "1", "3"], b"", (0, b"")),
            Row(["serve", "333", "999", "--blobs", "1", "--pages=1"], b"", (0, b"")),
            Row(["replay", "--blobs", "65536", "--pages", "262144"], b"{", (8, b"not json\n")),
        )

    def test_a_sample(self) -> None:
        text = b"events 841\ncertified 32\nreads 64\nbytes 8448\nrecovered 384\nleast holders 6\n"
        self.check("sample", *[Row(["sample", number], b"", (0, text)) for number in ("1", "18446744073709551615")])


if __name__ == "__main__":
    unittest.main()

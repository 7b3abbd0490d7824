"""Tries `verify`, what is said of a shard's answer to draws, and the words of both: python3 -m unittest.

What is expected is worked by hand or computed by tests/audits.py and tests/worked.py over hashlib.
"""
import random
import unittest

from audits import BEACON, answered, claims, drawn, verdict
from challenge_words import ACCEPTED, B, HEAD, I, NO_SHARD, words, wrong, wrong_count
from rows import Row, Rows, malformed, run
from test_pages import needs_program
from test_rows import NO_METADATA, USAGE
from worked import FALSE, HONEST, PRIMARY, SECOND, SECONDARY, SIX_WORDS, Committed, digest, stream


@needs_program
class Judging(Rows):
    def check_claims(
        self, name: str, committed: Committed, shard: int, *table: tuple[list[bytes], tuple[int, bytes]]
    ) -> None:
        """Rows of claims, as many as are asked for, beside the metadata."""
        self.check(
            name,
            *[
                Row(words("verify", committed, shard, max(1, len(it))), stream(committed.metadata, *it), ends)
                for it, ends in table
            ],
        )

    def test_accepted(self) -> None:
        """What is answered is accepted, wherever the metadata stands and whatever stands between."""
        for committed in (HONEST, SECOND, FALSE):
            for shard in range(4):
                shown = claims(committed, shard, BEACON, 6)
                self.check_claims("accepted", committed, shard, (shown, ACCEPTED), (shown[:1], ACCEPTED))
        shown = claims(HONEST, 0, BEACON, 3)
        whole = words("verify", HONEST, 0, 3)
        other = [claims(SECOND, 0, BEACON, 1)[0], HONEST.sliver(PRIMARY, 0), b"\x12" + HONEST.id, b"", SECOND.metadata]
        mixed = stream(other[0], shown[0], *other[1:], shown[1], HONEST.metadata, shown[2], HONEST.metadata)
        self.check(
            "mixed",
            Row(whole, mixed, ACCEPTED),
            Row(["verify", I.upper(), "0", B.upper(), "3"], mixed, ACCEPTED),
            Row(["verify", "--format=2", *whole[1:]], mixed, ACCEPTED),
            Row(whole, stream(HONEST.metadata) + answered(HONEST, 0, BEACON, 3)[1], ACCEPTED),
        )

    def test_counts(self) -> None:
        """Too many or too few: their number goes before a wrong one."""
        shown, false = claims(HONEST, 3, BEACON, 3), [HONEST.opening(SECONDARY, 0, 0)] * 3
        two = words("verify", HONEST, 3, 2)
        self.check(
            "counts",
            Row(two, stream(HONEST.metadata), wrong_count(0, 2)),
            Row(two, stream(HONEST.metadata, shown[0]), wrong_count(1, 2)),
            Row(two, stream(HONEST.metadata, *shown), wrong_count(3, 2)),
            Row(two, stream(HONEST.metadata, *shown[:2]), ACCEPTED),
            Row(two, stream(HONEST.metadata, *false), wrong_count(3, 2)),
            Row(two, stream(HONEST.metadata, shown[0], *claims(SECOND, 3, BEACON, 1)), wrong_count(1, 2)),
            Row(words("verify", HONEST, 3, 1000), stream(HONEST.metadata, *shown), wrong_count(3, 1000)),
            Row(words("verify", HONEST, 3, 1), stream(HONEST.metadata), wrong_count(0, 1)),
        )

    def test_causes(self) -> None:
        shown = claims(HONEST, 0, BEACON, 1)
        one, no_shard = words("verify", HONEST, 0, 1), words("verify", HONEST, 4, 1)
        self.check(
            "causes",
            Row(one, stream(*shown), NO_METADATA),
            Row(no_shard, stream(*shown), NO_METADATA),
            Row(no_shard, stream(HONEST.metadata), NO_SHARD),
            Row(words("verify", HONEST, 999, 2), stream(HONEST.metadata, *shown), NO_SHARD),
            Row(one, stream(HONEST.metadata, *shown)[:-1], malformed(HEAD)),
            Row(one, bytes(134217729), (9, b"too long\n")),
        )

    def test_claims_of_something_else(self) -> None:
        """Openings that hold, but at another place, by another sliver, of the other axis, or of another draw."""
        shard, shown = 1, claims(HONEST, 1, BEACON, 8)
        for number in range(8):
            axis, place, cross = drawn(HONEST, shard, BEACON, number)
            symbol_by_other_axis = HONEST.opening(1 - axis, cross, place)
            others = [HONEST.opening(axis, (place + it) % 4, cross) for it in (1, 2, 3)]
            others += [HONEST.opening(axis, place, (cross + it) % 4) for it in (1, 2, 3)]
            others += [HONEST.opening(1 - axis, place, cross), symbol_by_other_axis]
            table = [
                (shown[:number] + [it] + shown[number + 1 :], wrong(number)) for it in others if it != shown[number]
            ]
            self.check_claims("something else", HONEST, shard, *table)
        self.check_claims("swapped", HONEST, 0, (claims(HONEST, 0, BEACON, 2)[::-1], wrong(0)))

    def test_another_shard_and_beacon(self) -> None:
        """An answer of another shard or to another beacon, and in format two by the column of format one."""
        later = digest(BEACON)
        self.check_claims(
            "another",
            HONEST,
            2,
            (claims(HONEST, 1, BEACON, 5), wrong(0)),
            (claims(HONEST, 2, later, 5), verdict(HONEST, 2, BEACON, 5, claims(HONEST, 2, later, 5))),
        )
        columns = [SECOND.opening(axis, place, 2 if axis == PRIMARY else cross) for axis, place, cross in self.second()]
        first = [axis for axis, _, _ in self.second()].index(PRIMARY)
        self.check_claims("column", SECOND, 2, (columns, wrong(first)))

    def second(self) -> list[tuple[int, int, int]]:
        """The first draws for shard 2 in format two, some of either axis."""
        return [drawn(SECOND, 2, BEACON, number) for number in range(8)]

    def test_claims_that_do_not_hold(self) -> None:
        """A symbol or a path that is false, cut or longer, and numbers of no sliver."""
        shown = claims(HONEST, 1, BEACON, 3)
        for number, claim in enumerate(shown):
            ahead, behind = claim[:38], claim[44:]
            changed = [
                ahead + b"\0\0\0\2" + bytes([claim[42], claim[43] ^ 1]) + behind,
                ahead + b"\0\0\0\1" + claim[43:44] + behind,
                ahead + b"\0\0\0\4" + claim[42:44] * 2 + behind,
                ahead + b"\0\0\0\0" + behind,
                claim[:44] + b"\1" + claim[45:77],
                claim[:44] + b"\3" + claim[45:] + bytes(32),
                claim[:44] + b"\0",
                claim[:45] + claim[77:] + claim[45:77],
                claim[:34] + b"\3\xe7" + claim[36:],
                claim[:36] + b"\3\xe7" + claim[38:],
            ]
            table = [(shown[:number] + [it] + shown[number + 1 :], wrong(number)) for it in changed]
            self.check_claims("false", HONEST, 1, *table)

    def test_the_first_wrong_one_is_told(self) -> None:
        shown = claims(HONEST, 0, BEACON, 9)
        for places in ([8], [3, 8], [0, 1, 2], [4, 5]):
            false = [claim[:-1] + bytes([claim[-1] ^ 1]) if it in places else claim for it, claim in enumerate(shown)]
            self.check_claims("first", HONEST, 0, (false, wrong(places[0])))

    def test_each_byte(self) -> None:
        """An answer with one byte changed: no opening of the blob any more, or a wrong one."""
        shown = claims(HONEST, 3, BEACON, 2)
        drawn_bits = random.Random(1)
        for number, claim in enumerate(shown):
            for place in range(len(claim)):
                changed = bytearray(claim)
                changed[place] ^= 1 << drawn_bits.randrange(8)
                told = shown[:number] + [bytes(changed)] + shown[number + 1 :]
                with self.subTest(number=number, place=place):
                    wanted = verdict(HONEST, 3, BEACON, 2, told)
                    self.assertNotEqual(wanted, ACCEPTED)
                    self.assertEqual(run(words("verify", HONEST, 3, 2), stream(HONEST.metadata, *told)), wanted)

    def test_fronts(self) -> None:
        """Each front of the metadata and two claims: each takes 116 bytes in an envelope."""
        data = stream(HONEST.metadata, *claims(HONEST, 0, BEACON, 2))
        told = [(0, *NO_METADATA), (HEAD, *wrong_count(0, 2)), (HEAD + 116, *wrong_count(1, 2))]
        self.check_fronts(words("verify", HONEST, 0, 2), data, [*told, (HEAD + 232, *ACCEPTED)])


# Words that ask for nothing.
REFUSED = [
    ["challenge"],
    ["challenge", I, "0", B],
    ["challenge", I, "0", B, "1", "1"],
    ["challenge", I[:-1], "0", B, "1"],
    ["challenge", I, "1000", B, "1"],
    ["challenge", I, "00", B, "1"],
    ["challenge", I, "-1", B, "1"],
    ["challenge", I, "0", B[:-1], "1"],
    ["challenge", I, "0", B + "0", "1"],
    ["challenge", I, "0", B + "00", "1"],
    ["challenge", I, "0", B[:-1] + "g", "1"],
    ["challenge", I, "0", "", "1"],
    ["challenge", I, "0", B, "0"],
    ["challenge", I, "0", B, "1001"],
    ["challenge", I, "0", B, "01"],
    ["challenge", I, B, "0", "1"],
    ["challenge", I, "0", B, "1", "--format", "3"],
    ["challenge", I, "0", B, "1", "--pages", "0"],
    ["verify"],
    ["verify", I],
    ["verify", I, "0", B],
    ["verify", I, "0", B, "0"],
    ["verify", I, "0", B, "1001"],
    ["verify", I, "1000", B, "1"],
    ["verify", I, "0", B[2:], "1"],
    ["verify", I, "0", B, "1", "2"],
    ["Verify", I, "0", B, "1"],
]


@needs_program
class Words(Rows):
    def test_words_that_ask_for_nothing(self) -> None:
        self.check("refused", *[Row(words, SIX_WORDS, (2, USAGE)) for words in REFUSED])

    def test_words_that_ask_for_something(self) -> None:
        """Numbers at their limits, and options in any place."""
        self.check(
            "taken",
            Row(["challenge", I, "999", B, "1000"], b"", NO_METADATA),
            Row(["verify", I, "999", "0" * 64, "1"], b"", NO_METADATA),
            Row(["verify", "--", I, "0", "F" * 64, "1"], stream(HONEST.metadata), wrong_count(0, 1)),
            Row(["--blobs", "1", "verify", I, "--pages=1", "0", B, "1"], b"", NO_METADATA),
        )


if __name__ == "__main__":
    unittest.main()

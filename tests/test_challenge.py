"""Tries `challenge`, a shard's answer to draws: python3 -m unittest.

What is expected is worked by hand or computed by tests/audits.py and tests/worked.py over hashlib.
"""
import random
import unittest

from audits import BEACON, answered, draw
from challenge_words import ACCEPTED, B, HEAD, I, NO_PRIMARY, NO_SECONDARY, NO_SHARD, slivers, words, wrong, wrong_count
from rows import Row, Rows, malformed, run
from test_pages import needs_program
from test_rows import NO_METADATA
from worked import FALSE, HONEST, PRIMARY, SECOND, SECONDARY, digest, ladder, stream


class Drawing(unittest.TestCase):
    def test_the_text_of_a_draw(self) -> None:
        """Of its 69 bytes: what is drawn for shard 3 by draw 1, from the digest that `sha256sum` tells."""
        text = b"\4" + BEACON + HONEST.id + b"\0\3" + b"\0\1"
        self.assertEqual(len(text), 69)
        self.assertEqual(digest(text)[:5].hex(), "8145fe0dc7")
        self.assertEqual(draw(BEACON, HONEST.id, 4, 3, 1), (SECONDARY, 3))
        self.assertEqual(draw(BEACON, HONEST.id, 1000, 3, 1), (SECONDARY, 527))

    def test_each_axis_and_place_is_drawn_about_as_often(self) -> None:
        found = [draw(BEACON, HONEST.id, 4, 0, number) for number in range(1000)]
        counts = [found.count((axis, place)) for axis in (PRIMARY, SECONDARY) for place in range(4)]
        self.assertTrue(all(90 <= count <= 160 for count in counts), counts)


@needs_program
class Answering(Rows):
    def test_each_shard(self) -> None:
        """In both formats, and of a writer who committed to a row that is no codeword of the matrix."""
        for committed in (HONEST, SECOND, FALSE):
            self.check(
                "each shard",
                *[
                    Row(
                        words("challenge", committed, shard, 9),
                        stream(committed.metadata, *slivers(committed, shard)),
                        answered(committed, shard, BEACON, 9),
                    )
                    for shard in range(4)
                ],
            )

    def test_the_first_held_slivers(self) -> None:
        """In any order, beside false ones and those of other shards and blobs; digits of either case."""
        primary, secondary = slivers(HONEST, 2)
        false = [primary[:-1] + b"\0", primary[:-2], secondary[:-1] + b"\1", *slivers(HONEST, 0), *slivers(SECOND, 2)]
        whole, wanted = words("challenge", HONEST, 2, 5), answered(HONEST, 2, BEACON, 5)
        second = stream(SECOND.metadata, *slivers(SECOND, 0))
        self.check(
            "first held",
            Row(whole, stream(*false, secondary, primary, HONEST.metadata), wanted),
            Row(whole, stream(b"\xff", b"", secondary, HONEST.metadata, HONEST.metadata, primary, primary), wanted),
            Row(["challenge", I.upper(), "2", B.upper(), "5"], stream(HONEST.metadata, secondary, primary), wanted),
            Row(words("challenge", HONEST, 2, 5), HONEST.envelopes(), wanted),
            Row(words("challenge", SECOND, 0, 5), second, answered(SECOND, 0, BEACON, 5)),
            Row(["challenge", "--pages", "1", *whole[1:]], HONEST.envelopes(), wanted),
        )

    def test_counts(self) -> None:
        data = HONEST.envelopes()
        self.check(
            "counts",
            *[Row(words("challenge", HONEST, 1, it), data, answered(HONEST, 1, BEACON, it)) for it in (1, 1000)],
        )

    def test_causes(self) -> None:
        """No metadata goes before no shard, that before no primary, and that before no secondary sliver."""
        whole = words("challenge", HONEST, 1, 1)
        primary, secondary = slivers(HONEST, 1)
        no_shard = words("challenge", HONEST, 4, 1)
        in_first_format = SECOND.sliver(SECONDARY, 1)  # which shard 2 holds in this format
        self.check(
            "causes",
            Row(whole, b"", NO_METADATA),
            Row(whole, stream(primary, secondary), NO_METADATA),
            Row(whole, stream(SECOND.metadata, primary, secondary), NO_METADATA),
            Row(no_shard, stream(primary, secondary), NO_METADATA),
            Row(no_shard, HONEST.envelopes(), NO_SHARD),
            Row(words("challenge", HONEST, 999, 1000), stream(HONEST.metadata), NO_SHARD),
            Row(whole, stream(HONEST.metadata), NO_PRIMARY),
            Row(whole, stream(HONEST.metadata, *slivers(HONEST, 0)), NO_PRIMARY),
            Row(whole, stream(HONEST.metadata, secondary), NO_PRIMARY),
            Row(whole, stream(HONEST.metadata, primary[:-1] + b"\7", secondary), NO_PRIMARY),
            Row(whole, stream(HONEST.metadata, primary), NO_SECONDARY),
            Row(whole, stream(HONEST.metadata, primary, secondary[:-2]), NO_SECONDARY),
            Row(
                words("challenge", SECOND, 1, 1),
                stream(SECOND.metadata, SECOND.sliver(PRIMARY, 1), in_first_format),
                NO_SECONDARY,
            ),
            Row(whole, stream(HONEST.metadata) + b"\x58", malformed(HEAD)),
            Row(no_shard, b"\x57\0", malformed(0)),
            Row(whole, bytes(134217729), (9, b"too long\n")),
        )

    def test_fronts(self) -> None:
        """Each front of the metadata and two slivers."""
        told = [(0, *NO_METADATA), (HEAD, *NO_PRIMARY), (HEAD + 53, *NO_SECONDARY)]
        told += [(HEAD + 104, *answered(HONEST, 0, BEACON, 3))]
        data = stream(HONEST.metadata, *slivers(HONEST, 0))
        self.check_fronts(words("challenge", HONEST, 0, 3), data, told)

    def test_a_hundred_shards(self) -> None:
        """All draws of a blob for 33 faults, whose trees have levels of odd length, in both formats."""
        for version in (1, 2):
            committed = ladder(33, version)
            shard = 77
            data = stream(committed.metadata, *slivers(committed, shard))
            status, text = answered(committed, shard, BEACON, 1000)
            self.check(
                "a hundred shards",
                Row(words("challenge", committed, shard, 1000), data, (status, text)),
                Row(words("verify", committed, shard, 1000), stream(committed.metadata) + text, ACCEPTED),
                Row(words("verify", committed, shard, 999), stream(committed.metadata) + text, wrong_count(1000, 999)),
                Row(words("verify", committed, shard + 1, 1000), stream(committed.metadata) + text, wrong(0)),
            )


@needs_program
class ThereAndBack(Rows):
    def test_shards_of_a_file(self) -> None:
        """What a shard answers is accepted for it and this beacon, and for no other, with as many shards as may be."""
        for faults, size in ((2, 999), (333, 20000)):
            file = random.Random(faults).randbytes(size)
            identifier = run(["id", str(faults)], file)[1].decode().strip()
            encoded = run(["encode", str(faults)], file)[1]
            head = 7 + 11 + 64 * (3 * faults + 1)
            for shard in (0, 3 * faults):
                asked = [identifier, str(shard), B]
                status, answer = run(["challenge", *asked, "40"], encoded)
                self.assertEqual(status, 0)
                shown, later = encoded[:head] + answer, [identifier, str(shard), digest(BEACON).hex()]
                self.check(
                    "there and back",
                    Row(["verify", *asked, "40"], shown, ACCEPTED),
                    Row(["verify", *asked, "41"], shown, wrong_count(40, 41)),
                )
                self.assertEqual(run(["verify", *later, "40"], shown)[0], 3)

    def test_one_beacon_asks_each_shard_something_else(self) -> None:
        shown = {run(words("challenge", HONEST, shard, 20), HONEST.envelopes())[1] for shard in range(4)}
        self.assertEqual(len(shown), 4)


if __name__ == "__main__":
    unittest.main()

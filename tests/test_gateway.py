"""Tries `gateway`, ranges of blobs from replies and from a cache of checked blobs: python3 -m unittest.

What is expected is worked by hand, or computed by tests/gateways.py over blobs that are known.
"""

import random
import unittest

from gateways import Known, asked, request, served
from rows import Row, Rows, malformed, run
from test_pages import needs_program
from test_rows import FALSE_SLIVER, THIRTEEN, USAGE, ZERO_LEAF
from worked import ELEVEN, FALSE, HONEST, PRIMARY, SECOND, SECONDARY, SIX_WORDS, digest, ladder, stream

SIX, OTHER_FORMAT = Known(HONEST, SIX_WORDS), Known(SECOND, SIX_WORDS)
LONGER = Known(THIRTEEN, SIX_WORDS + b"\7")
BAD = Known(FALSE, None, [FALSE.proof(SECONDARY, 2, 1, 3)])
SHORT = Known(ELEVEN, None)  # its twelfth byte is not zero
LADDERS = [
    Known(ladder(2, version), bytes().join(ladder(2).lines[0][row][column] for row in range(3) for column in range(5)))
    for version in (1, 2)
]
WRITERS = [SIX, OTHER_FORMAT, LONGER, BAD, SHORT, *LADDERS]
NOBODY = digest(b"nobody")


def get(known: Known, start: int, size: int) -> bytes:
    return request(known.committed.id, start, size)


def lines(*texts: str) -> tuple[int, bytes]:
    return 0, "".join(text + "\n" for text in texts).encode()


def gateway(capacity: int, payloads: list[bytes], *texts: str) -> Row:
    return Row(["gateway", str(capacity)], asked(*payloads), lines(*texts))


@needs_program
class Gets(Rows):
    def test_ranges(self) -> None:
        """A miss that is kept, and hits at both ends of the blob, over them, and of no byte."""
        self.check(
            "ranges",
            gateway(
                1,
                [*SIX.replies(0, 1), get(SIX, 2, 4), get(SIX, 0, 13), get(SIX, 0, 0)],
                *["miss range 00020003", "hit out of range 12", "hit range -"],
            ),
            gateway(
                1,
                [*SIX.replies(2, 3)]
                + [get(SIX, *it) for it in [(0, 12), (0, 1), (11, 1), (12, 0), (12, 1), (11, 2), (13, 0), (0, 13)]],
                f"miss range {SIX_WORDS.hex()}",
                *["hit range 00", "hit range 06", "hit range -"],
                *["hit out of range 12"] * 4,
            ),
            gateway(
                64,
                [
                    *SIX.replies(0, 3),
                    get(SIX, 4294967295, 4294967295),
                    get(SIX, 4294967295, 1),
                    get(SIX, 1, 4294967295),
                ],
                *["miss out of range 12", "hit out of range 12", "hit out of range 12"],
            ),
        )

    def test_what_a_miss_comes_to(self) -> None:
        """As `read` has it. What gives no blob is not kept, and what is out of range is."""
        slivers = [HONEST.sliver(PRIMARY, index) for index in range(4)]
        self.check(
            "misses",
            gateway(1, [get(SIX, 0, 1)], "miss no metadata"),
            gateway(1, [*slivers, get(SIX, 0, 1)], "miss no metadata"),
            gateway(1, [*OTHER_FORMAT.replies(0, 1), get(SIX, 0, 1)], "miss no metadata"),
            gateway(1, [HONEST.metadata, get(SIX, 0, 1)], "miss short 0 of 2"),
            gateway(1, [*SIX.replies(2, 2), FALSE_SLIVER, get(SIX, 0, 1)], "miss short 1 of 2"),
            gateway(1, [b"\xff", slivers[1], b"", slivers[0], HONEST.metadata, get(SIX, 3, 1)], "miss range 02"),
            gateway(1, [*BAD.replies(0, 1), get(BAD, 0, 1)], "miss reject"),
            gateway(1, [*BAD.replies(), *BAD.proofs, get(BAD, 0, 1)], "miss reject"),
            gateway(1, [*BAD.replies(), get(BAD, 0, 1)], "miss short 0 of 2"),
            gateway(1, [*SHORT.replies(2, 3), get(SHORT, 0, 1), get(SHORT, 0, 1)], "miss reject", "miss no metadata"),
            gateway(1, [*SIX.replies(0, 1), get(SIX, 0, 13), get(SIX, 4, 2)], "miss out of range 12", "hit range 0003"),
            gateway(1, [*LONGER.replies(1, 3), get(LONGER, 11, 2)], "miss range 0607"),
            gateway(1, [*OTHER_FORMAT.replies(1, 3), get(OTHER_FORMAT, 0, 2)], "miss range 0001"),
        )

    def test_replies_are_those_behind_the_request_before(self) -> None:
        replies = SIX.replies(0, 1)
        one, other = get(SIX, 0, 2), get(LONGER, 12, 1)
        self.check(
            "replies",
            gateway(
                1,
                [*replies[:2], one, replies[2], one, *replies, one],
                *["miss short 1 of 2", "miss no metadata", "miss range 0001"],
            ),
            gateway(1, [*replies, *LONGER.replies(2, 3), one, other], "miss range 0001", "miss no metadata"),
            gateway(2, [*replies, *LONGER.replies(2, 3), other, *replies, one], "miss range 07", "miss range 0001"),
            gateway(1, [one, *replies], "miss no metadata"),
            gateway(1, [*replies, one, *replies], "miss range 0001"),
        )

    def test_no_request(self) -> None:
        """Nothing is written; what looks like a request and has other bytes is a reply like others."""
        none = [get(SIX, 0, 1)[:-1], get(SIX, 0, 1) + b"\0", b"\x44" + get(SIX, 0, 1)[1:], b"\x43"]
        self.check(
            "none",
            Row(["gateway", "1"], b"", (0, b"")),
            gateway(64, SIX.replies(0, 1, 2, 3)),
            gateway(1, [*SIX.replies(0, 1), *none]),
            gateway(1, [*SIX.replies(0), *none, HONEST.sliver(PRIMARY, 3), get(SIX, 0, 1)], "miss range 00"),
        )

    def test_lying_replies(self) -> None:
        """At a miss a false reply is passed over; at a hit nobody looks at what came, not even at what is rejected."""
        lies = [FALSE_SLIVER, HONEST.sliver(PRIMARY, 1)[:-2], b"\x10" + bytes(266), SIX_WORDS]
        self.check(
            "lies",
            gateway(1, [*lies, *SIX.replies(1, 2), *lies, get(SIX, 0, 2)], "miss range 0001"),
            gateway(1, [*SIX.replies(1), *lies, get(SIX, 0, 2)], "miss short 1 of 2"),
            gateway(
                1, [*SIX.replies(1, 2), get(SIX, 0, 2), *lies, get(SIX, 2, 2)], "miss range 0001", "hit range 0002"
            ),
            gateway(
                1,
                [*SIX.replies(1, 2), get(SIX, 0, 2), *BAD.replies(0, 1), get(SIX, 2, 2)],
                *["miss range 0001", "hit range 0002"],
            ),
            gateway(
                2,
                [*SIX.replies(1, 2), get(SIX, 0, 2), *BAD.replies(0, 1), get(BAD, 2, 2), get(SIX, 4, 2)],
                *["miss range 0001", "miss reject", "hit range 0003"],
            ),
        )


@needs_program
class Caching(Rows):
    def test_the_last_used_is_kept(self) -> None:
        """With room for one the other goes, and is read again; with room for two it stays."""
        front = [*SIX.replies(0, 1), get(SIX, 0, 2), *LONGER.replies(0, 1), get(LONGER, 12, 1)]
        misses = ["miss range 0001", "miss range 07"]
        self.check(
            "kept",
            gateway(1, [*front, get(SIX, 0, 2)], *misses, "miss no metadata"),
            gateway(2, [*front, get(SIX, 0, 2)], *misses, "hit range 0001"),
            gateway(
                1,
                [*front, *SIX.replies(2, 3), get(SIX, 0, 2), get(LONGER, 0, 1)],
                *misses,
                *["miss range 0001", "miss no metadata"],
            ),
            gateway(1, [*front, get(LONGER, 0, 0)], *misses, "hit range -"),
            gateway(
                1,
                [*front[:-1], get(LONGER, 13, 1), get(SIX, 0, 1)],
                *[misses[0], "miss out of range 13"],
                "miss no metadata",
            ),
        )

    def test_a_hit_goes_to_the_front(self) -> None:
        """So does one that is out of range; a miss that gives no blob leaves the order, and evicts none."""
        third = OTHER_FORMAT
        front = [*SIX.replies(0, 1), get(SIX, 0, 1), *LONGER.replies(0, 1), get(LONGER, 0, 1)]
        news = [*third.replies(0, 1), get(third, 0, 1)]
        begun = ["miss range 00", "miss range 00"]
        self.check(
            "order",
            gateway(
                2,
                [*front, *news, get(LONGER, 0, 1), get(SIX, 0, 1)],
                *begun,
                *["miss range 00", "hit range 00", "miss no metadata"],
            ),
            gateway(
                2,
                [*front, get(SIX, 0, 1), *news, get(SIX, 0, 1), get(LONGER, 0, 1)],
                *begun,
                *["hit range 00", "miss range 00", "hit range 00", "miss no metadata"],
            ),
            gateway(
                2,
                [*front, get(SIX, 9, 9), *news, get(SIX, 0, 1), get(LONGER, 0, 1)],
                *begun,
                *["hit out of range 12", "miss range 00", "hit range 00", "miss no metadata"],
            ),
            gateway(
                2,
                [*front, *BAD.replies(0, 1), get(BAD, 0, 1), get(SIX, 0, 1), get(LONGER, 0, 1)],
                *begun,
                *["miss reject", "hit range 00", "hit range 00"],
            ),
            gateway(
                2,
                [*front, request(NOBODY, 0, 1), *news[:2], get(third, 0, 1), get(SIX, 0, 1), get(LONGER, 0, 1)],
                *begun,
                *["miss no metadata", "miss short 1 of 2", "hit range 00", "hit range 00"],
            ),
        )

    def test_two_formats_are_two_blobs(self) -> None:
        both = [*SIX.replies(0, 1), get(SIX, 0, 2), get(OTHER_FORMAT, 0, 2)]
        both += [*OTHER_FORMAT.replies(2, 3), get(OTHER_FORMAT, 2, 2), get(SIX, 4, 2)]
        texts = ["miss range 0001", "miss no metadata", "miss range 0002"]
        self.check("formats", gateway(2, both, *texts, "hit range 0003"), gateway(1, both, *texts, "miss no metadata"))

    def test_as_many_as_may_be(self) -> None:
        """Sixty-five blobs in a cache of 64: the first is gone, and all others are there."""
        blobs = [number.to_bytes(2, "big") * 7 for number in range(65)]
        encoded = [run(["encode", "1"], blob)[1] for blob in blobs]
        identifiers = [bytes.fromhex(run(["id", "1"], blob)[1].decode()) for blob in blobs]
        data = b"".join(it + stream(request(name, 0, 2)) for name, it in zip(identifiers, encoded))
        order = random.Random(7).sample(range(1, 65), 64)
        data += stream(*[request(identifiers[number], 12, 2) for number in order], request(identifiers[0], 0, 1))
        told = [f"miss range {blob[:2].hex()}" for blob in blobs] + [
            f"hit range {blobs[it][12:].hex()}" for it in order
        ]
        self.check("many", Row(["gateway", "64"], data, lines(*told, "miss no metadata")))

    def test_random_gets(self) -> None:
        """Gets of blobs of seven writers with true, false, few and no replies, by the plain list of pairs."""
        for seed in range(60):
            drawn = random.Random(seed)
            capacity, payloads = drawn.choice([1, 1, 2, 3, 64]), list[bytes]()
            for _ in range(drawn.randrange(1, 25)):
                known = drawn.choice(WRITERS)
                shards = [drawn.randrange(3 * known.committed.faults + 1) for _ in range(drawn.choice([0, 1, 2, 3, 6]))]
                replies = known.replies(*shards) + [*known.proofs] * drawn.randrange(2) + [FALSE_SLIVER, b"\x43"]
                replies = drawn.choice([[], replies, replies, replies[1:], drawn.choice(WRITERS).replies(0, 1)])
                drawn.shuffle(replies)
                size = len(known.blob or SIX_WORDS)
                start = drawn.choice([0, 1, size - 1, size, size + 1, drawn.randrange(size)])
                payloads += [
                    *replies,
                    get(known, start, drawn.choice([0, 1, size - start, size, size + 1, 4]) % 2**32),
                ]
            with self.subTest(seed=seed):
                self.assertEqual(run(["gateway", str(capacity)], asked(*payloads)), served(capacity, WRITERS, payloads))


@needs_program
class Input(Rows):
    def test_fronts(self) -> None:
        """Each front of two gets: it is read to its end before the first line is written."""
        payloads = [*SIX.replies(0, 1), get(SIX, 0, 2), get(SIX, 12, 1)]
        ends, told = 0, [(0, 0, b"")]
        texts = ["", "", "", "miss range 0001\n", "miss range 0001\nhit out of range 12\n"]
        for payload, text in zip(payloads, texts):
            ends += 7 + len(payload)
            told.append((ends, 0, text.encode()))
        self.check_fronts(["gateway", "3"], asked(*payloads), told)

    def test_inputs_at_their_limits(self) -> None:
        data = asked(*SIX.replies(0, 1), get(SIX, 0, 2))
        filled = data + b"\x57\0\0" + (134217728 - len(data) - 7).to_bytes(4, "big")
        self.check(
            "limits",
            Row(["gateway", "1"], filled.ljust(134217728, b"\0"), lines("miss range 0001")),
            Row(["gateway", "1"], filled.ljust(134217729, b"\0"), (9, b"too long\n")),
            Row(["gateway", "1"], data + b"\x58", malformed(len(data))),
            Row(["gateway", "1"], b"\x57\0\0\0\0\0\1", malformed(0)),
        )


# Words that ask for nothing.
REFUSED = [
    ["gateway"],
    ["gateway", "0"],
    ["gateway", "65"],
    ["gateway", "01"],
    ["gateway", "+1"],
    ["gateway", "-1"],
    ["gateway", ""],
    ["gateway", "1", "1"],
    ["gateway", ZERO_LEAF],
    ["gateway", "1", "--pages", "0"],
    ["gateways", "1"],
    ["Gateway", "1"],
]


@needs_program
class Words(Rows):
    def test_words_that_ask_for_nothing(self) -> None:
        self.check("refused", *[Row(words, asked(get(SIX, 0, 1)), (2, USAGE)) for words in REFUSED])

    def test_words_that_ask_for_something(self) -> None:
        data = asked(get(SIX, 0, 1))
        taken = [["gateway", "1"], ["gateway", "64"], ["--format=2", "gateway", "--pages", "1", "--", "7"]]
        self.check("taken", *[Row(words, data, lines("miss no metadata")) for words in taken])


if __name__ == "__main__":
    unittest.main()

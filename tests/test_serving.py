"""Tries what the program writes for requests to a shard: python3 -m unittest.

What is expected is worked by hand or computed by tests/worked.py over hashlib.
"""

import struct
import unittest

from rows import Rows, run, zeros
from test_pages import needs_program
from worked import FALSE, PRIMARY, SECOND, SECONDARY, answer, digest, envelope, root, stream


# Requests to a shard: a blob is registered, acknowledged, attested, asked for and forgotten, by this one and by others.
def register(identifier: bytes, until: int) -> bytes:
    return b"\x40" + identifier + struct.pack(">I", until)


def said(kind: int, shard: int, identifier: bytes) -> bytes:
    return struct.pack(">BH", kind, shard) + identifier


def target(identifier: bytes, axis: int, index: int) -> bytes:
    return b"\x21" + identifier + struct.pack(">BH", axis, index)


def shown(*frames: bytes) -> bytes:
    """The answer to a request for what is held."""
    return stream(*frames) + answer(0, len(frames))


UNREGISTERED, UNVERIFIED, LACKS_METADATA, DECLINED = answer(1), answer(2), answer(3), answer(5)
NO_ROOM, HELD, ALREADY, PAST = answer(10), answer(11), answer(12), answer(15)
ACK, ATTEST, FORGET, READ = [bytes([kind]) + FALSE.id for kind in (0x22, 0x23, 0x24, 0x20)]
BAD, LIE = FALSE.proof(SECONDARY, 2, 1, 3), FALSE.proof(SECONDARY, 2, 0, 1)
# Metadata of no byte for two faults, with roots of zeros.
WIDE = struct.pack(">BHQ", 0x10, 2, 0) + bytes(448)
WIDE_ID = digest(b"\2", WIDE[1:11], root([bytes(64)] * 7))

# A blob that is encoded wrongly is stored and acknowledged before its proof comes, and then forgotten. The ledger takes
# eight entries.
LIFE = [
    (ACK, UNREGISTERED),
    (register(FALSE.id, 0), PAST),
    (register(FALSE.id, 9), answer(0, 9)),
    (register(FALSE.id, 3), answer(0, 9)),
    (FALSE.sliver(PRIMARY, 0), LACKS_METADATA),
    (BAD, LACKS_METADATA),
    (FALSE.metadata, answer(0)),
    (FALSE.metadata, HELD),
    (FALSE.sliver(PRIMARY, 0)[:-1] + b"\4", UNVERIFIED),
    (FALSE.sliver(PRIMARY, 1), UNVERIFIED),
    (FALSE.sliver(PRIMARY, 0), answer(0)),
    (FALSE.sliver(PRIMARY, 0), HELD),
    (READ, shown(FALSE.metadata, FALSE.sliver(PRIMARY, 0))),
    (target(FALSE.id, PRIMARY, 0), shown(FALSE.metadata)),
    (target(FALSE.id, SECONDARY, 2), shown(FALSE.metadata, FALSE.opening(SECONDARY, 2, 0))),
    (ACK, DECLINED),
    (FALSE.sliver(SECONDARY, 0), answer(0)),
    (ACK, answer(13, 1)),
    (ACK, ALREADY),
    (said(0x41, 1, FALSE.id), answer(13, 2)),
    (said(0x41, 2, FALSE.id), answer(14, 3)),
    (ATTEST, DECLINED),
    (FORGET, DECLINED),
    (LIE, UNVERIFIED),
    (BAD, answer(0)),
    (BAD, HELD),
    (target(FALSE.id, PRIMARY, 0), shown(FALSE.metadata, FALSE.opening(PRIMARY, 0, 0), BAD)),
    (ATTEST, answer(13, 1)),
    (said(0x42, 1, FALSE.id), answer(13, 2)),
    (FORGET, DECLINED),
    (said(0x42, 2, FALSE.id), answer(14, 3)),
    (READ, shown(FALSE.metadata, FALSE.sliver(PRIMARY, 0), BAD)),
    (FORGET, answer(0)),
    (READ, shown(FALSE.metadata, BAD)),
    (ACK, DECLINED),
    (register(FALSE.id, 9), NO_ROOM),
    (said(0x41, 3, FALSE.id), NO_ROOM),
    (said(0x42, 3, FALSE.id), NO_ROOM),
]
# In the second format the shard holds the secondary sliver 3.
SECOND_FORMAT = [
    (register(SECOND.id, 9), answer(0, 9)),
    (SECOND.metadata, answer(0)),
    (SECOND.sliver(SECONDARY, 0), UNVERIFIED),
    (SECOND.sliver(SECONDARY, 3), answer(0)),
    (target(SECOND.id, PRIMARY, 0), shown(SECOND.metadata, SECOND.opening(PRIMARY, 0, 3))),
    (b"\x20" + SECOND.id, shown(SECOND.metadata)),
]
# The metadata of another number of faults is refused once its blob is registered.
NOT_REGISTERED = [
    (FALSE.metadata, UNREGISTERED),
    (FALSE.sliver(PRIMARY, 0), UNREGISTERED),
    (BAD, UNREGISTERED),
    (READ, answer(0)),
    (target(FALSE.id, PRIMARY, 0), answer(0)),
    (ACK, UNREGISTERED),
    (ATTEST, UNREGISTERED),
    (FORGET, DECLINED),
    (said(0x41, 0, FALSE.id), UNREGISTERED),
    (said(0x42, 3, FALSE.id), UNREGISTERED),
    (WIDE, UNREGISTERED),
    (register(WIDE_ID, 9), answer(0, 9)),
    (WIDE, UNVERIFIED),
]
# Payloads that are no requests, in digits with X for an identifier. Each answer tells what is wrong: 1 not all there,
# 2 no kind, 3 a bad field and its place, 4 bytes behind the frame, 5 no request, 6 no such shard.
NO_REQUESTS = [
    ("", 1, 0),
    ("100001", 1, 0),
    ("ff", 2, 0),
    ("100000", 3, 1),
    ("10014e", 3, 1),
    ("1000010000000001000001", 3, 3),
    ("1401", 3, 1),
    ("14020000", 3, 2),
    ("11X", 1, 0),
    ("11X02", 3, 33),
    ("11X0103e8", 3, 34),
    ("11X00000001000001", 3, 36),
    ("11X000000000000010909", 4, 0),
    ("13X00000003e9", 3, 36),
    ("12X01000000000000000200070b", 3, 44),
    ("13X010000000200000000000000" + "03e8", 3, 45),
    ("40X00010001", 3, 33),
    ("4103e8X", 3, 1),
    ("20X00", 4, 0),
    ("12X00000000000000000000", 5, 0),
    ("30000000000000000000", 5, 0),
    ("3010", 3, 1),
    ("310000", 5, 0),
    ("31010942", 3, 3),
    ("410004X", 6, 0),
    ("4103e7X", 6, 0),
    ("420004X", 6, 0),
    ("4203e7X", 6, 0),
]


@needs_program
class Serving(Rows):
    def check_story(self, words: list[str], story: list[tuple[bytes, bytes]]) -> None:
        """The answers of shard 0 of four to a stream of payloads."""
        data = b"".join(envelope(5, payload) for payload, _ in story)
        status, text = run(["serve", "1", "0", *words], data)
        self.assertEqual(status, 0)
        for number, (_, wanted) in enumerate(story, 1):
            with self.subTest(request=number):
                self.assertEqual(text[: len(wanted)].hex(), wanted.hex())
            text = text.removeprefix(wanted)
        self.assertEqual(text, b"")

    def test_stories(self) -> None:
        self.check_story(["--blobs", "4"], LIFE)
        self.check_story([], SECOND_FORMAT)
        self.check_story([], NOT_REGISTERED)

    def test_payloads_that_are_no_requests(self) -> None:
        rows = [(bytes.fromhex(digits.replace("X", "aa" * 32)), answer(9, a, b)) for digits, a, b in NO_REQUESTS]
        self.check_story([], rows)

    def test_three_pages(self) -> None:
        """A primary sliver needs two pages of the one that is free, and the secondary one fits."""
        blob = zeros(9000, 1500)
        frames = [blob.metadata, blob.sliver(PRIMARY, 0), blob.sliver(SECONDARY, 0)]
        answers = [answer(0, 9), answer(0), answer(6, 2, 1), answer(0)]
        self.check_story(["--pages", "3"], list(zip([register(blob.id, 9), *frames], answers)))
        data = stream(register(blob.id, 9), *frames)
        for length in sorted({0, 1, 43, 44, 45, 317, 318, 319, 4864, 4865, 4866, 7911, *range(0, 7912, 250)}):
            whole = sum(length >= end for end in (44, 318, 4865, 7912))
            status = 0 if length in (0, 44, 318, 4865, 7912) else 8
            with self.subTest(length=length):
                ended = run(["serve", "1", "0", "--pages", "3"], data[:length])
                self.assertEqual(ended, (status, b"".join(answers[:whole])))

    def test_the_longest_payload(self) -> None:
        """A payload that fits the room for one is looked at, and a longer one is read past, whatever stands in it."""
        self.check_story([], [(bytes(8389631), answer(9, 2)), (b"\0", answer(9, 2))])
        self.check_story(
            [], [(bytes(8389632), answer(9, 7)), (READ + bytes(9000000), answer(9, 7)), (b"\0", answer(9, 2))]
        )


if __name__ == "__main__":
    unittest.main()

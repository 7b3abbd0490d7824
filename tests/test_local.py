"""Tries that a shard's answers about a blob rest on what it was given about that blob alone: python3 -m unittest.

Random requests about three blobs are served at once. Then those that regard one blob are served alone, in their order,
and again as a shard keeps them: the entries that were made, the parts that it holds, and a last request.
"""

import random
import struct
import unittest

from rows import Rows, run
from test_pages import needs_program
from worked import FALSE, HONEST, PRIMARY, SECOND, SECONDARY, Committed, stream

BLOBS = (HONEST, SECOND, FALSE)
SHARD = 1
DONE, COUNTED, QUORUM = 0, 13, 14
METADATA, SLIVER, PROOF = (0x10, 0x14), 0x11, 0x13
READ, SYMBOL, ACK, ATTEST, FORGET, REGISTER_ENTRY, ACK_ENTRY, ATTEST_ENTRY = (*range(0x20, 0x25), 0x40, 0x41, 0x42)
STREAMS = 16


def entry(kind: int, shard: int, blob: Committed) -> bytes:
    return struct.pack(">BH", kind, shard) + blob.id


def parts(blob: Committed) -> list[bytes]:
    """Metadata, slivers and proofs that a shard may take or must refuse."""
    slivers = [blob.sliver(axis, index) for axis in (PRIMARY, SECONDARY) for index in (0, SHARD, 2)]
    return [blob.metadata, *slivers, blob.proof(SECONDARY, 2, 1, 3), blob.proof(PRIMARY, 3, 0, 1, 2)]


def asked(drawn: random.Random, blob: Committed) -> bytes:
    """One request that regards this blob."""
    kind = drawn.choice([READ, SYMBOL, ACK, ATTEST, FORGET, REGISTER_ENTRY, ACK_ENTRY, ATTEST_ENTRY, *[SLIVER] * 6])
    if kind == SLIVER:
        return drawn.choice(parts(blob))
    if kind == REGISTER_ENTRY:
        return bytes([kind]) + blob.id + struct.pack(">I", drawn.choice([0, 3, 9]))
    if kind in (ACK_ENTRY, ATTEST_ENTRY):
        return entry(kind, drawn.randrange(5), blob)
    if kind == SYMBOL:
        return bytes([kind]) + blob.id + struct.pack(">BH", drawn.choice([PRIMARY, SECONDARY]), drawn.randrange(5))
    return bytes([kind]) + blob.id


def requests_of(drawn: random.Random) -> list[tuple[Committed | None, bytes]]:
    """Requests about three blobs, and some that regard none, in any order; most blobs are registered early."""
    early: list[tuple[Committed | None, bytes]]
    early = [(blob, bytes([REGISTER_ENTRY]) + blob.id + struct.pack(">I", 9)) for blob in BLOBS if drawn.random() < 0.9]
    stored = [(blob, blob.metadata) for blob in BLOBS if drawn.random() < 0.8]
    noise = [b"", b"\x20" + HONEST.id + b"\0", b"\x30" + bytes(9)]
    later: list[tuple[Committed | None, bytes]] = [(None, drawn.choice(noise)) for _ in range(5)]
    later += [(blob, asked(drawn, blob)) for blob in drawn.choices(BLOBS, k=60)]
    drawn.shuffle(later)
    return [*early, *stored, *later]


def served(payloads: list[bytes]) -> list[bytes]:
    """What is answered to each payload, as the bytes of its envelopes."""
    status, text = run(["serve", "1", str(SHARD), "--pages", "64", "--blobs", "64"], stream(*payloads))
    answers, begin, place = [], 0, 0
    while place < len(text):
        head, kind = text[place:][:7], text[place + 7]
        place += 7 + int.from_bytes(head[3:], "big")
        if kind in (0x30, 0x31):
            answers.append(text[begin:place])
            begin = place
    if status != 0 or len(answers) != len(payloads):
        raise AssertionError(f"status {status} and {len(answers)} answers to {len(payloads)} requests")
    return answers


def code_of(told: bytes) -> int | None:
    """The code of an answer of one frame."""
    return told[8] if len(told) == 17 and told[7] == 0x30 else None


def kept(turns: list[tuple[bytes, bytes]], blob: Committed) -> list[bytes]:
    """The entries that were made, in their order, and then what is held: metadata, slivers, and the proof."""
    entries, held = [], {}
    for payload, told in turns:
        kind, code = payload[0], code_of(told)
        if kind in (*METADATA, SLIVER, PROOF) and code == DONE:
            held[payload[:1] + payload[33:34] if kind == SLIVER else payload[:1]] = payload
        elif kind in (ACK, ATTEST) and code in (COUNTED, QUORUM):
            entries.append(entry(kind + ACK_ENTRY - ACK, SHARD, blob))
        elif kind in (REGISTER_ENTRY, ACK_ENTRY, ATTEST_ENTRY) and code in (DONE, COUNTED, QUORUM):
            entries.append(payload)
        elif kind == FORGET and code == DONE:
            held = {name: part for name, part in held.items() if name[0] != SLIVER}
    order = sorted(held, key=lambda name: (name[0] not in METADATA, name[0] == PROOF, name))
    return entries + [held[name] for name in order]


@needs_program
class Local(Rows):
    def check_blob(self, drawn: random.Random, turns: list[tuple[bytes, bytes]], blob: Committed) -> int:
        """One blob's requests alone have the same answers; and so has each of some behind what is kept before it."""
        told = served([payload for payload, _ in turns])
        self.assertEqual(told, [answer for _, answer in turns])
        places = drawn.sample(range(len(turns)), min(3, len(turns)))
        for place in places:
            payload, answer = turns[place]
            front = kept(turns[:place], blob)
            self.assertEqual(served([*front, payload])[-1], answer)
        return len(turns) + len(places)

    def test_random_streams(self) -> None:
        compared, codes = 0, set()
        for number in range(STREAMS):
            drawn = random.Random(f"local {number}")
            requests = requests_of(drawn)
            answers = served([payload for _, payload in requests])
            codes |= {code_of(answer) for answer in answers}
            for blob in BLOBS:
                with self.subTest(stream=number, blob=BLOBS.index(blob)):
                    chosen = [(request, told) for (about, request), told in zip(requests, answers) if about is blob]
                    compared += self.check_blob(drawn, chosen, blob)
        self.assertGreater(compared, 50 * STREAMS)
        self.assertLessEqual({0, 1, 2, 3, 5, 9, 11, 12, 13, 14, 15}, codes)

    def test_what_a_read_rests_on(self) -> None:
        """A registration, the metadata and the primary sliver answer a read as all that was given does."""
        for blob in BLOBS:
            register = bytes([REGISTER_ENTRY]) + blob.id + struct.pack(">I", 9)
            held = [blob.metadata, blob.sliver(SECONDARY, blob.held[SHARD]), blob.sliver(PRIMARY, SHARD)]
            entries = [entry(ACK_ENTRY, shard, blob) for shard in range(4)]
            read = bytes([READ]) + blob.id
            whole = served([register, *entries, *held, read])
            self.assertEqual([code_of(told) for told in whole[5:8]], [DONE, DONE, DONE])
            self.assertEqual(served([register, held[0], held[2], read])[-1], whole[-1])


if __name__ == "__main__":
    unittest.main()

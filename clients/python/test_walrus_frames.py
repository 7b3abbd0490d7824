"""Tests of the frames and envelopes that the client reads and writes: python3 -m unittest, in this folder."""
import unittest

from walrus import client, loop as walrus_loop
from walrus.format import frames

walrus_loop.wait_without_threads()

NAME = bytes(range(32))
BODY = frames.Body(3, b"\x00\x0d", (bytes(32), bytes([1]) * 32))
ROOTS = tuple((bytes([shard]) * 32, bytes([shard + 4]) * 32) for shard in range(4))
FRAMES = [
    (frames.Metadata(1, 12, ROOTS), "100001000000000000000c" + b"".join(map(b"".join, ROOTS)).hex()),
    (frames.Sliver(NAME, 1, 999, b"\x00\x04"), f"11{NAME.hex()}0103e7000000020004"),
    (frames.Opening(NAME, 0, 2, BODY), f"12{NAME.hex()}000002000300000002000d02" + "00" * 32 + "01" * 32),
    (frames.Proof(NAME, 0, 2, (BODY,)), f"13{NAME.hex()}0000020001000300000002000d02" + "00" * 32 + "01" * 32),
    (frames.SecondMetadata(2, 1, 12, ROOTS), "14020001000000000000000c" + b"".join(map(b"".join, ROOTS)).hex()),
    (client.Read(NAME), f"20{NAME.hex()}"),
    (client.Symbol(NAME, 1, 3), f"21{NAME.hex()}010003"),
    (client.Ack(NAME), f"22{NAME.hex()}"),
    (frames.Attest(NAME), f"23{NAME.hex()}"),
    (frames.Forget(NAME), f"24{NAME.hex()}"),
    (client.Answer(6, 2, 1), "30060000000200000001"),
    (frames.Texts(b"\x00\x01", b""), "3102000100"),
    (client.RegisterEntry(NAME, 9), f"40{NAME.hex()}00000009"),
    (client.AckEntry(2, NAME), f"410002{NAME.hex()}"),
    (frames.AttestEntry(2, NAME), f"420002{NAME.hex()}"),
]
BAD_PROOF = frames.Proof(NAME, 0, 2, (BODY,))  # with fewer openings than there are symbols
FAULTS = [
    ("", ("truncated",)),
    ("ff", ("bad kind",)),
    ("10014e", ("bad field", 1)),
    ("1401", ("bad field", 1)),
    ("100001000000000100000100", ("bad field", 3)),
    (f"11{NAME.hex()}02", ("bad field", 33)),
    (f"11{NAME.hex()}0003e8", ("bad field", 34)),
    (f"11{NAME.hex()}00000000000002aa", ("truncated",)),
    (f"13{NAME.hex()}00000003e9", ("bad field", 36)),
    (f"12{NAME.hex()}01000000000000000200070b", ("bad field", 44)),
    (f"20{NAME.hex()}00", ("trailing",)),
    ("3010", ("bad field", 1)),
    ("3142", ("bad field", 1)),
    (f"40{NAME.hex()}00010001", ("bad field", 33)),
    ("4103e8", ("bad field", 1)),
]


class Spellings(unittest.TestCase):
    def test_each_kind_both_ways(self):
        self.assertEqual([int(digits[:2], 16) for _, digits in FRAMES], list(frames.FRAMES))
        self.assertEqual([type(frame) for frame, _ in FRAMES], list(frames.FRAMES.values()))
        for frame, digits in FRAMES:
            self.assertEqual(frames.write_frame(frame).hex(), digits)
            found = frames.read_frame(bytes.fromhex(digits))
            self.assertEqual((type(found), found), (type(frame), frame))

    def test_every_front_is_truncated(self):
        for _, digits in FRAMES:
            for size in range(len(digits) // 2):
                with self.assertRaises(client.Fault) as caught:
                    frames.read_frame(bytes.fromhex(digits)[:size])
                self.assertEqual(caught.exception.args, ("truncated",))

    def test_the_first_fault_from_the_left(self):
        for digits, wanted in FAULTS:
            with self.assertRaises(client.Fault) as caught:
                frames.read_frame(bytes.fromhex(digits))
            self.assertEqual(caught.exception.args, wanted, digits)

    def test_what_has_no_spelling(self):
        wrong = [client.Read(NAME[1:]), client.Symbol(NAME, 2, 0), frames.Metadata(1, 12, ROOTS[1:])]
        wrong += [client.Answer(1, -1, 0), frames.Texts(b"", bytes(66)), client.RegisterEntry(NAME, 65_537)]
        for frame in wrong:
            with self.assertRaises((ValueError, OverflowError)):
                frames.write_frame(frame)


class Envelopes(unittest.TestCase):
    def test_both_ways(self):
        stream = client.envelope(b"", 7) + client.envelope(b"abc")
        self.assertEqual(stream.hex(), "5700070000000057000000000003616263")
        self.assertEqual(client.split(stream), [(7, b""), (0, b"abc")])
        self.assertEqual(client.split(b""), [])

    def test_where_a_stream_is_malformed(self):
        whole = client.envelope(b"abc")
        for rest in (b"\x58", b"\x57", whole[:7], whole[:-1]):
            with self.assertRaises(client.Fault) as caught:
                client.split(whole + rest)
            self.assertEqual(caught.exception.args, ("malformed", 10))


class Shapes(unittest.TestCase):
    def test_lengths_are_those_of_the_operators_page(self):
        page = {1: (2_796_204, 8_389_631), 3: (599_188, 4_196_643), 10: (72_630, 1_532_135), 33: (7_366, 515_469)}
        for faults, numbers in {**page, 100: (828, 232_193), 333: (76, 268_839)}.items():
            self.assertEqual((client.Shape(faults).widest, client.Shape(faults).longest), numbers)
        for faults in (0, 334):
            with self.assertRaises(ValueError):
                client.Shape(faults)

    def test_lengths_that_an_f_allows(self):
        shape, path = client.Shape(1), (bytes(32),) * 2
        metadata = frames.Metadata(1, 12, ROOTS)
        proof = frames.Proof(NAME, 0, 2, tuple(frames.Body(cross, b"\x00\x0d", path) for cross in range(3)))
        good = [metadata, frames.SecondMetadata(2, 1, 12, ROOTS), frames.Sliver(NAME, 0, 3, bytes(12)), proof]
        good += [frames.Sliver(NAME, 1, 0, bytes(4)), frames.Opening(NAME, 0, 3, frames.Body(3, b"\0\1", path))]
        bad = [frames.Metadata(2, 12, ROOTS + ROOTS[1:]), frames.Sliver(NAME, 0, 4, bytes(12)), BAD_PROOF]
        bad += [frames.Sliver(NAME, 0, 3, bytes(size)) for size in (0, 3, 8, 6 * 1_398_102 + 6)]
        bad += [frames.Opening(NAME, 0, 3, frames.Body(3, b"\0\1\2", path)), client.Read(NAME)]
        for parts, wanted in ((good, True), (bad, False)):
            for frame in parts:
                self.assertEqual(shape.allows(frames.write_frame(frame)), wanted, frame)
        self.assertFalse(shape.allows(b"") or shape.allows(b"\x11" * 8_000_000) or shape.allows(b"\xff" * 99))

    def test_what_can_be_no_request_is_refused(self):
        shape = client.Shape(1)
        refused = {digits: frames.refuse(shape, bytes.fromhex(digits)) for digits, _ in FAULTS}
        numbers = {"truncated": 1, "bad kind": 2, "bad field": 3, "trailing": 4}
        for digits, (name, *place) in FAULTS:
            self.assertEqual(refused[digits], client.Answer(9, numbers[name], *place or (0,)), digits)
        for frame in (client.Answer(0, 0, 0), frames.Texts(b"a", b"b"), FRAMES[2][0]):
            self.assertEqual(frames.refuse(shape, frames.write_frame(frame)), client.Answer(9, 5, 0))
        self.assertEqual(frames.refuse(shape, bytes(8_389_632)), client.Answer(9, 7, 0))
        for frame in (frames.Sliver(NAME, 0, 3, bytes(8)), BAD_PROOF, frames.Metadata(2, 12, ROOTS + ROOTS[1:])):
            self.assertEqual(frames.refuse(shape, frames.write_frame(frame)), client.Answer(2, 0, 0))
        for frame, _ in FRAMES[5:10] + FRAMES[12:] + [(frames.Metadata(1, 12, ROOTS), "")]:
            self.assertIsNone(frames.refuse(shape, frames.write_frame(frame)), frame)

    def test_what_is_kept_of_a_reply(self):
        shape, kept = client.Shape(1), {}
        read, symbol = frames.write_frame(client.Read(NAME)), frames.write_frame(client.Symbol(NAME, 1, 3))
        body = frames.Body(3, b"\0\1", (bytes(32),) * 2)
        said = [frames.Sliver(NAME, 0, 2, bytes(6)), frames.Opening(NAME, 1, 3, body), frames.Metadata(1, 12, ROOTS)]
        said += [frames.SecondMetadata(2, 1, 12, ROOTS), frames.Proof(NAME, 1, 0, (body, body))]
        for request in (read, symbol, frames.write_frame(client.Ack(NAME))):
            kept[request[0]] = [shape.keeps(frames.write_frame(frame), request, 2) for frame in said]
        self.assertEqual(kept, {0x20: [0x11, 0, 0x10, 0x10, 0x13], 0x21: [0, 0x12, 0x10, 0x10, 0x13], 0x22: [0] * 5})
        other = bytes(32)
        false = [frames.Sliver(other, 0, 2, bytes(6)), frames.Sliver(NAME, 1, 2, bytes(4)), client.Answer(0, 0, 0)]
        false += [frames.Sliver(NAME, 0, 1, bytes(6)), frames.Sliver(NAME, 0, 2, bytes(7)), client.Read(NAME)]
        false += [frames.Proof(other, 1, 0, (body, body)), frames.Metadata(2, 12, ROOTS + ROOTS[1:]), BAD_PROOF]
        self.assertEqual([shape.keeps(frames.write_frame(frame), read, 2) for frame in false], [0] * len(false))
        false = [frames.Opening(NAME, 0, 3, body), frames.Opening(NAME, 1, 2, body), frames.Opening(other, 1, 3, body)]
        self.assertEqual([shape.keeps(frames.write_frame(frame), symbol, 2) for frame in false], [0] * len(false))
        self.assertEqual(shape.keeps(b"", read, 2), 0)


if __name__ == "__main__":
    unittest.main()

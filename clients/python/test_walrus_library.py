"""Tests of the package `walrus`, over the shared library and over the program: python3 -m unittest.

The library is the one that WALRUS_LIBRARY names, or that of the checkout; the program the one that WALRUS names, or
that of the checkout. Tests of one that is missing are skipped. Expected values come from the independent
tests/worked.py."""

import asyncio
import mmap
import os
import pathlib
import sys
import threading
import unittest
from unittest import mock

TOP = pathlib.Path(__file__).resolve().parents[2]
sys.path[:0] = [str(TOP / "tests"), str(TOP / "clients" / "python")]

import walrus  # noqa: E402
from walrus import Code  # noqa: E402
from walrus.engines import backends  # noqa: E402
from walrus.engines.backends import BUILT, PROGRAM  # noqa: E402
from worked import ELEVEN, FALSE, HONEST, PRIMARY, SECOND, SECONDARY, SIX_WORDS, envelope, ladder  # noqa: E402

LIBRARIES = [pathlib.Path(os.environ["WALRUS_LIBRARY"])] if os.environ.get("WALRUS_LIBRARY") else []
LIBRARIES = [place for place in LIBRARIES or [TOP / built for built in BUILT] if place.exists()]
PROGRAMS = [os.environ["WALRUS"]] if os.environ.get("WALRUS") else [str(TOP / PROGRAM)] * (TOP / PROGRAM).exists()
BEACON = bytes(range(32))
SECONDS = 120  # of a process, on a busy machine


def register(identifier: bytes) -> bytes:
    return b"\x40" + identifier + (9).to_bytes(4, "big")


def stored(blob: walrus.Encoded, shard: int) -> list[bytes]:
    """Return requests that store a blob at a shard."""
    return [register(blob.identifier), bytes(blob.metadata), *map(bytes, blob.slivers[shard])]


def answers(stream: memoryview) -> list[tuple[int, bytes]]:
    return [(sender, bytes(payload)) for sender, payload in walrus.split(stream)]


class Calls:
    """The calls, with the library or with the program."""

    def test_identifier(self) -> None:
        self.assertEqual(walrus.identifier(SIX_WORDS, 1), HONEST.id)
        self.assertEqual(walrus.identifier(SIX_WORDS, 1, 2), SECOND.id)
        self.assertEqual(walrus.identifier(SIX_WORDS[:11] + b"\0", 1), walrus.identifier(SIX_WORDS[:11] + b"\0", 1, 1))
        for faults in (2, 33):
            blob = b"".join(ladder(faults).sliver(PRIMARY, row)[40:] for row in range(faults + 1))
            self.assertEqual(walrus.identifier(blob, faults), ladder(faults).id)

    def test_every_kind_of_buffer(self) -> None:
        around = b"xx" + SIX_WORDS + b"xxx"
        mapped = mmap.mmap(-1, len(SIX_WORDS))
        mapped[:] = SIX_WORDS
        views = memoryview(around)[2:14], memoryview(bytearray(around))[2:14]
        for blob in (SIX_WORDS, bytearray(SIX_WORDS), memoryview(SIX_WORDS), *views, mapped):
            with self.subTest(type=type(blob)):
                self.assertEqual(walrus.identifier(blob, 1), HONEST.id)
        mapped.close()  # no view of it is left
        empty = walrus.identifier(b"", 1)
        for blob in (bytearray(), memoryview(around)[3:3]):
            self.assertEqual(walrus.identifier(blob, 1), empty)

    def test_encode(self) -> None:
        for form, writer in ((1, HONEST), (2, SECOND)):
            made = walrus.encode(SIX_WORDS, 1, form)
            self.assertEqual(made.envelopes, writer.envelopes())
            self.assertEqual((made.identifier, made.metadata), (writer.id, writer.metadata))
            for shard, (primary, secondary) in enumerate(made.slivers):
                self.assertEqual(primary, writer.sliver(PRIMARY, shard))
                self.assertEqual(secondary, writer.sliver(SECONDARY, writer.held[shard]))
                self.assertIs(primary.obj, made.envelopes.obj)  # a view, not a copy
                self.assertTrue(primary.readonly)

    def test_room_is_known(self) -> None:
        """The size of an encoding is known, around the bounds of symbols; too little room gives the same result."""
        engine = walrus.engine()
        for size in (0, 1, 11, 12, 13, 24, 25, 40_000):
            for faults in (1, 2, 5):
                made = walrus.encode(bytes(size), faults)
                self.assertEqual(len(made.slivers), 3 * faults + 1)
                if isinstance(engine, walrus.Library):
                    words = b"encode\0%d\0" % faults
                    self.assertEqual(len(made.envelopes), engine.room(words, len(words), size))
        for room in (0, 1, 690, 691):
            self.assertEqual(walrus.run("encode", 1, data=SIX_WORDS, room=room), (0, HONEST.envelopes()))

    def test_room_that_is_had(self) -> None:
        """A read gets the room that the library reports: the size of its input, and at least that of a line. A sliver
        gets no more room than one of the longest blob takes, however long the input is."""
        if not isinstance(walrus.engine(), walrus.Library):
            self.skipTest("the program has no room")
        long = HONEST.envelopes() + envelope(0, bytes(17_999_999))
        with mock.patch.object(backends, "Room", side_effect=backends.Room) as room:
            self.assertEqual(walrus.read(HONEST.id, HONEST.envelopes()), SIX_WORDS)
            with self.assertRaises(walrus.Lacking):
                walrus.read(HONEST.id, b"")
            with self.assertRaises(walrus.Lacking):
                walrus.recover(HONEST.id, "primary", 2, long)
        sizes = [call.args[0] for call in room.call_args_list]
        self.assertEqual(sizes, [len(HONEST.envelopes()), 272, 17_825_792])

    def test_one_run_where_no_room_is_told(self) -> None:
        """A command for which the library reports no bound is run once, with room for all that it writes: over small
        inputs and large ones, by the call of its own, or by its words alone."""
        if not isinstance(walrus.engine(), walrus.Library):
            self.skipTest("the program has no room")
        blob = bytes(range(256)) * 16_384
        made = walrus.encode(blob, 1)
        held = [made.metadata, *made.slivers[1]]
        opened = [HONEST.metadata, *(HONEST.opening(PRIMARY, 2, cross) for cross in range(3))]
        packed = walrus.bundle([blob[:999], blob[:1_000_000]], 1)
        bundled = walrus.encode(packed, 1)
        columns = [bundled.metadata, *(secondary for _, secondary in bundled.slivers)]
        image = walrus.run("image", 2**24, data=walrus.stream(held)).text
        gets = [made.metadata, made.slivers[0][0], made.slivers[1][0]]
        gets.append(b"\x43" + made.identifier + (0).to_bytes(4, "big") + len(blob).to_bytes(4, "big"))
        runs = {
            "recover": lambda: walrus.recover(HONEST.id, "primary", 2, opened),
            "bundle": lambda: walrus.bundle([blob, blob], 1),
            "member": lambda: walrus.member(bundled.identifier, 1, columns),
            "challenge": lambda: walrus.challenge(made.identifier, 1, BEACON, 60, held),
            "serve": lambda: walrus.serve(1, 1, [*stored(made, 1), b"\x20" + made.identifier]),
            "image": lambda: walrus.run("image", 2**24, data=walrus.stream(held)),
            "unpack": lambda: walrus.run("unpack", data=image),
            "gateway": lambda: walrus.run("gateway", 1, data=walrus.stream(gets)),
            "sample": lambda: walrus.run("sample", 1),
            "replay": lambda: walrus.run("replay", data=walrus.run("sample", 1).text),
        }
        for command, run in runs.items():
            with self.subTest(command=command), mock.patch.object(backends, "Room", side_effect=backends.Room) as room:
                run()
                self.assertEqual(room.call_count, 2 if command == "replay" else 1)

    def test_read(self) -> None:
        made = walrus.encode(SIX_WORDS, 1)
        primary = [primary for primary, _ in made.slivers]
        self.assertEqual(walrus.read(made.identifier, made.envelopes), SIX_WORDS)
        self.assertEqual(walrus.read(made.identifier, [made.metadata, primary[3], b"noise", primary[1]]), SIX_WORDS)
        with self.assertRaises(walrus.Lacking) as caught:
            walrus.read(made.identifier, [made.metadata, primary[3]])
        self.assertEqual((caught.exception.status, caught.exception.words), (4, "short 1 of 2"))
        self.assertEqual(caught.exception.code, Code.TOO_FEW)
        with self.assertRaises(walrus.Lacking) as caught:
            walrus.read(made.identifier, b"")
        self.assertEqual((caught.exception.words, caught.exception.code), ("no metadata", Code.NO_METADATA))
        with self.assertRaises(walrus.BadlyEncoded) as rejected:
            walrus.read(ELEVEN.id, [ELEVEN.metadata, *(ELEVEN.sliver(PRIMARY, row) for row in (0, 1))])
        self.assertEqual((rejected.exception.words, rejected.exception.proof), ("reject", b""))
        self.assertEqual(rejected.exception.code, Code.REJECT)

    def test_recover(self) -> None:
        openings = [HONEST.opening(PRIMARY, 2, cross) for cross in range(3)]
        found = walrus.recover(HONEST.id, "primary", 2, [HONEST.metadata, *openings])
        self.assertEqual(found, HONEST.sliver(PRIMARY, 2))
        openings = [HONEST.opening(SECONDARY, 0, cross) for cross in (3, 1)]
        found = walrus.recover(HONEST.id, "secondary", 0, [HONEST.metadata, *openings])
        self.assertEqual(found, HONEST.sliver(SECONDARY, 0))
        false = [FALSE.metadata, *(FALSE.opening(PRIMARY, 3, cross) for cross in range(3))]
        with self.assertRaises(walrus.BadlyEncoded) as caught:
            walrus.recover(FALSE.id, "primary", 3, false)
        proof = caught.exception.proof
        self.assertEqual(proof, FALSE.proof(PRIMARY, 3, 0, 1, 2))
        self.assertEqual((caught.exception.code, caught.exception.words), (Code.PROOF, ""))  # it is no line
        self.assertTrue(walrus.check(FALSE.id, [FALSE.metadata, proof]))

    def test_check(self) -> None:
        false = FALSE.metadata, FALSE.proof(PRIMARY, 3, 0, 1, 2)
        self.assertEqual(walrus.check(FALSE.id, false), walrus.Verdict(True, "inconsistent", Code.INCONSISTENT))
        for proof, words, code in (
            (HONEST.proof(PRIMARY, 3, 0, 1, 2), "consistent", Code.CONSISTENT),
            (HONEST.proof(PRIMARY, 3, 0, 1), "wrong count", Code.PROOF_COUNT),
            (HONEST.proof(PRIMARY, 3, 0, 1, 1), "repeated", Code.PROOF_REPEATS),
            (HONEST.proof(PRIMARY, 3, 0, 1, 2)[:-1] + b"!", "bad opening 2", Code.BAD_OPENING),
        ):
            with self.subTest(words=words):
                self.assertEqual(walrus.check(HONEST.id, [HONEST.metadata, proof]), walrus.Verdict(False, words, code))
        for payloads, words in (([], "no metadata"), ([HONEST.metadata], "no proof")):
            with self.assertRaisesRegex(walrus.Lacking, words):
                walrus.check(HONEST.id, payloads)

    def test_bundles(self) -> None:
        blob = walrus.bundle([b"\xaa\xbb", bytearray(b"\xcc")], 1)
        wanted = "0002000100000002" "aabb000000000000" "cc00000000000000"
        self.assertEqual(blob.hex(), wanted + "0002000000010000" + "00" * 16)
        made = walrus.encode(blob, 1)
        columns = [bytes(secondary) for _, secondary in made.slivers]
        self.assertEqual(walrus.member(made.identifier, 0, [made.metadata, *columns[:2]]), b"\xaa\xbb")
        self.assertEqual(walrus.member(made.identifier, 1, [made.metadata, columns[2], columns[0]]), b"\xcc")
        with self.assertRaises(walrus.Lacking) as caught:
            walrus.member(made.identifier, 1, [made.metadata, columns[0]])
        self.assertEqual((caught.exception.words, caught.exception.code), ("missing column 2", Code.MISSING_COLUMN))
        with self.assertRaisesRegex(walrus.Lacking, "too many members") as caught:
            walrus.bundle([b"", b"", b""], 1)
        self.assertEqual(caught.exception.code, Code.TOO_MANY_MEMBERS)

    def test_one_call_is_enough(self) -> None:
        """The library reports the room for an answer to many draws, longer than the input, and for a bundle."""
        engine = walrus.engine()
        if not isinstance(engine, walrus.Library):
            self.skipTest("a process needs no room")
        made = walrus.encode(bytes(3_000), 1)
        held = [made.metadata, *made.slivers[1]]
        with mock.patch.object(engine, "call", wraps=engine.call) as called:
            answer = walrus.challenge(made.identifier, 1, BEACON, 60, held)
            self.assertEqual((called.call_count, len(list(walrus.split(answer)))), (1, 60))
            self.assertGreater(len(answer), sum(map(len, held)) + 4_096)
            walrus.bundle([bytes(9_000)], 1)
            self.assertEqual(called.call_count, 2)

    def test_challenges(self) -> None:
        made = walrus.encode(SIX_WORDS, 1)
        held = [made.metadata, *made.slivers[1]]
        shown = [bytes(payload) for _, payload in walrus.split(walrus.challenge(made.identifier, 1, BEACON, 5, held))]
        self.assertEqual(len(shown), 5)
        self.assertEqual(
            walrus.verify(made.identifier, 1, BEACON, 5, [made.metadata, *shown]), walrus.Verdict(True, "accepted")
        )
        self.assertEqual(walrus.verify(made.identifier, 1, bytes(32), 5, [made.metadata, *shown]).words[:6], "wrong ")
        self.assertFalse(walrus.verify(made.identifier, 1, bytes(32), 5, [made.metadata, *shown]))
        self.assertEqual(
            walrus.verify(made.identifier, 1, bytes(32), 5, [made.metadata, *shown]).code, Code.WRONG_OPENING
        )
        with self.assertRaisesRegex(walrus.Lacking, "wrong count 4 of 5") as caught:
            walrus.verify(made.identifier, 1, BEACON, 5, [made.metadata, *shown[1:]])
        self.assertEqual(caught.exception.code, Code.DRAW_COUNT)

    def test_serve(self) -> None:
        made = walrus.encode(SIX_WORDS, 1)
        ask = b"\x21" + made.identifier + b"\x01\x00\x03"
        said = answers(walrus.serve(1, 1, [*stored(made, 1), ask], pages=4, blobs=1))
        done = (1, bytes.fromhex("30000000000000000000"))
        self.assertEqual(said[0], (1, bytes.fromhex("30000000000900000000")))
        self.assertEqual(said[1:4], [done, done, done])
        replied = [
            (1, HONEST.metadata),
            (1, HONEST.opening(SECONDARY, 3, 1)),
            (1, bytes.fromhex("30000000000200000000")),
        ]
        self.assertEqual(said[4:], replied)
        with self.assertRaises(walrus.Malformed) as caught:
            walrus.serve(1, 1, envelope(0, register(made.identifier)) + b"\0")
        self.assertEqual((caught.exception.status, len(caught.exception.text)), (8, 17))
        self.assertEqual((caught.exception.code, caught.exception.words), (Code.BROKEN_REQUEST, ""))

    def test_more_is_written_than_was_guessed(self) -> None:
        """Many reads of one blob: the answers are several times as long as the requests."""
        blob = bytes(range(256)) * 64
        made = walrus.encode(blob, 1)
        said = answers(walrus.serve(1, 2, [*stored(made, 2), *[b"\x20" + made.identifier] * 50]))
        self.assertEqual(said[4:], [(2, bytes(made.metadata)), (2, bytes(made.slivers[2][0])), said[6]] * 50)

    def test_words_of_faults(self) -> None:
        for call in (
            lambda: walrus.identifier(b"", 0),
            lambda: walrus.identifier(b"", 334),
            lambda: walrus.encode(b"", 1, 3),
            lambda: walrus.encode(b"", 0),
            lambda: walrus.read(b"\1", b""),
            lambda: walrus.run("nothing") and walrus.calls.result("nothing"),
            lambda: walrus.recover(HONEST.id, "third", 0, b""),  # type: ignore[arg-type]
            lambda: walrus.member(HONEST.id, -1, b""),
        ):
            with self.assertRaises(walrus.WrongWords) as caught:
                call()
            self.assertEqual((caught.exception.status, caught.exception.code), (2, Code.USAGE))
            self.assertIsInstance(caught.exception, ValueError)
        with self.assertRaisesRegex(walrus.Malformed, r"walrus read: malformed at 0 \(status 8\): the input is cut"):
            walrus.read(HONEST.id, b"x")
        with self.assertRaisesRegex(walrus.Malformed, r"too long \(status 9\)"):
            walrus.identifier(bytes(16_777_217), 1)
        self.assertEqual(walrus.run("id", "\udcff").status, 11)
        with self.assertRaisesRegex(ValueError, "zero byte"):
            walrus.run("id\0")

    def test_threads(self) -> None:
        """Eight threads at once, each with its own blobs, get the same results as alone."""
        blobs = [bytes([thread]) * (1000 + 7000 * thread) for thread in range(8)]
        alone, together = [walrus.identifier(blob, 1) for blob in blobs], [[b""]] * 8

        def many(thread: int) -> None:
            together[thread] = [walrus.identifier(blobs[thread], 1) for _ in range(5)]

        threads = [threading.Thread(target=many, args=(thread,)) for thread in range(8)]
        for thread in threads:
            thread.start()
        for thread in threads:
            thread.join(SECONDS)
        self.assertEqual(together, [[found] * 5 for found in alone])

    def test_asyncio(self) -> None:
        async def both() -> list[bytes]:
            calls = [asyncio.to_thread(walrus.identifier, SIX_WORDS, 1, form) for form in (1, 2)]
            return list(await asyncio.gather(*calls))

        self.assertEqual(asyncio.run(both()), [HONEST.id, SECOND.id])


@unittest.skipUnless(LIBRARIES, "the library is not built")
class WithLibrary(Calls, unittest.TestCase):
    @classmethod
    def setUpClass(cls) -> None:
        walrus.use(walrus.Library(LIBRARIES[0]))
        cls.addClassCleanup(walrus.use, None)

    def test_memory_with_gaps(self) -> None:
        with self.assertRaises(BufferError):
            walrus.identifier(memoryview(SIX_WORDS)[::2], 1)


@unittest.skipUnless(PROGRAMS, "the program is not built")
class WithProgram(Calls, unittest.TestCase):
    @classmethod
    def setUpClass(cls) -> None:
        walrus.use(walrus.Program(PROGRAMS[0]))
        cls.addClassCleanup(walrus.use, None)


if __name__ == "__main__":
    unittest.main()

"""Tests of the room that the library reports for a command before it is run."""

import random
import sys
import unittest
from typing import Any
from unittest import mock

from called import NO_ROOM, TOP, Library, needs_library, spelled

sys.path += [str(TOP / "tests"), str(TOP / "hostile")]

import corpus  # noqa: E402
import forms  # noqa: E402
import test_refused_memory  # noqa: E402
import test_rows  # noqa: E402

UNKNOWN = 2**64 - 1  # reported if there is no bound, or the words are malformed
SUBJECTS: Any = corpus.Corpus  # it has no type annotations


def cases(library: Library) -> list[tuple[list[str], bytes, int]]:
    """Return words, input and status of cases for each command."""
    with mock.patch.object(test_refused_memory, "SUBJECTS", SUBJECTS(library.answer, random.Random(1)), create=True):
        found: Any = test_refused_memory.cases
        return list(found())


@needs_library
class Rooms(unittest.TestCase):
    """The room that is reported for words and the length of an input."""

    def test_it_suffices(self) -> None:
        """Each command that has a number, in a room of exactly that many bytes. `encode` and `id` use all of them, and
        one byte less is too little."""
        library, given, filled = Library(), set(), set()
        for words, data, expected in cases(library):
            told = spelled(words)
            room = library.room(told, len(data))
            if room == UNKNOWN:
                continue
            given.add(words[0])
            with self.subTest(words=words):
                status, text, needed = library.call(told, data, room)
                self.assertEqual((status, needed), (expected, len(text)))
                if words[0] in ("encode", "id") and not expected:
                    self.assertEqual(len(text), room)
                    self.assertEqual(library.call(told, data, room - 1), (NO_ROOM, text[:-1], room))
                    filled.add(words[0])
        self.assertEqual(filled, {"encode", "id"})
        self.assertEqual(given, set("check encode id read verify".split()))

    def test_the_numbers(self) -> None:
        library, name = Library(), "00" * 32
        usage = len(test_rows.USAGE)
        told: list[tuple[list[str], int, int]] = [
            (["id", "1"], 12, 65),
            (["check", name], 12, 272),
            (["verify", name, "0", name, "1"], 12, 272),
            (["read", name], 12, 272),
            (["read", name], 273, 273),
            (["read", name], 2**64 - 1, 16_777_216),
            (["encode", "1"], 12, 8 + 10 + 4 * (64 + 94 + 5 * 2)),  # symbols of two bytes
            (["encode", "1", "--format", "2"], 12, 8 + 11 + 4 * (64 + 94 + 5 * 2)),
            (["encode", "333"], 16_777_216, 8 + 10 + 1000 * (64 + 94 + 1001 * 76)),  # symbols of 76 bytes
            (["encode", "333"], 2**64 - 1, 8 + 10 + 1000 * (64 + 94 + 1001 * 76)),
            (["frob"], 12, usage),
            (["id", "0"], 12, usage),
            ([], 12, usage),
        ]
        for words, length, room in told:
            with self.subTest(words=words, length=length):
                self.assertEqual(library.room(spelled(words), length), room)

    def test_a_member_longer_than_a_blob(self) -> None:
        """An index may give a member all columns except the first, with the zeros after the longest blob."""
        library, faults, size = Library(), 149, 376
        rows_there, columns = faults + 1, 2 * faults + 1
        length = rows_there * (columns - 1) * size
        index = (1).to_bytes(2, "big") + (1).to_bytes(2, "big") + length.to_bytes(4, "big")
        blob = (index + random.Random(1).randbytes(16_777_216))[:16_777_216]
        block = blob.ljust(rows_there * columns * size, b"\0")
        symbols = [block[place : place + size] for place in range(0, len(block), size)]  # noqa: E203
        member = b"".join(symbol for column in range(1, columns) for symbol in symbols[column::columns])
        encode = spelled(["encode", str(faults)])
        _, text, _ = library.call(encode, blob, library.room(encode, len(blob)))
        metadata, *slivers = (payload for _, payload in forms.split(text)[0])
        held = [it for it in slivers if it[33] == forms.SECONDARY and forms.value_of(it[34:36]) < columns]
        identifier = library.answer(["id", str(faults)], blob)[1].decode().strip()
        told = spelled(["member", identifier, "0"])
        data = forms.join([(0, payload) for payload in [metadata, *held]])
        self.assertGreater(length, 16_777_216)
        self.assertEqual(library.call(told, data, length), (0, member, length))

    def test_where_none_is_told(self) -> None:
        library, name = Library(), "00" * 32
        others = ["recover", name, "primary", "0"], ["bundle", "1"], ["member", name, "0"], ["image", "273"], ["unpack"]
        audit = ["challenge", name, "0", name, "3"]
        lines = [*others, audit, ["gateway", "1"], ["serve", "1", "0"], ["replay"], ["sample", "1"]]
        for words in (b"id", b"\xff\0", *map(spelled, lines)):
            for length in (0, 273, 2**64 - 1):
                with self.subTest(words=words, length=length):
                    self.assertEqual(library.room(words, length), UNKNOWN)

"""Rows of words and input with the status and the text that the program ends with, and how they are tried.

The program is the variable WALRUS, or else crates/walrus/out/walrus.
"""

import dataclasses
import subprocess
import unittest

from test_pages import PROGRAM
from worked import Committed

SECONDS = 60


def short(have: int, need: int) -> tuple[int, bytes]:
    return 4, b"short %d of %d\n" % (have, need)


def malformed(place: int) -> tuple[int, bytes]:
    return 8, b"malformed at %d\n" % place


@dataclasses.dataclass(frozen=True)
class Row:
    """The words of a run, its input, and how it ends: the status and the whole text."""

    words: list[str]
    data: bytes
    ends: tuple[int, bytes]


def run(words: list[str], data: bytes) -> tuple[int, bytes]:
    """The status and the text of a run, which writes nothing to standard error."""
    ran = subprocess.run([PROGRAM, *words], input=data, capture_output=True, timeout=SECONDS)
    if ran.stderr:
        raise AssertionError(f"{words}: on standard error: {ran.stderr[:200]!r}")
    return ran.returncode, ran.stdout


class Rows(unittest.TestCase):
    """What the tests below share."""

    def check(self, name: str, *rows: Row) -> None:
        for number, row in enumerate(rows, 1):
            with self.subTest(rows=name, row=number, words=row.words):
                status, text = run(row.words, row.data)
                self.assertEqual((status, text[:4000]), (row.ends[0], row.ends[1][:4000]))
                self.assertTrue(text == row.ends[1], "what follows differs")

    def check_fronts(self, words: list[str], data: bytes, whole: list[tuple[int, int, bytes]]) -> None:
        """Each front of the data: `whole` says what is told behind whole envelopes; within one they are malformed."""
        place, last = 0, (0, b"")
        told = {length: (status, text) for length, status, text in whole}
        for length in range(len(data) + 1):
            if length in told:
                place, last = length, told[length]
            wanted = last if length == place else malformed(place)
            with self.subTest(words=words, length=length):
                self.assertEqual(run(words, data[:length]), wanted)


def zeros(length: int, size: int) -> Committed:
    """So many zero bytes for one fault, whose symbols have this size."""
    lines = [[bytes(size)] * 4] * 4
    return Committed(lines, lines, length)

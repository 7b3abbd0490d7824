"""Tests of walrus_code: each refusal that an input causes has its number, and no other text has that number.

The numbers are repeated here by hand, since they must never change.
"""

import re
import sys
import unittest

from called import C, NO_ROOM, TOP, Library, needs_library, spelled

sys.path.append(str(TOP / "tests"))

import test_statuses  # noqa: E402
from test_rows import USAGE  # noqa: E402
from worked import FALSE, HONEST, SECONDARY, envelope, stream  # noqa: E402

NONE = 0
# The name of each number in walrus.h, and the text that the manual has for it, if it has one.
CODES = {
    201: ("USAGE", ""),
    301: ("REJECT", "reject"),
    302: ("INCONSISTENT", "inconsistent"),
    303: ("BAD_INDEX", "bad index"),
    304: ("WRONG_OPENING", "wrong D"),
    305: ("PROOF", ""),
    401: ("NO_METADATA", "no metadata"),
    402: ("TOO_FEW", "short K of N"),
    403: ("NO_PROOF", "no proof"),
    404: ("PROOF_COUNT", "wrong count"),
    405: ("PROOF_REPEATS", "repeated"),
    406: ("BAD_OPENING", "bad opening P"),
    407: ("CONSISTENT", "consistent"),
    408: ("DISK_FULL", "disk full needed N free M"),
    409: ("TOO_MANY_MEMBERS", "too many members"),
    410: ("BUNDLE_TOO_LONG", "bundle too long"),
    411: ("MISSING_COLUMN", "missing column J"),
    412: ("NO_MEMBER", "no member of N"),
    413: ("NO_SHARD", "no shard"),
    414: ("NO_PRIMARY", "no primary"),
    415: ("NO_SECONDARY", "no secondary"),
    416: ("DRAW_COUNT", "wrong count K of N"),
    501: ("NO_MEMORY", ""),
    601: ("INPUT_FAILED", ""),
    701: ("NO_ROOM", ""),
    801: ("MALFORMED", "malformed at N"),
    802: ("NOT_JSON", "not json"),
    803: ("BAD_SCHEDULE", "bad schedule"),
    804: ("TOO_MANY_EVENTS", "too many events"),
    805: ("BAD_EVENT", "bad event N"),
    806: ("BROKEN_REQUEST", ""),
    901: ("TOO_LONG", "too long"),
    1001: ("COLLISION", "collision LEFT RIGHT"),
    1101: ("NO_WORDS", ""),
}
I, J = HONEST.id.hex(), FALSE.id.hex()
ANSWER = envelope(0, bytes(10))  # as `serve` writes one
COLLISION = b"collision 00 01\n"
# Refusals that no input in these tests causes: status, text and number.
TEXTS = [
    (5, b"", 501),
    (5, b"miss no metadata\n", 501),
    (5, ANSWER, 501),
    (6, b"", 601),
    (6, ANSWER, 601),
    (8, ANSWER, 806),
    (9, ANSWER, 901),
    (9, b"", 901),
    (10, COLLISION, 1001),
    (10, b"miss range 00\n" + COLLISION, 1001),
    (10, ANSWER, 1001),
]


class Header(unittest.TestCase):
    def test_it_has_each_number_and_no_other(self) -> None:
        named = re.findall(r"^    WALRUS_CODE_(\w+) = (\d+)", (C / "walrus.h").read_text(), re.M)
        self.assertEqual(
            [(int(number), name) for name, number in named],
            [(NONE, "NONE"), *((number, name) for number, (name, _) in CODES.items())],
        )

    def test_it_quotes_each_text(self) -> None:
        rows = re.findall(r"^    WALRUS_CODE_\w+ = (\d+),? +/\* (?:'([^']+)')?", (C / "walrus.h").read_text(), re.M)
        quoted = {int(number): text for number, text in rows}
        wanted = {number: text for number, (_, text) in CODES.items()}
        self.assertEqual({**quoted, 1001: "collision LEFT RIGHT"}, wanted)  # it quotes only a part of this line

    def test_the_manual_of_the_library_lists_them(self) -> None:
        rows = re.findall(r"^(\d+)\tWALRUS_CODE_(\w+)\t(.+)$", (TOP / "docs" / "walrus.3").read_text(), re.M)
        self.assertEqual([(int(number), name) for number, name, _ in rows], [(it, CODES[it][0]) for it in CODES])
        lines = {int(number): re.sub(r"\\f[BIR]", "", line) for number, _, line in rows if line.startswith("\\fB")}
        texts = {number: text for number, (_, text) in CODES.items() if text}
        self.assertEqual({**lines, 806: "", 901: "too long", 1001: ""}, {**texts, 806: "", 1001: ""})

    def test_it_has_each_status_and_each_text_of_the_manual(self) -> None:
        told = {(number // 100, text) for number, (_, text) in CODES.items()}
        manual = test_statuses.read_manual()
        texts = {(status, text) for status, found in manual.items() for text in found}
        self.assertEqual({(status, text) for status, text in told if text}, texts)
        self.assertEqual({status for status, _ in told}, set(manual) - {0, 127})


@needs_library
class Codes(unittest.TestCase):
    def ends(self, words: list[str], data: bytes, code: int) -> None:
        """Check that a call has the status of this number, and that its text has the number."""
        library = Library()
        status, text = library.answer(words, data)
        self.assertEqual((status, library.code(status, text)), (code // 100, code), text[:80])

    def test_each_text_of_the_manual(self) -> None:
        reached = {(number // 100, text): number for number, (_, text) in CODES.items()}
        for form, row in test_statuses.ENDINGS.items():
            with self.subTest(form=form):
                self.ends(row.words, row.data, reached[form])

    def test_what_has_no_line(self) -> None:
        openings = stream(FALSE.metadata, *(FALSE.opening(SECONDARY, 2, cross) for cross in (1, 3)))
        asked = envelope(0, b"\x20" + HONEST.id)  # a read of a blob that the shard does not know
        self.ends([], b"", 201)
        self.ends(["id", "0"], b"", 201)
        self.ends(["recover", J, "secondary", "2"], openings, 305)
        self.ends(["serve", "1", "0"], b"x", 806)
        self.ends(["serve", "1", "0"], asked + b"x", 806)

    def test_calls_without_room_or_words(self) -> None:
        library = Library()
        for words, room, code in ((spelled(["id", "1"]), 3, 701), (b"id", 100, 1101), (b"\xff\0", 100, 1101)):
            with self.subTest(words=words):
                status, text, _ = library.call(words, b"", room)
                self.assertEqual((status, library.code(status, text)), (code // 100, code))
        self.assertEqual(library.call(spelled(["id", "1"]), b"", 3)[0], NO_ROOM)

    def test_what_no_input_leads_to(self) -> None:
        library = Library()
        for status, text, code in TEXTS:
            with self.subTest(status=status, text=text):
                self.assertEqual(library.code(status, text), code)

    def test_no_refusal(self) -> None:
        """Neither status 0 with any text, nor an unknown status, a text of another status or part of a line is one."""
        library = Library()
        lines = [row.ends[1] for row in test_statuses.ENDINGS.values()]
        for status in (0, 1, 12, 127, 255):
            for text in (b"", b"hit range 00\n", USAGE, ANSWER, COLLISION, *lines):
                with self.subTest(status=status, text=text):
                    self.assertEqual(library.code(status, text), NONE)
        for status, text in (
            (2, b""),
            (2, b"usage"),
            (3, b""),
            (3, b"no metadata\n"),
            (3, b"wrong"),
            (3, b"reject"),
            (4, b""),
            (4, b"reject\n"),
            (4, b"wrong 1\n"),
            (4, b"wrong count"),
            (4, b"no metadata"),
            (4, b"no metadata of it\n"),
            (4, b" no metadata\n"),
            (4, ANSWER),
        ):
            with self.subTest(status=status, text=text):
                self.assertEqual(library.code(status, text), NONE)

    def test_fronts_of_one_another(self) -> None:
        """Lines with a common prefix are distinguished by their status or by what follows."""
        library = Library()
        for status, text, code in (
            (3, b"wrong 12\n", 304),
            (4, b"wrong count\n", 404),
            (4, b"wrong count 3 of 4\n", 416),
            (4, b"no member of 2\n", 412),
            (4, b"no metadata\n", 401),
            (4, b"bad opening 1\n", 406),
            (8, b"bad event 1\n", 805),
            (8, b"bad schedule\n", 803),
            (4, b"too many members\n", 409),
            (8, b"too many events\n", 804),
        ):
            with self.subTest(text=text):
                self.assertEqual(library.code(status, text), code)


if __name__ == "__main__":
    unittest.main()

"""Tests of the codes of refusals, by which code distinguishes refusals: python3 -m unittest.

The meaning of a text comes from walrus(1), the numbers from clients/c/walrus.h. Each row is also compared with the
library that WALRUS_LIBRARY names, or that of the checkout; without a library these tests are skipped."""

import asyncio
import os
import pathlib
import pickle
import re
import sys
import types
import unittest
from collections.abc import Sequence
from typing import Optional
from unittest import mock

TOP = pathlib.Path(__file__).resolve().parents[2]
sys.path[:0] = [str(TOP / "tests"), str(TOP / "clients" / "python")]

import example_tools  # noqa: E402
import walrus  # noqa: E402
from walrus import client  # noqa: E402
from walrus.client import program  # noqa: E402
from walrus.engines import backends, codes  # noqa: E402
from walrus.engines.backends import BUILT  # noqa: E402
from walrus.engines.buffers import Buffer  # noqa: E402
from walrus.engines.codes import Code  # noqa: E402
from walrus.wire.connection import Data  # noqa: E402
from worked import FALSE, HONEST, PRIMARY, SIX_WORDS  # noqa: E402

LIBRARIES = [pathlib.Path(os.environ["WALRUS_LIBRARY"])] if os.environ.get("WALRUS_LIBRARY") else []
LIBRARIES = [place for place in LIBRARIES or [TOP / built for built in BUILT] if place.exists()]
HEADER = TOP / "clients" / "c" / "walrus.h"
PROOF = b"\x57\x00\x02\x00\x00\x00\x01\x13"  # the beginning of an envelope, from `recover`
ROWS: list[tuple[Code, int, bytes]] = [  # texts of walrus(1), with their statuses and codes
    (Code.USAGE, 2, b"usage: walrus id F | encode F\n"),
    (Code.REJECT, 3, b"reject\n"),
    (Code.INCONSISTENT, 3, b"inconsistent\n"),
    (Code.BAD_INDEX, 3, b"bad index\n"),
    (Code.WRONG_OPENING, 3, b"wrong 0\n"),
    (Code.WRONG_OPENING, 3, b"wrong 999\n"),
    (Code.PROOF, 3, PROOF),
    (Code.NO_METADATA, 4, b"no metadata\n"),
    (Code.TOO_FEW, 4, b"short 1 of 2\n"),
    (Code.NO_PROOF, 4, b"no proof\n"),
    (Code.PROOF_COUNT, 4, b"wrong count\n"),
    (Code.PROOF_REPEATS, 4, b"repeated\n"),
    (Code.BAD_OPENING, 4, b"bad opening 2\n"),
    (Code.CONSISTENT, 4, b"consistent\n"),
    (Code.DISK_FULL, 4, b"disk full needed 90 free 7\n"),
    (Code.TOO_MANY_MEMBERS, 4, b"too many members\n"),
    (Code.BUNDLE_TOO_LONG, 4, b"bundle too long\n"),
    (Code.MISSING_COLUMN, 4, b"missing column 2\n"),
    (Code.NO_MEMBER, 4, b"no member of 2\n"),
    (Code.NO_SHARD, 4, b"no shard\n"),
    (Code.NO_PRIMARY, 4, b"no primary\n"),
    (Code.NO_SECONDARY, 4, b"no secondary\n"),
    (Code.DRAW_COUNT, 4, b"wrong count 4 of 5\n"),
    (Code.NO_MEMORY, 5, b""),
    (Code.NO_MEMORY, 5, b"miss\nrange 00\n"),
    (Code.INPUT_FAILED, 6, b""),
    (Code.NO_ROOM, 7, b"0011"),
    (Code.MALFORMED, 8, b"malformed at 17\n"),
    (Code.NOT_JSON, 8, b"not json\n"),
    (Code.BAD_SCHEDULE, 8, b"bad schedule\n"),
    (Code.TOO_MANY_EVENTS, 8, b"too many events\n"),
    (Code.BAD_EVENT, 8, b"bad event 3\n"),
    (Code.BROKEN_REQUEST, 8, b""),
    (Code.BROKEN_REQUEST, 8, PROOF),
    (Code.TOO_LONG, 9, b"too long\n"),
    (Code.TOO_LONG, 9, b""),
    (Code.TOO_LONG, 9, PROOF),
    (Code.COLLISION, 10, b"collision 00 01\n"),
    (Code.COLLISION, 10, b"hit\ncollision 00 01\n"),
    (Code.COLLISION, 10, PROOF),
    (Code.NO_WORDS, 11, b""),
]
NONE: list[tuple[int, bytes]] = [(0, b""), (0, b"no metadata\n"), (0, PROOF), (3, b"no metadata\n"), (4, b"reject\n")]
NONE += [(3, b""), (4, b""), (4, b"No metadata\n"), (4, b" no metadata\n"), (2, b""), (12, b""), (127, b""), (255, b"")]


def turned(text: Data) -> bytes:
    """Return a text with each letter replaced by another one; applied twice, it gives the original text."""
    small, large = b"abcdefghijklmnopqrstuvwxyz", b"ABCDEFGHIJKLMNOPQRSTUVWXYZ"
    return bytes(text).translate(bytes.maketrans(small + large, small[::-1] + large[::-1]))


class ForeignEngine:
    """The program with refusals that are not in English: they can only be distinguished by their codes."""

    def __init__(self, engine: backends.Engine) -> None:
        self.engine = engine

    def run(self, words: Sequence[str], data: Buffer = b"", room: Optional[int] = None) -> backends.Ran:
        status, text = self.engine.run(words, data, room)
        return backends.Ran(status, memoryview(turned(text)) if status and text[:1] != b"\x57" else text)

    def code(self, status: int, text: Buffer) -> Code:
        return self.engine.code(status, turned(memoryview(text)) if bytes(memoryview(text)[:1]) != b"\x57" else text)


class Foreign(client.Walrus):
    """The same for the small client."""

    async def run(self, *words: object, data: "Data | Sequence[Data]" = b"") -> tuple[int, bytes]:
        status, text = await super().run(*words, data=data)
        return status, turned(text) if status and text[:1] != b"\x57" else text

    def code(self, status: int, text: Data) -> Code:
        return super().code(status, turned(text) if text[:1] != b"\x57" else text)


class Table(unittest.TestCase):
    def test_each_text_has_its_code(self) -> None:
        for code, status, text in ROWS:
            self.assertIs(Code.of(status, text), code, text)
            self.assertIs(Code.of(status, memoryview(text)), code, text)
            self.assertEqual(code // 100, status)
        self.assertEqual({code for code, _, _ in ROWS} | {Code.NONE}, {*Code})
        for status, text in NONE:
            self.assertIs(Code.of(status, text), Code.NONE, (status, text))

    def test_the_numbers_are_those_of_the_header(self) -> None:
        found = re.findall(r"^    WALRUS_CODE_([A-Z_]+) = (\d+)", HEADER.read_text(), re.MULTILINE)
        if not found:
            self.skipTest("the header has no codes")
        self.assertEqual({name: int(number) for name, number in found}, {it.name: it.value for it in Code})

    def test_a_number_of_a_later_library_is_no_refusal_that_is_known(self) -> None:
        self.assertIs(Code(499), Code.NONE)

    def test_numbers_of_a_line(self) -> None:
        self.assertEqual(codes.numbers_of(b"short 1 of 20\n"), [1, 20])
        self.assertEqual(codes.numbers_of(b"no metadata\n"), [])


class InLibrary(unittest.TestCase):
    @unittest.skipUnless(LIBRARIES, "the library is not built")
    def test_the_library_gives_the_same(self) -> None:
        library = walrus.Library(LIBRARIES[0])
        if not library.told:
            self.skipTest(f"{library.path} is older than its codes")
        for _, status, text in ROWS:
            self.assertIs(library.code(status, text), Code.of(status, text), (status, text))
        for status, text in NONE:
            self.assertIs(library.code(status, text), Code.NONE, (status, text))
        for code, front in codes.TABLE.items():  # each prefix alone, and with another last byte
            for text in (front, front[:-1], front + b"7\n", front[:-1] + b"?"):
                self.assertIs(library.code(code // 100, text), Code.of(code // 100, text), (code, text))

    def test_the_library_is_asked_and_an_older_one_has_the_table(self) -> None:
        asked = mock.Mock(return_value=int(Code.NO_PROOF))
        names = {"walrus_run": mock.Mock(), "walrus_room": mock.Mock()}
        for found, code in ((names, Code.TOO_FEW), ({**names, "walrus_code": asked}, Code.NO_PROOF)):
            with mock.patch("ctypes.CDLL", return_value=types.SimpleNamespace(**found)):
                self.assertIs(walrus.Library("any").code(4, b"short 1 of 2\n"), code)
        [(status, address, size)] = [it.args for it in asked.call_args_list]
        self.assertEqual((status, address != 0, size), (4, True, len(b"short 1 of 2\n")))


class Kinds(unittest.TestCase):
    """The class of an exception is determined by the code, whatever the words are."""

    def test_of_the_small_client(self) -> None:
        kinds: dict[type[client.Refused], set[Code]] = {
            client.BadlyEncoded: {Code.REJECT, Code.INCONSISTENT, Code.PROOF},
            client.TooFew: {Code.NO_METADATA, Code.TOO_FEW, Code.MISSING_COLUMN},
            client.NoBundle: {Code.BAD_INDEX},
            client.NoMember: {Code.NO_MEMBER},
        }
        for code in Code:
            wanted = next((kind for kind, found in kinds.items() if code in found), client.Refused)
            made = program.refusal(4, b"7 ??? 9\n" if code is Code.TOO_FEW else b"??? 9\n", {}, code)
            self.assertEqual((type(made), made.code), (wanted, code))
            if isinstance(made, client.TooFew):
                self.assertEqual((made.held, made.needed), (7, 9) if code is Code.TOO_FEW else (0, 0))
            if isinstance(made, client.NoMember):
                self.assertEqual(made.count, 9)

    def test_of_the_calls(self) -> None:
        fault = pickle.loads(pickle.dumps(walrus.Lacking("read", 4, b"short 1 of 2\n", Code.TOO_FEW)))
        self.assertEqual((type(fault), fault.code, fault.words), (walrus.Lacking, Code.TOO_FEW, "short 1 of 2"))
        for code, proof in ((Code.PROOF, PROOF[7:]), (Code.REJECT, b"")):
            self.assertEqual(walrus.BadlyEncoded("recover", 3, PROOF, code).proof, proof)


class Languages(unittest.IsolatedAsyncioTestCase):
    """A program that refuses in other words changes nothing."""

    async def asyncSetUp(self) -> None:
        asyncio.get_running_loop().set_debug(False)
        self.program = example_tools.find_walrus()

    async def test_what_the_small_client_is_told(self) -> None:
        foreign = Foreign(self.program.path)
        with self.assertRaises(client.TooFew) as caught:
            await foreign.output("read", HONEST.id.hex(), data=client.envelope(HONEST.metadata))
        self.assertEqual((caught.exception.code, caught.exception.text), (Code.TOO_FEW, b"hslig 0 lu 2\n"))
        self.assertEqual((caught.exception.held, caught.exception.needed), (0, 2))

    async def test_what_the_calls_are_told(self) -> None:
        walrus.use(ForeignEngine(walrus.Program(self.program.path)))
        self.addCleanup(walrus.use, None)
        for proof, code in (
            (HONEST.proof(PRIMARY, 3, 0, 1, 2), Code.CONSISTENT),
            (HONEST.proof(PRIMARY, 3, 0, 1), Code.PROOF_COUNT),
            (HONEST.proof(PRIMARY, 3, 0, 1, 1), Code.PROOF_REPEATS),
            (HONEST.proof(PRIMARY, 3, 0, 1, 2)[:-1] + b"!", Code.BAD_OPENING),
        ):
            found = walrus.check(HONEST.id, [HONEST.metadata, proof])
            self.assertEqual((found.holds, found.code), (False, code))
        false = FALSE.metadata, FALSE.proof(PRIMARY, 3, 0, 1, 2)
        self.assertEqual(walrus.check(FALSE.id, false), walrus.Verdict(True, "rmxlmhrhgvmg", Code.INCONSISTENT))
        with self.assertRaises(walrus.BadlyEncoded) as bad:
            walrus.recover(
                FALSE.id, "primary", 3, [FALSE.metadata, *(FALSE.opening(PRIMARY, 3, it) for it in range(3))]
            )
        self.assertEqual((bad.exception.code, bad.exception.proof, bad.exception.words), (Code.PROOF, false[1], ""))
        given: list[tuple[list[bytes], Code]] = [([], Code.NO_METADATA), ([HONEST.metadata], Code.NO_PROOF)]
        for payloads, code in given:
            with self.assertRaises(walrus.Lacking) as lacking:
                walrus.check(HONEST.id, payloads)
            self.assertEqual(lacking.exception.code, code)
        with self.assertRaises(walrus.WrongWords) as wrong:
            walrus.identifier(SIX_WORDS, 0)
        self.assertEqual((wrong.exception.code, wrong.exception.words), (Code.USAGE, ""))


if __name__ == "__main__":
    unittest.main()

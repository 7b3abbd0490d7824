"""How uploads are split into pieces, and how forms are read."""
import asyncio
import random
import unittest

from support.http_case import PIECE
from walrus.network.files import file_list
from walrus.network.gateway.bodies import forms
from walrus.network.gateway.bodies.source import Source
from walrus.network.gateway.http import errors
from walrus.network.gateway.resources import spool


async def parts(data: bytes, sizes: list[int]):  # type: ignore[no-untyped-def]
    place = 0
    for size in sizes:
        yield data[place : place + size]  # noqa: E203
        place += size
    yield data[place:]


class Lists(unittest.IsolatedAsyncioTestCase):
    async def test_a_file_splits_into_pieces(self) -> None:
        data = random.Random(4).randbytes(2_005)
        for length, expected in (
            (0, [0]),
            (1, [1]),
            (1_000, [1_000]),
            (1_001, [1_000, 1]),
            (2_000, [1_000, 1_000]),
            (2_005, [1_000, 1_000, 5]),
        ):
            found = [it async for it in spool.split(parts(data[:length], [3, 1_000, 0, 70]), 1_000)]
            self.assertEqual([len(it) for it in found], expected)
            self.assertEqual(b"".join(found), data[:length])

    async def test_only_a_whole_list_is_taken_for_one(self) -> None:
        names, own = bytes(range(96)), bytes(32)
        file = file_list.File(2 * PIECE + 7, names)
        listed = file.listed()
        self.assertEqual(listed, b"\x00walrus list \x00\x00\x01" + (2 * PIECE + 7).to_bytes(8, "big") + names)
        self.assertEqual(file_list.File.of(own, listed), file)
        for other in (listed[:-1], listed + b"1", listed[:-32], listed + own, b"1" + listed[1:], listed[:24], b""):
            self.assertEqual(file_list.File.of(own, other), file_list.File(len(other), own))
        for length in (0, PIECE, 2 * PIECE, 3 * PIECE + 1, 2**64 - 1):  # of three pieces none of these is the length
            other = listed[:16] + length.to_bytes(8, "big") + names
            self.assertEqual(file_list.File.of(own, other), file_list.File(len(other), own))

    async def test_a_span_touches_only_its_pieces(self) -> None:
        file = file_list.File(2 * PIECE + 7, bytes([1] * 32 + [2] * 32 + [3] * 32))
        for span, expected in (
            ((0, 1), [(1, PIECE, 0, 1)]),
            ((PIECE - 1, PIECE + 1), [(1, PIECE, PIECE - 1, PIECE), (2, PIECE, 0, 1)]),
            ((PIECE, 2 * PIECE), [(2, PIECE, 0, PIECE)]),
            ((5, 2 * PIECE + 7), [(1, PIECE, 5, PIECE), (2, PIECE, 0, PIECE), (3, 7, 0, 7)]),
            ((2 * PIECE + 3, 2 * PIECE + 4), [(3, 7, 3, 4)]),
            ((9, 9), []),
        ):
            self.assertEqual([(it[0][0], *it[1:]) for it in file.pieces(*span)], expected)

    async def test_a_member_is_no_list(self) -> None:
        name, listed = bytes(range(34)), file_list.File(2 * PIECE, bytes(64)).listed()
        file = file_list.File.of(name, listed)
        self.assertEqual(file, file_list.File(len(listed), name))
        self.assertEqual(list(file.pieces(3, 5)), [(name, len(listed), 3, 5)])


class Forms(unittest.IsolatedAsyncioTestCase):
    KIND = 'multipart/form-data; boundary="--x y"'
    PARTS = [
        b'Content-Disposition: form-data; name="a"; filename="one.txt"\r\nContent-Type: text/plain\r\n\r\n1\r\n--\r\n',
        b'content-disposition: form-data; name="\xc3\xbc"\r\n\r\n',
        b"Content-Disposition: form-data; filename*=utf-8''%e2%82%ac\r\n\r\n\r\n----x z\r\n\r\n",
    ]

    async def asyncSetUp(self) -> None:
        asyncio.get_running_loop().set_debug(False)

    def form(self, count: int) -> bytes:
        return b"".join(b"----x y\r\n%s\r\n" % it for it in self.PARTS[:count]) + b"----x y--\r\n"

    async def read(self, kind: str, form: bytes, step: int = 65_536) -> list[tuple[str, str, bytes]]:
        """Returns the names, fields and bytes of the files in a form that arrives in parts of this size."""
        found, source = list[tuple[str, str, bytes]](), Source(parts(form, [step] * (len(form) // step)))
        async for sent in forms.files_of(kind, source, "send a form"):
            found.append((sent.name, sent.field, b"".join([part async for part in sent.parts])))
        self.assertTrue(source.at_eof())  # all of it was read, so that its SHA-256 is that of all
        return found

    async def refused(self, kind: str, form: bytes, status: int) -> None:
        with self.assertRaises(errors.Problem) as raised:
            await self.read(kind, form)
        self.assertEqual(raised.exception.status, status, form)

    async def test_files_come_as_they_were_sent(self) -> None:
        expected = [("one.txt", "a", b"1\r\n--\r\n"), ("", "\u00fc", b""), ("\u20ac", "", b"\r\n----x z\r\n\r\n")]
        for step in (1, 2, 3, 7, 64, 65_536):
            for count in (0, 1, 2, 3):
                self.assertEqual(await self.read(self.KIND, self.form(count), step), expected[:count], step)
            around = b"before\r\n" + self.form(1) + b"behind"
            self.assertEqual(await self.read(self.KIND, around, step), expected[:1])
        self.assertEqual(await self.read(self.KIND, b"----x yz" + self.form(2)), expected[1:2])  # no boundary before
        for size in (forms.PART - 9, forms.PART, forms.PART + 1, 3 * forms.PART - 12):
            data = bytes(size) + b"\r\n----x " + bytes(9)
            form = self.form(1).replace(b"1\r\n--\r\n", data)
            for step in (5_000, 65_536):
                self.assertEqual((await self.read(self.KIND, form, step))[0][2], data)
        head = self.form(1).replace(b"Content-Type: text/plain", b"Content-Length: 2\r\nContent-Encoding: gzip")
        self.assertEqual(await self.read(self.KIND, head), expected[:1])  # a length in a part's head is ignored
        two = self.form(2).replace(b"Content-Type", b"Content-Disposition: form-data; name=b\r\nContent-Type")
        self.assertEqual(len(await self.read(self.KIND, two)), 2)

    async def test_what_is_no_form_is_refused(self) -> None:
        for kind in (
            "",
            "text/plain",
            "multipart/mixed; boundary=x",
            "multipart/form-data",
            "multipart/form-data; boundary=",
        ):
            await self.refused(kind, self.form(1), 415)
        await self.refused(f"multipart/form-data; boundary={'x' * 71}", self.form(1), 415)
        whole = self.form(2)
        for form in (b"", b"\r\n", whole[:-5], whole[:40], b"----x y\r\nno head"):
            await self.refused(self.KIND, form, 400)
        await self.refused(self.KIND, whole.replace(b"Type", b"Type" * 2_000), 400)
        await self.refused(self.KIND, whole.replace(b"\r\nContent-Type", b"\r\nA: b" * 800 + b"\r\nB"), 400)
        await self.refused(self.KIND, b"\n" * 100_000 + whole, 400)
        await self.refused(self.KIND, whole.replace(b"text/plain", b"multipart/mixed; boundary=z"), 400)
        await self.refused(self.KIND, whole.replace(b"one.txt", b"\xff"), 400)
        await self.refused(
            self.KIND, whole.replace(b"one.txt", b";" * 40), 400
        )  # each is looked for from the beginning
        await self.refused(self.KIND, whole.replace(b"text/plain", b"text/plain" + b";a" * 40), 400)
        name = (await self.read(self.KIND, whole.replace(b"one.txt", b";" * 20)))[0][0]
        self.assertEqual(name, ";" * 20)

    async def test_no_form_causes_another_error(self) -> None:
        drawn = random.Random(6)
        for _ in range(3_000):
            form, kind = bytearray(self.form(2)), bytearray(self.KIND.encode())
            for text, changes in ((form, drawn.randrange(4)), (kind, drawn.randrange(2))):
                for _ in range(changes):
                    place = drawn.randrange(len(text))
                    end = place + drawn.randrange(3)
                    text[place:end] = drawn.choice([b"", b"\r\n", b"\0", b"*=", b"''", b'"', b"\xff", b"_charset_"])
            try:
                step = drawn.choice([99, 65_536])
                files = await self.read(kind.decode("utf-8", "surrogateescape"), bytes(form), step)
                [(name + field).encode() for name, field, _ in files]
            except errors.Problem as problem:
                self.assertIn(problem.status, (400, 415))

"""What a disk gives back is checked: flipped bits, lost ends and errors never reach a client, nor end the gateway."""
import asyncio
import base64
import hashlib
import os
import tempfile
import unittest
import zlib
from typing import IO, Any, AsyncIterator
from unittest import mock

from support.folder_case import manifest_of
from support.harm_case import HarmCase
from support.upload_case import UploadCase
from walrus.network.files import sealed
from walrus.network.files.manifest import Manifest, Place
from walrus.network.files.sealed import CHUNK, FRONT, Damaged, Sealed, Span, put_away
from walrus.network.gateway.read.sending import SLICE
from walrus.network.gateway.resources import spool
from cryptography.hazmat.primitives.poly1305 import Poly1305

CRC = 0x1DB710641  # the polynomial of CRC-32: it does not notice if this is added to data anywhere


def flip(file: int, place: int, mask: bytes = b"\1") -> None:
    """Changes bits of a file."""
    found = os.pread(file, len(mask), place)
    os.pwrite(file, bytes(a ^ b for a, b in zip(found, mask)), place)


class Files(unittest.TestCase):
    def test_spans_are_read_as_they_were_written(self) -> None:
        data, made = os.urandom(3 * CHUNK + 99), Sealed()
        for start, end in ((0, 0), (0, 1), (1, 100), (100, CHUNK + 5), (CHUNK + 5, len(data))):
            made.add(data[start:end])
        self.assertEqual(len(made), len(data))
        for start, end in ((0, 0), (0, 9), (0, len(data)), (99, 101), (CHUNK, CHUNK), (CHUNK - 1, 2 * CHUNK + 1)):
            self.assertEqual(made.read(start, end), data[start:end])
            self.assertEqual(made.peek(start, end), data[start:end])
        rest = Span(made, 24)
        self.assertEqual((rest[:], rest[32:64], len(rest)), (data[24:], data[56:88], len(data) - 24))

    def test_what_is_read_beside_a_short_span_takes_no_memory(self) -> None:
        """A slow client holds the part that it was sent last."""
        data, made = os.urandom(2 * CHUNK), Sealed()
        made.add(data)
        for start, end in ((0, 9), (9, CHUNK // 4), (CHUNK - 1, CHUNK + 1)):
            for read in (made.read, made.at_once):
                part = read(start, end)
                if part is not None:  # None if this system does not tell what it has in memory
                    self.assertEqual((bytes(part), len(bytes(part.obj))), (data[start:end], end - start))

    def test_what_is_cut_is_written_anew(self) -> None:
        for end in (0, 1, FRONT, CHUNK - 1, CHUNK, CHUNK + 1, 2 * CHUNK):
            data, made = os.urandom(2 * CHUNK), Sealed()
            made.add(data)
            made.peek(CHUNK, CHUNK + 9)
            made.cut(end)
            self.assertEqual(len(made), end)
            made.add(b"other bytes")
            self.assertEqual(bytes(made.read(0, end + 11)), data[:end] + b"other bytes")
            self.assertEqual(made.peek(end, end + 11), b"other bytes")

    def test_no_bit_is_flipped_unseen(self) -> None:
        data = os.urandom(2 * CHUNK + 9)
        for place in (0, 7, CHUNK - 1, CHUNK, 2 * CHUNK + 8):
            for mask in (b"\1", b"\x80"):
                made = put_away(data)
                flip(made.file, place, mask)
                with self.assertRaisesRegex(Damaged, "gives back other bytes than were written"):
                    made.read(max(0, place - 3), min(place + 3, len(data)))
                self.assertTrue(made.is_damaged)

    def test_nor_what_a_crc_would_let_pass(self) -> None:
        data, made = bytes(CHUNK), put_away(bytes(CHUNK))
        mask = int(f"{CRC:033b}"[::-1], 2).to_bytes(5, "big")
        mask = bytes(int(f"{it:08b}"[::-1], 2) for it in (int.from_bytes(mask, "big") << 7).to_bytes(5, "big"))
        flip(made.file, 1_000, mask)
        found = os.pread(made.file, CHUNK, 0)
        self.assertNotEqual(found, data)
        self.assertEqual(zlib.crc32(found), zlib.crc32(data))
        with self.assertRaises(Damaged):
            made.read(0, 9)

    def test_chunks_in_another_order_are_not_what_was_written(self) -> None:
        made = Sealed()
        for part in (b"a", b"b"):
            made.add(part * CHUNK)
        os.pwrite(made.file, b"b" * CHUNK + b"a" * CHUNK, 0)
        with self.assertRaises(Damaged):
            made.read(0, 9)

    def test_a_file_that_has_lost_its_end_or_cannot_be_read_is_an_error(self) -> None:
        """A map of it would have ended the process by SIGBUS."""
        made = put_away(bytes(2 * CHUNK))
        os.ftruncate(made.file, CHUNK)
        with self.assertRaises(Damaged):
            made.read(CHUNK, CHUNK + 1)
        with mock.patch.object(os, "pread", side_effect=OSError(5, "Input/output error")):
            with self.assertRaisesRegex(Damaged, r"cannot be read \(Input/output error\): check the disk"):
                made.read(0, 1)

    def test_it_is_closed_with_its_last_reference(self) -> None:
        made = Sealed()
        file = made.file
        os.fstat(file)
        del made
        with self.assertRaises(OSError):
            os.fstat(file)

    def test_a_manifest_in_a_file_is_looked_up_as_one_in_memory(self) -> None:
        places = [Place(f"{it // 9:04}/{it:06}", "a/b", 0, b"") for it in range(60_000)]
        data, made = manifest_of(*places), Sealed(4_096)
        made.add(data)
        self.assertGreater(len(data), 1_048_576)  # it is checked in several windows
        one, other = Manifest(data), Manifest(made)
        self.assertEqual(one.starts, other.starts)
        self.assertEqual((other.find(places[777].path), other.has("0001/")), (places[777], True))
        self.assertEqual([*other.within("0001/")], [*one.within("0001/")])
        flip(made.file, one.starts[30_000] + 3)
        with self.assertRaises(Damaged):
            other.find(places[30_000].path)
        self.assertTrue(other.is_damaged())


def checks(case: unittest.TestCase) -> mock.Mock:
    """Counts the chunks that are checked from here on."""
    made = mock.Mock(side_effect=Poly1305.generate_tag)
    case.enterContext(mock.patch.object(sealed, "Poly1305", mock.Mock(generate_tag=made)))
    return made


class Spools(unittest.IsolatedAsyncioTestCase):
    async def test_a_file_that_is_read_in_parts_is_checked_once(self) -> None:
        data = os.urandom(3 * CHUNK + 9)
        made, checked = put_away(data), checks(self)
        read = [bytes(it) async for it in spool.parts_of(made, CHUNK + 5)]
        self.assertEqual(b"".join(read), data[CHUNK + 5 :])  # noqa: E203
        self.assertEqual(checked.call_count, 3)

    async def test_a_piece_that_a_disk_has_changed_while_it_arrived_is_not_stored(self) -> None:
        async def parts() -> AsyncIterator[bytes]:
            for _ in range(4):
                yield bytes(100_000)

        files = kept_files(self)
        [piece] = [it async for it in spool.split(parts(), 1_000_000)]
        self.assertEqual(bytes(await spool.in_memory(piece)), bytes(400_000))
        flip(files[0].fileno(), 50_000)
        with self.assertRaises(Damaged):
            await spool.in_memory(piece)


def kept_files(case: unittest.TestCase) -> list[IO[bytes]]:
    """Returns a list of all files without names that are made from here on."""
    made, usual = list[IO[bytes]](), tempfile.TemporaryFile

    def opened(*words: Any, **options: Any) -> IO[bytes]:
        file = usual(*words, **options)
        made.append(open(os.dup(file.fileno()), "r+b", buffering=0))
        case.addCleanup(made[-1].close)
        return file

    case.enterContext(mock.patch.object(tempfile, "TemporaryFile", opened))
    return made


class Served(HarmCase):
    """A gateway that has blobs longer than a slice in files, as all gateways do. Reads of the network are counted."""

    async def asyncSetUp(self) -> None:
        await super().asyncSetUp()
        self.fetched, self.is_bad = 0, False
        self.disk = kept_files(self)
        self.data = os.urandom(9 * SLICE + 5)
        self.name = self.keep(self.data)
        await self.start()

    async def fetch(self, name: bytes, size: int) -> Any:
        data, self.fetched = self.files[name.hex()], self.fetched + 1
        if len(data) <= SLICE:
            return data
        found = await self.gateway.reader.put_away(data)
        if self.is_bad:
            self.flip(5)
        return found

    def flip(self, place: int, data: bytes = b"\1") -> None:
        for file in self.disk:
            if os.fstat(file.fileno()).st_size > place:
                flip(file.fileno(), place, data)

    async def read(self, **headers: str) -> tuple[int, dict[str, str], Any]:
        return await self.ask("GET", f"/v1/blobs/{self.name}", headers=headers)

    async def test_flipped_bits_of_a_cached_blob_are_read_anew(self) -> None:
        self.assertEqual((await self.read())[2], self.data)
        for place in (0, 5, SLICE, 5 * SLICE + 9, len(self.data) - 1):
            self.flip(place)
            status, headers, body = await self.read()
            self.assertEqual((status, body, headers["etag"]), (200, self.data, f'"{self.name}"'))
        self.assertEqual(self.fetched, 6)

    async def test_a_short_range_is_read_and_checked_once(self) -> None:
        await self.read()
        checked = checks(self)
        for start, end, chunks in ((0, 9, 1), (3 * SLICE + 5, 3 * SLICE + 900, 1), (SLICE - 9, SLICE + 9, 2)):
            status, _, body = await self.read(Range=f"bytes={start}-{end - 1}")
            self.assertEqual((status, body, checked.call_count), (206, self.data[start:end], chunks))
            checked.reset_mock()
        status, _, body = await self.read(Range=f"bytes=0-8,{SLICE}-{SLICE + 8}")
        self.assertEqual((status, checked.call_count), (206, 2))
        for part in (self.data[:9], self.data[SLICE : SLICE + 9]):  # noqa: E203
            self.assertIn(part, body)

    async def test_a_range_and_a_digest_are_of_what_was_stored(self) -> None:
        await self.read()
        self.flip(3 * SLICE)
        status, _, body = await self.read(Range=f"bytes={3 * SLICE - 2}-{3 * SLICE + 2}")
        self.assertEqual((status, body), (206, self.data[3 * SLICE - 2 : 3 * SLICE + 3]))  # noqa: E203
        self.flip(4 * SLICE)
        _, headers, body = await self.read(**{"Want-Repr-Digest": "sha-256=1"})
        told = base64.b64encode(hashlib.sha256(self.data).digest()).decode()
        self.assertEqual((headers["repr-digest"], body), (f"sha-256=:{told}:", self.data))

    async def test_a_file_that_has_lost_its_end_is_read_anew(self) -> None:
        await self.read()
        for file in self.disk:
            os.ftruncate(file.fileno(), SLICE)
        self.assertEqual((await self.read())[2], self.data)

    async def test_a_disk_that_changes_all_is_an_error(self) -> None:
        self.is_bad = True
        status, _, told = await self.read()
        self.assertEqual(status, 503)
        self.assertIn("gives back other bytes than were written: check the disk of that folder", told["error"]["text"])
        self.is_bad = False
        self.assertEqual((await self.read())[2], self.data)

    async def test_readers_side_by_side_get_what_was_stored_while_a_disk_changes_it(self) -> None:
        async def flipping() -> None:
            for place in range(0, len(self.data), SLICE):
                self.flip(place)
                await asyncio.sleep(0.005)

        *found, _ = await asyncio.gather(*(self.read() for _ in range(6)), flipping(), return_exceptions=True)
        bodies = [it[2] for it in found if isinstance(it, tuple) and it[0] == 200]  # others broke off, or were refused
        self.assertEqual({*bodies} - {self.data}, set())
        self.assertEqual((await self.read())[2], self.data)

    async def test_a_manifest_is_read_anew(self) -> None:
        places = [Place(f"{it:05}", "a/b", 9, bytes.fromhex(self.name), it) for it in range(4_000)]
        folder = self.keep(made := manifest_of(*places))
        self.assertEqual((await self.ask("GET", f"/v1/folders/{folder}/01000"))[2], self.data[1_000:1_009])
        at = made.index(b"@1000\n") + 1
        self.flip(at, bytes([ord("1") ^ ord("2")]))  # it would give what begins at byte 2000
        status, _, body = await self.ask("GET", f"/v1/folders/{folder}/01000")
        self.assertEqual((status, body), (200, self.data[1_000:1_009]))


class Resumed(UploadCase):
    async def test_a_piece_of_an_upload_that_the_disk_has_changed_is_sent_again(self) -> None:
        await self.start()
        data = os.urandom(700)
        path = (await self.begin(data))[1]["location"]
        [piece] = self.folder.glob("tokens.uploads/*/*.piece")
        with open(piece, "r+b") as file:
            flip(file.fileno(), 99)
        status, headers, told = await self.go_on(path, 700, b"", end=True)
        self.assertEqual((status, headers["upload-offset"]), (503, "0"), told)
        self.assertIn("is not what was written, and is dropped", told["error"]["text"])
        self.assertEqual(self.blobs, [])
        status, _, told = await self.go_on(path, 0, data, end=True)
        self.assertEqual((status, told["blobId"]), (201, self.name_of(data)))

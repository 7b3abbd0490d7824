"""Tests of images in the client: python3 -m unittest, in this folder, with the program WALRUS or ./walrus."""
import asyncio
import pathlib
import subprocess
import sys
import unittest

import example_tools
from walrus import client, images as walrus_images, loop
from walrus.images import DROP_ALL, DROP_PART, HEAD, PUT

HERE = pathlib.Path(__file__).resolve().parent
X, Y = b"\xaa" * 32, b"\xab" * 32
REGISTER = 0x40  # the kind of a registration
SLOW = 30.0  # seconds in which what must end does, on a busy machine
loop.wait_without_threads()


def record(kind: int, identifier: bytes, part: int, data: bytes = b"", size: int | None = None) -> bytes:
    return HEAD.pack(1, kind, identifier, part, len(data) if size is None else size) + data


class Reading(unittest.TestCase):
    def test_what_an_image_comes_to(self) -> None:
        put, other = record(PUT, X, 2, b"abc"), record(PUT, Y, 0, b"z")
        table = [
            (b"\0", {}),
            (put + b"\0", {X: {2: b"abc"}}),
            (put + b"\2" + other, {X: {2: b"abc"}}),
            (put + other + b"\0", {X: {2: b"abc"}, Y: {0: b"z"}}),
            (put + other + record(DROP_PART, X, 2) + b"\0", {Y: {0: b"z"}}),
            (put + record(DROP_PART, X, 1) + record(DROP_ALL, Y, 0) + b"\0", {X: {2: b"abc"}}),
            (put + record(DROP_ALL, X, 0) + put + b"\0", {X: {2: b"abc"}}),
        ]
        for image, wanted in table:
            self.assertEqual(walrus_images.read_image(image), wanted)

    def test_what_is_none(self) -> None:
        put = record(PUT, X, 2, b"abc")
        bad = [
            put,
            put[:-1],
            put[:20],
            b"",
            record(PUT, X, 2) + b"\0",
            record(PUT, X, 4, b"abc") + b"\0",
            record(4, X, 0) + b"\0",
            record(DROP_ALL, X, 1) + b"\0",
            record(DROP_PART, X, 1, b"a") + b"\0",
            record(PUT, X, 1, bytes(16_777_217)) + b"\0",
            record(PUT, X, 1, b"abc", 2**32 - 1) + b"\0",
        ]
        for image in bad:
            with self.assertRaisesRegex(ValueError, "^the image is malformed at 0$"):
                walrus_images.read_image(image)
        with self.assertRaisesRegex(ValueError, "^the image is malformed at 42$"):
            walrus_images.read_image(put + put + b"\0")


class Moving(unittest.IsolatedAsyncioTestCase):
    async def asyncSetUp(self) -> None:
        asyncio.get_running_loop().set_debug(False)  # which takes long
        self.walrus = example_tools.find_walrus()

    def requests(self, image: bytes, shard: int) -> bytes:
        words = [sys.executable, "-m", "walrus.images", "--until", "9", str(shard)]
        return subprocess.run(words, input=image, stdout=subprocess.PIPE, timeout=SLOW, check=True).stdout

    async def test_a_shard_is_moved(self) -> None:
        """What the shard held of three blobs, in both formats, is stored by one that begins anew."""
        kept = [await self.walrus.encode(data, 1, form) for data, form in ((b"one", 1), (b"two" * 99, 2), (b"", 1))]
        for shard in range(4):
            parts = [payload for it in kept for payload in (it.metadata, *it.slivers[shard])]
            image = await self.walrus.output("image", 9_999, data=b"".join(map(client.envelope, parts)))
            sent = [payload for _, payload in client.split(self.requests(image, shard))]
            self.assertEqual({payload for payload in sent if payload[0] != REGISTER}, set(parts))
            said = [client.write_frame(client.Answer(0, first, 0)) for _ in kept for first in (9, 0, 0, 0)]
            answers = await self.walrus.output("serve", 1, shard, data=self.requests(image, shard))
            self.assertEqual([payload for _, payload in client.split(answers)], said)

    async def test_what_has_no_metadata(self) -> None:
        """It is passed over, and a proof goes behind the slivers."""
        bad = await example_tools.encode_badly(self.walrus)
        proof = b"\x13" + bad.identifier + b"\1\0\2\0\0"
        parts = [proof, bad.slivers[0][1], bad.metadata, b"\x11" + X + b"\0\0\0\0\0\0\2ab"]
        image = await self.walrus.output("image", 9_999, data=b"".join(map(client.envelope, parts)))
        sent = [payload for _, payload in client.split(self.requests(image, 0))]
        self.assertEqual(sent[1:], [bad.metadata, bad.slivers[0][1], proof])

    async def test_words_that_are_wrong(self) -> None:
        for words, status in ((["1000"], 2), (["--until", "0", "1"], 2), (["x"], 2), (["1"], 1)):
            told = [sys.executable, "-m", "walrus.images", *words]
            ran = subprocess.run(told, input=b"", capture_output=True, timeout=SLOW)
            self.assertEqual((ran.returncode, ran.stdout), (status, b""), words)
        self.assertEqual(ran.stderr, b"walrus.images: the image is malformed at 0\n")


if __name__ == "__main__":
    unittest.main()

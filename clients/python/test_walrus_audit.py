"""Tests of audits of shards: python3 -m unittest here, with the program WALRUS or ./walrus."""
import asyncio
import contextlib
import io
import os
import sys
import unittest
from unittest import mock

import example_tools
from walrus import audit as walrus_audit, client, front as walrus_front, loop, serving
from walrus.audit import Audit, audit
from walrus.format import frames

SLOW = 30.0  # seconds until anything must have ended, on a busy machine
BEACON, NAME = bytes(range(32)), "e02bba4bcbf5e38690b9d44c477647094b390c35d101726424629de2f5ab48fa"
loop.wait_without_threads()


class Drawing(unittest.TestCase):
    def test_a_draw(self):
        """Draw 1 of shard 3: the digest of its 69 bytes begins with 8145fe0dc7, according to sha256sum."""
        name = bytes.fromhex(NAME)
        self.assertEqual(walrus_audit.draw(BEACON, name, 4, 3, 1), client.Symbol(name, client.PRIMARY, 3))
        self.assertEqual(walrus_audit.draw(BEACON, name, 1000, 3, 1), client.Symbol(name, client.PRIMARY, 527))
        drawn = [walrus_audit.draw(BEACON, name, 4, 0, number) for number in range(1000)]
        self.assertEqual(len(set(drawn)), 8)


class Words(unittest.TestCase):
    def test_wrong_ones(self):
        places = "a:1 b:2 c:3 d:4"
        for line in ["", NAME, f"{NAME} 00 1 {places}", f"{NAME} {'0' * 64} x {places}", f"{NAME} {'0' * 64} 1 a:1"]:
            with contextlib.redirect_stderr(io.StringIO()) as told, self.assertRaises(SystemExit) as caught:
                walrus_audit.read_words(line.split())
            self.assertEqual((caught.exception.code, told.getvalue()[:6]), (2, "usage:"), line)


class Audits(unittest.IsolatedAsyncioTestCase):
    """Four shards, some of which lack or falsify what is requested."""

    async def asyncSetUp(self):
        asyncio.get_running_loop().set_debug(False)  # debugging is slow
        self.walrus = example_tools.find_walrus()
        self.stack = await self.enterAsyncContext(contextlib.AsyncExitStack())

    async def shard(self, number: int, *parts: frames.Frame | bytes) -> client.Shard:
        """Return a shard that has accepted these parts."""
        shard = await self.stack.enter_async_context(serving.ProcessShard(self.walrus, 1, number, "--pages", "256"))
        self.assertEqual(await example_tools.codes(shard, *parts), [0] * len(parts))
        return shard

    async def test_shards_that_hold_all(self):
        """In both formats, and for a writer that lied: the symbols match the metadata."""
        blobs = [await self.walrus.encode(bytes(range(250)) * 40, 1, form) for form in (1, 2)]
        for encoded in [*blobs, await example_tools.encode_badly(self.walrus)]:
            entry = client.RegisterEntry(encoded.identifier, 9)
            for number in range(4):
                shard = await self.shard(number, entry, encoded.metadata, *encoded.slivers[number])
                for count in (1, 100, 1000):
                    found = await audit(shard, encoded.identifier, BEACON, count, self.walrus)
                    self.assertEqual(found, Audit(True, "accepted"))

    async def test_shards_that_do_not(self):
        encoded = await self.walrus.encode(example_tools.SIX_WORDS, 1)
        name, entry, metadata = encoded.identifier, client.RegisterEntry(encoded.identifier, 9), encoded.metadata
        primary, secondary = encoded.slivers[3]
        drawn = [walrus_audit.draw(BEACON, name, 4, 3, number) for number in range(20)]
        columns = sum(symbol.axis == client.SECONDARY for symbol in drawn)  # those that its primary sliver crosses
        rows = [
            ([], "no metadata"),
            ([entry], "no metadata"),
            ([entry, metadata], "wrong count 0 of 20"),
            ([entry, metadata, primary], f"wrong count {columns} of 20"),
            ([entry, metadata, secondary], f"wrong count {20 - columns} of 20"),
            ([entry, metadata, primary, secondary], "accepted"),
        ]
        for parts, said in rows:
            shard = await self.shard(3, *parts)
            self.assertEqual(await audit(shard, name, BEACON, 20, self.walrus), Audit(said == "accepted", said))

    async def test_what_is_refused(self):
        shard = await self.shard(0)
        for beacon, count in ((b"", 1), (bytes(31), 1), (bytes(32), 0), (bytes(32), 1001)):
            with self.assertRaisesRegex(ValueError, "a beacon has 32 bytes, and there are 1 to 1,000 draws"):
                await audit(shard, bytes(32), beacon, count, self.walrus)

    async def test_an_answer_that_is_too_long(self):
        encoded = await self.walrus.encode(example_tools.SIX_WORDS, 1)
        parts = client.RegisterEntry(encoded.identifier, 9), encoded.metadata, *encoded.slivers[2]
        shard = await self.shard(2, *parts)
        with mock.patch("walrus.audit.LARGEST_INPUT", 274 + 5 * 116):
            self.assertTrue((await audit(shard, encoded.identifier, BEACON, 5, self.walrus)).accepted)
            found = await audit(shard, encoded.identifier, BEACON, 6, self.walrus)
        self.assertEqual(found, Audit(False, "the answer to 6 draws has more than 854 bytes: draw fewer"))

    async def open_fronts(self, encoded: client.Encoded) -> list[walrus_front.Front]:
        """Return four shards behind ports that hold a blob."""
        fronts = [walrus_front.Front(self.walrus.path, 1, number, "--pages", "256") for number in range(4)]
        for front in fronts:
            self.stack.push_async_callback(front.close)
            await front.open()
        shards = [client.SocketShard(front.shard, 1, ("127.0.0.1", front.port)) for front in fronts]
        await client.publish(shards, encoded, until=9)
        await asyncio.gather(*[shard.close() for shard in shards])
        return fronts

    async def run_command(self, *words: str) -> tuple[int | None, list[str], str]:
        """Run the command; return its status, its lines, and its standard error."""
        pipe = asyncio.subprocess.PIPE
        told = [sys.executable, "-m", "walrus.audit", "--walrus", self.walrus.path, *words]
        process = await asyncio.create_subprocess_exec(*told, env=dict(os.environ), stdout=pipe, stderr=pipe)
        async with asyncio.timeout(SLOW):
            said, errors = await process.communicate()
        return process.returncode, said.decode().splitlines(), errors.decode()

    async def test_the_command(self):
        """All shards hold the blob; then one falsifies the last byte of each opening, and one is gone."""
        encoded = await self.walrus.encode(bytes(5000), 1)
        fronts = await self.open_fronts(encoded)
        words = [encoded.identifier.hex(), BEACON.hex(), "10", *[f"127.0.0.1:{front.port}" for front in fronts]]
        lines = [f"shard {number}: accepted" for number in range(4)]
        self.assertEqual(await self.run_command(*words), (0, lines, ""))
        fronts[1].alter = lambda said: said[:-1] + bytes([said[-1] ^ 1]) if said[7] == client.OPENING else said
        await fronts[2].close()
        lines[1:3] = ["shard 1: wrong 0", "shard 2: connection refused"]
        self.assertEqual(await self.run_command(*words), (1, lines, ""))
        status, said, told = await self.run_command(*words[:2], "0", *words[3:])
        self.assertEqual((status, said), (1, []))
        self.assertRegex(told, "^walrus.audit: a beacon has 32 bytes, and there are 1 to 1,000 draws\n$")


if __name__ == "__main__":
    unittest.main()

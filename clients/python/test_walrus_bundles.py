"""Tests of bundles in the client: python3 -m unittest, in this folder, with the program WALRUS or ./walrus."""
import asyncio
import contextlib
import pathlib
import random
import tempfile
import unittest

import example_tools
import test_walrus_codes
from walrus import bundles, client, files as walrus_files, front as walrus_front, loop

loop.wait_without_threads()
TWO = [b"\xaa\xbb", b"\xcc"]
BUNDLE = bytes.fromhex("0002000100000002 aabb000000000000 cc00000000000000 0002000000010000") + bytes(16)


class Layouts(unittest.TestCase):
    def test_which_files_go_together(self) -> None:
        """As many as fit, in order; a file that does not fit into a bundle with others is alone."""
        table = [
            ([], []),
            ([7], [range(1)]),
            ([1, 2, 3, 4, 5], [range(0, 2), range(2, 4), range(4, 5)]),
            ([5_592_404, 5_592_404, 1], [range(0, 2), range(2, 3)]),
            ([5_592_405, 0, 1], [range(0, 2), range(2, 3)]),
            ([5_592_405, 1, 0], [range(0, 1), range(1, 3)]),
            ([1, 16_777_216, 0, 2], [range(0, 1), range(1, 2), range(2, 4)]),
        ]
        for sizes, wanted in table:
            self.assertEqual(bundles.pack(sizes, 1), wanted, sizes)
        self.assertEqual(bundles.pack([1] * 1_000, 333), [range(0, 666), range(666, 1_000)])

    def test_what_is_split(self) -> None:
        self.assertEqual(bundles.split(BUNDLE, 1), TWO)
        self.assertEqual(bundles.split(BUNDLE[:-1], 1), TWO)  # it has the same columns
        self.assertEqual((bundles.split(bytes(12), 1), bundles.split(b"", 1)), ([], []))
        places = 1, 3, 7, 8, 24, 25, 29  # each is a byte of the index, except 8, a byte of a member
        for place in places:
            front, behind = BUNDLE[:place], BUNDLE[place:]
            changed = front + bytes([behind[0] ^ 0x40]) + behind[1:]
            with self.subTest(place=place):
                if place == 8:
                    self.assertEqual(bundles.split(changed, 1), [b"\xea\xbb", b"\xcc"])
                else:
                    with self.assertRaisesRegex(ValueError, "this blob is no bundle"):
                        bundles.split(changed, 1)
        for blob in (example_tools.SIX_WORDS, b"\xff" * 100, bytes(24)):
            with self.assertRaisesRegex(ValueError, "this blob is no bundle"):
                bundles.split(blob, 1)

    def test_manifests(self) -> None:
        places = {"a": walrus_files.Place(bytes(32)), "b/c": walrus_files.Place(bytes(32), 12)}
        blob = walrus_files.write_manifest(places)
        self.assertIn(b'"b/c": "' + b"00" * 32 + b':12"', blob)
        self.assertEqual(walrus_files.read_manifest(blob), places)
        for number in ("", "x", "-1", "666"):
            with self.assertRaisesRegex(ValueError, "manifest"):
                walrus_files.read_manifest(blob.replace(b":12", b":" + number.encode()))


class Members(unittest.IsolatedAsyncioTestCase):
    """Shards with bundles, some of which are lost or lie."""

    async def asyncSetUp(self) -> None:
        asyncio.get_running_loop().set_debug(False)  # debugging is slow
        self.walrus = example_tools.find_walrus()
        self.stack = await self.enterAsyncContext(contextlib.AsyncExitStack())

    async def start(self, faults: int, liars: tuple[int, ...] = ()) -> list[client.Shard]:
        """Return shards behind fronts; the liars change the last byte of each opening that they reply."""
        shards = list[client.Shard]()
        for number in range(3 * faults + 1):
            front = walrus_front.Front(self.walrus.path, faults, number, "--pages", "256")
            self.stack.push_async_callback(front.close)
            if number in liars:
                front.alter = lie
            port = (await front.open()).port
            shards.append(client.SocketShard(number, faults, ("127.0.0.1", port)))
            self.stack.push_async_callback(shards[-1].close)
        return shards

    async def store(self, shards: list[client.Shard], members: list[bytes], form: int = 1) -> bytes:
        faults = shards[0].shape.faults
        encoded = await self.walrus.encode(await bundles.join(members, faults, self.walrus), faults, form)
        await client.publish(shards, encoded, until=9)
        return encoded.identifier

    async def test_from_the_shards_that_hold_the_columns(self) -> None:
        """In both formats no other shard is asked, and the program runs once for the index and once for the member."""
        shards = await self.start(1)
        for form, holders in ((1, (0, 2)), (2, (3, 1))):
            name = await self.store(shards, TWO, form)
            self.assertEqual(await bundles.fetch_member(shards, name, 1, self.walrus), TWO[1])
            held = [shard for shard in shards if shard.number in holders]
            self.assertEqual(await bundles.fetch_member(held, name, 1, self.walrus), TWO[1])

    async def test_where_one_is_lost_or_lies(self) -> None:
        """Whichever shard it is, the column comes from openings of f+1 others."""
        for wrong in range(4):
            shards = await self.start(1, liars=(wrong,))
            name = await self.store(shards, TWO)
            for number, member in enumerate(TWO):
                self.assertEqual(await bundles.fetch_member(shards, name, number, self.walrus), member)
            await shards[wrong].close()
            for number, member in enumerate(TWO):
                self.assertEqual(await bundles.fetch_member(shards, name, number, self.walrus), member)

    async def test_members_of_many_columns(self) -> None:
        """Seven shards, two of which lie: an index of two columns, members of no, one and several columns."""
        drawn = random.Random(5)
        members = [drawn.randbytes(size) for size in (4, 0, 30, 1)]
        for liars in ((), (0, 1), (3, 4)):
            shards = await self.start(2, liars=liars)
            name = await self.store(shards, members)
            for number, member in enumerate(members):
                self.assertEqual(await bundles.fetch_member(shards, name, number, self.walrus), member, liars)

    async def test_what_is_refused(self) -> None:
        shards = await self.start(1)
        name = await self.store(shards, TWO)
        with self.assertRaisesRegex(client.NoMember, r"^no member of 2 \(status 4\)") as caught:
            await bundles.fetch_member(shards, name, 2, self.walrus)
        self.assertEqual(caught.exception.count, 2)
        with self.assertRaisesRegex(
            client.TooFew, r"^no metadata .*; shard 0: it does not hold column 0; .*; shard 3: "
        ):
            await bundles.fetch_member(shards, bytes(32), 0, self.walrus)
        with self.assertRaisesRegex(client.Refused, r"^too many members \(status 4\)$") as refused:
            await bundles.join([b""] * 3, 1, self.walrus)
        self.assertIs(refused.exception.code, client.Code.TOO_MANY_MEMBERS)
        blob = await self.walrus.encode(example_tools.SIX_WORDS, 1)
        await client.publish(shards, blob, until=9)
        with self.assertRaisesRegex(client.NoBundle, r"^bad index \(status 3\)$"):
            await bundles.fetch_member(shards, blob.identifier, 0, self.walrus)
        await shards[2].close()
        await shards[3].close()
        with self.assertRaisesRegex(client.TooFew, r"^short 1 of 2 \(status 4\); .*; shard 3: it is closed$") as few:
            await bundles.fetch_member([shards[0], *shards[2:]], name, 1, self.walrus)
        self.assertEqual((few.exception.held, few.exception.needed), (1, 2))

    async def test_other_words_change_nothing(self) -> None:
        """With a program whose refusals are not in English, the same is read, and the same is refused."""
        foreign = test_walrus_codes.Foreign(self.walrus.path)
        shards = await self.start(1, liars=(0,))
        name = await self.store(shards, TWO)
        for number, member in enumerate(TWO):
            self.assertEqual(await bundles.fetch_member(shards, name, number, foreign), member)
        with self.assertRaises(client.NoMember) as caught:
            await bundles.fetch_member(shards, name, 2, foreign)
        self.assertEqual(caught.exception.count, 2)
        blob = await self.walrus.encode(example_tools.SIX_WORDS, 1)
        await client.publish(shards, blob, until=9)
        with self.assertRaises(client.NoBundle):
            await bundles.fetch_member(shards, blob.identifier, 0, foreign)
        for wanted in shards[2:]:
            await wanted.close()
        self.assertEqual(await client.fetch(shards, blob.identifier, foreign), example_tools.SIX_WORDS)
        with self.assertRaises(client.TooFew) as few:
            await client.fetch(shards[1:], blob.identifier, foreign)
        self.assertEqual((few.exception.held, few.exception.needed), (1, 2))

    async def test_a_column_that_was_badly_encoded(self) -> None:
        """Its openings give a proof instead of a sliver: nobody can read the bundle."""
        shards = await self.start(1)
        bad = await example_tools.encode_badly(self.walrus)
        await client.publish(shards, bad, until=9)
        columns = bundles.Columns([shards[1], shards[3]], bad.identifier, self.walrus)
        with self.assertRaisesRegex(client.BadlyEncoded, "^the bundle was badly encoded") as caught:
            await columns.recover(2)
        self.assertIs(caught.exception.code, client.Code.PROOF)

    async def test_a_folder(self) -> None:
        """Files in bundles are fetched, one by its name and all together, while one shard is lost."""
        top = pathlib.Path(self.stack.enter_context(tempfile.TemporaryDirectory()))
        files = {"a": b"", "b/c d": b"some file", "b/e": bytes(5_000), "f": b"!" * 80_000, "g": b"the last one"}
        for name, content in files.items():
            place = top / "folder" / name
            place.parent.mkdir(parents=True, exist_ok=True)
            place.write_bytes(content)
        shards = await self.start(1)
        places = [":".join(map(str, shard.address)) for shard in shards if isinstance(shard, client.SocketShard)]

        async def run(*words: object) -> bytes:
            return await walrus_files.run(walrus_files.read_words([*map(str, words), *places]))

        told = (await run("publish", "--bundle", top / "folder")).decode().strip()
        manifest = walrus_files.read_manifest(await run("fetch", told))
        self.assertEqual([place.member for place in manifest.values()], [0, 1, 0, 1, None])
        places[1] = "127.0.0.1:9"
        for name, content in files.items():
            self.assertEqual(await run("fetch", "--file", name, told), content)
        self.assertEqual(await run("fetch", "--folder", top / "new", told), b"")
        self.assertEqual({name: (top / "new" / name).read_bytes() for name in files}, files)
        with self.assertRaisesRegex(ValueError, "the manifest has no file 'h'; without --file"):
            await run("fetch", "--file", "h", told)


def lie(said: bytes) -> bytes:
    """Return an opening with another first byte of its symbol."""
    place = client.HEAD.size + 42
    if said[client.HEAD.size] != client.OPENING:
        return said
    front, behind = said[:place], said[place:]
    return front + bytes([behind[0] ^ 1]) + behind[1:]


if __name__ == "__main__":
    unittest.main()

"""walrus-net with a gateway that lies, is away, or is slow: it checks what the gateway says."""
import asyncio
import collections
import os
import pathlib
import signal
import unittest
from typing import Any
from unittest import mock

from support.harness import HERE
from support.transfer_case import DRAWN, LIE, MARK, PIECE, TransferCase
from walrus import bundles, client
from walrus.client import in_process
from walrus.engines.backends import BUILT
from walrus.network.cli import transfers
from walrus.network.service import failure

PLACES = [os.environ.get("WALRUS_LIBRARY", ""), *(str(HERE.parents[1] / it) for it in BUILT)]
LIBRARY = next((it for it in PLACES if os.path.isfile(it)), "")


class Transfers(TransferCase):
    async def test_a_lie_is_refused_and_a_file_stays(self) -> None:
        blob = DRAWN.randbytes(3_000)
        name = (await self.id(blob)).hex()
        self.out.write_bytes(b"before")
        self.out.chmod(0o640)
        for given in (LIE, b"", blob[:-1], blob + b"\0", b"\1" + blob[1:]):
            self.files = {name: given}
            _, said = await self.run_net("fetch", name, "--output", self.out, status=1)
            self.assertIn("this gateway lies", said)
            self.assertEqual((self.out.read_bytes(), self.left()), (b"before", ["out"]))
            self.assertEqual((await self.run_net("fetch", name, status=1))[0], b"")
        self.files = {}
        _, said = await self.run_net("fetch", name, "--output", self.out, status=4)
        self.assertEqual((self.out.read_bytes(), self.left()), (b"before", ["out"]), said)
        self.files = {name: blob}
        for words in ((name,), (name.upper(), "--output", "-")):
            self.files[words[0]] = blob
            self.assertEqual((await self.run_net("fetch", *words))[0], blob)
        link = self.folder / "link"
        link.symlink_to("out")
        await self.run_net("fetch", name, "--output", link)
        self.assertEqual((self.out.read_bytes(), self.left()), (blob, ["link", "out"]))
        self.assertEqual((self.out.stat().st_mode & 0o777, link.is_symlink()), (0o640, True))
        await self.run_net("fetch", name, "--output", "/dev/null")
        self.assertTrue(pathlib.Path("/dev/null").is_char_device())
        self.files = {(await self.id(blob, 2)).hex(): blob}  # an identifier of the other format
        self.assertEqual((await self.run_net("fetch", next(iter(self.files))))[0], blob)
        await self.run_net("fetch", "x", status=2)

    async def test_a_list_is_checked_piece_by_piece(self) -> None:
        pieces = [DRAWN.randbytes(PIECE), DRAWN.randbytes(999)]
        blob, names = b"".join(pieces), b"".join([await self.id(piece) for piece in pieces])
        listed = MARK + len(blob).to_bytes(8, "big") + names
        name = (await self.id(listed)).hex()
        self.files = {name: blob}
        await self.run_net("fetch", name, "--output", self.out)
        self.assertTrue(self.out.read_bytes() == blob)
        for lie in (blob[:-1], blob[:5] + b"\0" + blob[6:], listed):  # the last one is the blob of this identifier
            self.files = {name: lie}
            await self.run_net("fetch", name, "--output", self.out, status=1)
            self.assertTrue(self.out.read_bytes() == blob)
        marked = MARK + b"and more"
        one = (await self.id(MARK + len(marked).to_bytes(8, "big") + await self.id(marked))).hex()
        for kept in (one, (await self.id(marked)).hex()):  # as a gateway stores it, and as another writer may have
            self.files = {kept: marked}
            self.assertEqual((await self.run_net("fetch", kept))[0], marked)
        for form in (1, 2):  # as no gateway stores it, but anybody may
            listed = MARK + (3).to_bytes(8, "big") + await self.id(LIE, form)
            self.files = {(await self.id(listed, form)).hex(): LIE, (await self.id(listed + b"1", form)).hex(): LIE}
            for kept, status in zip(self.files, (0, 1)):
                await self.run_net("fetch", kept, "--output", self.out, status=status)
        self.named = name
        self.out.write_bytes(blob)
        told = (await self.run_net("store", self.out, "--epochs", "1"))[0]
        self.assertIn(name.encode(), told)
        self.assertIn(b"(checked here: the identifier; all else is the gateway's word)", told)
        self.assertTrue(self.bodies[-1] == blob)

    async def test_of_a_long_file_two_pieces_are_in_memory_at_most(self) -> None:
        pieces = [DRAWN.randbytes(PIECE) for _ in range(6)]
        long, names = b"".join(pieces), b"".join([await self.id(piece) for piece in pieces])
        name = (await self.id(MARK + len(long).to_bytes(8, "big") + names)).hex()
        short, at, program = b"short", self.folder / "file", self.program
        bound = 3 * PIECE  # two of them, and what comes and goes beside them, which is far less than a third one
        ways, peaks = {"store": True, "store at once": False}, collections.defaultdict[str, list[int]](list)
        for data, self.named in ((short, (await self.id(short)).hex()), (long, name)):
            at.write_bytes(data)
            self.files[self.named] = data
            for way, self.resumes in ways.items():
                peaks[way].append(await self.peak_of("store", at, "--epochs", "1"))
                self.assertTrue(self.bodies.pop() == data)
            for self.program in filter(None, (program, LIBRARY)):
                peaks[f"fetch by {self.program}"].append(await self.peak_of("fetch", self.named, "--output", self.out))
                self.assertTrue(self.out.read_bytes() == data)
            self.program = program
        self.assertEqual(self.paths, ["/v1/blobs", "/v1/blobs", "/v1/uploads/1", "/v1/blobs"])
        for what, (least, most) in peaks.items():
            self.assertLess(most - least, bound, what)

    async def test_what_is_stored_is_named_here_too(self) -> None:
        self.out.write_bytes(b"first")
        second = self.folder / "second"
        second.write_bytes(b"second file")
        self.named = (await self.id(b"first")).hex()
        for words, data in (((self.out,), b""), (("-",), b"first")):
            out, _ = await self.run_net("store", *words, "--epochs", "1", data=data)
            self.assertIn(self.named.encode(), out)
        version = pathlib.Path("/proc/version").read_bytes()  # of a file that says that it is empty
        self.named = (await self.id(version)).hex()
        self.assertIn(self.named.encode(), (await self.run_net("store", "/proc/version", "--epochs", "1"))[0])
        self.assertEqual(self.bodies[-1], version)
        drawn = "/proc/sys/kernel/random/uuid"  # each read of it gives other bytes: those that are sent are named
        _, said = await self.run_net("store", drawn, "--epochs", "1", status=1)
        self.assertIn(f"the file is {(await self.id(self.bodies[-1])).hex()}", said)
        _, said = await self.run_net("store", second, "--epochs", "1", status=1)
        self.assertIn(f"the file is {(await self.id(b'second file')).hex()}", said)
        frames = b"".join(map(client.envelope, (b"first", b"second file")))
        bundle = await self.walrus.output("bundle", 1, data=frames)
        name = (await self.id(bundle)).hex()
        words = ("store", "--bundle", self.out, second, "--epochs", "1")
        _, said = await self.run_net(*words, status=1)
        self.assertIn(name, said)
        self.named, self.members = name, [f"{name}/1", f"{name}/0"]
        await self.run_net(*words, status=1)
        self.members.reverse()
        await self.run_net(*words)
        self.files = {name: bundle}
        self.assertEqual((await self.run_net("fetch", f"{name}/1"))[0], b"second file")
        self.assertIn("has 2 members", (await self.run_net("fetch", f"{name}/2", status=4))[1])
        self.files = {name: bundle[:-1] + b"?"}
        self.assertIn("lies", (await self.run_net("fetch", f"{name}/0", status=1))[1])
        self.files = {self.named: b"", (await self.id(b"no bundle")).hex(): b"no bundle"}
        self.assertIn(
            "no bundle", (await self.run_net("fetch", f"{(await self.id(b'no bundle')).hex()}/0", status=4))[1]
        )

    async def test_a_bundle_reads_no_more_of_its_files_than_it_may_have(self) -> None:
        self.out.touch()
        os.truncate(self.out, 2**40)
        for path in (self.out, "/dev/zero"):
            _, said = await self.run_net("store", "--bundle", __file__, path, "--epochs", "1", status=1)
            self.assertIn(f"a bundle has at most 16777216 bytes, and with {path} it has more", said)
        self.assertEqual(self.bodies, [])

    @unittest.skipUnless(LIBRARY, "the library is not built")
    async def test_the_library_names_as_well(self) -> None:
        """Identifiers are computed by the library if there is no program, as in a wheel."""
        program, self.program = self.program, LIBRARY
        blob = DRAWN.randbytes(3_000)
        name = (await self.id(blob)).hex()
        for given, status in ((LIE, 1), (blob, 0)):
            self.files = {name: given}
            await self.run_net("fetch", name, "--output", self.out, status=status)
        self.assertEqual(self.out.read_bytes(), blob)
        self.named = name
        self.assertIn(name.encode(), (await self.run_net("store", self.out, "--epochs", "1"))[0])
        self.named = "0" * 64
        self.assertIn("this gateway lies", (await self.run_net("store", self.out, "--epochs", "1", status=1))[1])
        with mock.patch.object(transfers, "find_program", return_value=str(self.folder / "none")):
            with mock.patch.dict(os.environ, {"WALRUS": "", "WALRUS_LIBRARY": LIBRARY}):
                found = transfers.find_walrus()
                self.assertEqual((type(found), found.path), (in_process.InProcess, LIBRARY))
            with mock.patch.dict(os.environ, {"WALRUS": str(self.folder / "none")}):
                with self.assertRaisesRegex(failure.Failure, "neither the program walrus nor its library is here"):
                    transfers.find_walrus()
        with mock.patch.object(transfers, "find_program", return_value=program):
            self.assertIs(type(transfers.find_walrus()), client.Walrus)

    async def test_what_comes_on_standard_input_goes_on_at_once(self) -> None:
        """A stream is stored as it arrives: its length need not be known, and nothing keeps all of it."""
        first, rest = DRAWN.randbytes(2 * PIECE), DRAWN.randbytes(999)
        names = b"".join([await self.id(it) for it in (first[:PIECE], first[PIECE:], rest)])
        self.named = (await self.id(MARK + len(first + rest).to_bytes(8, "big") + names)).hex()
        process = await self.start("store", "-", "--epochs", "1")
        assert process.stdin
        process.stdin.write(first)
        async with asyncio.timeout(60):
            while self.came < PIECE:  # while more is to come
                await asyncio.sleep(0.05)
        self.assertIsNone(process.returncode)
        out, error = await process.communicate(rest)
        self.assertEqual((process.returncode, error), (0, b""))
        self.assertIn(self.named.encode(), out)
        self.assertTrue(self.bodies == [first + rest])

    async def test_it_ends_by_one_sentence_at_an_interrupt_and_at_a_closed_pipe(self) -> None:
        blob = DRAWN.randbytes(3_000_000)
        name = (await self.id(blob)).hex()
        self.files, self.stalls = {name: blob}, True
        self.out.write_bytes(b"before")
        process = await self.start("fetch", name, "--output", self.out)
        async with asyncio.timeout(60):
            while sum(path.stat().st_size for path in self.folder.iterdir()) < 100_000:
                await asyncio.sleep(0.05)
        process.send_signal(signal.SIGINT)
        _, error = await process.communicate()
        self.assertEqual((process.returncode, error), (130, b"walrus-net fetch: interrupted\n"))
        self.assertEqual((self.out.read_bytes(), self.left()), (b"before", ["out"]))
        self.stalls = False
        self.named = (await self.id(b"before")).hex()
        store = "store", str(self.out), "--epochs", "1"
        for words in (("fetch", name), ("status",), ("status", "--json"), ("completion",), store):
            inner, outer = os.pipe()
            os.close(inner)  # nobody reads its output
            process = await self.start(*words, out=outer)
            os.close(outer)
            _, error = await process.communicate()
            said = f"walrus-net {words[0]}: nobody reads what it writes any more\n"
            self.assertEqual((process.returncode, error.decode()), (1, said))

    async def test_it_ends_by_one_sentence_at_an_interrupt_while_it_starts(self) -> None:
        (self.folder / "aiohttp.py").write_text(
            f"import pathlib, time\npathlib.Path({str(self.out)!r}).touch()\ntime.sleep(60)\n"
        )
        with mock.patch.dict(os.environ, {"PYTHONPATH": str(self.folder), "PYTHONDONTWRITEBYTECODE": "1"}):
            process = await self.start("status")
        async with asyncio.timeout(60):
            while not self.out.exists():
                await asyncio.sleep(0.05)
        process.send_signal(signal.SIGINT)
        _, error = await process.communicate()
        self.assertEqual((process.returncode, error), (130, b"walrus-net: interrupted\n"))

    async def test_what_a_gateway_says_is_no_command_to_a_terminal(self) -> None:
        self.said, written = "\x1b]0;title\x07\x9b2J\u202e\n", "\\x1b]0;title\\x07\\x9b2J\\u202e\\n"
        _, error = await self.run_net("fetch", "0" * 64, status=4)
        self.assertEqual(error, f"walrus-net fetch: no such blob{written}\n")
        out, _ = await self.run_net("status")
        self.assertEqual(out.decode().splitlines()[1], f"node: shards 0, answers ({written})")
        self.out.write_bytes(b"first")
        bundle = await bundles.join([b"first"], 1, self.walrus)
        self.named = (await self.id(bundle)).hex()
        self.members = [f"{self.named}/0"]
        out, _ = await self.run_net("store", "--bundle", self.out, "--epochs", "1")
        self.assertEqual(out.decode().splitlines()[1], f"{self.named}/0 x{written}")
        self.named = self.said[:-1]
        _, error = await self.run_net("store", self.out, "--epochs", "1", status=1)
        self.assertIn(f"the gateway names it {written[:-2]}, but", error)

    async def test_a_list_that_does_not_go_forward_ends(self) -> None:
        low, high = "1" * 64, "2" * 64
        blob = {"blobId": high, "endEpoch": 5, "certificate": None, "invalid": False}
        ways: list[list[Any]] = [
            [high, None],
            [high, high],
            [high, low],
            [low, "3" * 63],
            [""],
            [7],
            [int("1" * 64)] * 2,
        ]
        for following in ways:
            lies = following[-1] is not None
            self.pages, self.asked = [{"epoch": 0, "blobs": [blob], "next": it} for it in following], []
            out, error = await self.run_net("list", status=int(lies))
            self.assertEqual((out.count(high.encode()), len(self.asked)), (len(following), len(following)))
            said = "the list does not go forward", "this gateway lies"
            self.assertEqual([it in error for it in said], [lies] * 2, error)

    async def test_for_how_many_epochs_is_said(self) -> None:
        self.out.write_bytes(b"first")
        process = await self.start("store", self.out)
        _, error = await process.communicate()
        self.assertEqual((process.returncode, self.bodies), (2, []))
        self.assertIn(b"--epochs", error)

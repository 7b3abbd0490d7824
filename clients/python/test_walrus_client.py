"""Tests of the client on the program: python3 -m unittest, in this folder. They use WALRUS, or ./walrus at the top."""
import asyncio
import contextlib
import os
import pathlib
import random
import signal
import tempfile
import unittest
from unittest import mock

import example_tools
import test_walrus_frames
from walrus import client, loop
from walrus.client import program
from walrus.format import frames
from walrus.refill import refill
from walrus.serving import ProcessShard

SLOW = 30.0  # seconds until anything must have ended, on a busy machine
loop.wait_without_threads()
NAME = bytes(range(32))


class ProgramCase(unittest.IsolatedAsyncioTestCase):
    """A test with shards that are processes."""

    async def asyncSetUp(self):
        asyncio.get_running_loop().set_debug(False)  # debugging is slow
        self.walrus = example_tools.find_walrus()
        self.stack = await self.enterAsyncContext(contextlib.AsyncExitStack())

    async def shard(self, number: int, faults: int = 1, *options: str) -> ProcessShard:
        shard = ProcessShard(self.walrus, faults, number, *(options or ("--pages", "256")))
        await self.stack.enter_async_context(shard)
        return shard

    async def shards(self, faults: int = 1, *options: str) -> list[ProcessShard]:
        return [await self.shard(number, faults, *options) for number in range(3 * faults + 1)]


class OnTheProgram(ProgramCase):
    async def test_both_formats_are_published_and_fetched(self):
        for faults, form in ((1, 1), (2, 2)):
            blob = random.Random(faults).randbytes(5_000)
            shards = await self.shards(faults)
            encoded = await self.walrus.encode(blob, faults, form)
            words = "id", faults, "--format", form
            self.assertEqual((await self.walrus.output(*words, data=blob)).decode(), encoded.identifier.hex() + "\n")
            for _ in range(2):
                published = await client.publish(shards[faults:], encoded, until=3)
                self.assertEqual(published, ([*range(faults, 3 * faults + 1)],) * 2)
            self.assertEqual(await client.fetch(shards, encoded.identifier, self.walrus), blob)

    async def test_a_shard_that_ended_is_passed_over(self):
        shards, encoded = await self.shards(), await self.walrus.encode(b"some blob", 1)
        nobody = client.SocketShard(0, 1, ("127.0.0.1", 9))
        self.assertEqual(await client.publish([nobody, *shards[1:]], encoded, until=3), ([1, 2, 3], [1, 2, 3]))
        await shards[0].close()
        self.assertEqual(await client.publish(shards, encoded, until=3), ([1, 2, 3], [1, 2, 3]))
        self.assertEqual(await client.fetch(shards, encoded.identifier, self.walrus), b"some blob")
        await shards[1].close()
        with self.assertRaises(client.NoQuorum) as caught:
            await client.publish(shards, encoded, until=3)
        self.assertEqual(caught.exception.said, {0: "it is closed", 1: "it is closed", 2: "", 3: ""})
        self.assertEqual(caught.exception.published, ([2, 3], []))
        await shards[2].close()
        with self.assertRaises(client.Refused) as refused:
            await client.fetch(shards, encoded.identifier, self.walrus)
        self.assertEqual((refused.exception.status, refused.exception.text), (4, b"short 1 of 2\n"))
        self.assertEqual(refused.exception.said[3], "metadata, sliver")

    async def test_slivers_and_shards_that_are_refilled(self):
        for form in (1, 2):
            encoded, late = await self.walrus.encode(b"some blob", 1, form), await self.walrus.encode(b"late", 1, form)
            shards = await self.shards()
            for blob in (encoded, late):
                await client.publish(shards, blob, until=3)
            for axis in (client.PRIMARY, client.SECONDARY):
                index = 3 if axis == client.PRIMARY or form == 1 else 0
                found = await client.recover(shards[:3], client.Symbol(encoded.identifier, axis, index), self.walrus)
                self.assertEqual(found, (0, encoded.slivers[3][axis]))
            with self.assertRaises(client.Refused) as caught:
                await client.recover(shards[:1], client.Symbol(encoded.identifier, client.PRIMARY, 3), self.walrus)
            self.assertEqual(caught.exception.text, b"short 1 of 3\n")
            await shards[3].close()
            shards[3] = await self.shard(3)
            await refill(shards[3], shards[:3], [encoded.identifier, late.identifier], 3, self.walrus)
            for blob in (encoded, late):  # it reports that it holds all three parts
                parts = [client.RegisterEntry(blob.identifier, 3), blob.metadata, *blob.slivers[3]]
                self.assertEqual(await example_tools.codes(shards[3], *parts), [0, 11, 11, 11])
                self.assertEqual(await example_tools.codes(shards[3], client.Ack(blob.identifier)), [12])

    async def test_a_refill_that_cannot_be(self):
        shards, encoded = await self.shards(), await self.walrus.encode(b"some blob", 1)
        with self.assertRaises(client.Failed) as caught:
            await refill(shards[3], shards[:3], [encoded.identifier], 3, self.walrus)
        self.assertEqual(caught.exception.said, {0: "nothing of it", 1: "nothing of it", 2: "nothing of it"})
        await client.publish(shards, encoded, until=3)
        full = await self.shard(3, 1, "--pages", "1")
        with self.assertRaises(client.Failed) as caught:
            await refill(full, shards[:3], [encoded.identifier], 3, self.walrus)
        self.assertEqual(caught.exception.said[3], "metadata: full, 2 pages needed, 1 free")

    async def test_a_badly_encoded_blob(self):
        shards, bad = await self.shards(), await example_tools.encode_badly(self.walrus)
        await client.publish(shards, bad, until=3)
        target = client.Symbol(bad.identifier, client.SECONDARY, 2)
        status, proof = await client.recover([shards[1], shards[3]], target, self.walrus)
        self.assertEqual((status, type(frames.read_frame(proof))), (3, frames.Proof))
        for shard in shards:
            self.assertEqual(await example_tools.codes(shard, proof, frames.Attest(bad.identifier)), [0, 13])
            entries = [frames.AttestEntry(number, bad.identifier) for number in range(4)]
            self.assertIn(14, await example_tools.codes(shard, *entries))
            self.assertEqual(await example_tools.codes(shard, frames.Forget(bad.identifier)), [0])
        with self.assertRaises(client.Refused) as caught:  # no sliver is left, and the proof shows why
            await client.fetch(shards, bad.identifier, self.walrus)
        self.assertEqual(caught.exception.status, 3)
        await shards[2].close()
        shards[2] = await self.shard(2)
        await refill(shards[2], [shards[it] for it in (0, 1, 3)], [bad.identifier], 3, self.walrus)
        self.assertEqual(await example_tools.codes(shards[2], proof), [11])

    async def test_what_a_front_refuses_a_shard_refuses(self):
        """`refuse` gives the same answers to faults as `walrus serve`."""
        shard, shape = await self.shard(0), client.Shape(1)
        faults = [bytes.fromhex(digits) for digits, _ in test_walrus_frames.FAULTS]
        faults += map(frames.write_frame, (test_walrus_frames.FRAMES[2][0], client.Answer(0, 1, 0)))
        replies = await shard.ask(*faults, bytes(8_389_632))
        self.assertEqual(
            [reply.end for reply in replies], [frames.refuse(shape, fault) for fault in (*faults, bytes(8_389_632))]
        )


class Errors(ProgramCase):
    """The texts of errors: for each shard the request and its answer in words, or the fault."""

    async def no_quorum(self, shards: list[ProcessShard], encoded: client.Encoded) -> client.NoQuorum:
        with self.assertRaises(client.NoQuorum) as caught:
            await client.publish(shards, encoded, until=9)
        return caught.exception

    async def test_shards_that_are_full(self):
        encoded = await self.walrus.encode(bytes(9_000), 1)
        full = await self.no_quorum(await self.shards(1, "--pages", "3"), encoded)
        self.assertEqual(full.said, dict.fromkeys(range(4), "primary sliver: full, 2 pages needed, 1 free"))
        self.assertEqual(str(full).split("; ")[0], "0 shards acknowledge, of 3 needed")

    async def test_a_ledger_without_room(self):
        """Each shard has room for its own acknowledgement, but not for those of the others."""
        encoded = await self.walrus.encode(b"some blob", 1)
        full = await self.no_quorum(await self.shards(1, "--blobs", "1"), encoded)
        self.assertEqual(full.published, ([0, 1, 2, 3], []))
        self.assertEqual(full.said[0], "enter acknowledgement of 1: no room in the ledger")
        self.assertEqual(full.said[1], "enter acknowledgement of 0: no room in the ledger")

    async def test_shards_in_the_wrong_order(self):
        encoded, shards = await self.walrus.encode(b"some blob", 1), await self.shards()
        for number, shard in enumerate(shards):
            shard.number = number ^ 1
        wrong = await self.no_quorum(shards, encoded)
        self.assertIn("it says that it is shard 1: are the shards in their order?", wrong.said[0])

    async def test_words_that_shards_refuse(self):
        encoded = await self.walrus.encode(b"some blob", 1)
        refused = await self.no_quorum(await self.shards(1, "--pages", "0"), encoded)
        self.assertIn("its process ended with status 2 (wrong arguments)", refused.said[0])
        nobody = [ProcessShard(client.Walrus("/nowhere"), 1, number) for number in range(4)]
        self.assertEqual((await self.no_quorum(nobody, encoded)).said[3], "no such file or directory")

    async def test_arguments(self):
        encoded, shards = await self.walrus.encode(b"some blob", 1), await self.shards(2)
        with self.assertRaisesRegex(ValueError, "another f than that of the shards, which is 2"):
            await client.publish(shards, encoded, until=9)
        few = shards[:1] * 2
        for wrong, text in (
            ([], "no shard is given"),
            (few, "not distinct"),
            (shards + await self.shards(), "several f"),
        ):
            for asked in (client.publish(wrong, encoded, 9), client.fetch(wrong, encoded.identifier, self.walrus)):
                with self.assertRaisesRegex(ValueError, text):
                    await asked
        for until in (0, 65_537):
            with self.assertRaisesRegex(ValueError, f"until is {until}, and should be 1 to 65,536"):
                await client.publish(await self.shards(), encoded, until)

    async def test_a_read_from_nobody(self):
        nobody = [client.SocketShard(number, 1, ("127.0.0.1", 9)) for number in range(4)]
        with self.assertRaises(client.Refused) as caught:
            await client.fetch(nobody, NAME, self.walrus)
        self.assertEqual(caught.exception.said, dict.fromkeys(range(4), "connection refused"))
        self.assertIn("shard 2: connection refused", str(caught.exception))
        with self.assertRaises(client.Refused) as caught:
            await client.fetch([client.SocketShard(0, 1, ("no host", 9))], NAME, self.walrus)
        self.assertRegex(caught.exception.said[0], "[Nn]ame")

    async def test_encode_runs_the_program_once(self):
        with tempfile.TemporaryDirectory() as name:
            counted = pathlib.Path(name) / "counted"
            counted.write_text(f'#!/bin/sh\necho run >>"{name}/runs"\nexec "{self.walrus.path}" "$@"\n')
            counted.chmod(0o755)
            for form in (1, 2):
                encoded = await client.Walrus(str(counted)).encode(b"some blob", 1, form)
                self.assertEqual(encoded, await self.walrus.encode(b"some blob", 1, form))
            self.assertEqual(pathlib.Path(name, "runs").read_text(), "run\n" * 2)

    async def give_up(self, first: str) -> tuple[asyncio.subprocess.Process, str]:
        """Start a run of a script, and cancel it. The command `first` keeps the script's output open. Returns the
        script's process and the number of the one that runs `first`."""
        made, create = list[asyncio.subprocess.Process](), asyncio.create_subprocess_exec

        async def note(*words, **options):
            made.append(await create(*words, **options))
            return made[-1]

        with tempfile.TemporaryDirectory() as name:
            slow, begun = pathlib.Path(name) / "slow", pathlib.Path(name) / "begun"
            slow.write_text(f"#!/bin/sh\n{first} &\necho $! >{begun}.new\nmv {begun}.new {begun}\nexec sleep 600\n")
            slow.chmod(0o755)
            with mock.patch.object(asyncio, "create_subprocess_exec", note):
                task = asyncio.create_task(client.Walrus(str(slow)).run("id", 1, data=bytes(1_000_000)))
                async with asyncio.timeout(SLOW) as bound:
                    while not (made and begun.exists()):
                        await asyncio.sleep(0.01)
                    task.cancel()
                    with self.assertRaises(asyncio.CancelledError):
                        await task
                self.assertFalse(bound.expired())
            return made[0], begun.read_text()

    async def test_a_run_that_is_given_up_has_ended(self):
        """Otherwise asyncio complains about it on standard error when an interrupt ends its loop."""
        with mock.patch.object(program, "LINGERS", SLOW):
            process, _ = await self.give_up("sleep 2")
        self.assertEqual((process.returncode, process.stdout.at_eof()), (-9, True))

    async def test_giving_up_a_run_does_not_wait_for_what_it_started(self):
        with mock.patch.object(program, "LINGERS", 0.2):
            process, child = await self.give_up("sleep 600")
        self.assertFalse(process.stdout.at_eof())
        os.kill(int(child), signal.SIGKILL)
        await process.communicate()
        self.assertEqual((process.returncode, process.stdout.at_eof()), (-9, True))

    def test_a_program_that_is_none(self):
        for path, text in (
            ("/nowhere", "/nowhere: No such file"),
            ("/bin/true", "/bin/true is not the program walrus"),
        ):
            with self.assertRaisesRegex(ValueError, text):
                client.Walrus.find(path)

    def test_the_script_is_run_once(self):
        """After that, the program that it builds is run."""
        with tempfile.TemporaryDirectory() as name:
            script, built = pathlib.Path(name) / "walrus", pathlib.Path(name) / "crates" / "walrus" / "out" / "walrus"
            built.parent.mkdir(parents=True)
            script.write_text(
                f'#!/bin/sh\necho run >>"{name}/runs"\ntouch "{built}"\necho "usage: walrus id F"\nexit 2\n'
            )
            script.chmod(0o755)
            self.assertEqual(client.Walrus.find(str(script)).path, str(built.resolve()))
            self.assertEqual(pathlib.Path(name, "runs").read_text(), "run\n")


if __name__ == "__main__":
    unittest.main()

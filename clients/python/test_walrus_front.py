"""Tests of how the front begins and ends: python3 -m unittest, in this folder. They use WALRUS, or ./walrus."""
import asyncio
import contextlib
import io
import os
import pathlib
import signal
import socket
import subprocess
import sys
import tempfile
import unittest

import example_tools
from walrus import client, front as walrus_front, loop

loop.wait_without_threads()

SLOW = 30.0  # seconds in which what must end does, on a busy machine
FAKE = """#!/usr/bin/env python3
import sys
sys.stdin.buffer.read(7)
sys.stdout.buffer.write(bytes.fromhex("5700000000000a30090000000100000000"))
sys.stdout.buffer.flush()
sys.stdin.buffer.read(1)
sys.exit(9)
"""


def run_front(*words: object) -> tuple[int, bytes, list[str]]:
    """The status of a front that ends at once, what it printed, and the lines of standard error."""
    told = [sys.executable, "-m", "walrus.front", *map(str, words)]
    ran = subprocess.run(told, stdin=subprocess.DEVNULL, capture_output=True, timeout=SLOW)
    return ran.returncode, ran.stdout, ran.stderr.decode().splitlines()


class Words(unittest.TestCase):
    """Words that a front or its shard refuses: nothing is printed, and a line says why."""

    def test_help(self):
        status, said, told = run_front("--help")
        self.assertEqual((status, told), (0, []))
        self.assertIn(b"PROGRAM F SHARD", said)

    def test_its_own_words(self):
        for line in (
            "",
            "walrus 1",
            "walrus x 1",
            "walrus 334 0",
            "--port 65536 walrus 1 0",
            "--connections 0 walrus 1 0",
        ):
            with contextlib.redirect_stderr(io.StringIO()) as told, self.assertRaises(SystemExit) as caught:
                walrus_front.read_words(line.split())
            self.assertEqual((caught.exception.code, told.getvalue()[:6]), (2, "usage:"), line)
        given = walrus_front.read_words("--port 4100 walrus 1 0 --pages 9 --blobs 8".split())
        self.assertEqual((given.port, given.words), (4100, ["--pages", "9", "--blobs", "8"]))

    def test_words_of_the_shard(self):
        walrus = example_tools.find_walrus().path
        line = "walrus.front: shard 0: the shard ended with status 2 (wrong arguments)"
        self.assertEqual(run_front(walrus, 1, 0, "--pages", 0), (2, b"", [line]))
        self.assertEqual(run_front(walrus, 1, 4), (2, b"", [line.replace("shard 0", "shard 4")]))

    def test_what_cannot_begin(self):
        line = "walrus.front: shard 0: it cannot begin: "
        self.assertEqual(run_front("/nowhere", 1, 0), (1, b"", [line + "No such file or directory"]))
        with tempfile.TemporaryDirectory() as folder, socket.create_server(("127.0.0.1", 0)) as taken:
            silent = pathlib.Path(folder, "silent")
            silent.write_text("#!/bin/sh\nexec sleep 60\n")
            silent.chmod(0o755)
            wanted = (1, b"", [line + "the shard does not serve in 0.5 s"])
            self.assertEqual(run_front("--seconds", 0.5, silent, 1, 0), wanted)
            walrus = example_tools.find_walrus().path
            status, said, told = run_front("--port", taken.getsockname()[1], walrus, 1, 0)
            self.assertEqual((status, said, len(told)), (1, b"", 1))
            self.assertIn("Address already in use", told[0])


class Ends(unittest.IsolatedAsyncioTestCase):
    """A front of its own, and how it ends."""

    async def asyncSetUp(self):
        asyncio.get_running_loop().set_debug(False)  # which takes long

    async def start(self, *words: object, limit: int = 256) -> int:
        pipe = asyncio.subprocess.PIPE
        line = f'ulimit -n {limit}; exec "$@"'
        told = ["bash", "-c", line, "bash", sys.executable, "-m", "walrus.front", *map(str, words)]
        self.front = await asyncio.create_subprocess_exec(*told, stdout=pipe, stderr=pipe)
        self.addAsyncCleanup(self.end)
        assert self.front.stdout
        async with asyncio.timeout(SLOW):
            return int(await self.front.stdout.readline())

    async def end(self) -> list[str]:
        """The lines of standard error, once it has ended."""
        with contextlib.suppress(TimeoutError):
            async with asyncio.timeout(SLOW):
                return (await self.front.communicate())[1].decode().splitlines()
        self.front.kill()
        raise AssertionError("the front does not end")

    def shard_process(self) -> int:
        children = pathlib.Path(f"/proc/{self.front.pid}/task/{self.front.pid}/children").read_text()
        return int(children.split()[0])

    async def read_nothing(self, port: int) -> None:
        """A client that asks for more than pipes hold, and takes none of it."""
        walrus = example_tools.find_walrus()
        encoded = await walrus.encode(bytes(100_000), 1)
        async with client.SocketShard(2, 1, ("127.0.0.1", port), SLOW) as shard:
            steps = [client.RegisterEntry(encoded.identifier, 9), encoded.metadata, *encoded.slivers[2]]
            self.assertEqual(await example_tools.codes(shard, *steps), [0] * 4)
        self.deaf = _, writer = await asyncio.open_connection("127.0.0.1", port, limit=1)
        self.addCleanup(writer.transport.abort)
        writer.write(client.envelope(client.write_frame(client.Read(encoded.identifier))) * 1_000)
        await asyncio.sleep(0.5)

    async def test_at_a_signal_while_a_client_does_not_read(self):
        for number in (signal.SIGTERM, signal.SIGINT):
            await self.read_nothing(await self.start(example_tools.find_walrus().path, 1, 2))
            self.front.send_signal(number)
            self.assertEqual(await self.end(), [])
            self.assertEqual(self.front.returncode, 128 + number)

    async def test_with_its_shard_while_a_client_does_not_read(self):
        await self.read_nothing(await self.start(example_tools.find_walrus().path, 1, 2))
        os.kill(self.shard_process(), signal.SIGKILL)
        self.assertEqual(await self.end(), ["walrus.front: shard 2: the shard ended with signal 9"])
        self.assertEqual(self.front.returncode, 137)

    async def test_at_a_second_signal_at_once(self):
        await self.start(example_tools.find_walrus().path, 1, 2)
        stopped = self.shard_process()
        os.kill(stopped, signal.SIGSTOP)  # so that it does not end at the end of its input
        for _ in range(2):
            self.front.send_signal(signal.SIGTERM)
            await asyncio.sleep(0.2)
        await self.end()
        self.assertEqual(self.front.returncode, 143)
        with self.assertRaises(ProcessLookupError):  # and neither does the shard outlive it
            for _ in range(100):
                os.kill(stopped, 0)
                await asyncio.sleep(0.05)

    async def test_when_the_shard_is_full_of_bytes(self):
        with tempfile.TemporaryDirectory() as folder:
            fake = pathlib.Path(folder, "fake")
            fake.write_text(FAKE)
            fake.chmod(0o755)
            port = await self.start(fake, 1, 0)
            async with client.SocketShard(0, 1, ("127.0.0.1", port), SLOW) as shard:
                with self.assertRaisesRegex(ConnectionError, "it ended"):
                    await shard.ask(client.write_frame(client.Read(bytes(32))))
            line = "walrus.front: shard 0: the shard ended with status 9 (1,073,741,824 bytes of requests came)"
            self.assertEqual(await self.end(), [line])
            self.assertEqual(self.front.returncode, 9)

    async def test_further_words_go_on_to_serve(self):
        port = await self.start(example_tools.find_walrus().path, 1, 0, "--pages", 1, "--blobs", 1)
        self.assertEqual(len(os.listdir(f"/proc/{self.front.pid}/task")), 1)  # it has no thread beside the first
        encoded = await example_tools.find_walrus().encode(b"some blob", 1)
        async with client.SocketShard(0, 1, ("127.0.0.1", port), SLOW) as shard:
            entry = client.RegisterEntry(encoded.identifier, 9)
            self.assertEqual(await example_tools.codes(shard, entry, encoded.metadata, entry, entry), [0, 6, 0, 10])
        self.front.terminate()
        self.assertEqual(await self.end(), [])

    async def test_no_more_descriptors(self):
        """It says so, and goes on once there are some."""
        port = await self.start(example_tools.find_walrus().path, 1, 2, limit=16)
        many = [await asyncio.open_connection("127.0.0.1", port) for _ in range(20)]
        await asyncio.sleep(0.5)
        for _, writer in many:
            writer.transport.abort()
        async with client.SocketShard(2, 1, ("127.0.0.1", port), SLOW) as shard:
            self.assertEqual(await example_tools.codes(shard, client.RegisterEntry(bytes(32), 9)), [0])
        self.front.terminate()
        told = [line for line in await self.end() if "descriptors" in line]
        line = "walrus.front: shard 2: no more descriptors: new connections wait, raise the limit (ulimit -n)"
        self.assertEqual(told, [line])


if __name__ == "__main__":
    unittest.main()

"""Bad clients, disks and clocks on loopback; at the end of each test the proved core replays the run."""
import asyncio
import contextlib
import re
import signal
import sqlite3

from support.harness import FOUR, NetworkCase, faked_clock, usage_of
from walrus import client
from walrus.network.deploy import local
from walrus.network.node.disk.group_commit import TORN
from walrus.network.settings import file
from walrus.network.settings.services import Settings


class BadDays(NetworkCase):
    async def test_clients_that_drip_send_rubbish_or_come_in_thousands(self) -> None:
        self.local.options |= {"connections": 200, "kept": 20_000_000}
        await self.local.up(FOUR)
        async with self.local.network() as network:
            first = await self.store(network, 3_000)
            host, port = network.peers.address("node-0")
            context = network.peers.context

            async def open_one(first_bytes: bytes) -> asyncio.StreamWriter:
                _, writer = await asyncio.open_connection(host, port, ssl=context, server_hostname="node-0")
                writer.write(first_bytes)
                await writer.drain()
                return writer

            half = client.HEAD.pack(client.MARK, 0, 8_000_000) + bytes(3_000_000)
            waiting = [await open_one(half) for _ in range(10)]  # 30 MB, of which 20 MB may be kept
            waiting += [await open_one(client.envelope(client.write_frame(client.Read(first)))[:9]) for _ in range(5)]
            for rubbish in (b"GET / HTTP/1.1\r\n\r\n" * 9, bytes(9), b"W" + b"\xff" * 99, client.envelope(b"") * 50):
                waiting.append(await open_one(rubbish))
            for kind in range(256):
                waiting[-1].write(client.envelope(bytes([kind]) + self.drawn.randbytes(40)))
            crowd = await asyncio.gather(*(open_one(b"") for _ in range(1_000)), return_exceptions=True)
            self.assertEqual(await network.fetch(first), self.blobs[first])
            await self.store(network)
            for _ in range(100):  # a handshake that never comes is ended after some seconds
                memory, descriptors = usage_of(self.local.processes["node-0"].pid)
                if descriptors < 300:
                    break
                await asyncio.sleep(0.2)
            self.assertLess(descriptors, 300)
            self.assertLess(memory, 400_000_000)
            for writer in [*waiting, *(it for it in crowd if isinstance(it, asyncio.StreamWriter))]:
                writer.transport.abort()
            await self.reads_all(network)
        await self.check()

    async def test_a_full_disk_refuses_and_goes_on(self) -> None:
        if not self.small_disk("node-0", "400k"):
            self.skipTest("a small disk cannot be mounted here")
        await self.local.up(FOUR)
        async with self.local.network() as network:
            for _ in range(30):
                await self.store(network, 9_000)
                if "does not take" in self.log("node-0"):
                    break
            self.assertRegex(self.log("node-0"), "full")
            await self.store(network, 50)
            await self.reads_all(network)
            self.resize("8m")
            await self.store(network, 9_000)
            await self.local.end("node-0", kill=True)
            await self.local.start_node("node-0")
            await self.reads_all(network)
        await self.check()

    async def test_a_torn_database_stops_its_node_which_is_filled_anew(self) -> None:
        self.local.options["heal"] = 1
        await self.local.up(FOUR)
        async with self.local.network() as network:
            for _ in range(6):
                await self.store(network, 3_000)
            await self.local.end("node-3")
            path = self.folder / "node-3.db"
            whole = bytearray(path.read_bytes())
            for place in range(4_096, len(whole) - 40, 1_000):  # so that what is read is not what was written
                for offset in range(40):
                    whole[place + offset] = 0xA5
            path.write_bytes(whole)
            with self.assertRaises(RuntimeError) as caught:
                await self.local.start_node("node-3")
            self.assertRegex(str(caught.exception), "node-3: (cannot start|must stop)")
            self.assertIn(TORN.format(path), str(caught.exception))
            self.faulty = {"node-3"}  # it forgot what it had acknowledged
            path.unlink()
            await self.local.start_node("node-3")
            for _ in range(300):
                if len(self.slivers("node-3")) == 12:
                    break
                await asyncio.sleep(0.2)
            self.assertEqual(len(self.slivers("node-3")), 12, self.logs())
            await self.local.end("node-0", kill=True)
            await self.local.end("node-1", kill=True)
            await self.reads_all(network)  # node-2, and what node-3 recovered
            await self.local.start_node("node-0")
            await self.local.start_node("node-1")
        await self.check()

    async def test_a_torn_copy_of_the_ledger_is_made_anew_at_a_start(self) -> None:
        """Even if the torn page has no row that a start reads."""
        await self.local.up(FOUR)
        async with self.local.network() as network:
            first = await self.store(network)
            self.assertTrue(await network.until(lambda it: it.certificate(first) == (0, 4)), self.logs())
            await self.local.end("node-3")
            path = self.folder / "node-3.ledger"
            with contextlib.closing(sqlite3.connect(path)) as base:
                [(page,)] = base.execute("SELECT rootpage FROM sqlite_master WHERE name = 'blobs'")
            with open(path, "r+b") as torn:
                torn.seek(4096 * (page - 1))
                torn.write(b"\xa5" * 4096)
            await self.local.start_node("node-3")
            last = await self.store(network)
            self.assertTrue(await network.until(lambda it: it.certificate(last) == (0, 4)), self.logs())
            await self.local.end("node-0", kill=True)
            await self.local.end("node-1", kill=True)
            await self.reads_all(network)  # node-3 forgot nothing that it had acknowledged
            await self.local.start_node("node-0")
            await self.local.start_node("node-1")
        await self.check()

    async def test_a_hung_node_stalls_no_store(self) -> None:
        self.local.options["heal"] = 1
        await self.local.up(FOUR)
        hung = self.local.processes["node-2"]
        self.addCleanup(lambda: hung.returncode is None and hung.send_signal(signal.SIGCONT))
        async with self.local.network(seconds=1_200) as network:
            await self.store(network)
            hung.send_signal(signal.SIGSTOP)
            for _ in range(6):
                async with asyncio.timeout(300):  # shorter than the wait would be
                    last = await self.store(network)
                self.assertEqual(network.ledger.certificate(last), (0, 3))
            hung.send_signal(signal.SIGCONT)
            for _ in range(300):  # it recovers from the others what it did not take
                if len(self.slivers("node-2")) == 2 * len(self.blobs):
                    break
                await asyncio.sleep(0.2)
            self.assertEqual(len(self.slivers("node-2")), 2 * len(self.blobs), self.logs())
            self.assertTrue(  # and acknowledges it, though no client asks for that any more
                await network.until(lambda it: all(it.certificate(name) == (0, 4) for name in self.blobs)), self.logs()
            )
            await self.reads_all(network)
        await self.check()

    async def test_a_second_process_over_a_database_is_refused(self) -> None:
        await self.local.up(FOUR)
        settings = file.values_of(self.folder / "node-1.toml") | {"port": local.free_port()}
        file.write(Settings, self.folder / "twin.toml", settings)
        async with self.local.network() as network:
            await self.store(network)
            with self.assertRaisesRegex(RuntimeError, "node-1: cannot start: another process runs over .*node-1.db"):
                await self.local.start_node("twin")
            del self.local.processes["twin"]
            await self.store(network)
            await self.local.end("node-1", kill=True)
            await self.local.start_node("node-1")  # the killed process no longer holds the lock
            await self.reads_all(network)
        await self.check()

    async def test_a_byte_flipped_in_the_log_of_a_database_is_found_at_the_start(self) -> None:
        self.local.options["heal"] = 1
        await self.local.up(FOUR)
        async with self.local.network() as network:
            for _ in range(12):
                await self.store(network, 3_000)
            self.assertTrue(
                await network.until(lambda it: all(it.certificate(name) == (0, 4) for name in self.blobs)), self.logs()
            )
            await self.local.end("node-3", kill=True)
            told = file.values_of(self.folder / "node-3.toml") | {"heal": 3_600}
            file.write(Settings, self.folder / "node-3.toml", told)
            path = self.folder / "node-3.db-wal"
            log = bytearray(path.read_bytes())
            log[len(log) // 3] ^= 1
            path.write_bytes(log)
            self.faulty = {"node-3"}  # it forgot what it had acknowledged
            await self.local.start_node("node-3")
            for _ in range(300):
                if len(self.slivers("node-3")) == 24 and "are recovered\n" in self.log("node-3"):
                    break
                await asyncio.sleep(0.2)
            self.assertEqual(len(self.slivers("node-3")), 24, self.logs())
            found = re.search(r"node-3: (\d+) blobs are lacking on the disk", self.log("node-3"))
            self.assertTrue(found and 0 < int(found[1]) <= 12, self.log("node-3"))
            self.assertIn(f"{found[1] if found else 0} of them are recovered", self.log("node-3"))
            await self.local.end("node-0", kill=True)
            await self.local.end("node-1", kill=True)
            await self.reads_all(network)  # node-2, and what node-3 recovered
            await self.local.start_node("node-0")
            await self.local.start_node("node-1")
        self.assertNotIn("are lacking on the disk", self.log("node-0") + self.log("node-1"))
        await self.check()

    async def test_a_clock_that_jumps(self) -> None:
        offset = self.folder / "offset"
        faked = faked_clock(offset)
        if not faked:
            self.skipTest("faketime is not here")
        await self.local.up(FOUR)
        await self.local.end("node-3")
        await self.local.start_node("node-3", environment=faked)
        async with self.local.network() as network:
            for jump in ("+40d", "-40d", "+3000s", "+0"):
                offset.write_text(jump)
                await asyncio.sleep(1.2)
                stored = await self.store(network)
                self.assertTrue(await network.until(lambda it: it.certificate(stored) == (0, 4)), jump)
                await self.reads_all(network)
        await self.check()

"""What one participant may try against the ledger's machines, and batches that a restore cut in other places."""
import asyncio
import contextlib
import io
import json
import pathlib
import socket
import ssl
import tempfile
import threading
import time
import tracemalloc
import unittest
from typing import Any, Optional
from unittest import mock

from aiohttp import streams, test_utils, web
from support.ledger_case import FOUNDED, LedgerCase, Memory, found, registration
from walrus import client
from walrus.network.deploy.local import free_port
from walrus.network.ledger.entries import ADDRESS, Chain, Entry, entry_key
from walrus.network.ledger.follower import Refused
from walrus.network.ledger.rules import Ledger
from walrus.network.peers.seats import FIGURES, Peers, Seat
from walrus.network.recorder import appender, server as recording
from walrus.network.recorder.appender import Broken, Recorder
from walrus.network.recorder.etcd import Batch, Gone
from walrus.network.service import certificates


class Waiting(unittest.IsolatedAsyncioTestCase):
    """Posters to a recorder whose etcd does nothing."""

    async def asyncSetUp(self) -> None:
        asyncio.get_running_loop().set_debug(False)
        self.etcd = Memory()
        self.made = Recorder(self.etcd)
        quiet = self.enterContext(contextlib.redirect_stderr(io.StringIO()))
        self.assertEqual(quiet.getvalue(), "")
        self.enterContext(mock.patch.object(appender, "POLL", 0.01))
        await found(self.etcd)
        self.addCleanup(asyncio.create_task(self.made.run()).cancel)
        self.assertEqual(await self.made.post([FOUNDED]), [1])
        self.etcd.plan = {call: "before" for call in range(self.etcd.calls + 1, self.etcd.calls + 100_000)}

    async def test_who_posted_and_is_gone_leaves_nothing_behind(self) -> None:
        """Otherwise a client that posts again and again would take ever more memory while etcd is away or full."""
        for number in range(5):
            with self.assertRaises(TimeoutError):
                async with asyncio.timeout(0.05):
                    await self.made.post([registration("x", 100 * number + it) for it in range(100)])
        await asyncio.sleep(0)
        self.assertEqual(len(self.made.waiting), 0)
        self.etcd.plan = {}
        self.assertEqual(await self.made.post([registration("x", 0)]), [2])

    async def test_nobody_waits_behind_all_that_another_one_posts(self) -> None:
        self.etcd.plan = {}
        many = [registration("x", number) for number in range(8_000)]  # more than two batches
        flood = self.made.post(many)
        await asyncio.sleep(0)
        places = await asyncio.gather(*(self.made.post([registration(name, 1)]) for name in "yz"))
        ahead = 1 + appender.TOGETHER  # earlier entries and the batch under way; then one entry of each poster
        self.assertLessEqual(max(place for [place] in places), ahead + 1 + len(places))
        self.assertFalse(flood.done())
        self.assertEqual(sorted(await flood), [it for it in range(2, 8_004) if [it] not in places])
        self.assertEqual([it for it in self.etcd.all if it.startswith("x/")], many)  # in their order

    async def test_what_has_no_form_waits_for_nothing(self) -> None:
        """Otherwise it would go before the entries of others, as much as fits a batch for each call of etcd."""
        texts = ["x", "x/" + "y" * 1_000_000, "x/ready/01", "x/register/\ud800/1", ""]
        async with asyncio.timeout(120):
            said = await self.made.post(texts)
        self.assertEqual([str(it) for it in said], ["it does not have the form of an entry"] * 5)
        self.assertTrue(all(isinstance(it, Refused) for it in said))
        self.assertEqual(self.etcd.all, [FOUNDED])


class Bodies(unittest.IsolatedAsyncioTestCase):
    """Bodies at a recorder, which does nothing else while it checks one."""

    async def asyncSetUp(self) -> None:
        asyncio.get_running_loop().set_debug(False)

    async def test_a_name_has_at_most_half_of_the_time_for_its_bodies(self) -> None:
        made = Recorder(Memory())
        self.addCleanup(made.state.close)
        service, taken = recording.Service(made, mock.Mock()), list[tuple[str, float, float]]()

        def take(texts: list[str]) -> "asyncio.Future[list[appender.Answer]]":
            begun = time.monotonic()
            time.sleep(0.05)
            taken.append((texts[0].partition("/")[0], begun, time.monotonic()))
            return asyncio.gather()

        async def post(name: str) -> None:
            request = mock.MagicMock(read=mock.AsyncMock(return_value=b'["ready/1"]'), content_length=11)
            request.__getitem__.return_value = name
            self.assertEqual((await service.post(request)).status, 200)

        with mock.patch.object(made, "post", take):
            await asyncio.gather(*(post("mallory") for _ in range(6)), post("publisher"))
        self.assertEqual([name for name, _, _ in taken], ["mallory", "publisher", *["mallory"] * 5])
        own = [times for name, *times in taken if name == "mallory"]
        for (begun, end), (later, _) in zip(own, own[1:]):
            self.assertGreaterEqual(later - end, 0.99 * (end - begun))

    async def test_of_the_long_bodies_of_a_name_one_is_in_memory(self) -> None:
        """Otherwise whoever sends many at once has all of them in the recorder's memory. Short ones, and those of
        others, are read meanwhile."""
        made = Recorder(Memory())
        self.addCleanup(made.state.close)
        service, goes_on, reads = recording.Service(made, mock.Mock()), asyncio.Event(), list[str]()

        def post(name: str, length: Optional[int], waits: bool) -> "asyncio.Task[object]":
            async def read() -> bytes:
                reads.append(name)
                await (goes_on.wait() if waits else asyncio.sleep(0))
                return b"[]"

            request = mock.MagicMock(read=read, content_length=length)
            request.__getitem__.return_value = name
            return asyncio.create_task(service.post(request))

        lengths = [recording.MOST_BODY, 65_537, None, recording.MOST_BODY]
        long = [post("mallory", length, True) for length in lengths]
        await asyncio.sleep(0.01)
        self.assertEqual(reads, ["mallory"])
        others = [post("mallory", 65_536, False), post("publisher", recording.MOST_BODY, False)]
        async with asyncio.timeout(60):
            await asyncio.gather(*others)
        self.assertEqual((sorted(reads), sum(it.done() for it in long)), (["mallory", "mallory", "publisher"], 0))
        goes_on.set()
        async with asyncio.timeout(60):
            await asyncio.gather(*long)
        self.assertEqual(reads.count("mallory"), 5)

    async def test_no_body_is_in_memory_while_its_entries_wait(self) -> None:
        """They wait for as long as etcd hangs, and a body may be long with one entry in it."""
        made = Recorder(Memory())
        self.addCleanup(made.state.close)
        service = recording.Service(made, mock.Mock())

        def post(number: int) -> "asyncio.Task[web.Response]":
            body = b" " * 1_000_000 + json.dumps([registration("x", number).partition("/")[2]]).encode()
            payload = streams.StreamReader(mock.Mock(_reading_paused=False), 2**16, loop=asyncio.get_running_loop())
            payload.feed_data(body)
            payload.feed_eof()
            fields = {"Content-Length": str(len(body))}
            request = test_utils.make_mocked_request("POST", "/v1/entries", fields, payload=payload)
            request["name"] = "mallory"
            return asyncio.create_task(service.post(request))

        tracemalloc.start()
        self.addCleanup(tracemalloc.stop)
        posts = [post(number) for number in range(20)]
        async with asyncio.timeout(60):
            while len(made.waiting) < len(posts):
                await asyncio.sleep(0.01)
        self.assertLess(tracemalloc.get_traced_memory()[0], 5_000_000)
        for task in posts:
            task.cancel()
        await asyncio.gather(*posts, return_exceptions=True)


class Places(unittest.IsolatedAsyncioTestCase):
    async def asyncSetUp(self) -> None:
        asyncio.get_running_loop().set_debug(False)

    async def test_many_places_are_forgotten_while_others_go_on(self) -> None:
        made, turns = Recorder(Memory()), list[int]()
        texts = [FOUNDED, *(registration("x", number) for number in range(999))]
        for entry in Chain(0, b"").followed(texts):
            made.apply(entry)

        async def others() -> None:
            while True:
                turns.append(1)
                await asyncio.sleep(0)

        task = asyncio.create_task(others())
        await made.state.forget_places(990)
        task.cancel()
        self.assertGreater(len(turns), 200)
        self.assertEqual([made.state.place_of(text) for text in texts], [None] * 990 + [*range(991, 1_001)])
        await made.state.forget_places(5_000)
        self.assertIsNone(made.state.place_of(texts[-1]))
        made.state.close()

    async def test_a_recorder_that_has_read_a_ledger_founds_no_other_one_in_an_empty_etcd(self) -> None:
        made = Recorder(Memory())
        self.addCleanup(made.state.close)
        await made.catch_up()
        self.assertTrue(await made.step(Batch(made.chain, [FOUNDED])))
        made.etcd = empty = Memory()
        with self.assertRaisesRegex(Broken, "etcd has no ledger any more, of which this recorder has read 1 entries"):
            await made.catch_up()
        self.assertEqual(await empty.head(), b"")

    async def test_a_recorder_goes_on_in_the_midst_of_a_batch(self) -> None:
        """A restore cuts batches in other places. If the batch has other entries there, the recorder stops."""
        texts = [FOUNDED, *(registration("x", number) for number in range(5))]
        other = [*texts[:3], registration("y", 9), *texts[4:]]
        for cut, entries, whole in (([1, 3, 6], texts, True), ([6], texts, True), ([2, 6], other, False)):
            etcd, made = Memory(), Recorder(Memory())
            await made.etcd.append(b"", made.head(made.chain))
            await made.catch_up()
            chain = made.chain
            for text in texts[:4]:
                self.assertTrue(await made.step(Batch(made.chain, [text])))
            for first, last in zip([0, *cut], cut):
                batch = Batch(chain, entries[first:last])
                etcd.kept[first + 1], chain = batch, batch.after
            etcd.top, made.etcd = made.head(chain), etcd
            if whole:
                await made.catch_up()
                self.assertEqual(made.chain, chain)
                self.assertEqual(len(made.ledger.blobs), 5)
            else:
                with self.assertRaisesRegex(Broken, "does not follow on what was read"):
                    await made.catch_up()
            made.state.close()


class Addresses(unittest.IsolatedAsyncioTestCase):
    """Addresses that a node may post against everyone who connects to nodes."""

    async def asyncSetUp(self) -> None:
        asyncio.get_running_loop().set_debug(False)

    async def test_an_address_that_leads_nowhere_is_its_node_s_alone(self) -> None:
        with tempfile.TemporaryDirectory() as folder:
            certificates.make_authority(pathlib.Path(folder, "authority"))
            certificates.make(pathlib.Path(folder, "node"), pathlib.Path(folder, "authority"), "b", ["b"])
            context = ssl.create_default_context(ssl.Purpose.CLIENT_AUTH)
            context.load_cert_chain(f"{folder}/node.crt", f"{folder}/node.key")

            async def serve(reader: asyncio.StreamReader, writer: asyncio.StreamWriter) -> None:
                with contextlib.suppress(OSError, EOFError), contextlib.closing(writer):
                    await client.take_envelope(reader, 99)
                    writer.write(client.envelope(b"." + b"{}"))

            server = await asyncio.start_server(serve, "127.0.0.1", 0, ssl=context)
            self.addCleanup(server.close)
            ledger = Ledger()
            peers = Peers(ledger, pathlib.Path(folder, "authority.crt"), 5)
            port = server.sockets[0].getsockname()[1]
            for place, host in enumerate(("a" * 100, "a..b", "::::", "1.2.3.4.5", "a-", ":", "a" * 253)):
                for name, at in (("a", host), ("b", "127.0.0.1")):
                    self.assertEqual(ledger.apply(Entry(place + 1, entry_key(name, ADDRESS, at, port))), "entered")
                with self.assertRaises(ConnectionError):
                    await peers.told("a", FIGURES)
                with self.assertRaises(ConnectionError):
                    await Seat(peers, "a", 0, 1).ask(client.write_frame(client.Read(bytes(32))))
                self.assertEqual(await peers.told("b", FIGURES), {})
            await peers.close()

    async def test_a_name_that_is_looked_up_for_long_is_its_node_s_alone(self) -> None:
        """Otherwise look-ups of all other names would wait for it, also of recorders, as they share a few threads."""
        with tempfile.TemporaryDirectory() as folder:
            certificates.make_authority(pathlib.Path(folder, "authority"))
            ledger, goes_on, asked, usual = Ledger(), threading.Event(), list[str](), socket.getaddrinfo
            self.addCleanup(goes_on.set)

            def look_up(host: str, *words: Any, **more: Any) -> Any:
                asked.append(host)
                if host == "slow.example":
                    goes_on.wait(120)
                return usual("127.0.0.1", *words, **more)

            for place, (name, host) in enumerate((("a", "slow.example"), ("b", "quick.example")), 1):
                self.assertEqual(ledger.apply(Entry(place, entry_key(name, ADDRESS, host, free_port()))), "entered")
            peers = Peers(ledger, pathlib.Path(folder, "authority.crt"), 120)
            slow, read = Seat(peers, "a", 0, 1), client.write_frame(client.Read(bytes(32)))
            with mock.patch.object(socket, "getaddrinfo", look_up):
                waiting = [asyncio.create_task(slow.ask(read)) for _ in range(8)]
                waiting += [asyncio.create_task(peers.told("a", FIGURES)) for _ in range(40)]
                while not asked:
                    await asyncio.sleep(0.01)
                async with asyncio.timeout(60):
                    with self.assertRaisesRegex(ConnectionError, "refused"):
                        await Seat(peers, "b", 1, 1).ask(read)
                    await asyncio.get_running_loop().getaddrinfo("other.example", 1)
                self.assertEqual(asked, ["slow.example", "quick.example", "other.example"])
                goes_on.set()
                said = await asyncio.gather(*waiting, return_exceptions=True)
            self.assertEqual({type(it) for it in said}, {ConnectionError})
            await peers.close()


class Reading(LedgerCase):
    """What a recorder asks of etcd for its followers."""

    async def fill(self, sizes: list[int], text: str) -> list[Chain]:
        """Appends batches of these numbers of entries; returns the chain before each of them and after the last one."""
        asked = self.recorders[0]
        await asked.refresh()
        chains = [asked.chain]
        for size in sizes:
            batch = Batch(chains[-1], [text] * size)
            after = asked.head(batch.after)
            self.assertEqual(await asked.etcd.append(asked.head(chains[-1]), after, batch), (after, []))
            chains.append(batch.after)
        return chains

    async def test_any_place_is_found_in_batches_of_any_size(self) -> None:
        chains = await self.fill([1, 1, 70, 1, 5_000, 2, 25_000, 1], "a/ready/1")
        etcd, last = self.recorders[0].etcd, chains[-1].place
        for before, behind in zip(chains, chains[1:]):
            inside = {before.place, (before.place + behind.place) // 2, behind.place - 1}
            for place in sorted(inside):
                batch = (await etcd.batches(place))[0]
                self.assertEqual((batch.before, batch.after), (before, behind), place)
                found = await self.recorders[1].behind(place)
                self.assertEqual(found[0].before, before.behind(batch.entries[: place - before.place]))
                self.assertEqual([it.after for it in found[:-1]], [it.before for it in found[1:]])
        for place in (last, last + 300_000):
            with self.assertRaises(Gone):
                await etcd.batches(place)

    async def test_a_read_takes_no_more_of_etcd_the_longer_the_ledger_is(self) -> None:
        chains = await self.fill([15] * 200, "x" * 16_000)
        process = self.local.processes["etcd"].pid

        def resident() -> int:
            text = pathlib.Path(f"/proc/{process}/status").read_text()
            return int(text.split("VmHWM:")[1].split()[0]) // 1_000

        before, last = resident(), chains[-1].place
        read = await asyncio.gather(*(self.recorders[0].etcd.batches(last - 1) for _ in range(16)))
        self.assertEqual({it[0].after for it in read}, {chains[-1]})
        self.assertLess(resident() - before, 150)  # MB; the ledger has 48, and each read once took several times that

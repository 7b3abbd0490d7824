"""Followers of a recorder and posters to it, whatever it answers."""
import asyncio
import base64
import contextlib
import hashlib
import json
import pathlib
import shutil
import ssl
import tempfile
import tracemalloc
import zlib
from unittest import mock

from aiohttp import web
from support.ledger_case import FOUNDED, LedgerCase, registration
from walrus.network.deploy.local import Local
from walrus.network.ledger import checkpoint, follower
from walrus.network.ledger.checkpoint import line_of
from walrus.network.ledger.entries import Chain, Entry
from walrus.network.ledger.follower import Parted, Refused, Unreachable, View
from walrus.network.ledger.state import State
from walrus.network.peers.network import Network


class Streams(LedgerCase):
    """A fake recorder that sends given lines, one stream after the other."""

    async def asyncSetUp(self) -> None:
        self.folder = pathlib.Path(tempfile.mkdtemp(prefix="walrus-ledger-"))
        self.addCleanup(shutil.rmtree, self.folder, ignore_errors=True)
        self.local = Local(self.folder)
        self.local.recorders = ["recorder-0", "recorder-1"]
        await self.copy_certificates()
        self.streams, self.asked, self.posts = list[tuple[int, list[object]]](), list[int](), list[tuple[int, object]]()
        app = web.Application()
        app.add_routes([web.get("/v1/entries", self.follow)])
        app.add_routes([web.post(f"/v1/{it}", self.take) for it in ("entries", "tail")])
        runner = web.AppRunner(app)
        await runner.setup()
        self.addAsyncCleanup(runner.cleanup)
        context = ssl.create_default_context(ssl.Purpose.CLIENT_AUTH)
        context.load_cert_chain(self.folder / "recorder-0.crt", self.folder / "recorder-0.key")
        await web.TCPSite(runner, "127.0.0.1", 0, shutdown_timeout=0.1, ssl_context=context).start()
        told = self.local.told() | {"recorders": [f"127.0.0.1:{runner.addresses[0][1]}"]}
        (self.folder / "network.json").write_text(json.dumps(told))
        self.recorders, self.birth = self.user("publisher"), Chain(0, bytes(32))
        self.encoded, self.coding = b"", ""  # a reply that goes first, compressed; what the last follower accepts

    async def follow(self, request: web.Request) -> web.StreamResponse:
        self.coding = request.headers.get("Accept-Encoding", "")
        if sent := self.encoded:
            self.encoded = b""
            return web.Response(body=sent, headers={"Content-Encoding": "deflate"})
        self.asked.append(int(request.query["after"]))
        status, lines = self.streams.pop(0)
        response = web.StreamResponse(status=status)
        await response.prepare(request)
        for line in lines:
            if isinstance(line, float):
                await asyncio.sleep(line)
                continue
            await response.write((line if isinstance(line, bytes) else json.dumps(line).encode()) + b"\n")
        return response

    async def take(self, request: web.Request) -> web.Response:
        status, said = self.posts.pop(0)
        return web.json_response(said, status=status)

    def first(self, chain: Chain) -> dict[str, object]:
        return {"ledger": "00" * 32, "head": 2, "entries": [], "digest": chain.digest.hex()}

    async def test_what_ends_a_stream_passes(self) -> None:
        one, two = self.birth.behind(["a/ready/1"]), self.birth.behind(["a/ready/1", "b/ready/1"])
        begun, more = self.first(self.birth), {"entries": ["a/ready/1"], "digest": one.digest.hex()}
        self.streams = [(503, [{"error": "etcd is slow"}]), (200, []), (200, [b"no JSON"]), (200, [{}]), (500, [b""])]
        self.streams += [(200, [begun]), (200, [begun, more, b"{"]), (200, [self.first(one), {"entries": 7}])]
        self.streams += [(200, [self.first(one), {"entries": ["b/ready/1"], "digest": two.digest.hex()}])]
        found = list[Entry]()
        with mock.patch.object(follower.asyncio, "sleep", mock.AsyncMock()):
            async with contextlib.aclosing(self.recorders.follow(None)) as following:
                async for news in following:
                    found += news.entries
                    if news.chain.place == 2:
                        break
        self.assertEqual(found, [Entry(1, "a/ready/1"), Entry(2, "b/ready/1")])
        self.assertEqual((self.asked, news.chain), ([0] * 7 + [1] * 2, two))

    async def test_another_ledger_and_a_lacking_right_end_who_follows(self) -> None:
        begun, odd = self.first(self.birth), {"entries": ["a/ready/1"], "digest": "11" * 32}
        for status, lines, kind, said in (
            (409, [{"error": "the ledger ends at place 1"}], Parted, "^the ledger ends at place 1$"),
            (403, [{"error": "publisher is expelled"}], Refused, "^publisher is expelled$"),
            (200, [begun, odd], Parted, "the entries up to 1 have another digest than the ledger"),
        ):
            self.streams, view = [(503, [{"error": "x"}]), (status, lines)], View(self.recorders)
            waits = asyncio.create_task(view.until(lambda it: it.now))
            with self.assertRaisesRegex(kind, said):
                await asyncio.wait_for(view.follow(), 20)
            with self.assertRaisesRegex(Unreachable, "the ledger is not followed any more: " + said.strip("^$")):
                await waits

    async def heard(self, view: View, place: int) -> None:
        """Follows until this place is heard, with short pauses."""
        real = asyncio.sleep
        with mock.patch.object(follower.asyncio, "sleep", lambda seconds, *it: real(min(seconds, 0.01), *it)):
            task = asyncio.create_task(view.follow())
            self.assertTrue(await view.until(lambda _: view.chain and view.chain.place >= place, 60))
            task.cancel()
            await asyncio.gather(task, return_exceptions=True)

    def packed(self, made: State, chain: Chain) -> tuple[dict[str, object], list[dict[str, str]]]:
        """What a recorder says of a checkpoint of a state, and the lines of its pieces."""
        pieces = [*made.written()]
        told = self.first(chain) | {"head": chain.place, "place": chain.place, "pieces": len(pieces)}
        told["state"] = hashlib.sha256(b"".join(pieces)).hexdigest()
        return told, [{"piece": base64.b64encode(zlib.compress(it)).decode()} for it in pieces]

    def state(self, count: int) -> tuple[State, list[str], Chain]:
        """Returns the state after a number of entries, the entries, and their chain."""
        made, texts = State(), [FOUNDED, *(registration("x", it) for it in range(count - 1))]
        self.addCleanup(made.close)
        for entry in self.birth.followed(texts):
            made.ledger.apply(entry)
        made.identity, chain = "00" * 32, self.birth.behind(texts)
        made.save(chain)
        return made, texts, chain

    async def test_nothing_behind_what_was_heard_is_taken(self) -> None:
        """A recorder with an older checkpoint would have its followers give up what was acknowledged since, and nodes
        their parts."""
        (_, texts, end), (older, _, before), more = self.state(25), self.state(5), registration("y", 99)
        begun = self.first(self.birth) | {"head": end.place}
        heard = [begun, {"entries": texts, "digest": end.digest.hex()}]
        told, parts = self.packed(older, before)
        odd = told | {"digest": "11" * 32}
        goes_on = self.first(end) | {"head": end.place}
        last = [goes_on, {"entries": [more], "digest": end.behind([more]).digest.hex()}]
        for tail, lines in ((0, [told, *parts]), (0, [odd, *parts]), (2, [told, *parts])):
            with self.subTest(tail=tail, digest=lines[0]["digest"]):
                view = View(self.user("publisher"), State(tail=tail))
                self.addCleanup(view.state.close)
                self.streams, self.asked = [(200, heard), (200, lines), (200, [*last, 9.0])], []
                await self.heard(view, end.place + 1)
                self.assertEqual(self.asked, [0, 25, 25])
                self.assertEqual((len(view.ledger.blobs), view.ledger.revision), (25, end.place + 1))
        view = View(self.user("publisher"), State(tail=2))  # which knows the digest that there was
        self.addCleanup(view.state.close)
        self.streams = [(200, heard), (200, [odd, *parts])]
        with self.assertRaisesRegex(Parted, "^the ledger's first 5 entries are others than were heard before: "):
            await asyncio.wait_for(view.follow(), 60)
        self.assertEqual(len(view.ledger.blobs), 24)

    async def test_what_is_no_checkpoint_is_not_taken_and_costs_nothing(self) -> None:
        """Another recorder is asked then, and what was heard before stays."""
        (_, texts, end), (later, _, last), (other, _, _) = self.state(5), self.state(9), self.state(7)
        begun = self.first(self.birth) | {"head": end.place}
        told, parts = self.packed(later, last)
        bomb, packing = bytearray(), zlib.compressobj(9)
        for _ in range(300):
            bomb += packing.compress(bytes(1_000_000))
        bomb += packing.flush()
        self.assertLess(len(bomb), 300_000)
        cut = zlib.compress(b'["faults",1]\n[7]\n')
        wrong = [[told | {"state": ""}, {"piece": base64.b64encode(bomb).decode()}]]
        wrong += [[told | {"pieces": 10**9}, *parts], [told | {"pieces": 0}], [told | {"pieces": -1}]]
        wrong += [[told | {"state": self.packed(other, last)[0]["state"]}, *self.packed(other, last)[1]]]
        digest = hashlib.sha256(zlib.decompress(cut)).hexdigest()
        wrong += [[told | {"state": digest}, {"piece": base64.b64encode(cut).decode()}]]
        self.streams = [(200, [begun, {"entries": texts, "digest": end.digest.hex()}])]
        self.streams += [*((200, lines) for lines in wrong), (200, [told, *parts, 9.0])]
        view = View(self.user("publisher"))
        self.addCleanup(view.state.close)
        self.asked = []
        tracemalloc.start()
        self.addCleanup(tracemalloc.stop)
        await self.heard(view, last.place)
        self.assertLess(tracemalloc.get_traced_memory()[1], 20_000_000)
        self.assertEqual(self.asked, [0, *[5] * (len(wrong) + 1)])
        self.assertEqual([*view.state.written()], [*later.written()])

    async def test_what_is_no_number_is_not_taken(self) -> None:
        """A place such as NaN would pass as none that lies behind, and stay in the state over restarts. Whatever else
        a recorder makes up does not end its followers either."""
        (_, texts, end), more = self.state(5), registration("y", 99)
        begun, first = self.first(self.birth) | {"head": end.place}, self.first(end) | {"head": end.place}
        wrong: list[object] = [first | {"place": it} for it in (float("nan"), 5.0, True, -(10**30), 10**12, "5")]
        wrong += [first | {"head": float("inf")}, first | {"place": 6, "pieces": float("inf")}]
        wrong += [b"[" * 200_000, b"x" * 3_000_000, {"tail": [], "error": "none"}, {"tail": 10**30, "error": "none"}]
        self.streams = [(200, [begun, {"entries": texts, "digest": end.digest.hex()}])]
        self.streams += [*((200, [it]) for it in wrong)]
        self.streams += [(200, [first, {"entries": [more], "digest": end.behind([more]).digest.hex()}, 9.0])]
        view = View(self.user("publisher"), State(str(self.folder / "state"), tail=2))
        self.addCleanup(view.state.close)
        self.asked = []
        await self.heard(view, end.place + 1)
        self.assertEqual(self.asked, [0, *[5] * (len(wrong) + 1)])

    async def test_a_state_beside_blobs_that_would_fill_the_memory_is_not_taken(self) -> None:
        """Each of its pieces is short enough, but all are in memory together, and are written with each commit."""
        (_, texts, end), (later, _, last) = self.state(5), self.state(9)
        begun = self.first(self.birth) | {"head": end.place}
        told, parts = self.packed(later, last)
        long = [[f"{'a' * 65_000}{number}-{it}" for it in range(16)] for number in range(30)]
        pieces = [b"".join(line_of(["past", it, 0]) for it in names) for names in long]
        packed, text = [zlib.compress(it) for it in pieces], b"".join([*pieces, *later.written()])
        self.assertLess(sum(map(len, packed)), 80_000)
        lines = [*({"piece": base64.b64encode(it).decode()} for it in packed), *parts]
        wrong = told | {"pieces": len(lines), "state": hashlib.sha256(text).hexdigest()}
        self.streams = [(200, [begun, {"entries": texts, "digest": end.digest.hex()}])]
        self.streams += [(200, [wrong, *lines]), (200, [told, *parts, 9.0])]
        view = View(self.user("publisher"))
        self.addCleanup(view.state.close)
        self.asked = []
        await self.heard(view, last.place)
        self.assertEqual((self.asked, len(view.ledger.past)), ([0, 5, 5], 0))
        self.assertEqual([*view.state.written()], [*later.written()])

    async def test_what_a_recorder_compresses_is_not_decompressed(self) -> None:
        """Otherwise a few bytes take much memory before anything has looked at them."""
        _, texts, end = self.state(5)
        begun = self.first(self.birth) | {"head": end.place}
        self.encoded = zlib.compress(bytes(30_000_000), 9)
        self.streams = [(200, [begun, {"entries": texts, "digest": end.digest.hex()}, 9.0])]
        view = View(self.user("publisher"))
        self.addCleanup(view.state.close)
        tracemalloc.start()
        self.addCleanup(tracemalloc.stop)
        await self.heard(view, end.place)
        self.assertEqual((self.encoded, self.coding), (b"", "identity"))
        self.assertLess(tracemalloc.get_traced_memory()[1], 10_000_000)

    async def test_who_begins_to_follow_waits_for_as_long_as_more_comes(self) -> None:
        """A recorder may send a checkpoint or entries for longer than any deadline. One that stops, or breaks off at
        the same place again and again, is given up."""
        made, texts = State(), [FOUNDED, *(registration("x", it) for it in range(20))]
        self.addCleanup(made.close)
        end = self.birth.behind(texts)
        for entry in self.birth.followed(texts):
            made.ledger.apply(entry)
        made.identity = "00" * 32
        made.save(end)
        with mock.patch.object(checkpoint, "LONGEST", 200):
            pieces = [*made.written()]
        slow: list[object] = []
        for number, text in enumerate(texts, 1):
            chain = self.birth.behind(texts[:number])
            slow += [0.2, {"entries": [text], "digest": chain.digest.hex()}]
        begun = self.first(self.birth) | {"head": end.place}
        told = self.first(end) | {"head": end.place, "place": end.place, "pieces": len(pieces)}
        told["state"] = hashlib.sha256(b"".join(pieces)).hexdigest()
        parts = [{"piece": base64.b64encode(zlib.compress(it)).decode()} for it in pieces]
        slowly = [it for part in parts for it in (0.2, part)]
        self.assertGreater(len(parts), 12)
        for lines, comes in (
            ([begun, *slow], True),
            ([told, *slowly], True),
            ([begun, *slow[:6]], False),
            ([told, *slowly[:6]], False),
            ([], False),
        ):
            with self.subTest(lines=len(lines), comes=comes):
                self.assertEqual(await self.enters((200, [*lines, 99.0])), comes)
        self.assertFalse(await self.enters(*[(200, [told, *parts[:9]])] * 99))

    async def enters(self, *streams: tuple[int, list[object]]) -> bool:
        """Returns whether a network begins to follow recorders that send this, with shorter deadlines."""
        self.streams, until, made = [*streams], View.until, Network.__new__(Network)
        View.__init__(made, self.user("publisher"))
        made.late, made.walrus = set(), mock.Mock()
        made.peers = made.holders = mock.AsyncMock()
        short = {20: 2.0, 60: 1.5}
        with mock.patch.object(View, "until", lambda it, holds, seconds: until(it, holds, short[seconds])):
            try:
                async with asyncio.timeout(30), made:
                    return made.caught_up
            except Unreachable:
                return False

    async def test_a_tail_goes_to_the_recorder_that_asked_for_it(self) -> None:
        """Although a post, which a restore answers with 503, has turned to another one meanwhile."""
        self.streams, self.posts = [(200, [{"tail": 3, "error": "it is being restored"}])], [(200, {})]
        self.recorders.known.append((f"https://{follower.NAME}:1/v1/", self.recorders.known[0][1]))

        def tail(place: int, count: int) -> list[Entry]:
            self.recorders.at = 1
            return [Entry(place + 1, "a/ready/1")]

        self.recorders.at, self.recorders.tail = 0, tail
        with self.assertRaisesRegex(Unreachable, "^it is being restored$"):
            async for _ in self.recorders.stream(None, ""):
                pass
        self.assertEqual((self.recorders.at, self.posts), (1, []))

    async def test_a_post_is_tried_again_until_it_is_answered(self) -> None:
        again = [(503, {"error": "etcd is slow"}), (500, "?"), (200, []), (200, {"error": 1}), (429, {"error": "busy"})]
        self.posts = [*again, (200, [{"place": 7}])]
        self.assertEqual(await self.recorders.post("publisher/ready/1"), 7)
        for status in (400, 403, 413):
            self.posts = [(status, {"error": "no"})]
            with self.assertRaisesRegex(Refused, "^no$"):
                await self.recorders.post("publisher/ready/1")
        self.posts = [(200, [{"refused": "only operator may post that"}])]
        with self.assertRaisesRegex(Refused, "^only operator may post that$"):
            await self.recorders.post("publisher/begin/1/1/a,b,c,d")

"""Recorders refuse posters that post what they must not."""
import asyncio
import json
import ssl

import aiohttp
from support.ledger_case import FOUNDED, LedgerCase, Memory, registration
from support.recorder_case import RecorderCase
from walrus.network.deploy.local import make_certificate
from walrus.network.deploy.machine import AUTHORITY, ETCD_AUTHORITY
from walrus.network.ledger.entries import ACK, ADDRESS, OPERATOR, entry_key
from walrus.network.ledger.follower import Recorders, Refused, Unreachable
from walrus.network.service import certificates


class Adversary(LedgerCase):
    async def test_nobody_but_a_recorder_reaches_etcd(self) -> None:
        """So nobody else can delete an entry, compact the history, or write a key."""
        await self.publisher.post(registration("publisher", 1))
        url = self.local.told()["etcd"]["etcd"][0]
        for name in ("", "publisher", OPERATOR):
            for path in ("kv/range", "kv/put", "kv/deleterange", "kv/compaction", "maintenance/alarm", "kv/txn"):
                async with aiohttp.ClientSession() as session:
                    with self.assertRaises((aiohttp.ClientError, ssl.SSLError), msg=f"{name} {path}"):
                        await session.post(f"{url}/v3/{path}", json={}, ssl=self.context(name))
        for method in ("DELETE", "PUT", "PATCH", "OPTIONS", "TRACE"):
            for path in ("/v1/entries", "/v1/entries/1", "/walrus/1", "/", "/v3/kv/deleterange", "/v1/status"):
                status, said = await self.ask("publisher", method, path)
                self.assertIn((status, "error" in said), {(404, True), (405, True)}, f"{method} {path}")
        async with self.following(self.user("publisher")) as view:
            self.assertEqual(len(view.ledger.blobs), 1)

    async def test_who_has_no_certificate_of_the_network_is_not_heard(self) -> None:
        make_certificate(self.folder, "users/stranger", by=ETCD_AUTHORITY)
        certificates.make(self.folder / "users" / "old", self.folder / AUTHORITY, "old", ["old"], days=-0.01)
        for name in ("", "stranger", "old"):
            with self.assertRaises((aiohttp.ClientError, ssl.SSLError), msg=name):
                await self.ask(name, "POST", "/v1/entries", json=[])
        with self.assertRaises(Unreachable) as caught:
            await self.user("stranger").post(registration("stranger", 1), seconds=1)
        self.assertRegex(
            str(caught.exception), "no recorder took stranger/register/0+1/5 within 1 s: .*(SSL|TLS|certificate|reset)"
        )

    async def test_a_server_that_is_no_recorder_is_not_believed(self) -> None:
        mallory = await self.newcomer("mallory")
        self.assertGreater(await mallory.post(registration("mallory", 1)), 0)
        context = ssl.create_default_context(ssl.Purpose.CLIENT_AUTH)
        context.load_cert_chain(self.folder / "users" / "mallory.crt", self.folder / "users" / "mallory.key")
        server = await asyncio.start_server(lambda *_: self.fail("it is believed"), "127.0.0.1", 0, ssl=context)
        own = str(self.folder / "users" / "publisher")
        place = f"127.0.0.1:{server.sockets[0].getsockname()[1]}"
        asked = Recorders([place], str(self.folder / "authority.crt"), f"{own}.crt", f"{own}.key")
        self.addAsyncCleanup(asked.aclose)
        with self.assertRaises(Unreachable) as caught:
            await asked.post(registration("publisher", 1), seconds=1)
        self.assertIn("certificate", str(caught.exception))
        server.close()

    async def test_an_operator_sees_how_large_the_ledger_is(self) -> None:
        _, told = await self.ask(OPERATOR, "GET", "/v1/status")
        self.assertTrue(0 < told["etcd"]["used"] <= told["etcd"]["bytes"], told)

    async def test_nobody_posts_in_another_s_name(self) -> None:
        mallory = await self.newcomer("mallory")
        for text in (FOUNDED, entry_key("node-0", ACK, 0, "00" * 32), entry_key("node-1", ADDRESS, "127.0.0.1", 1)):
            status, said = await self.ask("mallory", "POST", "/v1/entries", json=[text, f"../{text}", f"/{text}"])
            self.assertEqual((status, [*map(sorted, said)]), (200, [["refused"]] * 3))
        with self.assertRaises(Refused) as caught:
            await mallory.post(entry_key("mallory", "begin", 1, 1, "a,b,c,d"))
        self.assertEqual(str(caught.exception), "only operator may post that")
        await mallory.post(entry_key("mallory", ADDRESS, "127.0.0.1", 9))
        async with self.following(self.user("publisher")) as view:
            self.assertEqual((view.ledger.addresses, view.ledger.moving), ({"mallory": ("127.0.0.1", 9)}, False))

    async def test_what_is_malformed_is_refused_and_costs_nothing(self) -> None:
        await self.newcomer("mallory")
        many = [registration("x", number).partition("/")[2] for number in range(100_000)]
        bodies = [
            b"",
            b"{",
            b"{}",
            b"null",
            b"[1]",
            b'[["register"]]',
            b"\xff\xfe",
            b"[" * 100_000,
            b'["' + b"x" * 2**20,
        ]
        for body in [*bodies, json.dumps(many).encode(), json.dumps(many[:5_000]).encode()]:
            status, said = await self.ask("mallory", "POST", "/v1/entries", data=body)
            self.assertIn(status, (400, 413), body[:20])
            self.assertEqual([*said], ["error"])
        texts = [
            "",
            "/",
            "register",
            "register/",
            many[0] + "\n",
            many[0] + "/",
            "REGISTER" + many[0][8:],
            "ack/0/" + "0" * 63,
        ]
        texts += [f"register/{'00' * 32}/{it}" for it in ("-1", "05", "65537", "1e3", "٣", "")]
        texts += [
            "address/a b/1",
            "address//1",
            "address/host/65536",
            "address/ho\0st/1",
            "address/\ud800/1",
            "\ud800",
            "begin/1/1/" + "a," * 9_000 + "a",
        ]
        status, said = await self.ask("mallory", "POST", "/v1/entries", json=texts)
        self.assertEqual((status, {tuple(it) for it in said}), (200, {("refused",)}))
        for after in ("-1", "x", "1e9", "99999999999999999999"):
            self.assertEqual((await self.ask("mallory", "GET", f"/v1/entries?after={after}"))[0], 400)
        for after in (9, 100_000_000, 999_999_999_999):
            self.assertEqual((await self.ask("mallory", "GET", f"/v1/entries?after={after}"))[0], 409)
        async with self.following(self.user("publisher")) as view:
            self.assertEqual(view.chain.place, 1)

    async def test_a_poster_has_its_share_and_others_are_not_kept_waiting(self) -> None:
        mallory = await self.newcomer("mallory")
        await self.operator.post(entry_key(OPERATOR, "share", "mallory", 3_000))
        posts = [mallory.post(registration("mallory", number), 300) for number in range(1, 9_001)]
        flood = [*map(asyncio.create_task, posts)]
        await flood[0]
        await self.publisher.post(registration("publisher", 10**6), 300)
        self.assertFalse(flood[-1].done())
        said = await asyncio.gather(*flood, return_exceptions=True)
        self.assertEqual(sum(isinstance(it, int) for it in said), 3_000)
        refused = {str(it) for it in said if isinstance(it, Refused)}
        self.assertEqual(refused, {"mallory has used its share of 3000 registrations in this epoch"})
        await self.operator.post(entry_key(OPERATOR, "share", "mallory", 3_001))
        await mallory.post(registration("mallory", 9_001))
        async with self.following(self.user("publisher")) as view:
            self.assertEqual(len(view.ledger.blobs), 3_002)

    async def test_who_is_expelled_posts_and_follows_no_more(self) -> None:
        mallory = await self.newcomer("mallory")
        await mallory.post(registration("mallory", 1))
        await self.operator.post(entry_key(OPERATOR, "expel", "mallory"))
        with self.assertRaises(Refused) as caught:
            await mallory.post(registration("mallory", 2))
        self.assertEqual(str(caught.exception), "mallory is expelled")
        async with asyncio.timeout(120):  # until this recorder has heard it
            while (await self.ask("mallory", "GET", "/v1/entries", recorder=0))[0] != 403:
                await asyncio.sleep(0.05)
        async with self.following(self.user("publisher")) as view:
            self.assertEqual(len(view.ledger.blobs), 1)

    async def test_asking_again_gives_the_first_place(self) -> None:
        texts = [registration("publisher", number) for number in range(50)]
        users = [self.user("publisher", only) for only in (0, 1, 0, 1)]
        said = await asyncio.gather(*(user.post(text) for user in users for text in texts))
        self.assertEqual(said, said[:50] * 4)
        self.assertEqual(sorted(said[:50]), [*range(2, 52)])
        there, back = (entry_key("publisher", ADDRESS, "127.0.0.1", port) for port in (1, 2))
        self.assertEqual([await users[0].post(it) for it in (there, there, back, back, there)], [52, 52, 53, 53, 54])
        async with self.following(users[1]) as view:
            self.assertEqual(view.ledger.addresses["publisher"], ("127.0.0.1", 1))


class Judged(RecorderCase):
    async def test_what_a_batch_takes_back_is_appended_anew(self) -> None:
        """As when etcd hangs, and meanwhile a node is started at another address and then at its old one again."""
        here, there = (entry_key("node-0", ADDRESS, host, 1) for host in ("alpha", "beta"))
        for known, texts in (([here], [there, here]), ([], [here, there, here]), ([], [here, there, here, there])):
            self.etcd = Memory()
            made = await self.recorder(FOUNDED, *known)
            taken = made.post(texts)
            while not taken.done():
                await made.append()
            first = made.chain.place - len(texts) + 1
            self.assertEqual(await taken, [*range(first, first + len(texts))])
            self.assertEqual(made.ledger.addresses, {"node-0": (texts[-1].split("/")[2], 1)})

    async def test_what_is_refused_takes_nothing_of_its_poster_s_share(self) -> None:
        made = await self.recorder(FOUNDED, entry_key(OPERATOR, "share", "x", 2))
        texts = [
            *(registration("x", number, until=0) for number in range(9)),
            *(registration("x", it) for it in (1, 2, 3)),
        ]
        taken = made.post(texts)
        await made.append()
        *past, first, second, third = await taken
        self.assertEqual({*map(str, past)}, {"that epoch is past"})
        self.assertEqual((first, second), (3, 4))
        self.assertEqual(str(third), "x has used its share of 2 registrations in this epoch")

"""Customers of a gateway: their tokens, what these allow, and their shares."""
import asyncio
import importlib.util
import json
import os
from typing import Any
from unittest import mock

from support.guard_case import EVIL, GuardCase
from support.harness import HERE
from walrus.network.gateway.auth import shares, tokens


class Customers(GuardCase):
    async def test_rights(self) -> None:
        reader, writer = self.token("reader", "read"), self.token("writer", "store")
        await self.start()
        name = "0" * 64
        self.files[name] = b"there"
        paths = [
            ("GET", f"/v1/blobs/{name}"),
            ("HEAD", f"/v1/blobs/{name}"),
            ("GET", "/v1/blobs"),
            ("GET", "/v1/status"),
        ]
        paths += [("GET", "/metrics")] if importlib.util.find_spec("prometheus_client") else []
        for method, path in paths:
            found = [(await self.ask(method, path, headers=it))[0] for it in ({}, reader, writer)]
            self.assertEqual(found, [200, 200, 403], path)
        self.assertEqual([await self.put(headers=it) for it in ({}, reader, writer)], [401, 403, 201])
        for path in (f"/v1/extend/{name}?epochs=1", "/v1/bundles?epochs=1"):
            self.assertEqual([(await self.ask("POST", path, headers=it))[0] for it in ({}, reader)], [401, 403])
        self.assertEqual(len(self.stored), 1)
        self.token("anyone", "none")
        for method, path in paths:
            found = [(await self.ask(method, path, headers=it))[0] for it in ({}, reader)]
            self.assertEqual(found, [401, 200], path)
        for path in ("/", "/livez", "/readyz", "/v1/api"):
            self.assertEqual((await self.ask("GET", path))[0], 200)
        status, headers, told = await self.ask("GET", "/v1/blobs")
        self.assertEqual((headers["www-authenticate"], told["error"]["status"]), ('Bearer realm="walrus"', 401))

    async def test_what_needs_a_token_stays_out_of_shared_caches(self) -> None:
        await self.start()
        self.files["0" * 64], alice = b"there", {}
        for right, kept in (("", "public"), ("read", "public"), ("none", "private"), ("store", "private")):
            if right:
                alice = self.token("alice")
                self.token("anyone", right)
            for path in (f"/v1/blobs/{'0' * 64}", f"/v1/folders/{'0' * 64}"):
                _, headers, _ = await self.ask("GET", path, headers=alice, allow_redirects=False)
                self.assertRegex(headers["cache-control"], f"^{kept}, max-age=[0-9]+", (right, path))

    async def test_what_is_no_token_is_refused(self) -> None:
        good = self.token("alice")["Authorization"]
        await self.start()
        text = good.removeprefix("Bearer ")
        bad = ["Bearer", "Bearer ", f"Bearer {text[:-1]}", f"Bearer {text}x", f"Basic {text}", text, "Bearer \u00ff"]
        stored = json.loads((self.folder / "tokens.json").read_text())["alice"]["sha256"]
        for shown in [*bad, f"Bearer {stored}"]:
            for method in ("PUT", "GET"):
                status, headers, _ = await self.ask(method, "/v1/blobs", headers={"Authorization": shown})
                self.assertEqual((status, 'error="invalid_token"' in headers["www-authenticate"]), (401, True), shown)
        self.assertEqual(await self.put(headers={"Authorization": good.replace("Bearer", "bearer")}), 201)
        twice: Any = [("Authorization", good), ("Authorization", "Bearer x")]
        self.assertEqual(await self.put(headers=twice), 401)
        self.assertNotIn(text, (self.folder / "tokens.json").read_text())
        with mock.patch.object(tokens.hmac, "compare_digest", return_value=False) as compared:
            self.assertEqual(await self.put(headers={"Authorization": good}), 401)
        self.assertEqual(compared.call_count, 1)  # compared in constant time

    async def test_tokens_change_while_it_runs(self) -> None:
        await self.start()
        self.assertEqual(await self.put(), 201)
        alice = self.token("alice")
        self.assertEqual([await self.put(headers=it) for it in ({}, alice)], [401, 201])
        again = self.token("alice", "store")
        self.assertEqual([await self.put(headers=it) for it in (alice, again)], [401, 201])
        path = self.folder / "tokens.json"
        good = path.read_text()
        for bad in ("{", "[]", '{"a": 1}', '{"x": {"rights": ["all"], "sha256": "00"}}', ""):
            path.write_text(bad)
            self.assertEqual([await self.put(headers=it) for it in ({}, again)], [401, 201], bad)
        path.unlink()  # losing the file opens nothing
        self.assertEqual([await self.put(headers=it) for it in ({}, again)], [401, 201])
        path.write_text(good)
        tokens.change_token(path, "alice", None)
        self.assertEqual(await self.put(headers=again), 401)
        for bad in (
            "{",
            '{"x": {"rights": ["all"], "sha256": "00"}}',
            '{"x": {"rights": [], "sha256": "' + "0" * 64 + '", "byte": 1}}',
        ):
            path.write_text(bad)
            with self.assertRaisesRegex(ValueError, "tokens.json has no tokens that can be read"):
                tokens.Tokens(path, path, path.with_suffix(".used"))

    async def test_a_file_of_tokens_that_is_named_must_be_there(self) -> None:
        """Otherwise anyone may read if its name is misspelt or it is lost. The default one may be made later."""
        named = self.folder / "named.json"
        with self.assertRaisesRegex(ValueError, "named.json is not there: bring it back, or make a first token"):
            await self.start(tokens=str(named))
        tokens.change_token(named, "alice", {"rights": ["store"]})
        await self.start(tokens=str(named))
        self.assertEqual(await self.put(), 401)
        await self.start(tokens=str(self.folder / "." / "tokens.json"))
        self.assertEqual(await self.put(), 201)

    async def test_tokens_that_are_lost_while_it_is_stopped_open_nothing(self) -> None:
        """Without tokens anyone may read; that there have been some is known by the file of what they have used."""
        default, used = self.folder / "tokens.json", self.folder / "kept" / "tokens.used"
        used.parent.mkdir()
        founded: dict[str, Any] = {"tokens": str(default), "used": str(used)}
        for options in (dict[str, Any](), founded):
            await self.start(**options)
            self.assertEqual(await self.put(), 201)  # there have been none
            self.token("alice", "read")
            self.assertEqual(await self.put(), 401)
            default.unlink()
            with self.assertRaisesRegex(ValueError, "tokens.json is not there, but .*tokens.used is.*: bring it back"):
                await self.start(**options)
        used.unlink()
        await self.start(**founded)
        self.assertEqual(await self.put(), 201)

    async def test_a_share_ends(self) -> None:
        alice, bob = self.token("alice", bytes=1_000, blobs=4), self.token("bob", epochs=3)
        await self.start()
        self.assertEqual(await self.put(bytes(600), headers=alice), 201)
        self.assertEqual(self.used("alice"), (600, 1))

        async def parts():  # type: ignore[no-untyped-def]
            for _ in range(5):
                yield bytes(100)

        for data in (bytes(401), parts()):
            status, _, told = await self.ask("PUT", "/v1/blobs?epochs=1", data=data, headers=alice)
            self.assertEqual(status, 403)
            form = r"^alice has used \d+ of 1000 bytes and \d of 4 blobs of epoch 0"
            self.assertRegex(told["error"]["text"], form)
            self.assertEqual(self.used("alice"), (600, 1))
        self.assertEqual(await self.put(bytes(300), headers=alice), 201)
        self.was_there = True
        self.assertEqual(await self.put(bytes(90), headers=alice), 200)
        self.assertEqual(self.used("alice"), (900, 2))
        self.was_there = False
        for _ in range(2):
            self.assertEqual(await self.put(b"", headers=alice), 201)
        self.assertEqual(await self.put(b"", headers=alice), 403)
        self.assertEqual(self.used("alice"), (900, 4))
        self.assertEqual([await self.put(epochs=it, headers=bob) for it in (3, 4)], [201, 400])
        await self.gateway.close()
        await self.start()
        self.assertEqual(await self.put(b"", headers=alice), 403)  # a restart forgets nothing
        with mock.patch.object(type(self.network.ledger), "writing_epoch", 1):
            self.assertEqual(await self.put(b"", headers=alice), 201)

    async def test_an_upload_counts_where_it_began(self) -> None:
        self.token("alice", bytes=1_000)
        alice, kept = tokens.read_tokens(self.folder / "tokens.json")["alice"], shares.Shares(self.folder / "used")
        self.addCleanup(kept.close)
        charge = shares.Charge(kept, alice, 0)
        for size in (600, 400):
            charge.add(size)
            self.assertTrue(kept.take(alice, 1, 1, 1))  # other uploads begin in the next epoch meanwhile
        for size, epoch in ((1, 0), (999, 1)):
            self.assertFalse(kept.take(alice, epoch, size, 1))
        self.assertTrue(kept.take(alice, 5_000, 1, 1))
        self.assertFalse(kept.take(alice, 0, 1, 1))  # an epoch whose count was dropped does not begin anew
        self.assertEqual(kept.base.execute("SELECT name, epoch FROM used").fetchall(), [("alice", 5_000)])

    async def test_a_bundle_costs_its_own_length(self) -> None:
        alice = self.token("alice", bytes=2_500, blobs=9)
        await self.start()
        words = {"headers": alice}
        status, _, told = await self.ask("POST", "/v1/bundles?epochs=1", data=self.form(b"1", bytes(999)), **words)
        self.assertEqual((status, self.stored, self.used("alice")), (403, [], (0, 0)))  # it has three columns
        self.assertIn("of 2500 bytes", told["error"]["text"])
        status, _, told = await self.ask("POST", "/v1/bundles?epochs=1", data=self.form(b"1", bytes(600)), **words)
        self.assertEqual((status, self.used("alice")), (201, (len(self.stored[0]), 1)))
        self.assertGreaterEqual(len(self.stored[0]), 3 * 600)

    async def test_a_form_that_breaks_off_costs_nothing_however_long_it_is(self) -> None:
        alice = self.token("alice", bytes=9_000, blobs=9)
        await self.start()
        head = b'--x\r\nContent-Disposition: form-data; name="a"; filename="a"\r\n\r\n'
        kind = {"Content-Type": "multipart/form-data; boundary=x"}
        with mock.patch.object(shares, "PIECE", 1_000):
            found = await self.ask("POST", "/v1/bundles?epochs=1", data=head + bytes(2_500), headers={**alice, **kind})
        self.assertEqual((found[0], self.used("alice"), self.stored), (400, (0, 0), []))

    def used(self, name: str) -> tuple[int, int]:
        made = shares.Shares(self.folder / "tokens.used")
        self.addCleanup(made.close)
        return made.used(name, 0)

    async def test_who_asks_before_sending_sends_nothing_in_vain(self) -> None:
        alice = self.token("alice", bytes=10)["Authorization"]
        await self.start()
        for shown, size, first in (
            ("Bearer x", 9, b"401"),
            (alice, 11, b"403"),
            (alice, 9, b"100"),
            (alice, 9, b"403"),
        ):
            reader, writer = await asyncio.open_connection("127.0.0.1", self.port)
            head = f"PUT /v1/blobs?epochs=1 HTTP/1.1\r\nHost: x\r\nAuthorization: {shown}\r\nExpect: 100-Continue\r\n"
            writer.write(f"{head}Content-Length: {size}\r\nConnection: close\r\n\r\n".encode())
            async with asyncio.timeout(120):
                self.assertEqual((await reader.readuntil(b"\r\n"))[9:12], first)
                if first == b"100":
                    writer.write(bytes(size))
                    self.assertIn(b"HTTP/1.1 201", await reader.read())
            writer.close()
        self.assertEqual(self.stored, [bytes(9)])

    async def test_the_command(self) -> None:
        await self.start()
        folder = ("--folder", str(self.folder))
        self.assertEqual(await self.net(0, "token", "anyone", "--rights", "none", *folder), "")
        token = (await self.net(0, "token", "carol", "--rights", "read", "--bytes", "5", *folder)).split("\n")[0]
        self.assertGreater(len(token), 40)
        self.assertEqual((await self.ask("GET", "/v1/blobs", headers={"Authorization": f"Bearer {token}"}))[0], 200)
        self.assertIn("a client without a token may not read", await self.net(1, "list"))
        self.assertEqual(await self.net(0, "list", token=token), "")
        told = json.loads((self.folder / "tokens.json").read_text())
        self.assertEqual(told["carol"] | {"sha256": ""}, {"sha256": "", "rights": ["read"], "bytes": 5})
        for words in (("carol", "--rights", "all"), ("x y",), ("a/b",), ("carol", "--epochs", "-1")):
            await self.net(1, "token", *words, *folder)
        self.assertEqual(told, json.loads((self.folder / "tokens.json").read_text()))
        await self.net(0, "token", "carol", "--remove", *folder)
        self.assertIn("not known here", await self.net(1, "list", token=token))
        self.assertIn("no token of carol", await self.net(1, "token", "carol", "--remove", *folder))

    async def net(self, status: int, *words: str, token: str = "") -> str:
        """Returns the output of walrus-net, and checks its exit status."""
        environment = {**os.environ, "WALRUS_GATEWAY": self.url, "WALRUS_TOKEN": token}
        pipe = {"stdout": asyncio.subprocess.PIPE, "stderr": asyncio.subprocess.STDOUT}
        line = [str(HERE.parent / "walrus-net"), *words]
        process = await asyncio.create_subprocess_exec(*line, env=environment, **pipe)  # type: ignore[arg-type]
        said, _ = await process.communicate()
        self.assertEqual(process.returncode, status, said)
        return said.decode()

    async def test_what_is_used_must_be_kept(self) -> None:
        alice = self.token("alice", bytes=1_000)
        (self.folder / "tokens.used").mkdir()
        await self.start()
        self.assertEqual((await self.put(headers=alice), self.stored), (503, []))
        (self.folder / "tokens.used").rmdir()
        self.assertEqual(await self.put(headers=alice), 201)
        assert self.gateway.publisher.shares
        self.gateway.publisher.shares.base.execute("DROP TABLE used")
        self.assertEqual((await self.put(headers=alice), len(self.stored)), (503, 1))

    async def test_who_shares_one_account_at_once_gets_no_more(self) -> None:
        alice = self.token("alice", bytes=1_000)
        await self.start()
        found = await asyncio.gather(*(self.put(bytes(100), headers=alice) for _ in range(30)))
        self.assertEqual((found.count(201), found.count(403)), (10, 20))
        self.assertEqual(sum(map(len, self.stored)), 1_000)

    async def test_a_broken_upload_costs_what_it_may_have_stored(self) -> None:
        alice = self.token("alice", bytes=1_000_000)
        with mock.patch.object(shares, "PIECE", 1_000):
            await self.start()
            for size, cost in ((400, (0, 0)), (1_000, (0, 0)), (2_500, (2_000, 2))):
                before = self.used("alice")
                _, writer = await asyncio.open_connection("127.0.0.1", self.port)
                shown = f"PUT /v1/blobs?epochs=1 HTTP/1.1\r\nHost: x\r\nAuthorization: {alice['Authorization']}\r\n"
                writer.write(f"{shown}Content-Length: 9000\r\n\r\n".encode() + bytes(size))
                await writer.drain()
                async with asyncio.timeout(120):
                    while self.used("alice")[0] < before[0] + size:
                        await asyncio.sleep(0.02)
                    writer.close()
                    while self.used("alice") != (before[0] + cost[0], before[1] + cost[1]):
                        await asyncio.sleep(0.02)
            self.assertEqual(await self.put(bytes(2_500), headers=alice), 201)
            self.assertEqual(self.used("alice"), (4_500, 2 + 4))  # three pieces, and their list

    async def test_pages_from_elsewhere_may_show_a_token(self) -> None:
        alice = self.token("alice")
        await self.start()
        asked = {**EVIL, "Access-Control-Request-Method": "PUT", "Access-Control-Request-Headers": "authorization"}
        status, headers, _ = await self.ask("OPTIONS", "/v1/blobs", headers=asked)
        self.assertEqual((status, headers["access-control-allow-origin"]), (204, "*"))
        self.assertIn("Authorization", headers["access-control-allow-headers"])
        self.assertIn("PUT", headers["access-control-allow-methods"])
        _, headers, _ = await self.ask("PUT", "/v1/blobs?epochs=1", data=b"x", headers=EVIL | alice)
        self.assertEqual(headers["access-control-allow-origin"], "*")
        self.token("anyone", "read,store")
        self.assertEqual([await self.put(headers=it) for it in ({}, EVIL, EVIL | alice)], [201, 403, 201])

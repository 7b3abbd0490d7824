"""Access to a gateway without tokens, by pages of other origins and strangers; its log, and TLS."""
import asyncio
import contextlib
import io
import json
import logging
import re
import ssl
import unittest
from typing import Any
from unittest import mock

import aiohttp
from support.guard_case import EVIL, GuardCase, other_address
from walrus.network.deploy.local import make_certificate
from walrus.network.gateway.http import access_log
from walrus.network.service.certificates import make_authority
from walrus.network.service.names import is_inner


class Own(GuardCase):
    """Without a file of tokens."""

    async def test_a_page_from_elsewhere_stores_nothing(self) -> None:
        await self.start(names=["blobs.example"])
        for headers in (
            EVIL,
            {"Origin": "null"},
            {"Origin": f"http://127.0.0.1:{self.port + 1}"},
            {"Sec-Fetch-Site": "cross-site"},
        ):
            for method, path, data in (
                ("PUT", "/v1/blobs?epochs=1", b"x"),
                ("POST", "/v1/bundles?epochs=1", {"a": "1"}),
            ):
                status, found, told = await self.ask(method, path, data=data, headers=headers)
                self.assertEqual((status, "access-control-allow-origin" in found), (403, False), headers)
                self.assertIn("a page from elsewhere", told["error"]["text"])
        for name in (
            "evil.example",
            f"evil.example:{self.port}",
            "127.0.0.1:1",
            f"127.0.0.1.evil.example:{self.port}",
            "",
        ):
            self.assertEqual(await self.put(headers={"Host": name}), 421, name)
        for method in ("POST", "PUT"):
            for path in (f"/v1/extend/{'0' * 64}?epochs=1", f"/v1/challenges/{'0' * 64}/node-0"):
                self.assertIn((await self.ask(method, path, headers=EVIL))[0], (403, 405))
        self.assertEqual(self.stored, [])
        own = f"127.0.0.1:{self.port}"
        for headers in (
            {},
            {"Host": f"localhost:{self.port}"},
            {"Origin": f"http://{own}"},
            {"Sec-Fetch-Site": "same-origin"},
        ):
            self.assertEqual(await self.put(headers=headers), 201, headers)
        for host in ("blobs.example", "BLOBS.example:8080"):
            self.assertEqual(await self.put(headers={"Host": host, "Origin": "https://blobs.example"}), 201)
        self.assertEqual(len(self.stored), 6)

    async def test_another_name_for_this_machine_reads_files_alone(self) -> None:
        await self.start(names=["blobs.example"])
        await self.put()
        [name] = self.files
        own = f"127.0.0.1:{self.port}", f"localhost:{self.port}", "blobs.example"
        other = "evil.example", f"evil.example:{self.port}", ""
        for path in ("/v1/blobs", "/v1/status", f"/v1/status/{name}", "/metrics"):
            for method in ("GET", "HEAD"):
                found = [(await self.ask(method, path, headers={"Host": it}))[0] for it in own + other]
                self.assertEqual((found[3:], 421 in found[:3]), ([421] * 3, False), path)
        for path in (f"/v1/blobs/{name}", "/", "/livez"):
            self.assertEqual((await self.ask("GET", path, headers={"Host": "evil.example"}))[0], 200, path)
        for headers in (self.token("alice"), self.token("bob", "read")):
            self.assertEqual((await self.ask("GET", "/v1/blobs", headers=headers | {"Host": "evil.example"}))[0], 200)
        self.assertEqual((await self.ask("GET", "/v1/blobs", headers={"Host": "evil.example"}))[0], 421)

    @unittest.skipUnless(is_inner(other_address()), "this machine has no address in a network of its own")
    async def test_another_name_for_an_inner_address_reads_files_alone(self) -> None:
        """A page from outside can point its own name at that address, and then has the gateway's origin."""
        await self.start(other_address(), names=["blobs.example"])
        self.files["0" * 64] = b"there"
        own = f"{other_address()}:{self.port}", "192.168.7.7:8080", "192.168.7.7", "[fd00::7]:8080", "blobs.example"
        other = "evil.example", f"evil.example:{self.port}", "localhost", "1.2.3.4.evil.example", "0x7f.1", ""
        for path in ("/v1/blobs", "/v1/status", f"/v1/status/{'0' * 64}", "/metrics"):
            found = {it: (await self.ask("GET", path, headers={"Host": it}))[0] for it in own + other}
            self.assertEqual({it for it in found if found[it] == 421}, {*other}, path)
        for path in (f"/v1/blobs/{'0' * 64}", "/", "/livez"):
            self.assertEqual((await self.ask("GET", path, headers={"Host": "evil.example"}))[0], 200, path)
        told = self.token("bob", "read") | {"Host": "evil.example"}
        self.assertEqual((await self.ask("GET", "/v1/blobs", headers=told))[0], 200)

    async def test_at_an_address_of_everybody_any_name_reads(self) -> None:
        await self.start()
        with mock.patch.object(self.gateway.guard, "place", lambda _: ("8.8.8.8", 80)):
            self.assertEqual((await self.ask("GET", "/v1/blobs", headers={"Host": "any.example"}))[0], 200)

    async def test_what_a_page_from_elsewhere_may_read(self) -> None:
        await self.start()
        await self.put()
        [name] = self.files
        for path, shared in (
            (f"/v1/blobs/{name}", True),
            ("/v1/blobs", False),
            ("/v1/status", False),
            ("/metrics", False),
        ):
            for method in ("GET", "OPTIONS"):
                asked = {**EVIL, "Access-Control-Request-Method": "GET"}
                status, headers, _ = await self.ask(method, path, headers=asked)
                self.assertEqual(status, 204 if method == "OPTIONS" else 200, path)
                self.assertEqual(headers.get("access-control-allow-origin"), "*" if shared else None, (method, path))
        for method, path in (("PUT", "/v1/blobs"), ("POST", "/v1/bundles"), ("PUT", f"/v1/blobs/{name}")):
            asked = {**EVIL, "Access-Control-Request-Method": method}
            _, headers, _ = await self.ask("OPTIONS", path, headers=asked)
            self.assertNotIn("access-control-allow-methods", headers)
            self.assertIn(method, headers["allow"])

    @unittest.skipUnless(other_address(), "this machine has no other address than that of itself")
    async def test_a_stranger_reads_and_stores_nothing(self) -> None:
        await self.start(other_address())
        status, _, told = await self.ask("PUT", "/v1/blobs?epochs=1", data=b"x")
        self.assertEqual((status, self.stored), (403, []))
        self.assertIn("walrus-net token", told["error"]["text"])
        for lie in ({"X-Forwarded-For": "127.0.0.1"}, {"Forwarded": "for=127.0.0.1"}, {"Host": "localhost"}):
            self.assertIn(await self.put(headers=lie), (403, 421), lie)
        self.assertEqual(((await self.ask("GET", "/v1/blobs"))[0], self.stored), (200, []))
        token = self.token("alice")
        self.assertEqual(await self.put(headers=token), 201)

    async def test_a_head_that_takes_long_to_parse_is_refused(self) -> None:
        await self.start()
        self.assertEqual(await self.put(b"12345"), 201)
        [name] = self.files
        usual = {"Accept": "text/html,application/xml;q=0.9,image/webp,*/*;q=0.8", "Cookie": "a=b; " * 100}
        for field, text in (
            ("Range", "bytes=" + "0-," * 300),
            ("If-Match", f'"{name}"' + ",*" * 300),
            ("If-None-Match", ", " * 300),
            ("Content-Type", 'multipart/form-data; boundary="' + ";" * 300),
            ("Content-Type", "a/b; boundary=" + "c" * 300),
        ):
            for method, path in (("GET", f"/v1/blobs/{name}"), ("PATCH", "/v1/uploads/1"), ("OPTIONS", "/v1/blobs")):
                status, _, told = await self.ask(method, path, headers={field: text})
                self.assertEqual(status, 431, (method, field, told))
            status, _, _ = await self.ask("GET", f"/v1/blobs/{name}", headers={**usual, field: text[:100]})
            self.assertIn(status, (200, 206, 304), field)
        for words, expected in (("a&" * 300, 431), ("a&" * 30, 400)):
            self.assertEqual((await self.ask("GET", f"/v1/status?{words}"))[0], expected)

    async def test_a_server_before_it_says_who_asks(self) -> None:
        await self.start(proxies=["127.0.0.1"])
        self.assertEqual(await self.put(headers={"X-Forwarded-For": "127.0.0.1, 203.0.113.9"}), 403)
        self.assertEqual(await self.put(headers={"X-Forwarded-For": "203.0.113.9, 127.0.0.1"}), 201)
        for told, status in ((["127.0.0.1", "203.0.113.9"], 403), (["203.0.113.9", "192.0.2.1, 127.0.0.1"], 201)):
            headers: Any = [("X-Forwarded-For", it) for it in told]  # a server adds its own behind what came
            self.assertEqual(await self.put(headers=headers), status)


class Logs(GuardCase):
    async def test_the_access_log(self) -> None:
        log = self.folder / "access.log"
        await self.start(log=str(log))
        alice = self.token("alice")
        self.assertEqual(await self.put(b"12345", headers=alice), 201)
        [name] = self.files
        await self.ask("GET", f"/v1/blobs/{name}")
        await self.ask("GET", "/v1/status", headers={"Authorization": "Bearer wrong", "X-Forwarded-For": "203.0.113.9"})
        _, writer = await asyncio.open_connection("127.0.0.1", self.port)
        writer.write(b'GET /"\\x\xff HTTP/1.1\r\nHost: x\r\n\r\n')
        async with asyncio.timeout(120):
            while log.read_text().count("\n") < 4:
                await asyncio.sleep(0.05)
        writer.close()
        log.rename(self.folder / "access.log.1")
        await self.ask("DELETE", f"/v1/blobs/{name}", headers=alice)
        lines = (self.folder / "access.log.1").read_text().splitlines() + log.read_text().splitlines()
        form = r'^127\.0\.0\.1 - (\S+) \[\d\d/[A-Z][a-z]{2}/\d{4}:\d\d:\d\d:\d\d \+0000\] "([^"]*)" (\d{3}) (\d+)$'
        found = [re.fullmatch(form, line) for line in lines]
        self.assertTrue(all(found), lines)
        told = [it.groups() for it in found if it]
        self.assertEqual(told[0][:3], ("alice", "PUT /v1/blobs?epochs=1 HTTP/1.1", "201"))
        self.assertEqual(told[1], ("anyone", f"GET /v1/blobs/{name} HTTP/1.1", "200", "5"))
        self.assertEqual([it[2] for it in told[2:]], ["401", "404", "405"])
        self.assertTrue(told[3][1].startswith("GET /\\x22\\x5cx"), told[3])
        self.assertEqual((len(lines), log.read_text().count("\n")), (5, 1))
        self.assertNotIn(alice["Authorization"][7:], "".join(lines))

    async def test_a_log_that_cannot_be_written_ends_no_connection(self) -> None:
        folder, full = self.folder / "logs", OSError(28, "No space left on device")
        folder.mkdir()
        await self.start(log=str(folder / "access.log"))
        said = self.enterContext(contextlib.redirect_stderr(io.StringIO()))
        reader, writer = await asyncio.open_connection("127.0.0.1", self.port)

        async def ask(number: int, lines: int, log: str = "") -> None:
            """Sends a request, and waits for its line in this log and for this many lines on standard error."""
            writer.write(b"GET /livez?%d HTTP/1.1\r\nHost: x\r\n\r\n" % number)
            async with asyncio.timeout(60):
                self.assertIn(b" 400 ", await reader.readline())
                while await reader.readline() != b"\r\n":
                    pass
                self.assertTrue(json.loads(await reader.readline()))
                while said.getvalue().count("\n") < lines or log and f"?{number} " not in (folder / log).read_text():
                    await asyncio.sleep(0.05)

        await ask(1, 0, "access.log")
        folder.rename(self.folder / "moved")
        await ask(2, 1)
        await ask(3, 1)
        (self.folder / "moved").rename(folder)
        await ask(4, 1, "access.log")
        with mock.patch.object(logging.StreamHandler, "flush", side_effect=full):
            await ask(5, 2)
            await ask(6, 2)
        await ask(7, 2, "access.log")
        with mock.patch.object(logging.StreamHandler, "flush", side_effect=full):
            with mock.patch.object(said, "write", side_effect=full):  # standard error is on the same disk
                await ask(8, 2)
                await ask(9, 2)
        await ask(10, 2, "access.log")
        writer.close()
        self.assertNotIn("?2 ", (folder / "access.log").read_text())
        lines = said.getvalue().splitlines()
        self.assertEqual([line.partition(": ")[0] for line in lines], ["the access log lacks lines from here on"] * 2)
        self.assertIn("No such file or directory", lines[0])
        self.assertIn("No space left on device", lines[1])

    async def test_a_log_whose_old_file_cannot_be_closed_goes_on_in_the_new_one(self) -> None:
        path, said = self.folder / "a.log", self.enterContext(contextlib.redirect_stderr(io.StringIO()))
        log = access_log.log_to(str(path))
        assert log
        [handler] = log.handlers
        self.addCleanup(handler.close)
        log.info("1")
        path.rename(self.folder / "a.log.1")
        stream = handler.stream  # type: ignore[attr-defined]
        close = stream.close

        def closing() -> None:
            close()
            raise OSError(122, "Disk quota exceeded")

        with mock.patch.object(stream, "close", closing):
            for line in "234":
                log.info(line)
        self.assertEqual((self.folder / "a.log.1").read_text(), "1\n")
        self.assertEqual(path.read_text(), "3\n4\n")
        self.assertEqual(said.getvalue().count("\n"), 1)
        self.assertIn("Disk quota exceeded", said.getvalue())

    async def test_tls(self) -> None:
        make_authority(self.folder / "authority-web")
        make_certificate(self.folder, "web", by="authority-web")
        paths = {"tls_certificate": str(self.folder / "web.crt"), "tls_key": str(self.folder / "web.key")}
        await self.start(**paths)
        context = ssl.create_default_context(cafile=self.folder / "authority-web.crt")
        self.assertEqual(await self.put(ssl=context), 201)
        self.assertEqual(await self.put(headers={"Origin": self.url}, ssl=context), 201)
        with self.assertRaises(aiohttp.ClientError):
            await self.ask("GET", "/livez")
        _, before = await self.certificate(context)
        for kind in ("crt", "key"):
            (self.folder / f"web.{kind}").rename(self.folder / f"old.{kind}")
        self.assertEqual(await self.certificate(context), (True, before))
        make_certificate(self.folder, "web", by="authority-web")
        await self.certificate(context)
        good, after = await self.certificate(context)
        self.assertEqual((good, after != before), (True, True))
        key, old = self.folder / "web.key", (self.folder / "web.key").read_bytes()
        make_certificate(self.folder, "web", by="authority-web")
        new = key.read_bytes()
        key.write_bytes(old)  # which does not fit the certificate yet
        self.assertEqual(await self.certificate(context), (True, after))
        key.write_bytes(new)
        good, last = await self.certificate(context)
        self.assertEqual((good, last not in (before, after)), (True, True))

    async def certificate(self, context: ssl.SSLContext) -> tuple[bool, bytes]:
        """Whether a new connection is accepted, and the server's certificate on it."""
        reader, writer = await asyncio.open_connection("127.0.0.1", self.port, ssl=context)
        shown = writer.get_extra_info("ssl_object").getpeercert(True)
        writer.write(b"GET /livez HTTP/1.1\r\nHost: x\r\nConnection: close\r\n\r\n")
        said = await reader.read()
        with contextlib.suppress(OSError):
            writer.close()
        return said.startswith(b"HTTP/1.1 200"), shown

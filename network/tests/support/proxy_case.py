"""Shared by the tests of proxies: a gateway behind nginx or haproxy, set up as OPERATING.md says."""
import asyncio
import contextlib
import hashlib
import os
import re
import shutil
import ssl
import unittest
from typing import Any

import aiohttp

from support.guard_case import GuardCase, other_address
from support.harness import HERE
from walrus.network.cli.transfers import PATIENCE
from walrus.network.deploy.local import free_port
from walrus.network.files.file_list import PIECE, File
from walrus.network.ledger.follower import Resolver
from walrus.network.service import certificates

NGINX, HAPROXY = (shutil.which(it) or shutil.which(it, path="/usr/sbin") for it in ("nginx", "haproxy"))


class Proxied(GuardCase):
    """A gateway behind a proxy that is set up as the page says, at an address that others reach."""

    options: dict[str, Any] = {"uploads": 1_000}

    async def asyncSetUp(self) -> None:
        await super().asyncSetUp()
        log = self.folder / "access.log"
        await self.start(proxies=["127.0.0.1"], names=["blobs.example"], log=str(log), **self.options)
        certificates.make(self.folder / "blobs.example", self.folder / "authority", "blobs.example", ["blobs.example"])
        both = [(self.folder / f"blobs.example.{it}").read_text() for it in ("crt", "key")]
        (self.folder / "blobs.example.pem").write_text("".join(both))
        self.context = ssl.create_default_context(cafile=self.folder / "authority.crt")
        self.place, self.log = (other_address(), free_port()), log
        os.chmod(self.folder, 0o755)
        with open(self.folder / "server.log", "wb") as said:
            process = await asyncio.create_subprocess_exec(*self.line(), stdout=said, stderr=said)
        self.addAsyncCleanup(process.wait)
        self.addCleanup(lambda: process.returncode is None and process.terminate())
        async with asyncio.timeout(120):
            while True:
                with contextlib.suppress(OSError):
                    _, writer = await asyncio.open_connection(*self.place)
                    writer.close()
                    break
                self.assertIsNone(process.returncode, (self.folder / "server.log").read_text())
                await asyncio.sleep(0.05)
        self.url = f"https://blobs.example:{self.place[1]}"
        connector = aiohttp.TCPConnector(resolver=Resolver(self.place[0]), ssl=self.context)
        self.session = await self.enterAsyncContext(aiohttp.ClientSession(connector=connector))

    def line(self) -> list[str]:
        """Returns the command that runs the proxy."""
        raise NotImplementedError

    def told(self, kind: str) -> str:
        """Returns the settings in the page, for this place."""
        page = (HERE.parent / "OPERATING.md").read_text()
        found = re.search(f"```{kind}\n(.*?)```", page, re.DOTALL)
        assert found
        return found[1].replace("127.0.0.1:31415", f"127.0.0.1:{self.port}").replace("/etc/ssl", str(self.folder))

    async def open(self, line: str, *fields: str) -> tuple[bytes, asyncio.StreamWriter]:
        """Begins a request on a connection of its own, and returns the first line of the answer."""
        kept = {"ssl": self.context, "server_hostname": "blobs.example"}
        reader, writer = await asyncio.open_connection(*self.place, **kept)  # type: ignore[arg-type]
        self.addCleanup(writer.transport.abort)
        head = f"{line} HTTP/1.1", "Host: blobs.example", *fields, "", ""
        writer.write("\r\n".join(head).encode())
        return await reader.readline(), writer

    async def slow_clients(self) -> None:
        """A reply waits at the gateway for its reader, and one address has few connections there."""
        self.files |= {"11" * 32: bytes(PIECE), "22" * 32: File(20 * PIECE, b"\x11" * 32 * 20).listed()}
        sent, before = self.gateway.reader.bytes, -1
        said, writer = await self.open(f"GET /v1/blobs/{'22' * 32}")
        self.assertIn(b" 200 ", said)
        while before < (now := sent['way="out"']):
            before = now
            await asyncio.sleep(1)
        self.assertLess(before, 5 * PIECE)  # what sockets hold
        writer.transport.abort()
        fields = "Content-Length: 9", "Expect: 100-continue", f"Authorization: {self.token('alice')['Authorization']}"
        opened = 0
        with contextlib.suppress(OSError):
            while b" 100 " in (await self.open("PUT /v1/blobs?epochs=1", *fields))[0]:
                opened += 1
        self.assertEqual(opened, 100)

    def must_be_patient(self, text: str, *kinds: str) -> None:
        """Checks that the proxy waits for the gateway as long as `walrus-net` does."""
        for kind in kinds:
            found = re.search(rf"{kind} (\d+)s", text)
            self.assertGreater(int(found[1]) if found else 60, PATIENCE, kind)

    async def strangers_and_customers(self) -> None:
        forged = {"X-Forwarded-For": "127.0.0.1"}
        for headers in ({}, forged, {**forged, "Origin": "https://blobs.example"}):
            self.assertEqual(await self.put(headers=headers), 403)
        alice = self.token("alice")
        self.assertEqual(await self.put(), 401)
        for size in (40_000_000, 9_000_000):
            data = os.urandom(size)
            self.assertEqual(await self.put(data, headers=alice), 201)
            self.assertTrue(self.stored[-1] == data)
        name = hashlib.sha256(data).hexdigest()
        status, headers, body = await self.ask("GET", f"/v1/blobs/{name}", headers={"Range": "bytes=5-8999990"})
        self.assertEqual((status, body == data[5:8_999_991], headers["etag"]), (206, True, f'"{name}"'))
        status, _, _ = await self.ask("GET", f"/v1/blobs/{name}", headers={"If-None-Match": f'"{name}"'})
        self.assertEqual((status, (await self.ask("GET", "/v1/blobs/x"))[0]), (304, 400))
        lines = self.log.read_text().splitlines()
        self.assertEqual({line.split()[0] for line in lines}, {self.place[0]})
        self.assertIn("alice", {line.split()[2] for line in lines})
        begun = {**alice, "Upload-Complete": "?0", "Upload-Draft-Interop-Version": "6"}
        status, headers, _ = await self.ask("POST", "/v1/uploads?epochs=1", data=b"12345", headers=begun)
        self.assertEqual((status, headers["upload-offset"]), (201, "5"))
        more = {**alice, "Upload-Offset": "5", "Upload-Complete": "?0", "Content-Type": "application/partial-upload"}
        status, headers, _ = await self.ask("PATCH", headers["location"], data=bytes(9_000_000), headers=more)
        self.assertEqual((status, headers["upload-offset"]), (204, "9000005"))


@unittest.skipUnless(NGINX and other_address(), "nginx, or an address that others reach, is not here")
class BehindNginx(Proxied):
    def line(self) -> list[str]:
        self.must_be_patient(text := self.told("nginx"), "proxy_send_timeout", "proxy_read_timeout")
        text = text.replace("listen 443 ssl", f"listen {self.place[0]}:{self.place[1]} ssl")
        kinds = "client_body", "proxy", "fastcgi", "uwsgi", "scgi"
        words = "".join(f"{it}_temp_path {self.folder}/{it};" for it in kinds) + "access_log off;"
        frame = f"daemon off; pid {self.folder}/pid; error_log {self.folder}/nginx.log; events {{}}"
        (self.folder / "nginx.conf").write_text(f"{frame}\nhttp {{ {words}\n{text}}}\n")
        return [str(NGINX), "-p", str(self.folder), "-c", str(self.folder / "nginx.conf")]

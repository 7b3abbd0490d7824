"""Caches before a gateway whose folders have hosts of their own: a host's responses are kept for it alone."""
import hashlib
import re

from support import proxy_case
from support.folder_case import Files, manifest_of
from support.guard_case import GuardCase
from support.harness import HERE
from walrus.network.files.manifest import Place, label_of

SITES, PACKAGE = "sites.example", HERE.parents[1] / "clients" / "python" / "walrus" / "network" / "gateway"


class SitesCase(GuardCase):
    def file(self, data: bytes) -> bytes:
        """Makes a file readable, and returns its identifier."""
        name = hashlib.sha256(data).digest()
        self.files[name.hex()] = data
        return name

    def folder_of(self, files: Files) -> bytes:
        """Makes a folder readable, and returns its identifier."""
        places = [Place(path, "text/plain", len(data), self.file(data)) for path, data in sorted(files.items())]
        return self.file(manifest_of(*places))


class Told(SitesCase):
    async def vary(self, path: str, status: int, **headers: str) -> str:
        """Returns the request headers by which a reply varies."""
        found, told, body = await self.ask("GET", path, headers=headers, allow_redirects=False)
        self.assertEqual(found, status, body)
        return told.get("vary", "")

    async def test_what_a_cache_may_keep_is_another_thing_at_another_host(self) -> None:
        for sites, vary in ((SITES, "Host"), ("", "")):
            await self.start(sites=sites)
            blob, folder = self.file(b"data").hex(), self.folder_of({"a/b": b"1"})
            for path in (f"/v1/blobs/{blob}", f"/v1/folders/{folder.hex()}/a/b", "/", "/page.js", "/v1/api"):
                self.assertEqual(await self.vary(path, 200), vary, path)
            self.assertEqual(await self.vary(f"/v1/blobs/{blob}", 206, Range="bytes=1-2"), vary)
            self.assertEqual(await self.vary(f"/v1/blobs/{blob}", 304, **{"If-None-Match": f'"{blob}"'}), vary)
            self.assertEqual(await self.vary(f"/v1/folders/{folder.hex()}", 301), vary)
            self.assertEqual(await self.vary(f"/v1/folders/{folder.hex()}/", 200), f"Accept{', ' * bool(vary)}{vary}")
            self.assertEqual(await self.vary("/v1/status", 200), "")  # no cache may keep it
        await self.start(sites=SITES)
        host = f"{label_of(folder)}.{SITES}"
        self.assertEqual([await self.vary("/a/b", 200, Host=host), await self.vary("/c", 404, Host=host)], ["Host", ""])


class Nginx(proxy_case.BehindNginx, SitesCase):
    """nginx with a cache, whose key has no host by default."""

    options, key = {"sites": SITES}, ""

    def told(self, kind: str) -> str:
        cache = f"proxy_cache walrus; add_header X-Cache $upstream_cache_status; {self.key} proxy_pass"
        text = super().told(kind).replace("server_name blobs.example", f"server_name blobs.example *.{SITES}")
        return f"proxy_cache_path {self.folder}/cache keys_zone=walrus:1m;\n{text.replace('proxy_pass', cache, 1)}"

    async def test_each_host_has_its_own(self) -> None:
        blob = self.file(b"the blob").hex()
        paths = ["index.html", "page.js", f"v1/blobs/{blob}"]  # of which the gateway has some, too
        files: list[Files] = [{it: f"{it} of {folder}".encode() for it in paths} for folder in range(2)]
        asked = [(f"{label_of(self.folder_of(it))}.{SITES}", f"/{path}", it[path]) for it in files for path in it]
        for cached in ("MISS", "HIT"):
            for host, path, data in asked:
                status, headers, body = await self.ask("GET", path, headers={"Host": host})
                self.assertEqual((status, body, headers["x-cache"]), (200, data, cached), (host, path))
            status, headers, body = await self.ask("GET", f"/v1/blobs/{blob}")
            self.assertEqual((status, body, headers["x-cache"]), (200, b"the blob", cached))
        self.assertEqual((await self.ask("GET", "/page.js"))[2], (PACKAGE / "page" / "page.js").read_bytes())


class Keyed(Nginx):
    """The same with the cache key that the page recommends."""

    key = "".join(re.findall(r"`(proxy_cache_key [^`]*)`", (HERE.parent / "OPERATING.md").read_text())) + ";"

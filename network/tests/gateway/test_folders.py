"""Folders over HTTP: stored from a tar or a form, and how they are served."""
import base64
import hashlib
import tarfile
import urllib.parse
from typing import Any

from support.folder_case import HOSTILE, form_of, odd_tar, site, tar_of
from support.folder_gateway_case import FolderGatewayCase
from walrus.network.files import manifest
from walrus.network.files.manifest import MARK
import yarl

AUTO = ["Content-Type"]  # aiohttp would send one by itself


class Folders(FolderGatewayCase):
    async def test_a_folder_has_one_name_however_it_comes(self) -> None:
        await self.start()
        files = site()
        told = await self.put_folder(tar_of(files))
        size = sum(map(len, files.values()))
        self.assertEqual(told["folder"], {"files": len(files), "bytes": size})
        name, backward = told["blobId"], dict(reversed(files.items()))
        for form in (tarfile.USTAR_FORMAT, tarfile.GNU_FORMAT, tarfile.PAX_FORMAT):
            self.assertEqual((await self.put_folder(tar_of(backward, form)))["blobId"], name)
            dotted = [(f"./{path}", data) for path, data in files.items()]
            self.assertEqual((await self.put_folder(tar_of(dotted, form)))["blobId"], name)
        for order in (files, backward):
            kind, data = form_of(order)
            self.assertEqual((await self.put_folder(data, kind=kind))["blobId"], name)
        for changed in ({**files, "empty": b"x"}, {**files, "more": b""}, {"index.html": files["index.html"]}):
            self.assertNotEqual((await self.put_folder(tar_of(changed)))["blobId"], name)
        await self.holds(name, files)
        # by the rules of the page, and without the code that made it
        small = sorted(path for path, data in files.items() if 0 < len(data) <= 524_288)
        places, pack, ended = dict[str, str](), b"", list[tuple[bytes, list[str]]]()
        inside = list[str]()
        for path in small:
            if files[path] in pack and path.startswith("pictures/one"):
                places[path] = f"@{pack.index(files[path])}"
                continue
            places[path] = f"@{len(pack)}"
            inside.append(path)
            pack += files[path]
            if int.from_bytes(hashlib.sha256(files[path]).digest()[:8], "big") % 524_288 < len(files[path]):
                ended.append((pack, inside))
                pack, inside = b"", []
        self.assertEqual(ended, [])  # so there is one pack
        pack_name = hashlib.sha256(pack).hexdigest()
        lines = list[str]()
        for path in sorted(files, key=str.encode):
            data = files[path]
            at = (
                "-"
                if not data
                else hashlib.sha256(data).hexdigest()
                if path not in places
                else pack_name + places[path]
            )
            lines.append(f"{path}\t{manifest.kind_of(path)}\t{len(data)}\t{at}\n")
        made = b"\0walrus folder\0\1" + "".join(lines).encode()
        self.assertEqual(self.files[name], made)
        self.assertEqual(hashlib.sha256(made).hexdigest(), name)

    async def test_files_are_served_as_a_server_of_sites_does(self) -> None:
        await self.start()
        files = site()
        name = (await self.put_folder(tar_of(files)))["blobId"]
        at = f"/v1/folders/{name}"
        status, headers, _ = await self.get(at)
        self.assertEqual((status, headers["location"]), (301, f"./{name}/"))
        status, headers, _ = await self.get(f"{at}/sub?x=1")
        self.assertEqual((status, headers["location"]), (301, "./sub/?x=1"))
        for path, data in (("/", files["index.html"]), ("/sub/", files["sub/index.html"])):
            status, headers, body = await self.get(at + path)
            self.assertEqual((status, body, headers["content-type"]), (200, data, "text/html; charset=utf-8"))
            self.assertIn("sandbox", headers["content-security-policy"])
            self.assertNotIn("allow-same-origin", headers["content-security-policy"])
            self.assertEqual(headers["x-content-type-options"], "nosniff")
        status, headers, body = await self.get(f"{at}/pictures/")
        self.assertEqual((status, headers["content-type"]), (200, "text/html; charset=utf-8"))
        self.assertIn(b'<a href="./%C3%BC%20ber.txt">\xc3\xbc ber.txt</a>', body)
        status, headers, told = await self.get(f"{at}/pictures/", headers={"Accept": "application/json"})
        self.assertEqual((headers["vary"], told["folder"], told["complete"]), ("Accept", "pictures/", True))
        self.assertEqual([(it["name"], it["size"]) for it in told["entries"]], [("one.svg", 69), ("\u00fc ber.txt", 6)])
        film = files["film.webm"]
        for asked, part in (("bytes=5-9", film[5:10]), ("bytes=-7", film[-7:]), ("bytes=699000-", film[699_000:])):
            status, headers, body = await self.get(f"{at}/film.webm", headers={"Range": asked})
            self.assertEqual((status, body, headers["content-type"]), (206, part, "video/webm"))
        status, headers, body = await self.get(f"{at}/style.css", headers={"Range": "bytes=1-3"})
        self.assertEqual((status, body, headers["content-range"]), (206, b"1 {", "bytes 1-3/26"))
        status, headers, body = await self.get(f"{at}/style.css", headers={"Range": "bytes=0-1,5-6"})
        self.assertEqual(status, 206)
        self.assertIn(b"Content-Type: text/css; charset=utf-8\r\nContent-Range: bytes 5-6/26\r\n\r\nco", body)
        self.assertEqual((await self.get(f"{at}/style.css", headers={"Range": "bytes=26-"}))[0], 416)
        tag = headers["etag"]
        self.assertEqual((await self.get(f"{at}/style.css", headers={"If-None-Match": tag}))[0], 304)
        self.assertEqual((await self.get(f"{at}/style.css", headers={"If-Match": '"x"'}))[0], 412)
        self.assertNotEqual((await self.get(f"{at}/index.html"))[1]["etag"], tag)
        for path, data in files.items():
            status, headers, body = await self.ask("HEAD", f"{at}/{path}")
            self.assertEqual((status, headers["content-length"], body), (200, str(len(data)), b""))
        for path in ("/none", "/none/", "/index.html/", "//", "/sub//index.html", "/%FF", "/pictures/one.sv"):
            self.assertEqual((await self.get(at + path))[0], 404, path)
        self.assertEqual((await self.get("/v1/folders/x/"))[0], 400)
        status, headers, _ = await self.get(f"{at}/style.css", headers={"Origin": "null"})
        self.assertEqual(headers["access-control-allow-origin"], "*")
        self.assertEqual((await self.ask("PUT", f"{at}/style.css", data=b""))[0], 405)

    async def test_what_no_folder_has_is_refused_by_name_and_nothing_is_stored(self) -> None:
        await self.start()
        film = bytes(3_145_728)  # it is stored on its own
        for what, (path, said) in HOSTILE.items():
            for form in (tarfile.PAX_FORMAT, tarfile.GNU_FORMAT):
                told = await self.put_folder(tar_of([("film", film), ("before", b"1"), (path, b"2")], form), 400)
                self.assertIn(said, told["error"]["text"], what)
            if what not in ("control", "no UTF-8", "backslash"):  # a form cannot have these names
                kind, data = form_of({"film": film, "before": b"1", path: b"2"})
                self.assertIn(said, (await self.put_folder(data, 400, kind))["error"]["text"], what)
        for kind, link in ((tarfile.SYMTYPE, "../x"), (tarfile.LNKTYPE, "before"), (tarfile.CHRTYPE, "")):
            said = (await self.put_folder(odd_tar(kind, "odd", link), 400))["error"]["text"]
            self.assertRegex(said, "^'odd' is a (link|device)")
        for kind in (tarfile.BLKTYPE, tarfile.FIFOTYPE, b"S", b"D", b"Z"):
            self.assertRegex((await self.put_folder(odd_tar(kind), 400))["error"]["text"], "^'odd' is ")
        self.assertRegex((await self.put_folder(odd_tar(tarfile.DIRTYPE, "../x"), 400))["error"]["text"], "'../x'")
        for pair in (("a", "a"), ("a", "./a"), ("a", "a/b"), ("a/b", "a"), ("a/b/c", "a"), ("a", "a/b/c")):
            told = await self.put_folder(tar_of([(it, b"x") for it in pair]), 400)
            self.assertRegex(told["error"]["text"], "comes twice|both|as well as a file")
        whole = tar_of({"film": film, "a": b"x"})
        for bad in (whole[: 3_145_728 + 3 * 512], whole[: 3_145_728 // 2], whole + b"x"):  # cut off, or continued
            await self.put_folder(bad, 400)
        self.assertEqual(self.stored, [])
        await self.put_folder(tar_of({"a": b"1", "a-b": b"2", "ab": b"3", "a.b/c": b"4", "film": film}))
        self.assertEqual(sorted(map(len, self.stored[:-1])), [4, len(film)])  # the film, a pack, and the manifest

    async def test_each_folder_has_a_host_of_its_own(self) -> None:
        await self.start(sites="sites.example")
        name = (await self.put_folder(tar_of(site())))["blobId"]
        label = base64.b32encode(bytes.fromhex(name)).decode().lower().rstrip("=")
        self.assertRegex(label, "^[a-z2-7]{52}$")
        self.assertEqual((await self.put_folder(tar_of(site())))["folder"]["site"], f"{label}.sites.example")

        async def at(host: str, path: str, method: str = "GET", **headers: str) -> tuple[int, dict[str, str], Any]:
            return await self.ask(method, path, headers={"Host": host, **headers}, allow_redirects=False)

        for host in (f"{label}.sites.example", f"{label.upper()}.Sites.example:8080", f"{label}.sites.example."):
            status, headers, body = await at(host, "/")
            self.assertEqual((status, body), (200, site()["index.html"]))
            self.assertNotIn("content-security-policy", headers)
            self.assertEqual((headers["x-content-type-options"], headers["origin-agent-cluster"]), ("nosniff", "?1"))
        host = f"{label}.sites.example"
        self.assertEqual((await at(host, "/sub"))[1]["location"], "./sub/")
        self.assertEqual((await at(host, "/style.css?version=3"))[0], 200)
        for path in (
            "/metrics",
            "/v1/status",
            "/livez",
            "/v1/blobs",
            "/page.js",
            "/v1/uploads/1",
            f"/v1/blobs/{name}",
            f"/v1/folders/{name}/",
        ):
            self.assertEqual((await at(host, path))[0], 404, path)  # nothing of the gateway itself
        for method in ("PUT", "POST", "DELETE"):
            self.assertEqual((await at(host, "/v1/blobs?epochs=1", method))[0], 405)
        self.assertEqual((await at(host, "/", "OPTIONS"))[1]["allow"], "GET, HEAD, OPTIONS")
        for other in (f"1{label[1:]}.sites.example", f"{label[:51]}b.sites.example", f"a.{label}.sites.example"):
            self.assertEqual((await at(other, "/"))[0], 404)
        self.assertEqual((await at("x.sites.example", "/metrics"))[0], 404)
        status, headers, _ = await at(host, "/")
        page = {"Origin": f"http://{host}", "Sec-Fetch-Site": "same-site"}
        found = await self.ask("PUT", "/v1/blobs?epochs=1", data=b"x", headers=page)
        self.assertEqual(found[0], 403)
        self.assertEqual((await self.ask("GET", "/v1/status", headers={"Host": host}))[0], 404)

    async def test_a_file_keeps_a_name_and_a_type_if_it_is_asked(self) -> None:
        await self.start()
        picture, long = {"Content-Type": "image/x-own; charset=UTF-8"}, bytes(524_289)
        for name, data, sent, kind in (
            ("a.svg", b"<svg/>", {}, "image/svg+xml"),
            ("a.svg", b"<svg/>", {"Content-Type": "application/octet-stream"}, "image/svg+xml"),
            ("a.svg", b"<svg/>", picture, "image/x-own"),
            ("\u00fc ber.html", b"<p>", {"Content-Type": "text/html"}, "text/html"),
            ("empty", b"", {}, "application/octet-stream"),
            ("film.webm", long, {}, "video/webm"),
        ):
            path = f"/v1/blobs?epochs=5&filename={urllib.parse.quote(name)}"
            status, headers, told = await self.ask("PUT", path, data=data, headers=sent, skip_auto_headers=AUTO)
            file = hashlib.sha256(data).hexdigest()
            at = "-" if not data else file if data == long else f"{file}@0"
            made = f"\0walrus folder\0\1{name}\t{kind}\t{len(data)}\t{at}\n".encode()
            folder = hashlib.sha256(made).hexdigest()
            where = f"/v1/folders/{folder}/{urllib.parse.quote(name)}"
            self.assertEqual((status, told["blobId"], told["size"]), (201, file, len(data)))
            self.assertEqual(told["named"], {"folder": folder, "type": kind, "path": where})
            self.assertEqual(headers["location"], f"/v1/blobs/{file}")
            status, headers, body = await self.get(where)
            self.assertEqual((status, headers["content-type"].partition(";")[0], body), (200, kind, data))
            self.assertEqual((await self.get(f"/v1/blobs/{file}"))[1]["content-type"], "application/octet-stream")
        named = (await self.put_folder(tar_of({"a.svg": b"<svg/>"})))["blobId"]
        line = b"a.svg\timage/svg+xml\t6\t" + hashlib.sha256(b"<svg/>").hexdigest().encode() + b"@0\n"
        self.assertEqual(named, hashlib.sha256(MARK + line).hexdigest())  # the name of a folder of this file anyway
        count = len(self.stored)
        for name, sent, said in (
            ("", {}, "empty name"),
            ("..", {}, "no path"),
            ("a/b", {}, "a path"),
            ("./a", {}, "a path"),
            ("%FF", {}, "no UTF-8"),
            ("a%0D%0Ab", {}, "control character"),
            ("a" * 256, {}, "too long"),
            ("a", {"Content-Type": "text/html; charset=latin-1"}, "no media type that can be kept"),
            ("a", {"Content-Type": "multipart/form-data; boundary=x"}, "no media type that can be kept"),
            ("a", {"Content-Type": "text"}, "no media type that can be kept"),
        ):
            url = yarl.URL(f"{self.url}/v1/blobs?epochs=5&filename={name}", encoded=True)
            async with self.session.put(url, data=b"x", headers=sent, skip_auto_headers=AUTO) as refused:
                self.assertEqual(refused.status, 400, name)
                self.assertIn(said, (await refused.json())["error"]["text"], name)
        self.assertEqual((await self.ask("PUT", "/v1/blobs?filename=a", data=b"x"))[0], 400)
        self.assertEqual((await self.ask("POST", "/v1/uploads?epochs=5&filename=a", data=b"x"))[0], 400)
        self.assertEqual(len(self.stored), count)

"""A site as a folder over a network: looked at in Chromium with a node killed, kept for longer, and fetched again."""
import asyncio
import base64
import json
import os
import pathlib
import random
import re
import tarfile
from typing import Any

import aiohttp
from support.browser import PROGRAM, Browser
from support.folder_case import Files, manifest_of, odd_tar, site, tar_of
from support.harness import HERE, usage_of
from support.http_case import GatewayCase, UpCase
from walrus.network.files.manifest import Place, label_of
from walrus.network.peers.engine import find_program
from walrus.network.settings.gateway_options import Options

PAGE = b"""<!DOCTYPE html><title>A site</title><link rel=stylesheet href="style.css"><h1>Here</h1>
<img id=picture src="pictures/one.svg"><video id=film src="film.webm" muted></video>
<script type=module>import {said} from "./module.js"; document.title = said</script>
<script>
fetch("/v1/status").then(it => it.text()).then(it => window.reached = it.length, it => window.reached = "no")
fetch("/v1/blobs?epochs=1", {method: "PUT", body: "evil"})
  .then(it => window.stored = it.status, it => window.stored = "no")
try { localStorage.x = 1; window.kept = "yes" } catch (fault) { window.kept = "no" }
</script>"""
# a film of one second is drawn by the browser itself, as no tool for it is here
FILM = """new Promise(done => {
  const canvas = document.createElement("canvas"), parts = []
  canvas.width = canvas.height = 64
  const drawn = canvas.getContext("2d"), film = new MediaRecorder(canvas.captureStream(20), {mimeType: "video/webm"})
  film.ondataavailable = it => parts.push(it.data)
  film.onstop = async () => {
    const bytes = new Uint8Array(await new Blob(parts).arrayBuffer())
    done(btoa(Array.from(bytes, it => String.fromCharCode(it)).join("")))
  }
  film.start()
  let turn = 0
  const timer = setInterval(() => { drawn.fillStyle = turn++ % 2 ? "red" : "blue"; drawn.fillRect(0, 0, 64, 64) }, 50)
  setTimeout(() => { clearInterval(timer); film.stop() }, 1500)
})"""


class Story(GatewayCase):
    options = Options(seconds=5, challenge=0, patience=60, sites="sites.localhost")

    async def put_folder(self, files: Files, epochs: int = 3) -> dict[str, Any]:
        status, _, body = await self.curl(
            f"/v1/folders?epochs={epochs}", "-H", "Content-Type: application/x-tar", data=tar_of(files)
        )
        self.assertIn(status, (200, 201), body)
        told: dict[str, Any] = json.loads(body)
        return told

    async def net(self, *words: object) -> str:
        environment = {**os.environ, "WALRUS_GATEWAY": f"http://127.0.0.1:{self.port}", "WALRUS": find_program()}
        line = [str(HERE.parent / "walrus-net"), *map(str, words)]
        process = await asyncio.create_subprocess_exec(*line, env=environment, stdout=-1, stderr=-1)
        out, error = await process.communicate()
        self.assertEqual(process.returncode, 0, error.decode())
        return out.decode()

    def forget(self) -> None:
        """Empties the caches of the gateway."""
        self.gateway.reader.cache.entries.clear()
        self.gateway.reader.cache.size = 0
        self.gateway.shelf.kept.clear()

    async def test_a_site_is_stored_looked_at_and_fetched_again(self) -> None:
        await self.start()
        files = {**site(), "index.html": PAGE, "module.js": b"export const said = 'a module runs'"}
        if PROGRAM:
            async with Browser() as browser:
                film = await browser.call("Runtime.evaluate", expression=FILM, awaitPromise=True, returnByValue=True)
                files["film.webm"] = base64.b64decode(film["result"]["value"])
        files["large.bin"] = random.Random(2).randbytes(17_000_000)
        told = await self.put_folder(files)
        name, blobs = told["blobId"], self.network.ledger.blobs
        tree, out = self.folder / "tree", self.folder / "out"
        for path, data in files.items():
            (tree / path).parent.mkdir(parents=True, exist_ok=True)
            (tree / path).write_bytes(data)
        count = len(blobs)
        self.assertEqual((await self.net("store", tree, "--epochs", 3)).split()[0], name)
        self.assertEqual(len(blobs), count)  # all of it was stored before
        self.assertIn("alreadyCertified", await self.put_folder(files))
        await self.local.end("node-2", kill=True)
        self.forget()
        for path, data in files.items():
            status, _, body = await self.curl(f"/v1/folders/{name}/{path.replace(' ', '%20')}")
            self.assertTrue((status, body) == (200, data), path)
        status, headers, body = await self.curl(f"/v1/folders/{name}/large.bin", "-r", "16777000-16778000")
        self.assertTrue((status, body) == (206, files["large.bin"][16_777_000:16_778_001]))
        await self.net("fetch", name, "--output", out)
        found = {str(it.relative_to(out)): it.read_bytes() for it in out.rglob("*") if it.is_file()}
        self.assertTrue(found == files)
        self.assertEqual({blobs[it].until for it in blobs}, {3})
        status, _, body = await self.curl(f"/v1/extend/{name}?epochs=7", "-X", "POST")
        self.assertEqual((status, json.loads(body)["endEpoch"]), (200, 7))
        self.assertEqual({blobs[it].until for it in blobs}, {7})  # packs, files, pieces, their list and the manifest
        lie = manifest_of(Place("a", "a/b", 9, bytes(32)))  # it names a blob that nobody has stored
        lied = (await self.put(lie))["blobId"]
        await self.refused(404, f"/v1/extend/{lied}?epochs=7", "-X", "POST")
        await self.refused(404, f"/v1/folders/{lied}/a")
        broken = (await self.put(lie + b"x", 3))["blobId"]  # no folder, and an ordinary file
        self.assertEqual((await self.curl(f"/v1/extend/{broken}?epochs=7", "-X", "POST"))[0], 200)
        await self.refused(410, f"/v1/folders/{broken}/a")
        count = len(blobs)
        if not PROGRAM:
            self.skipTest("chromium is not here")
        own = f"http://{label_of(bytes.fromhex(name))}.sites.localhost:{self.port}/"
        async with Browser() as browser:
            for url, kept in ((f"http://127.0.0.1:{self.port}/v1/folders/{name}/", "no"), (own, "yes")):
                self.forget()
                await browser.open(url)
                self.assertTrue(await browser.until("document.title == 'a module runs'"), url)
                self.assertTrue(await browser.until("picture.naturalWidth == 40 && film.videoWidth == 64"), url)
                color = await browser.evaluate("getComputedStyle(document.querySelector('h1')).color")
                self.assertEqual(color, "rgb(1, 2, 3)")
                self.assertTrue(await browser.until("window.reached !== undefined && window.stored !== undefined"))
                found = await browser.evaluate("[window.origin, window.kept, window.stored]")
                origin = "null" if kept == "no" else own.rstrip("/")
                self.assertEqual(found[:2], [origin, kept])
                self.assertIn(found[2], ("no", 403, 405))
                await browser.evaluate("film.play().then(() => 1)")
                self.assertTrue(await browser.until("film.currentTime > 0"))
        self.assertEqual(len(blobs), count)

    async def test_a_folder_with_a_link_behind_a_large_file_registers_nothing(self) -> None:
        await self.start()
        blobs, film, other = self.network.ledger.blobs, self.drawn.randbytes(3_145_728), self.drawn.randbytes(3_145_728)
        data, kind = odd_tar(tarfile.SYMTYPE, "odd", "../x", 0, film), "Content-Type: application/x-tar"
        status, _, body = await self.curl("/v1/folders?epochs=3", "-H", kind, data=data)
        self.assertEqual((status, len(blobs)), (400, 0))
        self.assertIn("'odd' is a link", json.loads(body)["error"]["text"])
        name = (await self.put_folder({"film": other}))["blobId"]
        names = {(await self.network.walrus.encode(other, 1)).identifier, bytes.fromhex(name)}
        self.assertEqual({*blobs}, names)  # all that was registered before would be there, too

    async def test_a_page_of_a_folder_cannot_reach_the_gateways_own(self) -> None:
        await self.start()
        if not PROGRAM:
            self.skipTest("chromium is not here")
        name = (await self.put_folder({"index.html": b"<title>x</title>", "s.js": b"onfetch = 1"}))["blobId"]
        url = f"http://127.0.0.1:{self.port}"
        asks = f"fetch('{url}/v1/status').then(it => it.text()).then(it => 'read ' + it, it => 'no')"
        frames = f"""new Promise(done => {{ const it = document.createElement("iframe")
            it.onload = () => {{ try {{ done("reached " + it.contentDocument.title) }} catch (fault) {{ done("no") }} }}
            it.src = "{url}/"; document.body.append(it) }})"""
        workers = "navigator.serviceWorker.register('s.js').then(it => 'registered', it => 'no')"
        async with Browser() as browser:
            await browser.open(f"{url}/v1/folders/{name}/")
            self.assertTrue(await browser.until("document.title == 'x'"))
            for text in (asks, frames, f"(async () => {workers})().catch(it => 'no')"):
                self.assertIn(await browser.evaluate(text), ("no", "reached "), text)


class Many(UpCase):
    async def test_ten_thousand_files_take_little_memory(self) -> None:
        await self.up()
        drawn, count = random.Random(3), int(os.environ.get("FOLDER_FILES", "10000"))
        files = {f"{it % 97}/{it}.html": drawn.randbytes(drawn.randrange(1, 8_192)) for it in range(count)}
        data = tar_of(files)
        gateway = next(
            int(it.parent.name)
            for it in pathlib.Path("/proc").glob("[0-9]*/cmdline")
            if it.read_bytes().split(b"\0")[-3:-1] == [b"--port", self.url.rpartition(":")[2].encode()]
        )
        most = usage_of(gateway)[0]

        async def watch() -> None:
            nonlocal most
            while True:
                most = max(most, usage_of(gateway)[0])
                await asyncio.sleep(0.2)

        watching = asyncio.create_task(watch())
        async with aiohttp.ClientSession(self.url, timeout=aiohttp.ClientTimeout(total=None)) as session:
            async with session.put("/v1/folders?epochs=1", data=data, headers={"Content-Type": ""}) as said:
                told = await said.json()
                self.assertEqual((said.status, told["folder"]["files"]), (201, count), told)
            for path in random.Random(4).sample(sorted(files), 20):
                async with session.get(f"/v1/folders/{told['blobId']}/{path}") as said:
                    self.assertEqual(await said.read(), files[path])
            async with session.get("/v1/status") as said:
                blobs = (await said.json())["blobs"]["certified"]
        watching.cancel()
        self.assertLess(blobs, count / 50 + 10)
        self.assertLess(most, 300e6)

    async def test_what_a_folder_takes_is_told(self) -> None:
        line = [str(HERE.parent / "bench-http"), "--parts", "folders", "--folders", "60", "--folder", str(self.folder)]
        process = await asyncio.create_subprocess_exec(*line, stdout=-1, stderr=-2)
        said = (await process.communicate())[0].decode()
        self.assertEqual(process.returncode, 0, said)
        for what in ("a folder of 60 files in, each", "the same again, each", "60 files of it out, each"):
            form = rf"^{what}: \d+\.\d{{3}} s, \d+\.\d a second; processors: .*gateway \d+\.\d\d"  # of who took any
            self.assertEqual(len(re.findall(form, said, re.MULTILINE)), 1, said)

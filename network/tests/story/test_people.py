"""The command walrus-net and the page in a browser, over a network that the command itself runs."""
import asyncio
import json
import os
import pathlib
import random
import re
import shlex
import shutil
import signal
from typing import Union

from support.browser import PROGRAM, Browser
from support.harness import HERE
from support.http_case import UpCase
from walrus.network.deploy.local import free_port

DRAWN = random.Random(40)


class People(UpCase):
    """The command and the page, over a network that the command itself runs."""

    async def words(self, *words: Union[str, int, pathlib.Path], data: bytes = b"", status: int = 0) -> str:
        """Returns the output of walrus-net, and checks its exit status."""
        environment = {**os.environ, "WALRUS_GATEWAY": self.url}
        pipes = {name: asyncio.subprocess.PIPE for name in ("stdin", "stdout", "stderr")}
        line = [str(HERE.parent / "walrus-net"), *map(str, words)]
        process = await asyncio.create_subprocess_exec(*line, env=environment, **pipes)
        out, error = await process.communicate(data)
        self.assertEqual(process.returncode, status, error.decode())
        self.assertEqual(error.count(b"\n"), bool(status), error)
        return (out + error).decode()

    async def test_the_command_and_the_page(self) -> None:
        folder = await self.up("--stale", "8")  # on a busy machine a recorder's line may come some seconds late
        self.assertTrue(self.log("up").endswith("\nready\n"))  # a line that a script can wait for
        file, once = self.folder / "file", ("--epochs", 1)
        file.write_bytes(DRAWN.randbytes(50_000))
        told = json.loads(await self.words("store", file, "--epochs", "4", "--json"))
        name = told["blobId"]
        self.assertEqual((told["size"], told["endEpoch"]), (50_000, 4))
        await self.words("fetch", name, "--output", self.folder / "out")
        self.assertEqual((self.folder / "out").read_bytes(), file.read_bytes())
        self.assertIn("node-2: shards 2, ", await self.words("status"))
        self.assertRegex(
            await self.words("status", name), "[34] shards acknowledged it in epoch 0, [34] shards are there"
        )
        self.assertIn("node-1 holds it", await self.words("challenge", name, "node-1"))
        await self.bundles(file)
        with self.subTest("the example with age"):
            await self.encrypted(file)
        self.assertIn("no such blob", await self.words("fetch", "0" * 64, status=4))
        self.assertIn("No such file", await self.words("store", self.folder / "none", *once, status=1))
        self.assertIn("is the gateway running", await self.words("status", "--gateway", "http://127.0.0.1:1", status=1))
        told = [json.loads(line) for line in (await self.words("list", "--json")).splitlines()]
        self.assertEqual({(it["blobId"], it["endEpoch"]) for it in told} & {(name, 4)}, {(name, 4)})
        soon = [line.split()[0] for line in (await self.words("expiring")).splitlines()]
        self.assertNotIn(name, soon)
        self.assertGreater(len(soon), 0)
        self.assertIn(f"{name} until epoch 7, ", await self.words("extend", name, "--epochs", 7))
        self.assertIn(f"{name} until epoch 7, ", await self.words("expiring", "--within", 7))
        self.assertIn("publisher may register 9 blobs", await self.words("share", folder, "publisher", "--blobs", 9))
        self.assertIn("other is expelled, from place", await self.words("expel", folder, "other", "--yes"))
        self.assertIn("epoch 1 has begun", await self.words("handover", folder, "--yes"))
        self.assertRegex((await self.words("status")).splitlines()[0], r"; the ledger is at place \d+$")
        told = await self.words("completion")
        text = "COMP_WORDS=(walrus-net st); COMP_CWORD=1; _walrus_net; echo ${COMPREPLY[@]}"
        process = await asyncio.create_subprocess_exec("bash", "-c", f"{told}\n{text}", stdout=asyncio.subprocess.PIPE)
        self.assertEqual((await process.communicate())[0], b"store status\n")
        with self.subTest("the page in a browser"):
            await self.page(name, folder)
        self.local.processes["up"].send_signal(signal.SIGTERM)
        self.assertEqual(await asyncio.wait_for(self.local.processes["up"].wait(), 60), 0, self.log("up"))

    async def test_handover_and_up_know_the_nodes(self) -> None:
        folder = await self.up()
        short, long = [(await self.words("store", "-", "--epochs", n, data=b"%d" % n)).split()[0] for n in (1, 7)]
        four = ["node-0", "node-1", "node-2", "node-3"]
        said = await self.words("handover", folder, *four[:3], "nobody", "--yes", "--force", status=1)
        self.assertIn("nobody told the ledger no address", said)
        await self.words("handover", folder, *four[:3], "a,b", "--yes", status=2)
        said = await self.words("handover", folder, "node-0*2", *four[1:3], "--yes", status=1)
        self.assertIn("node-0 has 2 shards, and 1 may be lost", said)
        adds = await asyncio.create_subprocess_exec(str(HERE.parent / "up"), str(folder), "--add", "node-4", stdout=-3)
        self.assertEqual(await adds.wait(), 0)
        said = await self.words("handover", folder, *four[:3], "node-4", "--yes", status=1)
        self.assertIn("node-4 told the ledger no address", said)
        said = await self.words("handover", folder, status=1)
        self.assertIn(f"{short} ends with epoch 0\n", said)
        self.assertIn("--yes begins without", said)
        self.assertIn("epoch 0; ", await self.words("status"))
        os.kill(self.process_of(folder, "node-3"), signal.SIGKILL)
        self.assertIn("node-3 does not answer", await self.words("handover", folder, "--yes", status=1))
        said = await self.words("handover", folder, "--force", "--yes")
        self.assertEqual(said, f"{short} ends with epoch 0\nepoch 1 has begun\n")
        self.assertIn("node-3 has ended with status -9", self.log("up"))
        self.local.processes["up"].send_signal(signal.SIGTERM)
        self.assertEqual(await asyncio.wait_for(self.local.processes["up"].wait(), 60), 0, self.log("up"))
        await self.up()  # starts all of them; node-4 is not named
        told = [f"{name} ({self.process_of(folder, name)})" for name in (*four, "node-4")]
        self.assertIn(f"nodes {' '.join(told)}\n", self.log("up"))
        said = json.loads(await self.words("handover", folder, *four[:3], "node-4", "--yes", "--json"))
        self.assertEqual((said["epoch"], said["ended"]), (2, []))
        self.assertEqual(await self.words("fetch", long), "7")
        for name in ("node-3", "node-1"):  # the first has no shards any more
            os.kill(self.process_of(folder, name), signal.SIGKILL)
        async with asyncio.timeout(120):
            while "node-1 has ended" not in self.log("up").rpartition("the network is up")[2]:
                await asyncio.sleep(0.1)
        await self.words("store", "-", "--epochs", 2, data=b"three of four")
        os.kill(self.process_of(folder, "node-2"), signal.SIGKILL)
        self.assertEqual(await asyncio.wait_for(self.local.processes["up"].wait(), 60), 1, self.log("up"))
        self.assertIn("the network ends, as nodes with 2 shards are gone, and only 1 may be", self.log("up"))

    async def test_up_goes_on_in_the_background_with_seven_shards(self) -> None:
        folder, port = self.folder / "network", free_port()
        self.url = f"http://127.0.0.1:{port}"
        line = [str(HERE.parent / "up"), str(folder), "--detach", "--port", str(port)]
        line += ["--faults", "2", "--nodes", "a*2,b*2,c*2,d"]
        process = await asyncio.create_subprocess_exec(*line, stdout=asyncio.subprocess.PIPE)
        said = (await process.communicate())[0].decode()
        found = re.search(r"\nready: kill (\d+) ends it", said)
        assert found, said
        try:
            told = await self.words("status")
            wanted = ["a: shards 0 1", "b: shards 2 3", "c: shards 4 5", "d: shards 6"]
            self.assertEqual([line.split(",")[0] for line in told.splitlines()[1:5]], wanted)
            self.assertIn(
                "no calendar by which 90d", await self.words("store", "-", "--for", "90d", data=b"x", status=1)
            )
            await self.words("calendar", folder, "30d")
            self.assertRegex(await self.words("store", "-", "--for", "90d", data=b"x"), "until epoch [34], ")
            self.assertRegex(
                await self.words("status"), r"epoch 0, the next planned for \d{4}-\d\d-\d\dT\d\d:\d\dZ; 1 reg"
            )
        finally:
            os.kill(int(found[1]), signal.SIGTERM)
        async with asyncio.timeout(120):
            while any(str(folder).encode() in self.line(it) for it in pathlib.Path("/proc").glob("[0-9]*/cmdline")):
                await asyncio.sleep(0.1)

    def line(self, path: pathlib.Path) -> bytes:
        """Returns the command line of a process, unless it has just ended."""
        try:
            return path.read_bytes()
        except OSError:
            return b""

    async def bundles(self, file: pathlib.Path) -> None:
        """Two files are stored as one bundle, and each is fetched by the name that is reported for it."""
        other = self.folder / "other \u00fc"
        other.write_bytes(b"other")
        said = (await self.words("store", "--bundle", file, other, "--epochs", 1)).splitlines()
        names = [line.partition(" ") for line in said[1:]]
        self.assertEqual([name for _, _, name in names], [file.name, other.name])
        self.assertEqual([it for it, _, _ in names], [f"{said[0].split()[0]}/{number}" for number in range(2)])
        await self.words("fetch", names[1][0], "--output", self.folder / "out")
        self.assertEqual((self.folder / "out").read_bytes(), b"other")
        self.assertIn(
            "at most 2 files", await self.words("store", "--bundle", file, other, file, "--epochs", 1, status=1)
        )
        self.assertIn("has 2 members", await self.words("fetch", f"{said[0].split()[0]}/2", status=4))

    async def encrypted(self, file: pathlib.Path) -> None:
        """The example with age in HTTP.md: what is stored is no longer the file, and comes back as it."""
        if not shutil.which("age"):
            self.skipTest("age is not here (apt-get install age)")
        page = (HERE.parent / "HTTP.md").read_text()
        lines = [it[2:] for it in page.splitlines() if it.startswith("$ age") or "| age -d" in it]
        self.assertEqual(len(lines), 3)
        net, key = str(HERE.parent / "walrus-net"), "$(sed -n 's/^# public key: //p' key.txt)"
        words = [lines[0], f"name=$({lines[1]} | cut -d' ' -f1)", lines[2], 'walrus-net fetch "$name" --output stored']
        script = "\n".join(["set -e", f'walrus-net() {{ {shlex.quote(net)} "$@"; }}', *words])
        script = script.replace("age1…", key).replace("ID", '"$name"').replace("> FILE", "> back")
        script = script.replace("FILE", shlex.quote(str(file)))
        pipes = {"stdout": asyncio.subprocess.PIPE, "stderr": asyncio.subprocess.STDOUT}
        environment = {**os.environ, "WALRUS_GATEWAY": self.url}
        folder = self.folder / "encrypted"
        folder.mkdir()
        process = await asyncio.create_subprocess_exec(
            "bash", "-c", script, cwd=folder, env=environment, **pipes  # type: ignore[arg-type]
        )
        said, _ = await process.communicate()
        self.assertEqual(process.returncode, 0, said)
        self.assertEqual((folder / "back").read_bytes(), file.read_bytes())
        self.assertTrue((folder / "stored").read_bytes().startswith(b"age-encryption.org/v1\n"))

    async def page(self, name: str, folder: pathlib.Path) -> None:
        if not PROGRAM:
            self.skipTest("chromium is not here (apt-get install chromium)")
        async with Browser() as browser:
            await browser.open(self.url + "/")
            self.assertTrue(await browser.until(f"document.querySelector('a[href=\"/v1/blobs/{name}\"]')"))
            later = (await self.words("store", "-", "--epochs", 1, data=b"seen")).split()[0]
            self.assertTrue(await browser.until(f"document.querySelector('a[href=\"/v1/blobs/{later}\"]')"))
            text = "document.getElementById('summary').textContent"
            await self.words("calendar", folder, "14d")
            date = json.loads(await self.words("status", "--json"))["calendar"]["next"][:10]
            wanted = f"Epoch 1, planned until {date}, 4 shards of which 1 may fail; 4 of 4 nodes answer."
            self.assertTrue(await browser.until(f"{text} === '{wanted}'"))
            planned = "document.getElementById('epoch-text').textContent"
            self.assertTrue(await browser.until(f"{planned} === 'Epoch 1: 0 % of its planned time is over'"))
            os.kill(self.process_of(folder, "node-2"), signal.SIGKILL)
            self.assertTrue(await browser.until(f"{text}.includes('3 of 4 nodes')"))
            await self.shards(browser, name)
            etcd, fault = self.etcd_of(folder), "document.getElementById('fault')"
            os.kill(etcd, signal.SIGSTOP)
            try:
                self.assertTrue(await browser.until(f"{fault}.textContent.includes('The ledger is away')"))
                self.assertFalse(await browser.evaluate(f"{fault}.hidden"))
            finally:
                os.kill(etcd, signal.SIGCONT)
            self.assertTrue(await browser.until(f"{fault}.hidden"))
            for width, dark in ((1_100, False), (390, True), (320, False)):
                await browser.look(width, 900, dark)
                self.assertLessEqual(await browser.evaluate("document.documentElement.scrollWidth"), width)
                colors = await browser.evaluate(
                    "(it => [it.color, it.backgroundColor])(getComputedStyle(document.body))"
                )
                bright = [sum(map(int, re.findall(r"\d+", it))) > 382 for it in colors]
                self.assertEqual(bright, [dark, not dark], colors)
            await browser.press("Tab")
            self.assertTrue(await browser.evaluate("document.activeElement.matches(':focus-visible')"))

    async def shards(self, browser: Browser, name: str) -> None:
        """What the page shows of nodes, and of a blob's shards while a node is away."""
        rows = "[...document.querySelectorAll('#{} tr')].map(it => it.textContent)"
        nodes, files = rows.format("nodes"), rows.format("blobs")
        for word in (r"\\d blobs, \\S+ [kM]?B", r"free of \\S+ [GT]B", "up to date"):
            self.assertTrue(await browser.until(f"{nodes}.some(it => new RegExp('{word}').test(it))"), word)
        own = f"{files}.find(it => it.startsWith('{name[:16]}'))"
        self.assertTrue(await browser.until(f"/50.0 kB.*3 of 4/.test({own})"), await browser.evaluate(files))
        await browser.evaluate(f"document.querySelector('button[title$=\"{name}\"]').click()")
        grid = "[...document.querySelectorAll('#grid li')].map(it => [it.className, it.textContent])"
        self.assertTrue(await browser.until(f"{grid}.length === 4"))
        found = await browser.evaluate(grid)
        self.assertEqual([kind for kind, _ in found], ["good", "good", "bad", "good"], found)
        self.assertIn("2: node-2its node does not answer", found[2][1])
        said = await browser.evaluate("document.getElementById('blob-said').textContent")
        self.assertIn("3 of 4 shards are there now, 2 are needed", said)

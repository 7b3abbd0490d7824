"""Badly encoded blobs are announced, and the certified pieces of a broken upload are not stored again."""
import asyncio
import contextlib
import io
import json
import os
import pathlib
import signal
from typing import Any
from unittest import mock

from support.harness import FOUR, HERE
from support.http_case import DRAWN, GatewayCase
from walrus import client
from walrus.network.files import file_list
from walrus.network.gateway.write import unfinished
from walrus.network.peers.engine import find_program
from walrus.network.settings.gateway_options import Options

import example_tools  # noqa: E402

PIECE = 16_777_216


class Bad(GatewayCase):
    async def test_a_read_that_ends_in_a_rejection_is_announced(self) -> None:
        await self.start()
        encoded = await example_tools.encode_badly(client.Walrus(find_program()))
        name = (await self.network.publish(encoded, 9)).identifier
        self.assertFalse(self.network.ledger.invalid(name))
        await self.local.end("node-0", kill=True)  # 2f+1 are enough
        said = io.StringIO()
        with contextlib.redirect_stderr(said):
            self.assertTrue((await self.refused(410, f"/v1/blobs/{name.hex()}"))["invalid"])
            self.assertTrue(await self.network.until(lambda it: it.invalid(name), 60))
            async with asyncio.timeout(60):
                while not self.gateway.announcer.findings:
                    await asyncio.sleep(0.1)
        self.assertIn(f"{name.hex()} was badly encoded, and the ledger declares it invalid", said.getvalue())
        [told] = json.loads((await self.curl("/v1/status"))[2])["announced"]
        self.assertEqual((told["blob"], told["invalid"]), (name.hex(), True))
        self.assertRegex(told["said"], "^shards 1 2 3 attest it; shard 0: ")
        self.assertEqual(json.loads((await self.curl(f"/v1/status/{name.hex()}"))[2])["attested"], FOUR[1:])
        self.assertIn(b'walrus_bad_encodings_total{came="declared"} 1.0\n', (await self.curl("/metrics"))[2])
        good = (await self.put(b"good"))["blobId"]
        self.assertEqual((await self.get(good))[2], b"good")
        self.assertEqual(len(self.gateway.announcer.findings), 1)  # a good blob is never announced

    async def test_a_blob_of_an_earlier_committee_is_announced_too(self) -> None:
        await self.start()
        encoded = await example_tools.encode_badly(client.Walrus(find_program()))
        name = (await self.network.publish(encoded, 9)).identifier
        await self.local.add_node("node-4")
        await self.local.start_node("node-4")
        async with self.local.network("operator") as operator:
            await operator.begin(1, ["node-4", *FOUR[1:]])
        self.assertTrue(await self.network.until(lambda it: it.epoch == 1 and not it.moving, 90))
        await self.refused(410, f"/v1/blobs/{name.hex()}")
        self.assertTrue(await self.network.until(lambda it: it.invalid(name), 90), self.gateway.announcer.findings)

    async def test_certified_pieces_are_told_and_taken_up(self) -> None:
        await self.start()
        self.enterContext(mock.patch.object(file_list, "PIECE", 100_000))
        data, true, sent = DRAWN.randbytes(350_000), self.network.publish, list[bytes]()
        walrus = client.Walrus(find_program())
        pieces = [data[place:][:100_000] for place in range(0, len(data), 100_000)]
        names = [(await walrus.output("id", 1, data=it)).decode().strip() for it in pieces]
        fails = True

        async def publish(encoded: client.Encoded, until: int) -> Any:
            name = encoded.identifier.hex()
            if fails and name in names[2:]:
                await asyncio.sleep(2)
                raise client.Failed("it is told to fail", {})
            sent.append(encoded.identifier)
            return await true(encoded, until)

        with mock.patch.object(self.network, "publish", publish):
            status, _, body = await self.curl("/v1/blobs?epochs=5", data=data)
            error = json.loads(body)["error"]
            self.assertEqual((status, error["stored"], error["storedPieces"]), (503, names[:2], 2))
            fails, sent = False, []
            told = await self.put(data)
        self.assertEqual({it.hex() for it in sent[:2]}, {*names[2:]})
        self.assertEqual((len(sent), told["pieces"], "newlyCreated" in told), (3, 4, True))  # and their list
        self.assertTrue((await self.get(told["blobId"]))[2] == data)


class Going(GatewayCase):
    """walrus-net behind a wire that breaks."""

    options = Options(seconds=1, challenge=0, patience=60, names=["127.0.0.1"])

    async def start(self) -> None:
        await super().start()
        self.plan, self.opened = list[tuple[int, bool]](), 0
        server = await asyncio.start_server(self.serve, "127.0.0.1", 0)
        self.addCleanup(server.close)
        self.wire = server.sockets[0].getsockname()[1]
        self.data = DRAWN.randbytes(2 * PIECE + 5_000_000)
        (self.folder / "file").write_bytes(self.data)

    async def serve(self, reader: asyncio.StreamReader, writer: asyncio.StreamWriter) -> None:
        """Forwards what arrives; a large upload breaks off or stalls as planned."""
        other_reader, other = await asyncio.open_connection("127.0.0.1", self.port)

        async def back() -> None:
            with contextlib.suppress(OSError):
                while data := await other_reader.read(65_536):
                    writer.write(data)
                    await writer.drain()
            writer.transport.abort()

        backing, left, stalls = asyncio.create_task(back()), 10**12, False
        with contextlib.suppress(OSError):
            while data := await reader.read(65_536):
                if data.startswith(b"PATCH ") and self.plan:
                    left, stalls = self.plan.pop(0)
                left -= len(data)
                if left < 0 and stalls:
                    await asyncio.sleep(3_600)
                if left < 0:
                    break
                other.write(data)
                await other.drain()
        other.transport.abort()
        await backing

    async def store(self, interrupt: bool = False) -> tuple[int, str, str]:  # type: ignore[override]
        environment = {**os.environ, "WALRUS_GATEWAY": f"http://127.0.0.1:{self.wire}"}
        environment["XDG_STATE_HOME"] = str(self.folder / "state")
        pipes: Any = {"stdout": asyncio.subprocess.PIPE, "stderr": asyncio.subprocess.PIPE}
        line = [str(HERE.parent / "walrus-net"), "store", str(self.folder / "file"), "--epochs", "5", "--json"]
        process = await asyncio.create_subprocess_exec(*line, env=environment, **pipes)
        if interrupt:
            async with asyncio.timeout(120):
                while self.gateway.reader.bytes['way="in"'] < PIECE + 1_000_000:
                    self.assertIsNone(process.returncode, await process.communicate() if process.returncode else "")
                    await asyncio.sleep(0.2)
            await asyncio.sleep(2)
            process.send_signal(signal.SIGINT)
        out, error = await process.communicate()
        return process.returncode or 0, out.decode(), error.decode()

    async def test_a_store_goes_on_after_breaks_and_with_the_next_command(self) -> None:
        signal.signal(signal.SIGINT, signal.default_int_handler)
        await self.start()
        self.plan = [(PIECE + 2_000_000, False), (PIECE + 1_000_000, True)]
        status, out, error = await self.store(interrupt=True)
        self.assertEqual((status, out, error), (130, "", "walrus-net store: interrupted\n"))
        [folder] = self.folder.glob("tokens.uploads/*")
        async with asyncio.timeout(60):
            while unfinished.Upload(folder).count < 1:
                await asyncio.sleep(0.2)
        status, out, error = await self.store()
        self.assertEqual((status, error), (0, ""))
        told = json.loads(out)
        self.assertEqual((told["size"], told["pieces"]), (len(self.data), 3))
        self.assertLess(self.gateway.reader.bytes['way="in"'], len(self.data) + 8_000_000)
        self.assertTrue((await self.get(told["blobId"]))[2] == self.data)
        self.assertEqual(json.loads(pathlib.Path(self.folder, "state", "walrus", "uploads.json").read_text()), {})

"""What the tests of the gateway share: a gateway over a network on loopback, and curl."""
import asyncio
import json
import os
import pathlib
import random
import shutil
import unittest
from typing import Any, Optional

from support.harness import FOUR, HERE, NetworkCase
from walrus.network.deploy.local import free_port
from walrus.network.gateway.app import Gateway
from walrus.network.settings.gateway_options import Options

DRAWN = random.Random(39)
PIECE = 16_777_216
MARK = b"\x00walrus list \x00\x00\x01"
Answer = tuple[int, dict[str, str], bytes]


@unittest.skipIf(shutil.which("curl") is None, "curl is not here (network/install --tests)")
class GatewayCase(NetworkCase):
    """A network with a gateway in this process."""

    options = Options(seconds=1, challenge=0, patience=60)

    async def asyncSetUp(self) -> None:
        await super().asyncSetUp()
        self.local.options |= {"recorded": False}

    async def start(self) -> None:
        await self.local.up(FOUR)
        self.network = await self.enterAsyncContext(self.local.network(seconds=self.options.patience))
        self.gateway = Gateway(self.network, self.folder, self.options)
        self.addAsyncCleanup(self.gateway.close)
        self.port = await self.gateway.listen()

    async def curl(self, path: str, *words: str, data: Optional[bytes] = None) -> Answer:
        """Returns the status, headers and body that curl gets; if the body breaks off, the status is curl's 18."""
        out, heads, sent = (self.folder / f"{kind}-{DRAWN.randrange(10**9)}" for kind in ("out", "heads", "sent"))
        if data is not None:
            sent.write_bytes(data)
            words = (*words, "--upload-file", str(sent))
        line = ["curl", "-q", "-s", "-m", "120", "-o", str(out), "-D", str(heads), *words]
        process = await asyncio.create_subprocess_exec(*line, f"http://127.0.0.1:{self.port}{path}")
        status = await process.wait()
        last = heads.read_bytes().decode("latin-1").strip().split("\r\n\r\n")[-1] if heads.exists() else ""
        body = out.read_bytes() if out.exists() else b""
        for it in (out, heads, sent):
            it.unlink(missing_ok=True)
        first, *rest = last.split("\r\n")
        found = {name.lower(): text for name, _, text in (line.partition(": ") for line in rest)}
        return status or int(first.split()[1]), found, body

    async def put(self, data: bytes, epochs: int = 5) -> dict[str, Any]:
        status, headers, body = await self.curl(f"/v1/blobs?epochs={epochs}", data=data)
        self.assertIn(status, (200, 201), body)
        told: dict[str, Any] = json.loads(body)
        self.assertEqual(headers["location"], f"/v1/blobs/{told['blobId']}")
        self.assertEqual((status == 200, len(data)), ("alreadyCertified" in told, told["size"]))
        return told

    async def get(self, name: str, *words: str) -> Answer:
        return await self.curl(f"/v1/blobs/{name}", *words)

    async def refused(self, status: int, path: str, *words: str) -> dict[str, Any]:
        """Checks that a request is refused with this status and a sentence."""
        found, headers, body = await self.curl(path, *words)
        self.assertEqual((found, headers.get("content-type")), (status, "application/json; charset=utf-8"), body)
        error: dict[str, Any] = json.loads(body)["error"]
        self.assertEqual(error["status"], status)
        return error


PORTS = f"""import sys
if "up" in sys.orig_argv:
    sys.path.append({str(HERE)!r})
    from support import harness
"""  # Python runs this before the command, which then draws no port that a test has drawn


class UpCase(NetworkCase):
    """A network with a gateway, both run by the command itself."""

    async def up(self, *words: str) -> pathlib.Path:
        """Starts a new network with a gateway, whose URL goes to `url`; returns its folder."""
        folder, port = self.folder / "network", free_port()
        self.url = f"http://127.0.0.1:{port}"
        python = self.folder / "python"
        python.mkdir(exist_ok=True)
        (python / "sitecustomize.py").write_text(PORTS)
        known = os.pathsep.join(filter(None, [str(python), os.environ.get("PYTHONPATH")]))
        line = [str(HERE.parent / "up"), str(folder), "--port", str(port), *words]
        up = await self.local.spawn("up", *line, env={**os.environ, "PYTHONPATH": known})
        async with asyncio.timeout(180):
            while self.url not in self.log("up"):
                self.assertIsNone(up.returncode, self.log("up"))
                await asyncio.sleep(0.1)
        return folder

    def process_of(self, folder: pathlib.Path, name: str) -> int:
        """Returns the process of a node that the command has started."""
        for path in pathlib.Path("/proc").glob("[0-9]*/cmdline"):
            try:
                if path.read_bytes().split(b"\0")[-2] == str(folder / f"{name}.toml").encode():
                    return int(path.parent.name)
            except (OSError, IndexError):
                pass
        raise ProcessLookupError(name)

    def etcd_of(self, folder: pathlib.Path) -> int:
        """Returns the process of the network's etcd, which runs in its folder."""
        for path in pathlib.Path("/proc").glob("[0-9]*"):
            try:
                if (path / "cwd").resolve() == folder and (path / "cmdline").read_bytes().startswith(b"etcd\0"):
                    return int(path.name)
            except OSError:
                pass
        raise ProcessLookupError("etcd")

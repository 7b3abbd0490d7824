"""A file of 300 MB through network/up with curl, with a node killed in between: takes some minutes."""
import asyncio
import json
import os
import pathlib
import random
import shutil
import signal
import time
import unittest

from support.http_case import PIECE, UpCase

SIZE = int(os.environ.get("LARGE_BYTES", "300000000"))
SECONDS, MEMORY = 1_200, 300_000_000  # for a transfer; the most bytes of memory that the gateway may take


@unittest.skipIf(shutil.which("curl") is None, "curl is not here (network/install --tests)")
class Large(UpCase):
    async def test_a_large_file_with_a_node_killed_between(self) -> None:
        folder, file, out = await self.up(), self.folder / "file", self.folder / "out"
        drawn = random.Random(41)
        with open(file, "wb") as made:
            for start in range(0, SIZE, PIECE):
                made.write(drawn.randbytes(min(PIECE, SIZE - start)))
        start = time.monotonic()
        told = json.loads(await self.ran("curl", "-q", "-s", "-f", "-T", file, f"{self.url}/v1/blobs?epochs=5"))
        self.assertEqual((told["size"], told["pieces"]), (SIZE, -(-SIZE // PIECE)))
        os.kill(self.process_of(folder, "node-1"), signal.SIGKILL)
        out.mkdir()
        half = time.monotonic()
        await self.ran("curl", "-q", "-s", "-f", "-O", "--output-dir", out, f"{self.url}/v1/blobs/{told['blobId']}")
        speeds = [SIZE / 1e6 / it for it in (half - start, time.monotonic() - half)]
        await self.ran("cmp", file, out / told["blobId"])
        text = pathlib.Path(f"/proc/{self.local.processes['up'].pid}/status").read_text()
        most = int(text.partition("VmHWM:")[2].split()[0]) * 1_024
        self.assertLess(most, MEMORY)
        text = "{} bytes: in with {:.1f} MB/s, out with {:.1f} MB/s; the gateway had {:.0f} MB at most"
        print(text.format(SIZE, *speeds, most / 1e6), flush=True)

    async def ran(self, *words: object) -> str:
        """Returns the output of a command, which must end with status 0."""
        process = await asyncio.create_subprocess_exec(*map(str, words), stdout=asyncio.subprocess.PIPE)
        async with asyncio.timeout(SECONDS):
            said, _ = await process.communicate()
        self.assertEqual(process.returncode, 0, (words, said[:300]))
        return said.decode()

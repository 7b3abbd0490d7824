"""A node that lies, is silent, keeps short contents in files, waits another time, or reports odd figures, by its
environment variables."""
import asyncio
import json
import os
import pathlib
import random
import sys

sys.path.insert(0, str(pathlib.Path(__file__).resolve().parents[3] / "clients" / "python"))

from walrus.network.ledger import follower  # noqa: E402
from walrus.network.node import figures, handover, intake, node, shard  # noqa: E402


class Liar(node.Node):
    """Half of its replies are wrong: a byte of a sliver, opening or metadata is changed, or all parts are missing."""

    drawn = random.Random(7)

    async def route(self, number: int, request: bytes) -> list[bytes]:
        reply = await super().route(number, request)
        if request[:1] not in (b"\x20", b"\x21") or self.drawn.random() < 0.5:
            return reply
        altered = []
        for payload in reply:
            place = self.drawn.randrange(1, len(payload))
            wrong = bytearray(payload)
            wrong[place] ^= 1
            altered.append(payload if payload[:1] in (b"\x30", b"\x31") else bytes(wrong))
        return altered if self.drawn.random() < 0.8 else reply[-1:]


class Silent(node.Node):
    """Stores blobs and serves reads, but never replies to a request for a symbol, and does nothing for a handover."""

    async def route(self, number: int, request: bytes) -> list[bytes]:
        if request[:1] == b"\x21":
            await asyncio.Event().wait()
        return await super().route(number, request)


shard.SMALL = int(os.environ.get("ODD_SMALL", shard.SMALL))  # so that short contents become files too
if "ODD_PATIENCE" in os.environ:  # seconds for which requests and posts wait for the ledger
    intake.HEARD = float(os.environ["ODD_PATIENCE"])
    follower.Recorders.post.__defaults__ = (intake.HEARD,)
if "ODD_FIGURES" in os.environ:
    figures.NodePort.figures = lambda port: json.loads(os.environ["ODD_FIGURES"])  # type: ignore[method-assign]
kind = Liar if "ODD_LIES" in os.environ else node.Node
if "ODD_SILENT" in os.environ:
    kind, handover.hand_over = Silent, lambda _: asyncio.Event().wait()  # type: ignore[assignment]
sys.exit(node.main(kind))

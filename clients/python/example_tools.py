"""Shared by the examples: how they are called, what they print and check, and a writer that encodes badly."""
import argparse
import hashlib
import os
import pathlib
import sys
from collections.abc import Callable, Coroutine
from typing import Any

from walrus import client, loop
from walrus.format import frames

TOP = pathlib.Path(__file__).resolve().parents[2]
os.environ.setdefault("PYTHONPATH", str(TOP / "clients" / "python"))  # for modules that run as processes
SIX_WORDS = bytes.fromhex("000100020003000400050006")


def find_walrus(path: str = "") -> client.Walrus:
    """Find the program: at this path, where the variable WALRUS says, or else where the script ./walrus builds it."""
    return client.Walrus.find(path or os.environ.get("WALRUS") or str(TOP / "walrus"))


def run(story: Callable[[client.Walrus], Coroutine[Any, Any, None]], doc: str | None) -> None:
    """Run an example; its only argument, which is optional, is the program."""
    parser = argparse.ArgumentParser(description=doc)
    parser.add_argument(
        "program", nargs="?", default="", metavar="PROGRAM", help="else the variable WALRUS, or ./walrus"
    )
    try:
        walrus = find_walrus(parser.parse_args().program)
    except ValueError as error:
        sys.exit(f"{parser.prog}: {error}")
    loop.run(story(walrus))


def check(holds: bool, text: str) -> None:
    """Print what was checked, and end the example if it does not hold."""
    print(("ok: " if holds else "FAILED: ") + text, flush=True)
    if not holds:
        sys.exit(1)


async def codes(shard: client.Shard, *requests: frames.Frame | bytes) -> list[int | None]:
    """Return the codes of a shard's answers to requests, None for a clash."""
    payloads = [request if isinstance(request, bytes) else frames.write_frame(request) for request in requests]
    return [getattr(reply.end, "code", None) for reply in await shard.ask(*payloads)]


def digest(*pieces: bytes) -> bytes:
    return hashlib.sha256(b"".join(pieces)).digest()


def root(leaves: list[bytes]) -> bytes:
    """Return the Merkle root of leaves whose number is a power of two."""
    level = [digest(b"\0", leaf) for leaf in leaves]
    while len(level) > 1:
        level = [digest(b"\1", left, right) for left, right in zip(level[::2], level[1::2])]
    return level[0]


async def encode_badly(walrus: client.Walrus) -> client.Encoded:
    """Encode six words as a lying writer: it commits to a row 3 that does not match the columns."""
    good = await walrus.encode(SIX_WORDS, 1)
    false_row = [bytes([0, word]) for word in (14, 11, 13, 8)]  # the true one is 14, 11, 12, 9
    metadata = frames.read_frame(good.metadata)
    assert isinstance(metadata, frames.Metadata)
    roots = metadata.roots[:3] + ((root(false_row), metadata.roots[3][1]),)
    front = bytes([2]) + (1).to_bytes(2, "big") + len(SIX_WORDS).to_bytes(8, "big")
    name = digest(front, root([primary + secondary for primary, secondary in roots]))
    named = [tuple(sliver[:1] + name + sliver[33:] for sliver in pair) for pair in good.slivers]
    false = frames.Sliver(name, client.PRIMARY, 3, b"".join(false_row[:3]))
    slivers = [(primary, secondary) for primary, secondary in named]
    slivers[3] = frames.write_frame(false), slivers[3][1]
    return client.Encoded(name, frames.write_frame(frames.Metadata(1, len(SIX_WORDS), roots)), slivers)

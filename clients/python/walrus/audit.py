#!/usr/bin/env python3
"""Asks shards behind ports to prove that they hold their slivers of a blob: python3 -m walrus.audit --help

    python3 -m walrus.audit [--seconds S] [--walrus PROGRAM] ID BEACON COUNT HOST:PORT..

The addresses are those of all n = 3f+1 shards, in the order of their numbers. BEACON is 32 bytes in hexadecimal that
nobody could know in advance; COUNT is the number of draws for each shard. One line for each shard has the result of
`walrus verify` for its answer. The exit status is 0 if all answers are accepted, and 1 otherwise.
"""
import argparse
import asyncio
import hashlib
import sys
from collections.abc import Iterator, Sequence
from typing import NamedTuple


from walrus.client import DONE, METADATA, MOST_FAULTS, OPENING, Symbol, in_process
from walrus.client.shards import Asked
from walrus.format.envelopes import parts

from . import client, loop
from .files import read_address, read_identifier

LARGEST_INPUT = 134_217_728  # the most bytes of input that `walrus verify` accepts
MOST_DRAWS, BATCH = 1_000, 16  # the most draws of an audit; symbols that are requested within one deadline


class Audit(NamedTuple):
    """The result for one shard: whether its answer is accepted, and the words of `walrus verify` or of the failure."""

    accepted: bool
    said: str


def draw(beacon: bytes, identifier: bytes, shards: int, shard: int, number: int) -> Symbol:
    """Return the request of one draw: the symbol of the drawn sliver, at its crossing with the shard's own sliver."""
    text = b"\4" + beacon + identifier + shard.to_bytes(2, "big") + number.to_bytes(2, "big")
    drawn = hashlib.sha256(text).digest()
    return Symbol(identifier, 1 - (drawn[0] & 1), int.from_bytes(drawn[3:5], "big") % shards)


def batches(asked: Sequence[Symbol]) -> Iterator[Sequence[Symbol]]:
    return (asked[start:][:BATCH] for start in range(0, len(asked), BATCH))


async def audit(shard: client.Shard, identifier: bytes, beacon: bytes, count: int, walrus: client.Walrus) -> Audit:
    """Draw `count` places in a shard's two slivers, request the symbol at each once, and verify the answers.

    Raises `ValueError` unless the beacon has 32 bytes and `count` is from 1 to `MOST_DRAWS`."""
    if len(beacon) != 32 or not 1 <= count <= MOST_DRAWS:
        raise ValueError(f"a beacon has 32 bytes, and there are 1 to {MOST_DRAWS:,} draws")
    drawn = [draw(beacon, identifier, shard.shape.shards, shard.number, number) for number in range(count)]
    metadata, openings = dict[bytes, None](), dict[Symbol, bytes]()  # distinct metadata; openings by their request
    for some in batches(list(dict.fromkeys(drawn))):
        try:
            replies = await shard.ask(*Asked.each([client.write_frame(symbol) for symbol in some]))
        except ConnectionError as error:
            return Audit(False, str(error))
        for symbol, reply in zip(some, replies):
            if getattr(reply.end, "code", None) != DONE:
                return Audit(False, client.in_words(reply.end))
            metadata |= dict.fromkeys([reply.kept[METADATA]] if METADATA in reply.kept else [])
            openings |= {symbol: reply.kept[OPENING]} if OPENING in reply.kept else {}
    shown = [*metadata, *[openings[symbol] for symbol in drawn if symbol in openings]]
    if sum(len(payload) + client.HEAD.size for payload in shown) > LARGEST_INPUT:
        return Audit(False, f"the answer to {count} draws has more than {LARGEST_INPUT:,} bytes: draw fewer")
    words = "verify", identifier.hex(), shard.number, beacon.hex(), count
    status, text = await walrus.run(*words, data=parts(shown))
    return Audit(status == 0, text.decode("ascii", "replace").strip() or f"walrus ended with status {status}")


def read_words(words: Sequence[str] | None = None) -> argparse.Namespace:
    parser = argparse.ArgumentParser(description=__doc__, formatter_class=argparse.RawDescriptionHelpFormatter)
    parser.add_argument("--seconds", type=float, default=client.SECONDS, help=f"deadline for {BATCH} symbols")
    parser.add_argument("--walrus", default="", help="program or library; default: that of WALRUS, or one found")
    parser.add_argument("identifier", metavar="ID", type=read_identifier)
    parser.add_argument("beacon", metavar="BEACON", type=read_identifier)
    parser.add_argument("count", metavar="COUNT", type=int)
    parser.add_argument("addresses", metavar="HOST:PORT", nargs="+", type=read_address)
    given = parser.parse_args(words)
    given.faults, rest = divmod(len(given.addresses) - 1, 3)
    if rest or not 1 <= given.faults <= MOST_FAULTS:
        parser.error(f"{len(given.addresses)} addresses; give those of all 3f+1 shards: 4, 7, 10 and so on")
    return given


async def run(given: argparse.Namespace) -> bool:
    """Audit all shards at the same time and print a line for each; return whether all answers are accepted."""
    walrus, addresses = in_process.find(given.walrus), enumerate(given.addresses)
    shards = [client.SocketShard(number, given.faults, place, given.seconds) for number, place in addresses]
    try:
        asked = [audit(shard, given.identifier, given.beacon, given.count, walrus) for shard in shards]
        audits = await asyncio.gather(*asked)
    finally:
        await asyncio.gather(*[shard.close() for shard in shards])
    for shard, found in zip(shards, audits):
        print(f"shard {shard.number}: {found.said}")
    return all(found.accepted for found in audits)


def main() -> None:
    try:
        sys.exit(not loop.run(run(read_words())))
    except (OSError, ValueError) as error:
        sys.exit(f"walrus.audit: {error}")
    except KeyboardInterrupt:
        sys.exit(130)


if __name__ == "__main__":
    main()

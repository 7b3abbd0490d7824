"""Turns an image of a shard's holdings into requests that give them to a shard that was restarted empty.

    python3 -m walrus.images [--until EPOCH] SHARD < image > requests

An image is what `walrus image` writes, or the beginning of a disk with a journal. A sliver's record has no index: that
follows from the shard's number and from the format of the metadata, so a sliver without metadata is skipped."""
import argparse
import struct
import sys
from collections.abc import Iterator
from typing import Optional


from walrus.client import METADATA, PROOF, SECOND_METADATA, SLIVER

from . import client

HEAD = struct.Struct(">BB32sBI")  # of a record: the gate, the kind, the identifier, the part and the size
PUT, DROP_PART, DROP_ALL = 1, 2, 3
Holding = dict[int, bytes]  # what is stored of a blob, by part: metadata, primary sliver, secondary sliver, proof


def change(held: dict[bytes, Holding], kind: int, identifier: bytes, part: int, data: bytes) -> bool:
    """Makes the change of a record; returns whether it is well-formed and lawful."""
    size = len(data)
    if kind not in (PUT, DROP_PART, DROP_ALL) or part > (3 if kind != DROP_ALL else 0):
        return False
    if not (1 <= size <= client.LARGEST_BLOB if kind == PUT else size == 0):
        return False
    parts = held.setdefault(identifier, {})
    if kind == PUT and part in parts:
        return False
    if kind == PUT:
        parts[part] = data
    for dropped in {DROP_PART: (part,), DROP_ALL: range(4)}.get(kind, ()):
        parts.pop(dropped, None)
    if not parts:
        del held[identifier]
    return True


def read_image(image: bytes) -> dict[bytes, Holding]:
    """Returns what an image holds; raises `ValueError` if it is malformed, with the place of the first bad record."""
    held, place = dict[bytes, Holding](), 0
    while not image or image[place] == 1:
        start = place + HEAD.size
        _, kind, identifier, part, size = HEAD.unpack(image[place:start].ljust(HEAD.size, b"\xff"))
        end = start + size
        if end >= len(image) or not change(held, kind, identifier, part, image[start:end]):
            raise ValueError(f"the image is malformed at {place}")
        place = end
    return held


def shape_of(metadata: bytes) -> tuple[int, int]:
    """Returns the format and the number of shards that a stored metadata has."""
    form = 2 if metadata[0] == 2 else 1
    end = form + 1
    return form, 3 * int.from_bytes(metadata[:end][-2:], "big") + 1


def requests(identifier: bytes, holding: Holding, shard: int, until: int) -> Iterator[bytes]:
    """Yields a registration, and the frames of all parts that a shard of this number holds of a blob."""
    metadata: Optional[bytes] = holding.get(0)
    if metadata is None:
        return
    form, shards = shape_of(metadata)
    yield client.write_frame(client.RegisterEntry(identifier, until))
    yield bytes([SECOND_METADATA if form == 2 else METADATA]) + metadata
    for axis, index in ((client.PRIMARY, shard), (client.SECONDARY, shards - 1 - shard if form == 2 else shard)):
        if data := holding.get(1 + axis):
            yield bytes([SLIVER]) + identifier + struct.pack(">BHI", axis, index, len(data)) + data
    if 3 in holding:
        yield bytes([PROOF]) + identifier + holding[3]


def main(words: Optional[list[str]] = None) -> None:
    parser = argparse.ArgumentParser(description=__doc__, formatter_class=argparse.RawDescriptionHelpFormatter)
    parser.add_argument("shard", metavar="SHARD", type=int, help="the number of the shard that held all this")
    parser.add_argument("--until", type=int, default=1, help="the epoch until which its blobs are kept, by default 1")
    given = parser.parse_args(words)
    if not 0 <= given.shard <= 3 * client.MOST_FAULTS or not 1 <= given.until <= 65_536:
        parser.error("SHARD is 0 to 999, and EPOCH is 1 to 65,536")
    try:
        held = read_image(sys.stdin.buffer.read())
        for identifier, holding in sorted(held.items()):
            for request in requests(identifier, holding, given.shard, given.until):
                sys.stdout.buffer.write(client.envelope(request, given.shard))
    except (OSError, ValueError) as error:
        sys.exit(f"walrus.images: {error}")


if __name__ == "__main__":
    main()

#!/usr/bin/env python3
"""Writes streams of envelopes for bench/run, the same each time.

    bench/members.py members COUNT SIZE   COUNT files of SIZE bytes, for `bundle`
    bench/members.py parts COUNT SIZE     COUNT primary slivers of SIZE bytes, each of a different blob, for `image`
"""
import random
import struct
import sys


def envelope(payload: bytes) -> bytes:
    return struct.pack(">BHI", 0x57, 0, len(payload)) + payload


def part(drawn: random.Random, size: int) -> bytes:
    return b"\x11" + drawn.randbytes(32) + struct.pack(">BHI", 0, 0, size) + drawn.randbytes(size)


def main(words: list[str]) -> int:
    match words:
        case [("members" | "parts") as kind, count, size] if count.isdigit() and size.isdigit():
            drawn = random.Random(1)
            for _ in range(int(count)):
                payload = part(drawn, int(size)) if kind == "parts" else drawn.randbytes(int(size))
                sys.stdout.buffer.write(envelope(payload))
            return 0
    print(__doc__, file=sys.stderr)
    return 2


if __name__ == "__main__":
    sys.exit(main(sys.argv[1:]))

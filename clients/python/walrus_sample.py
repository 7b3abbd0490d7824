#!/usr/bin/env python3
"""Writes the schedule that `walrus sample NUMBER` runs, as JSON: walrus_sample.py NUMBER > run.json

The program is the variable WALRUS, or else the script at the top of the repository; it names the 32 blobs."""
import json
import os
import pathlib
import subprocess
import sys
from collections.abc import Iterator
from typing import Any

FAULTS, SHARDS, BLOBS = 2, list(range(7)), 32


def drawn_numbers(state: int) -> Iterator[int]:
    """The draws of `walrus sample NUMBER`, from a state of 64 bits that begins as the number."""
    while True:
        state = (state * 6364136223846793005 + 1442695040888963407) % 2**64
        yield state >> 33


def name_of(program: str, blob: bytes) -> str:
    named = subprocess.run([program, "id", str(FAULTS)], input=blob, stdout=subprocess.PIPE, check=True, timeout=60)
    return named.stdout.decode().strip()


def sample_schedule(program: str, number: int) -> dict[str, Any]:
    """32 blobs at seven shards: they are stored, recovered by the next committee, and read again."""
    draws, truths = drawn_numbers(number), [{"true": shard, "at": "now"} for shard in SHARDS]
    first_faulty = next(draws) % len(SHARDS)
    blobs = [bytes([first] + [next(draws) % 256 for _ in range(8 * first + 7)]) for first in range(BLOBS)]
    names = [name_of(program, blob) for blob in blobs]
    second_faulty, leaving = next(draws) % len(SHARDS), next(draws) % len(SHARDS)
    events: list[dict[str, Any]] = []
    for blob, name in zip(blobs, names):
        events += [{"do": "register", "id": name, "until": 10}, {"do": "write", "blob": blob.hex(), "to": SHARDS}]
        events += [{"do": "ack", "shard": shard, "id": name} for shard in SHARDS]
        events.append({"do": "read", "id": name, "replies": truths})
    events.append({"do": "begin", "faulty": [second_faulty], "stays": [it for it in SHARDS if it != leaving]})
    for axis in ("secondary", "primary"):
        recovery = {"do": "recover", "at": "next", "axis": axis, "replies": truths}
        events += [recovery | {"shard": shard, "id": name} for shard in SHARDS for name in names]
    events += [{"do": "ready", "shard": shard} for shard in SHARDS] + [{"do": "finish"}]
    for name in names:
        events += [{"do": "holders", "id": name}, {"do": "read", "id": name, "replies": truths}]
    return {"f": FAULTS, "epoch": 0, "faulty": [first_faulty], "events": events}


def main(words: list[str]) -> None:
    if len(words) != 1 or not words[0].isdecimal():
        sys.exit(__doc__)
    program = os.environ.get("WALRUS") or str(pathlib.Path(__file__).resolve().parents[2] / "walrus")
    json.dump(sample_schedule(program, int(words[0])), sys.stdout)


if __name__ == "__main__":
    main(sys.argv[1:])

#!/usr/bin/env python3
"""Writes requests to a gateway: gets.py FOLDER WALRUS F BLOBS SIZE GETS HOT CAPACITY.

There are BLOBS blobs of SIZE bytes, whose slivers the program WALRUS makes, and GETS requests for 4 KiB. Each blob is
requested once, in turn; after that, requests are for the first HOT blobs, except one in 250, which is for any blob. The
gateway keeps the CAPACITY blobs that were used last. Before a request for any other blob come the blob's metadata and
its last f+1 primary slivers. Into FOLDER go the input `gets`, the expected output `lines`, and the `replies` and the
`identifier` of the first blob. The number of requests that find their blob not kept goes to standard output.
"""
import collections
import pathlib
import random
import subprocess
import sys

RANGE = 4096
COLD = 250  # one in this many requests is for any blob


def envelope(payload):
    return b"\x57\0\0" + len(payload).to_bytes(4, "big") + payload


def split(stream):
    payloads, place = [], 0
    while place < len(stream):
        end = place + 7 + int.from_bytes(stream[place + 3:place + 7], "big")
        payloads.append(stream[place + 7:end])
        place = end
    return payloads


def replies_of(program, faults, blob):
    """Return the blob's identifier, and the envelopes with its metadata and last f+1 primary slivers."""
    encoded = subprocess.run([program, "encode", str(faults)], input=blob, stdout=subprocess.PIPE, check=True).stdout
    metadata, *slivers = split(encoded)
    return slivers[0][1:33], b"".join(map(envelope, [metadata, *slivers[::2][-faults - 1:]]))


def drawn_blobs(count, gets, hot):
    """Yield for each request the number of its blob."""
    drawn = random.Random(1)
    yield from range(count)
    for _ in range(gets - count):
        yield drawn.randrange(count) if drawn.randrange(COLD) == 0 else drawn.randrange(hot)


def main(folder, program, *numbers):
    faults, count, size, gets, hot, capacity = map(int, numbers)
    blobs = [random.Random(number).randbytes(size) for number in range(count)]
    replies = [replies_of(program, faults, blob) for blob in blobs]
    (folder / "identifier").write_text(replies[0][0].hex())
    (folder / "replies").write_bytes(replies[0][1])
    kept, misses, places = collections.OrderedDict(), 0, random.Random(2)
    with open(folder / "gets", "wb") as asked, open(folder / "lines", "wb") as lines:
        for number in drawn_blobs(count, gets, hot):
            identifier, heard = replies[number]
            start, hit = places.randrange(size - RANGE), number in kept
            numbers = start.to_bytes(4, "big") + RANGE.to_bytes(4, "big")
            asked.write((b"" if hit else heard) + envelope(b"\x43" + identifier + numbers))
            text = blobs[number][start:start + RANGE].hex().encode()
            lines.write((b"hit" if hit else b"miss") + b" range " + text + b"\n")
            misses += not hit
            kept[number] = None
            kept.move_to_end(number)
            if len(kept) > capacity:
                kept.popitem(last=False)
    print(misses)


if __name__ == "__main__":
    main(pathlib.Path(sys.argv[1]), *sys.argv[2:])

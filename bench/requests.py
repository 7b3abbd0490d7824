#!/usr/bin/env python3
"""Writes requests to shard 0 as envelopes on standard output.

    requests.py blobs WALRUS F COUNT SIZE READS
    requests.py small COUNT
    requests.py registrations COUNT ORDER
    requests.py metadata COUNT ORDER

`blobs` stores COUNT blobs of SIZE bytes, whose slivers the program WALRUS makes, and then reads each READS times. On
standard error it prints three numbers: the pages that the blobs cost, the bytes that must be hashed, and the bytes that
are stored and read. `small` makes COUNT small requests: in turn it registers a blob, reads it, and asks for one of its
symbols and for an acknowledgement.

`registrations` registers COUNT blobs with random-looking identifiers, in the ORDER `random`, or sorted (`ascending`).
`metadata` registers COUNT blobs of f = 1, sorted, and then stores the metadata of each in that ORDER of identifiers.
"""
import random
import subprocess
import sys
from hashlib import sha256

PAGE = 4096
NODE = 65  # the bytes that are hashed for an inner node of a tree


def envelope(payload):
    return b"\x57" + (0).to_bytes(2, "big") + len(payload).to_bytes(4, "big") + payload


def register(identifier):
    return envelope(b"\x40" + identifier + (9).to_bytes(4, "big"))


def read(identifier):
    return envelope(b"\x20" + identifier)


def symbol(identifier):
    return envelope(b"\x21" + identifier + b"\x00\x00\x00")


def acknowledge(identifier):
    return envelope(b"\x22" + identifier)


def next_payload(stream):
    head = stream.read(7)
    return stream.read(int.from_bytes(head[3:], "big"))


def parts_of(program, faults, blob):
    """Return the payloads of the blob's metadata and of shard 0's two slivers."""
    with subprocess.Popen([program, "encode", str(faults)], stdin=subprocess.PIPE, stdout=subprocess.PIPE) as encoder:
        encoder.stdin.write(blob)
        encoder.stdin.close()
        parts = [next_payload(encoder.stdout) for _ in range(3)]
        encoder.kill()
    return parts


def tree_bytes(leaves, size):
    """Return the number of bytes that are hashed for a tree over `leaves` leaves of `size` bytes."""
    total, count = leaves * (size + 1), leaves
    while count > 1:
        count = (count + 1) // 2
        total += count * NODE
    return total


def pages_of(parts):
    metadata, primary, secondary = (len(part) for part in parts)
    sizes = [metadata - 1, primary - 40, secondary - 40]
    return 1 + sum(-(-size // PAGE) for size in sizes)


def store_and_read(program, faults, count, size, reads):
    shards, cells = 3 * faults + 1, 2 * (faults + 1) * (2 * faults + 1)
    symbol_size = 2 * -(-size // cells)
    hashed = count * (tree_bytes(shards, 64) + 43 + 2 * tree_bytes(shards, symbol_size))
    pages = moved = 0
    identifiers = []
    for number in range(count):
        parts = parts_of(program, faults, random.Random(number).randbytes(size))
        identifier = parts[1][1:33]
        identifiers.append(identifier)
        sys.stdout.buffer.write(register(identifier) + b"".join(envelope(part) for part in parts))
        pages += pages_of(parts)
        moved += sum(len(part) for part in parts) + reads * (len(parts[0]) + len(parts[1]))
    for _ in range(reads):
        sys.stdout.buffer.write(b"".join(read(identifier) for identifier in identifiers))
    print(pages, hashed, moved, file=sys.stderr)


def small_requests(count):
    kinds = [register, read, symbol, acknowledge]
    requests = (kinds[number % 4]((number // 4).to_bytes(32, "big")) for number in range(count))
    sys.stdout.buffer.write(b"".join(requests))


def in_order(order, items):
    return {"random": list, "ascending": sorted}[order](items)


def registrations(count, order):
    drawn = random.Random(1)
    identifiers = in_order(order, (drawn.randbytes(32) for _ in range(count)))
    sys.stdout.buffer.write(b"".join(map(register, identifiers)))


def digest(*parts):
    return sha256(b"".join(parts)).digest()


def committed(pairs):
    """Return the identifier and metadata of a blob of 12 bytes, f = 1, with these four pairs of roots."""
    numbers = (1).to_bytes(2, "big") + (12).to_bytes(8, "big")
    leaves = [digest(b"\0", pair) for pair in pairs]
    root = digest(b"\1", digest(b"\1", *leaves[:2]), digest(b"\1", *leaves[2:]))
    return digest(b"\2", numbers, root), b"\x10" + numbers + b"".join(pairs)


def metadata(count, order):
    """The roots are random and no blob is encoded: a shard checks only that the identifier commits to the metadata."""
    drawn = random.Random(1)
    blobs = [committed([drawn.randbytes(64) for _ in range(4)]) for _ in range(count)]
    sys.stdout.buffer.write(b"".join(register(identifier) for identifier, _ in sorted(blobs)))
    sys.stdout.buffer.write(b"".join(envelope(frame) for _, frame in in_order(order, blobs)))


def main(kind, *words):
    match kind:
        case "blobs":
            store_and_read(words[0], *(int(word) for word in words[1:]))
        case "small":
            small_requests(int(words[0]))
        case "registrations":
            registrations(int(words[0]), words[1])
        case "metadata":
            metadata(int(words[0]), words[1])


if __name__ == "__main__":
    main(*sys.argv[1:])

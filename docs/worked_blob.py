#!/usr/bin/env python3
"""Computes the numbers of the worked blob in docs/FORMATS.md, independently of the program, by hashlib alone.

worked_blob.py                  prints the numbers
worked_blob.py --page FILE      prints those of their lines that are missing in FILE
worked_blob.py --check PROGRAM  compares identifiers and envelopes, in both formats, with those of PROGRAM, and the
                                worked bundle and image
"""
import subprocess
import sys
from functools import cache, lru_cache, reduce
from hashlib import sha256
from operator import xor

WORKED_BLOB = bytes.fromhex("000100020003000400050006")
MEMBERS = [bytes.fromhex("aabb"), bytes.fromhex("cc")]  # of the worked bundle
BEACON = bytes(range(32))  # of the draws that are printed
# The blobs that are compared, with f: no padding, no byte, a byte too many, and levels of odd length in the trees.
COMPARED = [(1, WORKED_BLOB), (1, b""), (1, WORKED_BLOB + b"\7"), (2, bytes(range(100))), (3, b"walrus" * 99), (10, b"\1")]


def number(value, size):
    return value.to_bytes(size, "big")


def times(left, right):
    product = 0
    while right:
        product ^= left if right & 1 else 0
        left = left << 1 if left < 0x8000 else left << 1 ^ 0x1100B
        right >>= 1
    return product


@cache
def inverse(word):
    power = word
    for _ in range(14):
        power = times(times(power, power), word)
    return times(power, power)


@cache
def coefficient(count, place, point):
    """Return the Lagrange coefficient of the word at `place`, one of the first `count`, for the word at `point`."""
    return reduce(times, (times(point ^ other, inverse(place ^ other)) for other in range(count) if other != place), 1)


def doubled(words, ones):
    """Multiply each 16-bit word packed in `words` by x; `ones` has the same number of words, each equal to 1."""
    high = words >> 15 & ones
    return (words ^ high << 15) << 1 ^ high * 0x100B


def multiples_of(symbol):
    """Return a symbol as a number, multiplied by x**0 to x**15."""
    ones = int.from_bytes(b"\0\1" * (len(symbol) // 2), "big")
    multiples = [int.from_bytes(symbol, "big")]
    while len(multiples) < 16:
        multiples.append(doubled(multiples[-1], ones))
    return multiples


def extend(symbols, count):
    """Return the codeword of `count` symbols that begins with these symbols."""
    codeword, multiples = list(symbols), list(map(multiples_of, symbols))
    for point in range(len(symbols), count):
        scales = [coefficient(len(symbols), place, point) for place in range(len(symbols))]
        chosen = (of[bit] for scale, of in zip(scales, multiples) for bit in range(16) if scale >> bit & 1)
        codeword.append(number(reduce(xor, chosen), len(symbols[0])))
    return codeword


@lru_cache(1)  # the matrix is the same in both formats
def columns_of(faults, blob):
    """Return the columns of the extended matrix."""
    rows, columns, shards = faults + 1, 2 * faults + 1, 3 * faults + 1
    size = 2 * max(1, -(-len(blob) // (2 * rows * columns)))
    padded = blob.ljust(rows * columns * size, b"\0")
    symbols = [padded[place:place + size] for place in range(0, len(padded), size)]
    extended = [extend(symbols[row * columns:(row + 1) * columns], shards) for row in range(rows)]
    return [extend(column, shards) for column in zip(*extended)]


def levels_over(contents):
    """Return the levels of a Merkle tree: first the digests of the leaves, last the root alone."""
    levels = [[sha256(b"\0" + leaf).digest() for leaf in contents]]
    while len(levels[-1]) > 1:
        below = levels[-1] + [bytes(32)] * (len(levels[-1]) % 2)
        levels.append([sha256(b"\1" + left + right).digest() for left, right in zip(below[::2], below[1::2])])
    return levels


class Encoded:
    """A blob encoded in a format: matrix, roots, identifier and frames. A frame is a list of its fields."""

    def __init__(self, faults, blob, encoding):
        columns = columns_of(faults, blob)
        self.rows = list(zip(*columns))
        self.slivers = [[row[:2 * faults + 1] for row in self.rows], [column[:faults + 1] for column in columns]]
        self.roots = [[levels_over(line)[-1][0] for line in lines] for lines in (self.rows, columns)]
        self.held = range(len(columns)) if encoding == 1 else range(len(columns))[::-1]
        self.pairs = [self.roots[0][shard] + self.roots[1][held] for shard, held in enumerate(self.held)]
        self.head = [b"\2"][:encoding - 1] + [number(faults, 2), number(len(blob), 8)]
        self.text = [number(encoding + 1, 1)] + self.head + levels_over(self.pairs)[-1]
        self.identifier = sha256(b"".join(self.text)).digest()
        self.metadata = [b"\x10" if encoding == 1 else b"\x14"] + self.head + self.pairs

    def sliver(self, axis, index):
        body = b"".join(self.slivers[axis][index])
        return [b"\x11", self.identifier, number(axis, 1), number(index, 2), number(len(body), 4), body]

    def envelopes(self):
        frames = [(0, self.metadata)]
        for shard, held in enumerate(self.held):
            frames += [(shard, self.sliver(0, shard)), (shard, self.sliver(1, held))]
        return [[b"\x57", number(sender, 2), number(len(b"".join(frame)), 4), *frame] for sender, frame in frames]


def spelled(fields):
    return " ".join(map(bytes.hex, fields))


def tree_lines(name, contents):
    for height, level in enumerate(levels_over(contents)):
        yield from (f"{name}, level {height}, place {place}: {entry.hex()}" for place, entry in enumerate(level))


def opening_of(encoded, axis, index, cross):
    """Return the frame of an opening of a sliver at its crossing with sliver `cross`, without the path, and the path."""
    line = [row[cross] for row in encoded.rows] if axis == 0 else encoded.rows[cross]
    siblings = [(level + [bytes(32)])[index >> height ^ 1] for height, level in enumerate(levels_over(line)[:-1])]
    numbers = [number(axis, 1), number(index, 2), number(cross, 2), number(len(line[index]), 4)]
    return [b"\x12", encoded.identifier, *numbers, line[index], number(len(siblings), 1)], siblings


def draw_lines(encoded, shard, count):
    """Yield the text and digest of a shard's draws, and its answer to the last of them."""
    for place in range(count):
        text = [b"\4", BEACON, encoded.identifier, number(shard, 2), number(place, 2)]
        drawn = sha256(b"".join(text)).digest()
        axis, index = drawn[0] & 1, int.from_bytes(drawn[3:5], "big") % len(encoded.rows)
        yield f"draw {place} of shard {shard}: {spelled(text)}"
        yield f"digest of draw {place}: {drawn.hex()}"
    frame, siblings = opening_of(encoded, 1 - axis, index, encoded.held[shard] if axis else shard)
    yield from [spelled(frame), *map(bytes.hex, siblings)]


def worked_lines(encoding):
    encoded = Encoded(1, WORKED_BLOB, encoding)
    if encoding == 1:
        yield from (f"row {index}: {spelled(row)}" for index, row in enumerate(encoded.rows))
        yield from tree_lines("row 1", encoded.rows[1])
        for axis, name in enumerate(["primary", "secondary"]):
            yield from (f"{name} root {index}: {root.hex()}" for index, root in enumerate(encoded.roots[axis]))
    yield from tree_lines(f"pairs of format {encoding}", encoded.pairs)
    yield f"text of format {encoding}: {spelled(encoded.text)}"
    yield f"identifier of format {encoding}: {encoded.identifier.hex()}"
    metadata, *slivers = encoded.envelopes()
    yield from [spelled(metadata[:-4]), *map(bytes.hex, metadata[-4:]), *map(spelled, slivers)]
    if encoding == 1:
        yield from draw_lines(encoded, 1, 2)


def laid_out(faults, members, size):
    """Return the index of a bundle with symbols of this size, and all columns that index and members fill."""
    column = (faults + 1) * size
    index, first = [number(len(members), 2)], -(-(2 + 6 * len(members)) // column)
    for member in members:
        index += [number(first, 2), number(len(member), 4)]
        first += -(-len(member) // column)
    pieces = [piece.ljust(-(-len(piece) // column) * column, b"\0") for piece in [b"".join(index), *members]]
    filled = b"".join(pieces)
    return index, [filled[start:start + column] for start in range(0, len(filled), column)]


def bundled(faults, members):
    """Return the index, columns and rows of a bundle with the smallest symbols that fit; a row is a list of symbols."""
    size = 2
    while len(laid_out(faults, members, size)[1]) > 2 * faults + 1:
        size += 2
    index, columns = laid_out(faults, members, size)
    columns += [bytes((faults + 1) * size)] * (2 * faults + 1 - len(columns))
    return index, columns, [[column[row:row + size] for column in columns] for row in range(0, len(columns[0]), size)]


def bundle_lines():
    index, columns, rows = bundled(1, MEMBERS)
    blob = b"".join(b"".join(row) for row in rows)
    yield f"index: {spelled(index)}"
    yield from (f"column {place}: {column.hex()}" for place, column in enumerate(columns))
    yield from (f"row {place} of the bundle: {spelled(row)}" for place, row in enumerate(rows))
    yield from (f"identifier of the bundle in format {it}: {Encoded(1, blob, it).identifier.hex()}" for it in (1, 2))


def worked_image():
    """Return the image of secondary sliver 0 of the worked blob: one record, and a closed gate."""
    encoded = Encoded(1, WORKED_BLOB, 1)
    body = encoded.sliver(1, 0)[-1]
    return [b"\1", b"\1", encoded.identifier, b"\2", number(len(body), 4), body, b"\0"]


def check_further(program):
    """Compare the worked bundle, a member of it read from two slivers, and the worked image with the program's."""
    def ask(*words, data):
        return subprocess.run([program, *words], input=data, stdout=subprocess.PIPE, check=True).stdout

    blob = b"".join(b"".join(row) for row in bundled(1, MEMBERS)[2])
    encoded, worked = Encoded(1, blob, 1), Encoded(1, WORKED_BLOB, 1)
    told, image = [b"".join(fields) for fields in encoded.envelopes()], b"".join(worked_image())
    stream = b"".join(b"\x57\0\0" + number(len(member), 4) + member for member in MEMBERS)
    sliver = b"".join(b"".join(fields) for fields in worked.envelopes()[2:3])
    for came, wanted in [
        (ask("bundle", "1", data=stream), blob),
        (ask("member", encoded.identifier.hex(), "1", data=told[0] + told[2] + told[6]), MEMBERS[1]),
        (ask("image", str(len(image)), data=sliver), image),
        (ask("unpack", data=image), f"{worked.identifier.hex()} secondary 4\n".encode()),
    ]:
        if came != wanted:
            sys.exit(f"{program}: {came.hex()} was written instead of {wanted.hex()}")
    print("the worked bundle, its member and the worked image are the same")


def check(program):
    for faults, blob, encoding in [(*compared, encoding) for compared in COMPARED for encoding in (1, 2)]:
        encoded = Encoded(faults, blob, encoding)
        frames = b"".join(b"".join(fields) for fields in encoded.envelopes())
        for command, expected in [("id", encoded.identifier.hex().encode() + b"\n"), ("encode", frames)]:
            words = [program, command, str(faults), "--format", str(encoding)]
            if subprocess.run(words, input=blob, stdout=subprocess.PIPE, check=True).stdout != expected:
                sys.exit(f"{' '.join(words)}: the output differs from this script's for {len(blob)} bytes")
    print(f"{len(COMPARED)} blobs have the same identifiers and envelopes, in both formats")


def main(words):
    lines = [line for encoding in (1, 2) for line in worked_lines(encoding)]
    lines += [*bundle_lines(), spelled(worked_image())]
    match words:
        case []:
            print("\n".join(lines))
        case ["--page", path]:
            page = open(path, encoding="utf-8").read().splitlines()
            return "".join(f"missing: {line}\n" for line in lines if line not in page) or 0
        case ["--check", program]:
            check(program)
            check_further(program)
        case _:
            return __doc__
    return 0


if __name__ == "__main__":
    sys.exit(main(sys.argv[1:]))

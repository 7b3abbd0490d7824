"""Envelopes, frames and Merkle trees, as far as hostile inputs need them."""
import hashlib

METADATA, SLIVER, OPENING, PROOF, METADATA_TWO = range(0x10, 0x15)
READ, SYMBOL, ACK, ATTEST, FORGET = range(0x20, 0x25)
ANSWER, CLASH = 0x30, 0x31
REGISTER_ENTRY, ACK_ENTRY, ATTEST_ENTRY = range(0x40, 0x43)
KINDS = [METADATA, SLIVER, OPENING, PROOF, METADATA_TWO, READ, SYMBOL, ACK, ATTEST, FORGET, ANSWER, CLASH,
         REGISTER_ENTRY, ACK_ENTRY, ATTEST_ENTRY]

GET = 0x43  # the first byte of a request to a gateway for a range, which is no frame

PRIMARY, SECONDARY = 0, 1
AXES = ["primary", "secondary"]

# The numbers in each kind of frame: place and size.
FIELDS = {
    METADATA: [(1, 2), (3, 8)],
    METADATA_TWO: [(1, 1), (2, 2), (4, 8)],
    SLIVER: [(33, 1), (34, 2), (36, 4)],
    OPENING: [(33, 1), (34, 2), (36, 2), (38, 4)],
    PROOF: [(33, 1), (34, 2), (36, 2), (38, 2), (40, 4)],
    SYMBOL: [(33, 1), (34, 2)],
    ANSWER: [(1, 1), (2, 4), (6, 4)],
    CLASH: [(1, 1)],
    REGISTER_ENTRY: [(33, 4)],
    ACK_ENTRY: [(1, 2)],
    ATTEST_ENTRY: [(1, 2)],
    GET: [(33, 4), (37, 4)],
}


def number(value, size):
    return value.to_bytes(size, "big")


def value_of(text):
    return int.from_bytes(text, "big")


def envelope(sender, payload):
    return b"\x57" + number(sender, 2) + number(len(payload), 4) + payload


def join(envelopes):
    return b"".join(envelope(sender, payload) for sender, payload in envelopes)


def split(stream):
    """Return the whole envelopes at the beginning of a stream, as senders and payloads, and the place behind them."""
    envelopes, place = [], 0
    while len(stream) - place >= 7 and stream[place] == 0x57:
        end = place + 7 + value_of(stream[place + 3:place + 7])
        if end > len(stream):
            break
        envelopes.append((value_of(stream[place + 1:place + 3]), stream[place + 7:end]))
        place = end
    return envelopes, place


def digest(text):
    return hashlib.sha256(text).digest()


def levels_of(leaves):
    """Return the levels of digests of a tree, from those of its leaves up to its root."""
    levels = [[digest(b"\0" + leaf) for leaf in leaves]]
    while len(levels[-1]) > 1:
        level = levels[-1] + [bytes(32)] * (len(levels[-1]) % 2)
        levels[-1] = level
        levels.append([digest(b"\1" + level[place] + level[place + 1]) for place in range(0, len(level), 2)])
    return levels


def root_of(leaves):
    return levels_of(leaves)[-1][0]


def path_of(leaves, place):
    """Return the sibling digests from this leaf upwards."""
    siblings = []
    for level in levels_of(leaves)[:-1]:
        siblings.append(level[place ^ 1])
        place //= 2
    return siblings


def numbers_at(metadata):
    """Return the place of f in a frame of metadata; the length and the roots follow it."""
    return 2 if metadata[0] == METADATA_TWO else 1


def identifier_of(metadata):
    """Return the identifier that commits to a frame of metadata."""
    place = numbers_at(metadata)
    pairs = metadata[place + 10:]
    root = root_of([pairs[start:start + 64] for start in range(0, len(pairs), 64)])
    front = b"\x03\x02" if metadata[0] == METADATA_TWO else b"\x02"
    return digest(front + metadata[place:place + 10] + root)


def target(kind, identifier, axis, index):
    return bytes([kind]) + identifier + bytes([axis]) + number(index, 2)


def sliver(identifier, axis, index, content):
    return target(SLIVER, identifier, axis, index) + number(len(content), 4) + content


def opening_body(cross, codeword, place):
    siblings = path_of(codeword, place)
    symbol = codeword[place]
    return number(cross, 2) + number(len(symbol), 4) + symbol + bytes([len(siblings)]) + b"".join(siblings)


def get(identifier, start, size):
    return bytes([GET]) + identifier + number(start, 4) + number(size, 4)


def desk_room(faults):
    """Return the length of the longest payload that a shard looks at."""
    symbols = (faults + 1) * (2 * faults + 1)
    size = -(-16777216 // symbols)
    size += size % 2
    return 38 + (2 * faults + 1) * (size + 327)

"""A second implementation of journals' images: the part in a frame, the record of a change, the parts in an image."""
import struct
from collections.abc import Iterable

import forms
from bundles import Answer, read_metadata

PUT, DROP_PART, DROP_ALL = 1, 2, 3
PARTS = ["metadata", "primary", "secondary", "proof"]
HEAD = struct.Struct(">BB32sBI")  # the gate, the kind, the identifier, the part and the size
LARGEST = 16777216
Part = tuple[bytes, int, bytes]


def record(kind: int, identifier: bytes, part: int = 0, content: bytes = b"", gate: int = 1) -> bytes:
    return HEAD.pack(gate, kind, identifier, part, len(content)) + content


def is_proof(payload: bytes) -> bool:
    """Return whether the payload is the frame of a proof, with as many openings' bodies as it declares."""
    if len(payload) < 38:
        return False
    axis, index, count = struct.unpack_from(">BHH", payload, 33)
    place = 38
    for _ in range(count if axis < 2 and index < 1000 and count <= 1000 else 0):
        if len(payload) < place + 7:
            return False
        cross, size = struct.unpack_from(">HI", payload, place)
        place += 6 + size
        if cross > 999 or size > LARGEST or len(payload) <= place or payload[place] > 10:
            return False
        place += 1 + 32 * payload[place]
    return axis < 2 and index < 1000 and count <= 1000 and place == len(payload)


def part_of(payload: bytes) -> Part | None:
    """Return the identifier, the part and the bytes that are stored for a frame, or None if no keep accepts it."""
    kind = payload[:1]
    if kind in (b"\x10", b"\x14"):
        return (forms.identifier_of(payload), 0, payload[1:]) if read_metadata(payload) else None
    if kind == b"\x11" and len(payload) > 40:
        axis, index, size = struct.unpack_from(">BHI", payload, 33)
        fits = axis < 2 and index < 1000 and size <= LARGEST and len(payload) == 40 + size
        return (payload[1:33], 1 + axis, payload[40:]) if fits else None
    fits = kind == b"\x13" and len(payload) <= LARGEST + 33 and is_proof(payload)
    return (payload[1:33], 3, payload[33:]) if fits else None


def image_of(room: int, payloads: Iterable[bytes]) -> Answer:
    """Return status and output for these payloads: the records of their parts, each once, and a closed gate."""
    records, tail, held = [], 0, set()
    for found in map(part_of, payloads):
        if found is None or found[:2] in held:
            continue
        identifier, part, content = found
        needed, free = HEAD.size + len(content), room - tail - 1
        if needed > free:
            return 4, b"disk full needed %d free %d\n" % (needed, free)
        held.add((identifier, part))
        records.append(record(PUT, identifier, part, content))
        tail += needed
    return 0, b"".join(records) + b"\0"


def change(held: dict[tuple[bytes, int], int], kind: int, identifier: bytes, part: int, size: int) -> bool:
    """Apply a record's change to what is held; return whether the record is well-formed and lawful."""
    least, most = (1, LARGEST) if kind == PUT else (0, 0)
    if not PUT <= kind <= DROP_ALL or part > (0 if kind == DROP_ALL else 3) or not least <= size <= most:
        return False
    if kind == PUT:
        if (identifier, part) in held:
            return False
        held[identifier, part] = size
    for dropped in range(4) if kind == DROP_ALL else [part] if kind == DROP_PART else []:
        held.pop((identifier, dropped), None)
    return True


def unpacked(image: bytes) -> Answer:
    """Return status and output for an image: a line for each part that is held, by identifier and part."""
    held: dict[tuple[bytes, int], int] = {}
    place = 0
    while not image or image[place] == 1:
        if len(image) < place + HEAD.size:
            return 8, b"malformed at %d\n" % place
        _, kind, identifier, part, size = HEAD.unpack_from(image, place)
        end = place + HEAD.size + size
        if len(image) <= end or not change(held, kind, identifier, part, size):
            return 8, b"malformed at %d\n" % place
        place = end
    lines = [f"{identifier.hex()} {PARTS[part]} {size}\n" for (identifier, part), size in sorted(held.items())]
    return 0, "".join(lines).encode()

#!/usr/bin/env python3
"""Makes clients/vectors.json: test vectors for clients in any language, computed by docs/worked_blob.py.

vectors.py           prints the vectors
vectors.py --write   writes them to clients/vectors.json
vectors.py --check   computes them again and compares clients/vectors.json, except for inputs of some megabytes
"""
import json
import pathlib
import sys
from hashlib import sha256

import worked_blob
from worked_blob import Encoded, bundled, number, opening_of

PLACE = pathlib.Path(__file__).resolve().parents[1] / "clients" / "vectors.json"
LARGEST = 16_777_216
GENERATORS = {"counting": "byte i is i modulo 251", "zeros": "each byte is 0"}
MARK = b"\0walrus list \0\0\1"
FORMATS = (1, 2)
LONG = {1: [100_000, LARGEST - 1, LARGEST], 3: [1_000_003], 33: [LARGEST]}  # additional lengths, by f
SHORT = 1_000_003  # `--check` computes the vectors of inputs up to this length
SHOWN = 64  # a symbol of at most this many bytes is given in full, a longer one by its digest


def made(told):
    """Return the bytes that an input describes."""
    if "hex" in told:
        return bytes.fromhex(told["hex"])
    size = told["length"]
    return bytes(size) if told["generator"] == "zeros" else (bytes(range(251)) * (size // 251 + 1))[:size]


def counting(size):
    return {"generator": "counting", "length": size}


def joined(fields):
    return b"".join(fields)


def digest(content):
    return sha256(content).hexdigest()


def opening(encoded, axis, index, cross):
    frame, siblings = opening_of(encoded, axis, index, cross)
    symbol = frame[-2]
    shown = {"symbol": symbol.hex()} if len(symbol) <= SHOWN else {"symbolDigest": digest(symbol)}
    return {"axis": axis, "index": index, "cross": cross, **shown, "path": [entry.hex() for entry in siblings]}


def openings(encoded):
    """Return openings at the first, the last and a middle place, of both axes. The last one's path has zero entries."""
    last = len(encoded.rows) - 1
    places = [(0, 0, last), (0, last, 0), (1, last, last), (1, last // 2, 1)]
    return [opening(encoded, *place) for place in places]


def blob_vector(faults, told):
    blob = made(told)
    encoded = {form: Encoded(faults, blob, form) for form in FORMATS}
    one = encoded[1]
    slivers = [[digest(one.sliver(axis, index)[-1]) for index in one.held] for axis in (0, 1)]
    formats = {str(form): {"identifier": of.identifier.hex(), "metadata": digest(joined(of.metadata)),
                           "encoded": digest(joined(map(joined, of.envelopes())))} for form, of in encoded.items()}
    return {"input": told, "faults": faults, "symbolSize": len(one.rows[0][0]), "formats": formats,
            "slivers": {"primary": slivers[0], "secondary": slivers[1]}, "openings": openings(one)}


def list_vector(faults, told):
    """Return the vector of a file that is stored as a list: it is longer than a blob, or begins with the mark."""
    file = made(told)
    pieces = [file[place:place + LARGEST] for place in range(0, len(file), LARGEST)]
    named, formats = [[Encoded(faults, piece, form).identifier for form in FORMATS] for piece in pieces], {}
    for form in FORMATS:
        blob = MARK + number(len(file), 8) + joined(names[form - 1] for names in named)
        formats[str(form)] = {"list": blob.hex(), "identifier": Encoded(faults, blob, form).identifier.hex()}
    return {"input": told, "faults": faults, "formats": formats}


def bundle_vector(faults, members):
    index, _, rows = bundled(faults, list(map(made, members)))
    blob = joined(map(joined, rows))
    return {"members": members, "faults": faults, "index": joined(index).hex(), "length": len(blob),
            "blob": digest(blob), "identifiers": {str(form): Encoded(faults, blob, form).identifier.hex()
                                                  for form in FORMATS}}


def blob_inputs():
    """Yield f and an input: empty, one byte, lengths around each bound at which symbols grow, and long ones."""
    yield 1, {"hex": worked_blob.WORKED_BLOB.hex()}
    for faults in (1, 2, 3, 7, 33):
        cells = (faults + 1) * (2 * faults + 1)
        few = [0, 1, 2 * cells, 2 * cells + 1]
        more = [2, 3, 2 * cells - 3, 2 * cells - 2, 2 * cells - 1, 2 * cells + 2, 4 * cells, 4 * cells + 1]
        for size in sorted({*few, *(more if faults < 7 else [])}) + LONG.get(faults, []):
            yield faults, counting(size)
    yield 2, {"generator": "zeros", "length": 61}


def list_inputs():
    yield 1, {"hex": MARK.hex()}
    yield 2, {"hex": (MARK + b"a file that begins with the mark").hex()}
    yield 1, counting(LARGEST + 1)


def bundle_inputs():
    yield 1, [{"hex": member.hex()} for member in worked_blob.MEMBERS]
    yield 1, []
    yield 1, [counting(0), counting(5)]
    yield 2, [counting(size) for size in (3, 0, 9, 4)]
    yield 3, [counting(size) for size in (5, 400, 3, 2, 1, 0)]
    yield 7, [counting(1000 * size) for size in range(14)]
    yield 33, [counting(7 * size) for size in range(66)]


MADE = {"blobs": (blob_inputs, blob_vector), "lists": (list_inputs, list_vector),
        "bundles": (bundle_inputs, bundle_vector)}


def written():
    """Return the whole text, one entry a line; clients/README.md explains the keys."""
    keys = {"generators": json.dumps(GENERATORS)}
    for key, (inputs, vector) in MADE.items():
        keys[key] = "[\n" + ",\n".join(json.dumps(vector(*given)) for given in inputs()) + "\n]"
    return "{\n" + ",\n".join(f'"{key}": {text}' for key, text in keys.items()) + "\n}\n"


def differing(kept):
    """Return the first difference in words, or nothing: other inputs, or another vector for a short input."""
    for key, (inputs, vector) in MADE.items():
        given, found = list(inputs()), kept[key]
        if [(of["faults"], of.get("input", of.get("members"))) for of in found] != given:
            return f"{key}: other inputs"
        for told, of in zip(given, found):
            if (isinstance(told[1], list) or told[1].get("length", 0) <= SHORT) and vector(*told) != of:
                return f"{key}: another vector for f = {told[0]} and the input {json.dumps(told[1])}"
    return ""


def main(words):
    if words == ["--write"]:
        PLACE.write_text(written(), encoding="utf-8")
    elif words == ["--check"]:
        fault = differing(json.loads(PLACE.read_text(encoding="utf-8")))
        return f"{PLACE}: {fault}; docs/vectors.py --write renews it" if fault else 0
    elif words:
        return __doc__
    else:
        print(written(), end="")
    return 0


if __name__ == "__main__":
    sys.exit(main(sys.argv[1:]))

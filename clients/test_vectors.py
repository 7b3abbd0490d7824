"""Tests that the program agrees with clients/vectors.json, which docs/vectors.py makes: python3 -m unittest."""

import functools
import hashlib
import json
import pathlib
import subprocess
import sys
import unittest

TOP = pathlib.Path(__file__).resolve().parents[1]
sys.path[:0] = [str(TOP / "docs"), str(TOP / "tests")]

import vectors  # noqa: E402
from test_pages import PROGRAM, needs_program  # noqa: E402
from worked import envelope, stream  # noqa: E402

SECONDS = 120  # for a run or a script, on a busy machine
SYMBOLS_SHOWN = 3000  # openings are asked for of blobs up to this length


def output(*words: object, data: bytes) -> bytes:
    told = [PROGRAM, *map(str, words)]
    return subprocess.run(told, input=data, stdout=subprocess.PIPE, check=True, timeout=SECONDS).stdout


def digest(data: bytes) -> str:
    return hashlib.sha256(data).hexdigest()


@functools.lru_cache(maxsize=None)
def read_vectors() -> dict:
    return json.loads(vectors.PLACE.read_text(encoding="utf-8"))


def payloads(envelopes: bytes) -> list[bytes]:
    found, place = [], 0
    while place < len(envelopes):
        end = place + 7 + int.from_bytes(envelopes[place + 3 : place + 7], "big")
        found.append(envelopes[place + 7 : end])
        place = end
    return found


def opening_from(shard_of: dict, identifier: bytes, asked: dict) -> bytes:
    """The frame with which a shard answers a request for a symbol: it holds the sliver that crosses."""
    faults, cross = shard_of["faults"], asked["cross"]
    held = shard_of["frames"][1 + 2 * cross + (1 - asked["axis"])]
    request = b"\x21" + identifier + bytes([asked["axis"]]) + asked["index"].to_bytes(2, "big")
    register = b"\x40" + identifier + (9).to_bytes(4, "big")
    data = stream(register, shard_of["frames"][0], held, request)
    return payloads(output("serve", faults, cross, data=data))[-2]


@needs_program
class Vectors(unittest.TestCase):
    def test_inputs_are_there(self) -> None:
        """Each f with no byte, one, and a symbol's bound on either side; the longest blob; levels of odd length."""
        lengths = {(it["faults"], it["input"].get("length")) for it in read_vectors()["blobs"]}
        for faults in (1, 2, 3, 7, 33):
            bound = 2 * (faults + 1) * (2 * faults + 1)
            self.assertLessEqual({(faults, size) for size in (0, 1, bound, bound + 1)}, lengths)
        self.assertLessEqual({(1, 16_777_216), (33, 16_777_216)}, lengths)
        paths = [opening["path"] for it in read_vectors()["blobs"] for opening in it["openings"]]
        self.assertTrue(any("00" * 32 in path for path in paths))

    def test_blobs(self) -> None:
        for it in read_vectors()["blobs"]:
            blob, slivers = vectors.made(it["input"]), it["slivers"]
            for form, wanted in it["formats"].items():
                with self.subTest(faults=it["faults"], format=form, length=len(blob)):
                    name = output("id", it["faults"], "--format", form, data=blob).decode()
                    self.assertEqual(name, wanted["identifier"] + "\n")
                    encoded = output("encode", it["faults"], "--format", form, data=blob)
                    self.assertEqual(digest(encoded), wanted["encoded"])
                    metadata, *frames = payloads(encoded)
                    self.assertEqual(digest(metadata), wanted["metadata"])
                    self.assertEqual([digest(frame[40:]) for frame in frames[::2]], slivers["primary"])
                    secondary = slivers["secondary"] if form == "1" else slivers["secondary"][::-1]
                    self.assertEqual([digest(frame[40:]) for frame in frames[1::2]], secondary)

    def test_openings(self) -> None:
        for it in read_vectors()["blobs"]:
            blob = vectors.made(it["input"])
            if len(blob) > SYMBOLS_SHOWN:
                continue
            shard_of = {"faults": it["faults"], "frames": payloads(output("encode", it["faults"], data=blob))}
            identifier = bytes.fromhex(it["formats"]["1"]["identifier"])
            for asked in it["openings"]:
                with self.subTest(faults=it["faults"], length=len(blob), opening=asked):
                    frame = opening_from(shard_of, identifier, asked)
                    size = int.from_bytes(frame[38:42], "big")
                    symbol, count, path = frame[42 : 42 + size], frame[42 + size], frame[43 + size :]
                    told = (
                        bytes([asked["axis"]]) + asked["index"].to_bytes(2, "big") + asked["cross"].to_bytes(2, "big")
                    )
                    self.assertEqual(frame[:38], b"\x12" + identifier + told)
                    self.assertEqual(symbol.hex(), asked["symbol"])
                    self.assertEqual((count, path.hex()), (len(asked["path"]), "".join(asked["path"])))

    def test_lists(self) -> None:
        for it in read_vectors()["lists"]:
            file = vectors.made(it["input"])
            for form, wanted in it["formats"].items():
                words = it["faults"], "--format", form
                starts = range(0, len(file), vectors.LARGEST)
                pieces = [output("id", *words, data=file[at : at + vectors.LARGEST]).decode().strip() for at in starts]
                listed = vectors.MARK.hex() + len(file).to_bytes(8, "big").hex() + "".join(pieces)
                self.assertEqual(listed, wanted["list"])
                name = output("id", *words, data=bytes.fromhex(listed)).decode()
                self.assertEqual(name, wanted["identifier"] + "\n")

    def test_bundles(self) -> None:
        for it in read_vectors()["bundles"]:
            members = list(map(vectors.made, it["members"]))
            with self.subTest(faults=it["faults"], members=len(members)):
                blob = output("bundle", it["faults"], data=b"".join(envelope(0, member) for member in members))
                self.assertEqual((len(blob), digest(blob)), (it["length"], it["blob"]))
                for form, name in it["identifiers"].items():
                    told = output("id", it["faults"], "--format", form, data=blob).decode()
                    self.assertEqual(told, name + "\n")
                frames = output("encode", it["faults"], data=blob)
                for number, member in list(enumerate(members))[:3]:
                    self.assertEqual(output("member", it["identifiers"]["1"], number, data=frames), member)


if __name__ == "__main__":
    unittest.main()

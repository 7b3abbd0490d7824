"""Tests the exit statuses of docs/walrus.1: each status and each text there is one that the program has, and no other.

What is expected stands in ENDINGS, worked by hand. It runs with python3 -m unittest.
"""

import os
import pathlib
import re
import resource
import subprocess
import typing
import unittest

from audits import BEACON, claims
from bundled import committed
from rows import Row, Rows
from test_pages import PROGRAM, SECONDS, needs_program
from worked import FALSE, HONEST, PRIMARY, SECONDARY, stream

TOP = pathlib.Path(__file__).resolve().parents[1]
I, J, B = HONEST.id.hex(), FALSE.id.hex(), BEACON.hex()
BUNDLED = committed(1, bytes.fromhex("0002000100000002aabb000000000000cc000000000000000002000000010000") + bytes(16))
SECOND_BAD = FALSE.proof(SECONDARY, 2, 1, 3)
SCHEDULE = b'{"f":1,"epoch":0,"faulty":[],"events":['
FINISH = b'{"do":"finish"}'
OTHERS = {0, 2, 5, 6, 7, 11, 127}  # the statuses that have no text of their own
UNREACHED = {(10, "collision LEFT RIGHT")}  # it takes two texts with one SHA-256 digest


def row(words: str, data: bytes, status: int, text: str) -> Row:
    return Row(words.split(), data, (status, text.encode() + b"\n"))


def of_honest(*payloads: bytes) -> bytes:
    return stream(HONEST.metadata, *payloads)


def of_false(*payloads: bytes) -> bytes:
    return stream(FALSE.metadata, *payloads)


# A text as the manual has it, with an input that leads to it.
ENDINGS = {
    (3, "reject"): row(f"read {J}", of_false(SECOND_BAD), 3, "reject"),
    (3, "inconsistent"): row(f"check {J}", of_false(SECOND_BAD), 3, "inconsistent"),
    (3, "bad index"): row(f"member {I} 0", HONEST.envelopes(), 3, "bad index"),
    (3, "wrong D"): row(f"verify {I} 0 {B} 2", of_honest(*claims(HONEST, 0, BEACON, 2)[::-1]), 3, "wrong 0"),
    (4, "no metadata"): row(f"challenge {I} 0 {B} 1", b"", 4, "no metadata"),
    (4, "short K of N"): row(f"read {I}", of_honest(HONEST.sliver(PRIMARY, 3)), 4, "short 1 of 2"),
    (4, "no proof"): row(f"check {I}", of_honest(), 4, "no proof"),
    (4, "wrong count"): row(f"check {J}", of_false(FALSE.proof(PRIMARY, 0, 0, 1)), 4, "wrong count"),
    (4, "repeated"): row(f"check {J}", of_false(FALSE.proof(SECONDARY, 2, 1, 1)), 4, "repeated"),
    (4, "bad opening P"): row(f"check {J}", of_false(SECOND_BAD[:-1] + b"\0"), 4, "bad opening 1"),
    (4, "consistent"): row(f"check {J}", of_false(FALSE.proof(SECONDARY, 2, 0, 1)), 4, "consistent"),
    (4, "disk full needed N free M"): row("image 44", HONEST.envelopes(), 4, "disk full needed 305 free 43"),
    (4, "too many members"): row("bundle 1", stream(b"", b"", b""), 4, "too many members"),
    (4, "bundle too long"): row("bundle 1", stream(bytes(11184809)), 4, "bundle too long"),
    (4, "missing column J"): row(f"member {BUNDLED.id.hex()} 0", stream(BUNDLED.metadata), 4, "missing column 0"),
    (4, "no member of N"): row(f"member {BUNDLED.id.hex()} 2", BUNDLED.envelopes(), 4, "no member of 2"),
    (4, "no shard"): row(f"verify {I} 4 {B} 1", of_honest(), 4, "no shard"),
    (4, "no primary"): row(f"challenge {I} 0 {B} 1", of_honest(), 4, "no primary"),
    (4, "no secondary"): row(f"challenge {I} 0 {B} 1", of_honest(HONEST.sliver(PRIMARY, 0)), 4, "no secondary"),
    (4, "wrong count K of N"): row(f"verify {I} 0 {B} 3", of_honest(), 4, "wrong count 0 of 3"),
    (8, "malformed at N"): row(f"read {I}", of_honest() + b"\x58", 8, "malformed at 274"),
    (8, "not json"): row("replay", b"{", 8, "not json"),
    (8, "bad schedule"): row("replay", b"{}", 8, "bad schedule"),
    (8, "too many events"): row("replay", SCHEDULE + (FINISH + b",") * 65536 + b"{}]}", 8, "too many events"),
    (8, "bad event N"): row("replay", SCHEDULE + FINISH + b',{"do":"start"}]}', 8, "bad event 2"),
    (9, "too long"): row("id 1", bytes(16777217), 9, "too long"),
}


def plain(line: str) -> str:
    """A line of the manual's tags without its macro and its quotes."""
    words = line.split(maxsplit=1)[1]
    parts = re.findall(r'"([^"]*)"|(\S+)', words)
    apart = "" if line.startswith(".BI ") else " "
    return apart.join(quoted or bare for quoted, bare in parts)


def read_manual() -> dict[int, list[str]]:
    """The texts that the manual has for each status."""
    page = (TOP / "docs" / "walrus.1").read_text()
    part = page.partition('.SH "EXIT STATUS"\n')[2].partition("\n.SH ")[0].splitlines()
    told: dict[int, list[str]] = {}
    inside = False
    for line, behind in zip(part, part[1:]):
        inside = line == ".RS" or inside and line != ".RE"
        if line == ".TP" and inside:
            told[max(told)].append(plain(behind))
        elif line == ".TP":
            told[int(plain(behind))] = []
    return told


class Manual(unittest.TestCase):
    def test_it_has_each_status_and_each_text_once(self) -> None:
        told = [(status, text) for status, texts in read_manual().items() for text in texts]
        self.assertEqual(sorted(told), sorted([*ENDINGS, *UNREACHED]))
        self.assertEqual({status for status, texts in read_manual().items() if not texts}, OTHERS)

    def test_each_text_that_is_wanted_is_of_its_form(self) -> None:
        for (status, text), wanted in ENDINGS.items():
            form = re.sub(r"\b[A-Z]\b", "[0-9]+", text)
            self.assertRegex(wanted.ends[1].decode(), f"^{form}\n$")
            self.assertEqual(wanted.ends[0], status)

    def test_what_readme_names_is_there(self) -> None:
        page = (TOP / "README.md").read_text().partition("| Status |")[2].partition("\n\n")[0]
        named = [int(number) for number in re.findall(r"^\| (\d+) \|", page, re.M)]
        self.assertEqual(len(named), 5)
        self.assertLess(set(named), set(read_manual()))


@needs_program
class Statuses(Rows):
    def test_texts(self) -> None:
        self.check("texts", *ENDINGS.values())

    def test_what_has_no_text(self) -> None:
        """Status 0, 2 and 11 by the words, 6 and 7 by the streams, 5 by the memory; 127 takes another processor."""

        def ends(*words: str | bytes, **how: typing.Any) -> tuple[int, bytes, bytes]:
            places: dict[str, typing.Any] = {"stdout": subprocess.PIPE, "stderr": subprocess.PIPE, **how}
            ran = subprocess.run([PROGRAM, *words], timeout=SECONDS, **places)
            return ran.returncode, ran.stdout or b"", ran.stderr or b""

        def limit() -> None:
            resource.setrlimit(resource.RLIMIT_AS, (256 << 20, 256 << 20))

        with open(os.devnull, "rb") as nothing, open(os.devnull, "wb") as closed, open("/dev/full", "wb") as full:
            self.assertEqual(ends("unpack", stdin=closed), (6, b"", b""))
            self.assertEqual(ends("id", "1", stdin=nothing, stdout=full)[0], 7)
            self.assertEqual(ends("id", b"\xff", stdin=nothing), (11, b"", b""))
            pages = "serve", "1", "0", "--pages", "262144"  # a region of 1 GiB
            self.assertEqual(ends(*pages, stdin=nothing, preexec_fn=limit), (5, b"", b""))
            self.assertEqual(ends(*pages[:3], stdin=nothing, preexec_fn=limit), (0, b"", b""))
            status, text, _ = ends("store", "1", stdin=nothing)
            self.assertEqual((status, text[:14]), (2, b"usage: walrus "))


if __name__ == "__main__":
    unittest.main()

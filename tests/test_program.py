"""Tests of what the program does with the system's words and streams: python3 -m unittest."""
import os
import subprocess
import unittest

from test_pages import PROGRAM, SECONDS, SIX_WORDS, needs_program
from worked import digest, root

NO_TEXT = b"\xff"  # is in no text in UTF-8
COMMANDS = [["id", "1"], ["encode", "1"], ["read", "00" * 32], ["recover", "00" * 32, "primary", "0"],
            ["check", "00" * 32], ["serve", "1", "0"], ["replay"], ["sample", "1"], ["image", "1"], ["unpack"],
            ["bundle", "1"], ["member", "00" * 32, "0"], ["challenge", "00" * 32, "0", "00" * 32, "1"],
            ["verify", "00" * 32, "0", "00" * 32, "1"], ["gateway", "1"]]


def ends(words, **places):
    """The status, and what was written to standard output and to standard error."""
    ran = subprocess.run([PROGRAM, *words], capture_output=True, timeout=SECONDS, **places)
    return ran.returncode, ran.stdout, ran.stderr


@needs_program
class Program(unittest.TestCase):
    def test_words_that_are_no_text(self):
        """A word that is no text, in each place: status 11, and nothing is written or taken."""
        for words in COMMANDS:
            for place in range(len(words) + 1):
                with self.subTest(words=words, place=place):
                    told = words[:place] + [NO_TEXT] + words[place:]
                    with open(os.devnull, "rb") as nothing:
                        self.assertEqual(ends(told, stdin=nothing), (11, b"", b""))

    def test_streams_that_are_closed(self):
        """Standard input or standard output that is not open for it: a read or a write that fails."""
        with open(os.devnull, "wb") as sink:
            self.assertEqual(ends(["id", "1"], stdin=sink), (6, b"", b""))
        with open(os.devnull, "rb") as source:
            ran = subprocess.run([PROGRAM, "id", "1"], input=SIX_WORDS, stdout=source, stderr=subprocess.PIPE,
                                 timeout=SECONDS)
        self.assertEqual((ran.returncode, ran.stderr), (7, b""))

    def test_identifiers_by_strips_and_by_columns(self):
        """For symbols of about 4,096 bytes and for about 44 shards: that of the metadata which `encode` writes."""
        for faults, symbol in ((1, 4094), (1, 4096), (1, 4098), (1, 40002), (3, 4162), (14, 4096), (15, 4096)):
            with self.subTest(faults=faults, symbol=symbol):
                length = (faults + 1) * (2 * faults + 1) * symbol - 1
                blob = (bytes(range(251)) * (length // 251 + 1))[:length]
                identifier, written = (subprocess.run([PROGRAM, command, str(faults)], input=blob, timeout=SECONDS,
                                                      stdout=subprocess.PIPE, check=True).stdout
                                       for command in ("id", "encode"))
                start, size = 7 + 1 + 10, 64 * (3 * faults + 1)
                pairs = [written[at:at + 64] for at in range(start, start + size, 64)]
                self.assertEqual(identifier.decode(), digest(b"\2", written[8:start], root(pairs)).hex() + "\n")


if __name__ == "__main__":
    unittest.main()

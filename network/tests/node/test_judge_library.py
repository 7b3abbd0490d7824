"""The library that judges instead of the program: each call is like a run of the program."""
import os
import pathlib
import shutil
import subprocess
import tempfile
import unittest
from unittest import mock

from walrus.network.node import judge
from walrus.network.peers import engine

STUB = """
#include <stddef.h>
#include <stdint.h>
#include <string.h>
uint8_t walrus_run(const uint8_t *words, size_t words_len, const uint8_t *input, size_t input_len, uint8_t *output,
                   size_t output_len, uint64_t *written, uint64_t *needed) {
    *needed = words_len + input_len;  /* the text is the words and the input */
    *written = *needed < output_len ? *needed : output_len;
    for (uint64_t at = 0; at < *written; at++)
        output[at] = at < words_len ? words[at] : input[at - words_len];
    return *needed <= output_len ? 3 : 7;
}

uint64_t walrus_room(const uint8_t *words, size_t words_len, uint64_t input_len) { return words_len + input_len; }
"""


@unittest.skipUnless(shutil.which("gcc"), "gcc is not here")
class Library(unittest.TestCase):
    def test_a_call_of_the_library_is_a_run_of_the_program(self) -> None:
        """A stub with the library's signature returns what it was given, even if it has too little room at first."""
        with tempfile.TemporaryDirectory() as folder:
            source, library = pathlib.Path(folder) / "stub.c", pathlib.Path(folder) / "libwalrus.so"
            source.write_text(STUB)
            subprocess.run(["gcc", "-shared", "-fPIC", "-o", library, source], check=True)
            with mock.patch.dict(os.environ):
                os.environ.pop("WALRUS_LIBRARY", None)
                program = engine.engine_of(f"{folder}/walrus")  # the library is beside it
            self.assertIsInstance(program, judge.Library)
            for data in (b"", b"input" * 9):
                for room in (0, 1, 12, 999):
                    status, text = program.run(["serve", "1"], data, room)
                    self.assertEqual((status, bytes(text)), (3, b"serve\0" + b"1\0" + data))

"""The library, called from Python: clients/c/out/libwalrus.so, or the one that the variable WALRUS_LIBRARY names."""

import ctypes
import os
import pathlib
import unittest

C = pathlib.Path(__file__).resolve().parent
TOP = C.parents[1]
LIBRARY = pathlib.Path(os.environ.get("WALRUS_LIBRARY") or C / "out" / "libwalrus.so").resolve()
NO_ROOM = 7
needs_library = unittest.skipUnless(LIBRARY.exists(), "the library is not built: ./walrus --library builds it")


def spelled(words: list[str]) -> bytes:
    """Return the words as the library expects them, each followed by a zero byte."""
    return b"".join(word.encode() + b"\0" for word in words)


class Library:
    """The loaded library."""

    def __init__(self) -> None:
        library = ctypes.CDLL(str(LIBRARY))
        self.run = library.walrus_run
        number = ctypes.POINTER(ctypes.c_uint64)
        text, size = ctypes.c_char_p, ctypes.c_size_t
        self.run.argtypes = [text, size, text, size, text, size, number, number]
        self.run.restype = ctypes.c_uint8
        self.room_for = library.walrus_room
        self.room_for.argtypes = [text, size, ctypes.c_uint64]
        self.room_for.restype = ctypes.c_uint64
        self.code_of = library.walrus_code
        self.code_of.argtypes = [ctypes.c_uint8, text, size]
        self.code_of.restype = ctypes.c_uint32

    def room(self, words: bytes, length: int) -> int:
        """Return the bytes of room that the library reports for words and an input of this length."""
        return int(self.room_for(words, len(words), length))

    def code(self, status: int, text: bytes) -> int:
        """Return the number of the refusal with which a call ended."""
        return int(self.code_of(status, text, len(text)))

    def call(self, words: bytes, data: bytes, room: int) -> tuple[int, bytes, int]:
        """Call with `room` bytes; return the status, the bytes that were written, and the length of the whole text."""
        output = ctypes.create_string_buffer(b"\xa5" * (room + 1), room + 1)
        written, needed = ctypes.c_uint64(2**64 - 1), ctypes.c_uint64(2**64 - 1)
        status = self.run(words, len(words), data, len(data), output, room, written, needed)
        behind = output.raw[written.value :]  # noqa: E203
        if behind.strip(b"\xa5"):
            raise AssertionError(f"{words!r}: bytes behind the text were overwritten")
        return status, output.raw[: written.value], needed.value

    def answer(self, words: list[str], data: bytes) -> tuple[int, bytes]:
        """Return the status and the whole text, from a second call if 4,096 bytes of room are too few."""
        told, room = spelled(words), 4096
        status, text, needed = self.call(told, data, room)
        if status == NO_ROOM:
            if (text, needed > room) != (text[:room].ljust(room, b"?"), True):
                raise AssertionError(f"{words}: of {needed} bytes {len(text)} were written to a room of {room}")
            front = text
            status, text, again = self.call(told, data, needed)
            if (text[:room], again) != (front, needed):
                raise AssertionError(f"{words}: another text in a larger room")
        if needed != len(text):
            raise AssertionError(f"{words}: {needed} bytes were reported, but {len(text)} were written")
        return status, text

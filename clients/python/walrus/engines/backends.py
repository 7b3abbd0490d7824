"""Engines that run commands: the shared library in this process, or the program `walrus` in a process of its own."""

import contextlib
import ctypes
import os
import pathlib
import shutil
import subprocess
from collections.abc import Sequence
from typing import NamedTuple, Optional, Protocol, Union

from .buffers import Buffer, Room, pinned
from .codes import Code

HERE = pathlib.Path(__file__).resolve().parents[1]
BUILT = pathlib.Path("clients", "c", "out", "libwalrus.so"), pathlib.Path("crates", "walrus_c", "out", "libwalrus.so")
PROGRAM = pathlib.Path("crates", "walrus", "out", "walrus")
NO_ROOM, ROOM = 7, 4_096  # the status if the output has too little room; bytes of an output besides those of its input
MOST_ROOM = 134_217_728  # the most bytes allocated at first, if the library reports a bound
LARGE = 16_777_216  # bytes; a guess above this is compared with the library's bound, which may be smaller
UNTOLD = 2**64 - 2  # from here on numbers are the library's reasons why it reports no bound


class Ran(NamedTuple):
    """The end of a run: the program's status and its whole output."""

    status: int
    text: memoryview


class Engine(Protocol):
    """Runs commands. `run` is given the words without the program's name, the input, and the likely number of bytes of
    output, if the library has no bound for the command, or a larger one. Otherwise the library's bound is used, or the
    input twice and the longest blob."""

    def run(self, words: Sequence[str], data: Buffer = b"", room: Optional[int] = None) -> Ran:
        ...

    def code(self, status: int, text: Buffer) -> Code:
        """Return the refusal with which a run ended."""
        ...


class NotFound(OSError):
    """Neither library nor program was found, or the one that was found or named cannot be used."""


class Library:
    """The shared library. A call releases the interpreter's lock, so several threads may call at the same time."""

    def __init__(self, path: Union[str, os.PathLike[str]]) -> None:
        self.path = os.fspath(path)
        try:
            library = ctypes.CDLL(self.path)
            self.call, self.room = library.walrus_run, library.walrus_room
        except (OSError, AttributeError) as error:
            raise NotFound(f"{self.path} is not the library walrus: {error}; ./walrus --library builds it") from None
        address, size, number = ctypes.c_void_p, ctypes.c_size_t, ctypes.POINTER(ctypes.c_uint64)
        self.call.argtypes = [ctypes.c_char_p, size, address, size, address, size, number, number]
        self.call.restype = ctypes.c_uint8
        self.room.argtypes = [ctypes.c_char_p, size, ctypes.c_uint64]
        self.room.restype = ctypes.c_uint64
        self.told = getattr(library, "walrus_code", None)  # an older library lacks it
        if self.told:
            self.told.argtypes, self.told.restype = [ctypes.c_uint8, address, size], ctypes.c_uint32

    def run(self, words: Sequence[str], data: Buffer = b"", room: Optional[int] = None) -> Ran:
        told = b"".join(spelled(word) + b"\0" for word in words)
        written, needed = ctypes.c_uint64(), ctypes.c_uint64()
        with pinned(data) as (address, size):
            if room is None or room > LARGE:
                enough = int(self.room(told, len(told), size))
                likely = room or (MOST_ROOM if enough < UNTOLD else min(2 * size + LARGE, MOST_ROOM))
                room = min(enough, likely)
            while True:
                output = Room(room)
                ends = output.address, output.size, ctypes.byref(written), ctypes.byref(needed)
                status = self.call(told, len(told), address, size, *ends)
                if status != NO_ROOM:
                    return Ran(status, output.front(written.value))
                if needed.value <= room:
                    raise RuntimeError(
                        f"{self.path} needs {needed.value} bytes of room but refuses {room}: build it again"
                    )
                room = needed.value

    def code(self, status: int, text: Buffer) -> Code:
        if not self.told:
            return Code.of(status, text)
        with pinned(text) as (address, size):
            return Code(self.told(status, address, size))

    def __repr__(self) -> str:
        return f"Library({self.path!r})"


class Program:
    """The program, as one process for each call."""

    def __init__(self, path: Union[str, os.PathLike[str]]) -> None:
        self.path = shutil.which(path) or os.fspath(path)
        if not os.access(self.path, os.X_OK):
            raise NotFound(f"{self.path} is no program; the variable WALRUS can name the program walrus")

    def run(self, words: Sequence[str], data: Buffer = b"", room: Optional[int] = None) -> Ran:
        told = [self.path, *map(spelled, words)]
        ran = subprocess.run(told, input=memoryview(data).cast("B"), stdout=subprocess.PIPE)
        if ran.returncode < 0:
            raise ChildProcessError(f"{self.path} {words[:1]} was ended by signal {-ran.returncode}")
        return Ran(ran.returncode, memoryview(ran.stdout))

    def code(self, status: int, text: Buffer) -> Code:
        return Code.of(status, text)

    def __repr__(self) -> str:
        return f"Program({self.path!r})"


def spelled(word: str) -> bytes:
    told = os.fsencode(word)
    if b"\0" in told:
        raise ValueError(f"a word must have no zero byte, but {word[:40]!r} has one")
    return told


def find() -> Engine:
    """Return the first of these that exists: the library that WALRUS_LIBRARY names, that of this package, of its
    checkout, or of the system; the program that WALRUS names, that of the checkout, or on PATH. Raises `NotFound`."""
    if path := os.environ.get("WALRUS_LIBRARY"):
        return Library(path)
    top = HERE.parents[2] if len(HERE.parents) > 2 else HERE
    for place in [HERE / "libwalrus.so", *(top / built for built in BUILT)]:
        if place.exists():
            return Library(place)
    with contextlib.suppress(NotFound):
        return Library("libwalrus.so.0")
    if path := os.environ.get("WALRUS") or (str(top / PROGRAM) if (top / PROGRAM).exists() else shutil.which("walrus")):
        return Program(path)
    raise NotFound(
        "neither libwalrus.so nor the program walrus is found: name one by the variable WALRUS_LIBRARY or WALRUS"
    )


chosen: Optional[Engine] = None


def use(engine: Optional[Engine]) -> None:
    """Make all further calls with this library or program; with None, look for one again at the next call."""
    global chosen
    chosen = engine


def engine() -> Engine:
    """Return the engine that makes the calls: the one given to `use`, or else what `find` found at the first call."""
    global chosen
    if chosen is None:
        chosen = find()
    return chosen

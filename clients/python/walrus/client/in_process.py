"""The library in place of the program, for the small client: python3 -m walrus.client then starts no process."""

import asyncio
import functools
import os
import pathlib
from collections.abc import Sequence
from typing import Union


from walrus import client
from walrus.engines.backends import Library, NotFound, find as find_engine
from walrus.engines.codes import Code

library = functools.cache(Library)


class InProcess(client.Walrus):
    """The library at a path, which does what the program does. A call runs in a thread, beside the event loop."""

    async def run(self, *words: object, data: Union[client.Data, Sequence[client.Data]] = b"") -> tuple[int, bytes]:
        whole = data if isinstance(data, (bytes, bytearray, memoryview)) else b"".join(data)
        told = list(map(str, words)), whole, 2 * len(whole) + 65_536
        status, text = await asyncio.to_thread(library(self.path).run, *told)
        return status, bytes(text)

    def code(self, status: int, text: client.Data) -> Code:
        return library(self.path).code(status, text)


def is_library(path: str) -> bool:
    """Whether a path names a shared library: libwalrus.so, or libwalrus.so.0."""
    return ".so" in pathlib.PurePath(path).suffixes


def find(path: str = "") -> client.Walrus:
    """Returns the library or the program at a path, or in the variable WALRUS. If neither is given, it returns a
    library that it finds, or else the program on PATH."""
    path = path or os.environ.get("WALRUS", "")
    if is_library(path):
        library(path)
        return InProcess(path)
    try:
        engine = None if path else find_engine()
    except NotFound:
        engine = None
    return InProcess(engine.path) if isinstance(engine, Library) else client.Walrus.find(path)

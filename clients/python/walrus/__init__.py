"""Walrus in Python: blobs that survive lost and lying shards, by the library `libwalrus.so` or the program `walrus`.

    import walrus
    encoded = walrus.encode(blob, faults=1)  # a Buffer: bytes, bytearray, memoryview, mmap
    walrus.read(encoded.identifier, [encoded.metadata, encoded.slivers[0][0], encoded.slivers[2][0]])

Each call runs one command of the program (README.md, 'Which command for what') and returns a view of its result. If
there is no result, the call raises a `Refused`, which has the program's status and words, and a `Code` that names the
cause for the caller's code. With the library, a call starts no process, does not copy an input that is one buffer, and
releases the interpreter's lock: threads may call at the same time, as by `asyncio.to_thread(walrus.read, ..)`.
During a call nobody may write to its input. If a process with several threads forks, the child must make no calls.
"""

from walrus.engines.backends import Engine, Library, NotFound, Program, Ran, engine, use
from walrus.engines.codes import Code
from walrus.engines.refusals import BadlyEncoded, Collision, Lacking, Malformed, OutOfMemory, Refused, WrongWords
from walrus.format.envelopes import Envelope, split, stream

from .calls import (
    Axis,
    Encoded,
    Verdict,
    bundle,
    challenge,
    check,
    encode,
    identifier,
    member,
    read,
    recover,
    run,
    serve,
    verify,
)

__all__ = [
    "Axis",
    "BadlyEncoded",
    "Code",
    "Collision",
    "Encoded",
    "Engine",
    "Envelope",
    "Lacking",
    "Library",
    "Malformed",
    "NotFound",
    "OutOfMemory",
    "Program",
    "Ran",
    "Refused",
    "Verdict",
    "WrongWords",
    "bundle",
    "challenge",
    "check",
    "encode",
    "engine",
    "identifier",
    "member",
    "read",
    "recover",
    "run",
    "serve",
    "split",
    "stream",
    "use",
    "verify",
]

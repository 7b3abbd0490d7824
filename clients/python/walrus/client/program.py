"""The program `walrus` as a process, which encodes, names, reads and recovers."""

import asyncio
import contextlib
import os
import pathlib
import shutil
import subprocess
from collections.abc import Sequence
from subprocess import PIPE
from typing import NamedTuple, Union


from walrus.engines.codes import BADLY_ENCODED, TOO_LITTLE, Code, numbers_of
from walrus.wire.connection import Data
from walrus.wire.streams import split

from .shards import Failed

LINGERS = 2.0  # seconds to wait for the output of a killed run to end
Encoded = NamedTuple("Encoded", [("identifier", bytes), ("metadata", bytes), ("slivers", list[tuple[bytes, bytes]])])


class Refused(Failed):
    """The program walrus gave no result: its status, its text, what the shards had said, and the code of the refusal,
    by which callers tell one from another."""

    def __init__(self, status: int, text: bytes, said: dict[int, str], code: Code) -> None:
        super().__init__(f"{text.decode('ascii', 'replace').strip() or 'walrus'} (status {status})", said)
        self.status, self.text, self.code = status, text, code


class BadlyEncoded(Refused):
    """The blob was badly encoded by its writer: no further reply can change that."""


class TooFew(Refused):
    """Too little was received: of `needed` parts `held` verified; both are 0 if the program does not report them."""

    def __init__(self, status: int, text: bytes, said: dict[int, str], code: Code) -> None:
        super().__init__(status, text, said, code)
        self.held, self.needed = numbers_of(text) if code is Code.TOO_FEW else (0, 0)


class NoBundle(Refused):
    """The blob that was read is no bundle."""


class NoMember(Refused):
    """The bundle has `count` members, and none with the number that was asked for."""

    def __init__(self, status: int, text: bytes, said: dict[int, str], code: Code) -> None:
        super().__init__(status, text, said, code)
        [self.count] = numbers_of(text)


def refusal(status: int, text: Data, said: dict[int, str], code: Code) -> Refused:
    """Returns the exception for a run that was refused; its class follows from the code."""
    kind = Refused
    if code in BADLY_ENCODED:
        kind = BadlyEncoded
    elif code in TOO_LITTLE:
        kind = TooFew
    elif code is Code.BAD_INDEX:
        kind = NoBundle
    elif code is Code.NO_MEMBER:
        kind = NoMember
    return kind(status, bytes(text), said, code)


class Walrus(NamedTuple):
    """The program walrus."""

    path: str

    @classmethod
    def find(cls, path: str = "") -> "Walrus":
        """Returns the program at a path, in the variable WALRUS, or on PATH; for a script ./walrus, what it has built.
        Raises `ValueError` if that is not the program."""
        path = path or os.environ.get("WALRUS") or "walrus"
        path = shutil.which(path) or path
        try:
            ran = subprocess.run([path], stdin=subprocess.DEVNULL, stdout=PIPE)
        except OSError as error:
            raise ValueError(f"{path}: {error.strerror}; the variable WALRUS can name the program walrus") from None
        if ran.returncode != 2 or not ran.stdout.startswith(b"usage: walrus "):
            raise ValueError(f"{path} is not the program walrus: it ends with status {ran.returncode}")
        built = pathlib.Path(path).resolve().parent / "crates" / "walrus" / "out" / "walrus"
        return cls(str(built) if built.exists() else path)

    async def run(self, *words: object, data: Union[Data, Sequence[Data]] = b"") -> tuple[int, bytes]:
        """Runs the program, and returns its status and output. Its input may be a list of parts."""
        data = b"".join(data) if isinstance(data, list) else data
        process = await asyncio.create_subprocess_exec(self.path, *map(str, words), stdin=PIPE, stdout=PIPE)
        try:
            text, _ = await process.communicate(data)  # type: ignore[arg-type]
        finally:
            if process.returncode is None and process.stdin:  # nobody waits for its result any more
                process.kill()
                ends = process.communicate(), process.stdin.wait_closed()  # else asyncio complains on standard error
                with contextlib.suppress(TimeoutError):  # a child of it may still hold the output open
                    async with asyncio.timeout(LINGERS):
                        await asyncio.gather(*ends, return_exceptions=True)
        return await process.wait(), text

    async def output(self, *words: object, data: Union[Data, Sequence[Data]] = b"") -> bytes:
        status, text = await self.run(*words, data=data)
        if status:
            raise refusal(status, text, {}, self.code(status, text))
        return text

    def code(self, status: int, text: Data) -> Code:
        """Returns the code of a run's refusal, by its status and its text."""
        return Code.of(status, text)

    async def encode(self, blob: bytes, faults: int, form: int = 1) -> Encoded:
        """Encodes a blob in a format. The identifier is that in its slivers."""
        stream = await self.output("encode", faults, "--format", form, data=blob)
        metadata, *slivers = [payload for _, payload in split(stream)]
        return Encoded(bytes(slivers[0][1:33]), metadata, list(zip(slivers[::2], slivers[1::2])))

"""The program walrus for a gateway, or the library if it is installed. Calls run in threads, beside the event loop. One
whose caller is cancelled still holds its turn, and the memory that its caller took for it, until its thread ends."""
import concurrent.futures
import contextlib
import os
import pathlib
import shutil
from contextlib import AbstractAsyncContextManager
from typing import Callable, Sequence, Union

from walrus import client
from walrus.client import Data
from walrus.engines.backends import BUILT, Library, Program
from walrus.engines.codes import Code
from walrus.network import TOP
from walrus.network.service.threads import to_the_end
from walrus.wire import connection

SHORT = 65_536  # over fewer bytes the library takes less time than it takes to start another thread


class Calls(client.Walrus):
    """The program at a path, with as many calls at once as there are processors."""

    engine: Union[Library, Program]
    pool: concurrent.futures.ThreadPoolExecutor
    turn: Callable[[], AbstractAsyncContextManager[None]] = contextlib.nullcontext  # is entered for each call
    few: Callable[[], bool] = bool  # whether there are so few shards that short calls need no thread

    @classmethod
    def of(cls, path: str) -> "Calls":
        made = cls(path)
        made.engine = engine_of(path)
        made.pool = concurrent.futures.ThreadPoolExecutor(len(os.sched_getaffinity(0)), "walrus")
        return made

    def within(self, turn: Callable[[], AbstractAsyncContextManager[None]]) -> "Calls":
        """Returns the same program, each call of which waits for a turn, and has it while it runs."""
        made = type(self)(self.path)
        made.engine, made.pool, made.turn, made.few = self.engine, self.pool, turn, self.few
        return made

    async def run(self, *words: object, data: Union[Data, Sequence[Data]] = b"") -> tuple[int, bytes]:
        size = sum(map(len, data)) if isinstance(data, list) else len(data)
        async with self.turn():
            if self.few() and isinstance(self.engine, Library) and room_for(words, size) < SHORT:
                status, text = self.call(words, data)
            else:
                status, text = await to_the_end(self.call, words, data, pool=self.pool)
        return status, bytes(text) if status or len(text) < connection.LARGE else text

    def call(self, words: Sequence[object], data: Union[Data, Sequence[Data]]) -> tuple[int, memoryview]:
        whole = connection.joined(data) if isinstance(data, list) else data
        return self.engine.run([*map(str, words)], whole, room_for(words, len(whole)))  # type: ignore[arg-type]

    def code(self, status: int, text: Data) -> Code:
        return self.engine.code(status, text)

    def close(self) -> None:
        self.pool.shutdown(wait=False, cancel_futures=True)


def room_for(words: Sequence[object], size: int) -> int:
    """Returns the bytes that the output of a command takes, or a few more."""
    if words[0] == "encode":
        shape = client.Shape(int(str(words[1])))
        symbol = 2 * max(1, -(-size // (2 * shape.symbols[0] * shape.symbols[1])))
        return 4_096 + shape.shards * (64 + 2 * 47 + sum(shape.symbols) * symbol)
    return client.LARGEST_BLOB + 4_096 if words[0] == "bundle" else size + 4_096


def engine_of(program: str) -> Union[Library, Program]:
    """Return the library at WALRUS_LIBRARY, beside the program or in its checkout; if there is none, the program."""
    here = pathlib.Path(program).absolute()
    places = [here.with_name("libwalrus.so"), *(top / it for top in here.parents[3:4] for it in BUILT)]
    library = os.environ.get("WALRUS_LIBRARY") or next((str(it) for it in places if it.exists()), "")
    return Library(library) if library else Program(program)


def find_program() -> str:
    """Returns the program that the variable WALRUS names, or the one built in this checkout, or the installed one."""
    built = TOP / "crates" / "walrus" / "out" / "walrus"
    return os.environ.get("WALRUS") or (not built.exists() and shutil.which("walrus")) or str(built)

"""The ways out of the bottle, closed while a run lasts: clocks, chance, sockets, threads and processes."""
import asyncio
import concurrent.futures
import contextlib
import gc
import os
import random
import secrets
import socket
import ssl
import subprocess
import threading
import time
from typing import Any, Callable, Iterator

from walrus.network.node.disk import group_commit

from .connections import Loop
from .loop import RUNNING, Escaped

EPOCH = 1_800_000_000.0  # the time since 1970 at virtual time 0: certificates that were made today are valid then
SYNC = 0.002  # mean seconds of a sync
LOAD = ssl.SSLContext.load_cert_chain


class Syncer:
    """Stands for the thread that syncs a database's log and brings it into the database: each piece of work takes a
    drawn time. It notes how much of the log is on the disk."""

    def __init__(self, target: Any, **_: Any):
        self.store = target.__self__

    def start(self) -> None:
        self.store.syncs = self

    def put(self, work: Any) -> None:
        if work:
            loop = asyncio.get_running_loop()
            assert isinstance(loop, Loop)
            loop.call_later(loop.drawn.expovariate(1 / SYNC), self.do, work, os.path.getsize(f"{self.store.path}-wal"))

    def do(self, work: Any, size: int) -> None:
        SYNCED[f"{self.store.path}-wal"] = size
        work()

    def join(self) -> None:
        pass


SYNCED = dict[str, int]()  # bytes of each log of a database that are on the disk for certain


class Threading:
    """Stands for the module `threading` in the module of the databases."""

    Thread = Syncer


def escaped(*_: Any, **__: Any) -> Any:
    raise Escaped("a real socket, thread or process")


def submit(_: Any, call: Callable[..., Any], *words: Any, **named: Any) -> "concurrent.futures.Future[Any]":
    """Make a call of a pool at once."""
    done = concurrent.futures.Future[Any]()
    try:
        done.set_result(call(*words, **named))
    except BaseException as fault:
        done.set_exception(fault)
    return done


def load(self: ssl.SSLContext, certfile: Any, keyfile: Any = None, password: Any = None) -> None:
    """Load a certificate, and keep the name of its file for who connects."""
    LOAD(self, certfile, keyfile, password)
    self.own = os.fspath(certfile)  # type: ignore[attr-defined]


@contextlib.contextmanager
def bottle(seed: int) -> Iterator[Loop]:
    """A loop for a seed; while this lasts, nothing in the process leaves it."""
    loop, drawn = Loop(seed), random.Random(f"{seed} secrets")
    random.seed(seed)
    SYNCED.clear()

    def wall() -> float:
        return EPOCH + loop.now + RUNNING.get().skew

    changes: list[tuple[Any, str, Any]] = [
        (time, "monotonic", loop.time),
        (time, "time", wall),
        (time, "monotonic_ns", lambda: int(loop.now * 1e9)),
        (time, "time_ns", lambda: int(wall() * 1e9)),
        (random, "_urandom", drawn.randbytes),
        (os, "urandom", drawn.randbytes),
        (secrets, "token_hex", lambda count=32: drawn.randbytes(count).hex()),
        (secrets, "token_bytes", lambda count=32: drawn.randbytes(count)),
        (secrets, "randbelow", drawn.randrange),
        (gc, "collect", lambda *_: 0),
        (socket.socket, "__init__", escaped),
        (socket, "getaddrinfo", loop.lookup),
        (socket, "create_server", lambda address, **_: loop.listen(*address[:2])),
        (threading.Thread, "start", escaped),
        (subprocess.Popen, "__init__", escaped),
        (concurrent.futures.ThreadPoolExecutor, "submit", submit),
        (ssl.SSLContext, "load_cert_chain", load),
        (group_commit, "threading", Threading),
    ]
    with contextlib.ExitStack() as opened:
        for where, name, new in changes:
            opened.callback(setattr, where, name, getattr(where, name))
            setattr(where, name, new)
        yield loop

"""How the client, the front and the examples run: on asyncio, and in one thread."""
import asyncio
import contextlib
import importlib
import os
import sys
from collections.abc import Coroutine
from typing import Any, TypeVar

Result = TypeVar("Result")


def wait_without_threads() -> None:
    """Makes asyncio wait for processes with descriptors: before Python 3.12 it starts a thread for each by default."""
    if sys.version_info < (3, 12):
        with contextlib.suppress(OSError):  # if the system has no such descriptors
            os.close(os.pidfd_open(os.getpid()))
            asyncio.set_child_watcher(asyncio.PidfdChildWatcher())


def run(main: Coroutine[Any, Any, Result]) -> Result:
    """Runs `main`, on uvloop if the variable WALRUS_LOOP says so, and returns its result."""
    if os.environ.get("WALRUS_LOOP") == "uvloop":
        with asyncio.Runner(loop_factory=importlib.import_module("uvloop").new_event_loop) as runner:
            return runner.run(main)
    wait_without_threads()
    return asyncio.run(main)

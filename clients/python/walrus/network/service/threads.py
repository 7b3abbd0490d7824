"""Calls that may wait for the disk, or take long: they run in threads, so that they hold up nobody else."""
import asyncio
import concurrent.futures
import contextlib
from typing import Any, Callable, Optional, TypeVar

Pool = concurrent.futures.ThreadPoolExecutor
THREADS = 4  # threads that write and read files
DISK = Pool(THREADS, "spool")  # in asyncio's own, name look-ups may take long
Result = TypeVar("Result")


async def in_thread(call: Callable[..., Result], *words: Any) -> Result:
    """Runs a call that may wait for the disk in a thread, and returns its result."""
    return await asyncio.get_running_loop().run_in_executor(DISK, call, *words)


async def to_the_end(call: Callable[..., Result], *words: Any, pool: Optional[Pool] = None) -> Result:
    """Like `in_thread`, but if the caller is cancelled meanwhile, the call still ends before that is raised: what it
    uses, such as memory, stays the caller's until then. A call that has not begun is dropped."""
    call_made = (pool or DISK).submit(call, *words)
    running = asyncio.wrap_future(call_made)
    running.add_done_callback(lambda it: it.cancelled() or it.exception())  # also if nobody waits for it any more
    try:
        return await asyncio.shield(running)
    except asyncio.CancelledError:
        while not (call_made.cancel() or call_made.done()):
            with contextlib.suppress(asyncio.CancelledError):  # it may be cancelled several times
                await asyncio.wait([running])
        raise

"""Groups of tasks that run at once: if one fails, the others are cancelled, and its exception is raised."""
import asyncio
import sys
from typing import Any, Coroutine, Iterable, Iterator, TypeVar

Result = TypeVar("Result")


async def all_of(works: Iterable[Coroutine[Any, Any, Result]]) -> list[Result]:
    """Runs all of these at once, and returns what each returns."""
    tasks, found, before = list["asyncio.Task[Result]"](), list[Exception](), own().cancelling()
    try:
        async with asyncio.TaskGroup() as group:
            tasks += [group.create_task(work) for work in works]
    except ExceptionGroup as faults:  # what is raised below must not lead to a task, as with `Writer.end`
        found.append(first_of(faults.with_traceback(None)))
        tasks.clear()
        if sys.version_info < (3, 13) and own().cancelling() > before:
            own().uncancel()  # such a group leaves its request in place, and later timeouts would end as cancelled
    if found:
        raise found.pop()
    return [task.result() for task in tasks]


async def several(works: Iterator[Coroutine[Any, Any, object]], width: int, ends: bool = True) -> None:
    """Runs these, at most `width` at once; each is taken from the iterator only when its turn comes. Unless a fault
    `ends` those under way, they are completed before it is raised."""
    faults = list[Exception]()

    async def go_on() -> None:
        while not faults and (work := next(works, None)):
            try:
                await work
            except Exception as fault:
                if ends:
                    raise
                faults.append(fault)

    await all_of(go_on() for _ in range(width))
    if faults:
        raise faults[0]


def first_of(fault: Exception) -> Exception:
    """Returns the first exception of a group, or the exception itself if it is no group."""
    while isinstance(fault, ExceptionGroup):
        fault = fault.exceptions[0]
    return fault


def own() -> "asyncio.Task[Any]":
    task = asyncio.current_task()
    assert task
    return task

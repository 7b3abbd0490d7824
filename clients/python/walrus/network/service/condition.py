"""Waiting until a condition holds."""
import asyncio
from typing import Callable, Optional


class Waiting:
    """Tasks that wait for conditions. Whenever there is news (`tell`), each condition is evaluated, and only the tasks
    whose condition holds are woken."""

    def __init__(self) -> None:
        self.waiting = dict["asyncio.Future[None]", Callable[[], object]]()

    def tell(self) -> None:
        """Wakes the tasks whose condition holds now. If a condition raises, its own task gets the exception."""
        for waiting, holds in list(self.waiting.items()):
            try:
                if not waiting.done() and holds():
                    waiting.set_result(None)
            except Exception as fault:  # for that one alone
                waiting.set_exception(fault)

    async def until(self, holds: Callable[[], object], seconds: Optional[float]) -> bool:
        """Waits until a condition holds; returns whether it did within `seconds`, where None means without end."""
        if holds():
            return True
        waiting = asyncio.get_running_loop().create_future()
        self.waiting[waiting] = holds
        try:
            async with asyncio.timeout(seconds):
                await waiting
        except TimeoutError:
            return False
        finally:
            del self.waiting[waiting]
        return True

"""Waiting for conditions on the state of the cluster."""

import asyncio
from typing import Callable, Dict, Optional


class Changes:
    """Wakes waiting tasks when something has changed, so that they test their conditions again."""

    def __init__(self) -> None:
        self._waiting: Dict["asyncio.Future[None]", None] = {}

    def notify(self) -> None:
        """Wakes all waiting tasks."""
        for it in self._waiting:
            if not it.done():
                it.set_result(None)

    async def until(self, holds: Callable[[], bool], seconds: Optional[float] = None) -> None:
        """Waits until the condition holds, or for these seconds at most."""
        loop = asyncio.get_running_loop()
        end = None if seconds is None else loop.time() + seconds
        while not holds() and (end is None or loop.time() < end):
            change: "asyncio.Future[None]" = loop.create_future()
            self._waiting[change] = None
            try:
                await asyncio.wait((change,), timeout=None if end is None else end - loop.time())
            finally:
                del self._waiting[change]

"""A queue of requests that are passed on one at a time."""

from collections import deque
from typing import Callable, Deque

from .loop import Loop

GoOn = Callable[[], None]


class RequestQueue:
    """A queue. The request whose turn it is ends its turn, once."""

    def __init__(self, loop: Loop) -> None:
        self._loop = loop
        self._waiting: Deque[GoOn] = deque()
        self._is_taken = False

    @property
    def is_over(self) -> bool:
        """Whether the queue is empty, and no request has its turn."""
        return not self._is_taken and not self._waiting

    def wait_for(self, go_on: GoOn) -> None:
        """Calls `go_on` when it is its turn."""
        self._waiting.append(go_on)
        self._give()

    def end(self) -> None:
        """Ends the current turn."""
        self._is_taken = False
        self._give()

    def _give(self) -> None:
        """Starts the next turn."""
        if self._waiting and not self._is_taken:
            self._is_taken = True
            self._loop.soon(self._waiting.popleft())

"""One history for each shard, for recordings that are too long for a single history.

A history is linearizable if and only if the part of each shard is. So each shard has its own file, with its
own lock, which is checked alone. `continuing` splits a recording by the number of calls instead.
"""

import contextlib
import os
import threading
import time
from typing import Callable, Dict, Tuple

from .format import MOST_EVENTS
from .readings import Reading
from .writing import Histories, History, HistoryError


class Parts(Histories):
    """The histories of a directory, which is created: `shard-3.ndjson` is that of shard 3."""

    def __init__(
        self, folder: str, most_events: int = MOST_EVENTS, clock: Callable[[], float] = time.time
    ) -> None:
        self.folder = folder
        self._most_events = most_events
        self._clock = clock
        self._lock = threading.Lock()
        self._histories: Dict[int, History] = {}
        try:
            os.mkdir(folder)
        except OSError as fault:
            raise HistoryError(f"{folder}: {fault.strerror}") from fault

    @property
    def histories(self) -> Tuple[History, ...]:
        """The histories that exist so far."""
        with self._lock:
            return tuple(self._histories.values())

    def judge_in(self, reading: Reading) -> None:
        self._most_events = min(self._most_events, reading.most_events)

    def of_shard(self, shard: int) -> History:
        """Returns the history of a shard, which is created if there is none yet."""
        with self._lock:
            if shard not in self._histories:
                path = os.path.join(self.folder, f"shard-{shard}.ndjson")
                self._histories[shard] = History(path, self._most_events, self._clock)
            return self._histories[shard]

    def end(self) -> None:
        """Ends each history. If none has a call, neither files nor the directory are left."""
        for history in self.histories:
            history.end()
        with contextlib.suppress(OSError):
            os.rmdir(self.folder)

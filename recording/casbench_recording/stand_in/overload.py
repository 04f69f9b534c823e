"""The rejections of overloaded nodes."""

import random
from typing import Optional

from .answers import Answer, error, rejected

BYTES = (
    "[coordinating_and_primary_bytes=53687091, replica_bytes=0, all_bytes=53687091, "
    "max_coordinating_and_primary_bytes=53687091]"
)
"""The memory usage that a node reports."""

STAGES = 4
"""At how many stages a request may be rejected."""


class Overload:
    """Rejects a random percentage of the requests, at several stages."""

    def __init__(self, percent: float, draw: random.Random) -> None:
        self.percent = percent
        self._draw = draw

    def _strikes(self) -> bool:
        """Returns whether to reject the current request at the current stage."""
        return self.percent > 0 and self._draw.random() * 100 * STAGES < self.percent

    def of_coordinating(self) -> Optional[Answer]:
        """Returns the immediate rejection of a write by the coordinating node, or None."""
        return rejected(f"coordinating operation {BYTES}") if self._strikes() else None

    def of_primary(self) -> Optional[Answer]:
        """Returns the rejection of a write by the primary's node, or None; it is drawn for each attempt."""
        return rejected(f"primary operation {BYTES}") if self._strikes() else None

    def of_get(self) -> Optional[Answer]:
        """Returns the rejection of a get, or None."""
        return (
            rejected("org.opensearch.transport.TransportService on OpenSearchThreadPoolExecutor[get]")
            if self._strikes()
            else None
        )

    def performs_it(self) -> bool:
        """Returns whether a write is performed for which a node doesn't wait."""
        return self._draw.random() < 0.5

    def of_waiting(self) -> Optional[Answer]:
        """Returns the answer of a node that stops waiting for a write, which may have been performed; or
        None."""
        reason = "primary shard is not active Timeout: [1m]"
        return error(503, "unavailable_shards_exception", reason) if self._strikes() else None

"""The faults that the stand-in can inject."""

FAULTS = {
    "none": "no fault",
    "stale-get": "a get returns the version before the last",
    "lost-update": "a write is performed although its condition isn't met",
    "false-conflict": "a write is performed, and answered with a conflict",
    "pair-twice": "a write gets the same pair as the write before it, of any document",
    "lost-writes": "a copy that is promoted lacks the last --every acknowledged writes",
    "lagging-copy": "a copy acknowledges an operation without applying it, and still answers gets",
    "drop-before": "the connection is closed before the request is performed",
    "drop-after": "the connection is closed after the request was performed, without an answer",
    "late": "a request is performed, and answered --late seconds later",
    "garbled": "a request is performed, and answered with status 502 and a page that isn't JSON",
}


class Faults:
    """Injects a fault into every Nth eligible request, counted from 1."""

    def __init__(self, name: str = "none", every: int = 20) -> None:
        self.name = name
        self.every = every
        self.seen = 0

    def strikes(self, name: str) -> bool:
        """Counts an eligible request, if this is the fault to inject; returns whether to inject it."""
        if name != self.name:
            return False
        self.seen += 1
        return self.seen % self.every == 0

    def lost_at_promotion(self) -> int:
        """Returns how many of its last operations a copy lacks when it is promoted."""
        return self.every if self.name == "lost-writes" else 0

"""History texts: writing them as calls are made, parsing them, cutting them into parts, and checking
witnesses of them.

Recorders import `History`, its arguments and its exceptions from here.
"""

from .format import MOST_EVENTS, CallError, Loss, Operation, Pair
from .writing import Call, CallWriter, Ended, Histories, History, HistoryError, NoOutcome

__all__ = [
    "MOST_EVENTS",
    "Call",
    "CallError",
    "CallWriter",
    "Ended",
    "Histories",
    "History",
    "HistoryError",
    "Loss",
    "NoOutcome",
    "Operation",
    "Pair",
]

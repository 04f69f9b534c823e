"""A recorded load on a store: clients that read and write a few documents concurrently.

Recorders import `Load`, its arguments, and the results of a `Store` from here.
"""

from .clients import (
    ANY_NUMBER,
    MIXTURE,
    WRITES,
    BulkSession,
    CallResult,
    Client,
    Draw,
    Habits,
    Kind,
    Load,
    NamedStore,
    NoOutcome,
    Outcome,
    Session,
    Store,
    Unreachable,
    lost_by,
    own_shard,
)

__all__ = [
    "ANY_NUMBER",
    "MIXTURE",
    "WRITES",
    "BulkSession",
    "CallResult",
    "Client",
    "Draw",
    "Habits",
    "Kind",
    "Load",
    "NamedStore",
    "NoOutcome",
    "Outcome",
    "Session",
    "Store",
    "Unreachable",
    "lost_by",
    "own_shard",
]

"""What a document may be between two events: its versions, their positions, and states.

A version is a pair that a reply shows to be that of a change of the document. Positions order what a document
may be: 0 before its first change; 2n with the n-th version, from 1; 2n + 1 with another pair between that
version and the next one.
"""

from bisect import bisect_left, bisect_right
from dataclasses import dataclass, field
from typing import Any, Dict, FrozenSet, Iterable, Iterator, List, NamedTuple, Optional, Set

from .witness_checker import CheckedCall, Numbers

GREATEST = 2**63 - 1
"""The greatest number of a pair."""

NEVER: Numbers = (0, GREATEST)
"""Stands for the pair of a document that was never changed. The pair after it is the least one."""

PAST_ALL: Numbers = (GREATEST + 1, 0)
"""Stands for a pair above all."""


class State(NamedTuple):
    """What a document may be between two events. It stands for all ways in which that may have come about.

    `least` is the least pair that its last change can have. A call whose record is below `flipped` may have
    met the document in the other state, existing or missing; one whose record is below `arrived` may have met
    it at another position. `owed` are the records of conflicts that have to be performed yet, `spent` of
    those that were. `deletes` and `makes` are how many writes without a reply and a condition were
    performed: deletes; indexes and creates. `line` is the line that it comes from, 0 if it comes from none.
    """

    least: Numbers
    exists: bool
    flipped: int
    arrived: int
    owed: FrozenSet[int] = frozenset()
    spent: FrozenSet[int] = frozenset()
    deletes: int = 0
    makes: int = 0
    line: int = 0

    def covers(self, other: "State") -> bool:
        """Whether it is no worse than another state of the same position and existence."""
        return (
            self.least <= other.least
            and self.flipped >= other.flipped
            and self.arrived >= other.arrived
            and self.owed <= other.owed
            and self.spent <= other.spent
            and self.deletes <= other.deletes
            and self.makes <= other.makes
        )

    def settled(self, record: int) -> "State":
        """Returns the state after the reply to the call of a record."""
        return self._replace(owed=self.owed - {record}, spent=self.spent - {record})

    def members(self) -> Dict[str, Any]:
        """Returns the members of its line, in their order."""
        its: Dict[str, Any] = {"arrived": self.arrived, "exists": self.exists, "flipped": self.flipped}
        if self.least != NEVER:
            its.update(seq=self.least[1], term=self.least[0])
        more: Dict[str, Any] = {"deletes": self.deletes, "makes": self.makes}
        more.update(owed=sorted(self.owed), spent=sorted(self.spent))
        its.update((key, value) for key, value in more.items() if value)
        return dict(sorted(its.items()))


NEVER_CHANGED = State(NEVER, exists=False, flipped=0, arrived=0)
"""The document before its history."""


@dataclass
class Version:
    """What replies say of a version: the records of the writes that were performed with its pair, and the
    numbers that gets found with it."""

    writers: List[int] = field(default_factory=list)
    numbers: Set[int] = field(default_factory=set)


def is_performed(call: CheckedCall) -> bool:
    """Whether the reply shows that the call was performed as a write."""
    return call.op != "get" and call.pair is not None


def known_pairs(call: CheckedCall) -> Iterator[Numbers]:
    """Returns the pairs that the reply to a call shows to be pairs of changes of its document: that of a
    performed write or a found document, and a condition that was met."""
    if call.pair is not None:
        yield call.pair
        if call.op != "get" and call.condition is not None:
            yield call.condition


def versions_of(calls: Iterable[CheckedCall]) -> Dict[Numbers, Version]:
    """Returns the versions of a document by their pairs."""
    versions: Dict[Numbers, Version] = {}
    for record, call in enumerate(calls):
        for pair in known_pairs(call):
            version = versions.setdefault(pair, Version())
            if pair == call.pair and is_performed(call):
                version.writers.append(record)
            if call.found is not None:
                version.numbers.add(call.found)
    return versions


def next_pair(pair: Numbers) -> Numbers:
    """Returns the pair after a pair."""
    term, seq = pair
    return (term, seq + 1) if seq < GREATEST else (term + 1, 0)


def ends_of_runs(pairs: Iterable[Numbers]) -> Dict[Numbers, Numbers]:
    """Returns by each of the pairs the first one above it that isn't among them."""
    ends: Dict[Numbers, Numbers] = {}
    for pair in sorted(pairs, reverse=True):
        above = next_pair(pair)
        ends[pair] = ends.get(above, above)
    return ends


class Document:
    """The calls of a document as they are judged, and what all replies say of its versions. `elsewhere` are
    the pairs that other documents of its shard are known to have."""

    def __init__(self, calls: List[CheckedCall], elsewhere: Set[Numbers], is_maybe: bool) -> None:
        self.calls = calls
        self.elsewhere = elsewhere
        self.is_maybe = is_maybe
        self.versions = versions_of(calls)
        self.pairs = sorted(self.versions)
        self._positions = {NEVER: 0, **{pair: 2 * at + 2 for at, pair in enumerate(self.pairs)}}
        self._ends_of_runs = ends_of_runs(elsewhere)

    def position(self, pair: Numbers) -> int:
        """The position of a document whose last change has the pair."""
        known = self._positions.get(pair)
        return 2 * bisect_left(self.pairs, pair) + 1 if known is None else known

    def next_version(self, pair: Numbers) -> Optional[Numbers]:
        """The pair of the first version above a pair, if there is one."""
        at = bisect_right(self.pairs, pair)
        return self.pairs[at] if at < len(self.pairs) else None

    def states_of(self, pair: Numbers) -> Set[bool]:
        """Whether the document exists if it has the pair of a version, or was never changed. (There are two
        answers if replies say that an index and a delete took the pair.)"""
        version = self.versions.get(pair)
        if version is None:
            return {False}
        return {self.calls[it].op != "delete" for it in version.writers} or {True}

    def free_pair(self, pair: Numbers) -> Optional[Numbers]:
        """The least pair above a pair that no document of the shard is known to have, if it is below the next
        version."""
        above = next_pair(pair)
        free = self._ends_of_runs.get(above, above)
        return free if free < (self.next_version(pair) or PAST_ALL) else None

    def is_hidden(self, call: CheckedCall) -> bool:
        """Whether the reply is a conflict that may hide that the write was performed."""
        return self.is_maybe and call.reply == "conflict"

    def is_silent(self, call: CheckedCall) -> bool:
        """Whether it is a write that may have been performed with a pair that no reply to it shows."""
        return call.op != "get" and (call.answered is None or self.is_hidden(call))

"""Detects terms that start too low: a hint of lost acknowledged writes that no reply shows.

A new primary continues after the last sequence number that it knows. If its term starts at a number that
isn't above that of a write acknowledged in an earlier term, it didn't know that write. A history in which
nobody reads the write again may still have an order, since pairs are compared by their terms first.
"""

import json
from typing import Any, Dict, Iterable, List, NamedTuple, Optional, Tuple

from casbench_recording.history.format import Pair, pair_of


class Term:
    """What replies show of a term: its smallest number, and the greatest one that was acknowledged for a
    write."""

    __slots__ = ("least", "acknowledged")

    def __init__(self, seq: int) -> None:
        self.least = seq
        self.acknowledged: Optional[int] = None


class Hint(NamedTuple):
    """A term of a shard that starts at or before a number, and the greatest acknowledged pair that isn't
    before it."""

    shard: int
    start: Pair
    acknowledged: Pair

    def __str__(self) -> str:
        lost = f"{self.acknowledged.term}/{self.acknowledged.seq} was acknowledged"
        return f"shard {self.shard}: term {self.start.term} starts at {self.start.seq}, but {lost}"

    def lost(self) -> str:
        """Returns which acknowledged versions may be lost: those with numbers that the term gives again."""
        term, seq = self.acknowledged
        first, last = f"{term}/{self.start.seq}", f"{term}/{seq}"
        which = f"{last} was" if first == last else f"{first} to {last} were"
        return f"shard {self.shard}: {which} acknowledged and may be lost"


class Terms:
    """The terms of each shard."""

    def __init__(self) -> None:
        self._shards: Dict[int, Dict[int, Term]] = {}

    def show(self, shard: int, pair: Pair, is_acknowledged: bool) -> None:
        """Adds a pair that a reply shows, and whether the reply acknowledges its write."""
        terms = self._shards.setdefault(shard, {})
        term = terms.setdefault(pair.term, Term(pair.seq))
        term.least = min(term.least, pair.seq)
        if is_acknowledged and (term.acknowledged is None or term.acknowledged < pair.seq):
            term.acknowledged = pair.seq

    def hints(self) -> List[Hint]:
        """Returns the terms that start too low, by shard and term."""
        return [it for shard, terms in sorted(self._shards.items()) for it in hints_of(shard, terms)]


def hints_of(shard: int, terms: Dict[int, Term]) -> Iterable[Hint]:
    """Returns the terms of a shard that start too low."""
    # the greatest acknowledged pair, unless a hint says that it is lost
    last: Optional[Pair] = None
    for number, term in sorted(terms.items()):
        if last is not None and term.least <= last.seq:
            yield Hint(shard, Pair(number, term.least), last)
            last = None
        if term.acknowledged is not None and (last is None or last.seq <= term.acknowledged):
            last = Pair(number, term.acknowledged)


class TermReader:
    """Reads the lines of a growing history. casbench has accepted the text."""

    def __init__(self, terms: Terms) -> None:
        self._terms = terms
        # the number of bytes read
        self.length = 0
        # for each open call its shard, and whether it is a write
        self._open: Dict[int, Tuple[int, bool]] = {}

    def read(self, lines: Iterable[bytes]) -> None:
        """Reads the next lines."""
        for line in lines:
            self.length += len(line)
            if line.strip():
                self._take(json.loads(line))

    def _take(self, event: Dict[str, Any]) -> None:
        """Reads an event."""
        if event["e"] == "call":
            self._open[event["n"]] = event.get("shard", 0), event["op"] != "get"
        else:
            shard, is_write = self._open.pop(event["n"])
            pair = pair_of(event.get("body"))
            if pair is not None:
                self._terms.show(shard, pair, is_write)

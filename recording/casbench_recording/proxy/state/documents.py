"""A document as the proxy knows it, and the numbers that stand for sources.

A history identifies a version by its pair and by a number `k`. Here `k` is a digest of the source: equal
sources have the same number, whatever the order of their keys, and no source is kept.
"""

import functools
import json
from enum import Enum
from hashlib import blake2b
from typing import Any, Dict, Optional, Tuple

from casbench_recording.history.carried_over import Beginning, Version
from casbench_recording.history.format import LONGEST_ID, Operation, Pair, length_of
from casbench_recording.history.writing import Call
from casbench_recording.proxy.json_bodies import read_json

canonical = json.JSONEncoder(sort_keys=True, separators=(",", ":"), check_circular=False).encode
"""Returns the canonical text of a source. (Parsed JSON has no circular references.)"""

MOST_REMEMBERED = 8192
"""How many digests are cached."""

LONGEST_REMEMBERED = 2048
"""The maximum length in bytes of a text whose digest is cached."""

UNKNOWN = 1
"""The number of all unknown sources; those of known sources are greater."""

BYTES = 8
"""The length of the number of a source in bytes."""

PAIRS_AT_REST, MOST_PAIRS = 8, 1000
"""How many of the last versions are kept at most: for a document without open calls, and for another one. If
there are more, half of these are kept."""

NOTHING: Dict[Call, None] = {}
"""The open calls of a document that has none. It is never changed."""


class DocumentState(Enum):
    """What is known of the calls of a document.

    In `JUDGED` all of them are recorded. In `UNSURE` all that were seen are recorded, and it isn't known yet
    whether the document existed before. In `NOT_JUDGED` some are not recorded, and no more will be.
    """

    JUDGED = 1
    UNSURE = 2
    NOT_JUDGED = 3


UNSURE, NOT_JUDGED = DocumentState.UNSURE, DocumentState.NOT_JUDGED
"""These states have names of their own, since looking up a member of an Enum by its name is slow."""


class Document:
    """A document: its open calls, its last versions, and which of its writes may have been performed
    unseen."""

    __slots__ = (
        *("id", "shard", "state", "open", "deletes", "_nothing", "_written", "_forgotten", "_unknown"),
        *("turns", "_open_writes", "_doubtful", "_has_lost", "acknowledged"),
    )

    def __init__(self, id: str, shard: int, state: DocumentState) -> None:
        self.id = id
        self.shard = shard
        self.state = state
        # (in order)
        self.open: Dict[Call, None] = NOTHING
        # how many calls may have deleted the document, and how many writes were not performed
        self.deletes = self._nothing = 0
        # the last acknowledged versions, and the greatest forgotten pair of an unknown source
        self._written: Tuple[Version, ...] = ()
        self._forgotten: Optional[Pair] = None
        # how many writes of an unknown source may have been performed, even twice, with a pair that no answer
        # shows
        self._unknown = 0
        # the number of writes, and of open ones; the turn up to which a write was answered and may have been
        # performed unseen, or 0; and whether a write is lost that may be performed at any time
        self.turns = self._open_writes = self._doubtful = 0
        self._has_lost = False
        # the greatest acknowledged pair
        self.acknowledged: Optional[Pair] = None

    # Writes

    @property
    def writes(self) -> int:
        """How many calls may have written the document, without deletes."""
        return self.turns - self.deletes - self._nothing

    @property
    def is_settled(self) -> bool:
        """Whether each write is over, and its outcome known."""
        return not (self._open_writes or self._has_lost or self._doubtful)

    def begins_write(self, op: str) -> int:
        """Counts a write that is called now; returns its turn."""
        if op == "delete":
            self.deletes += 1
        self._open_writes += 1
        self.turns = turn = self.turns + 1
        return turn

    def is_last(self, turn: int) -> bool:
        """Returns whether no write was called after the one with this turn, and each before it was seen."""
        return turn == self.turns and self.state is DocumentState.JUDGED

    def acknowledges(self, turn: int, pair: Pair) -> None:
        """Notes the acknowledgement of a write with this pair. Writes that were answered before it was called
        take no later pair."""
        if turn > self._doubtful:
            self._doubtful = 0
        greatest = self.acknowledged
        if greatest is None or pair > greatest:
            self.acknowledged = pair

    def doubts(self, operation: Operation, is_answered: bool) -> None:
        """Notes that a write may have been performed unseen. If it has neither an answer nor a condition, it
        may be performed at any later time."""
        if is_answered or operation.condition is not None:
            self._doubtful = self.turns
        else:
            self._has_lost = True

    # Open calls

    def opens(self, call: Call) -> None:
        """Adds an open call."""
        if self.open:
            self.open[call] = None
        else:
            self.open = {call: None}

    def closes(self, call: Call, turn: int) -> None:
        """Removes an open call; `turn` is that of its write, or 0. Without open calls only few versions are
        kept."""
        if turn:
            self._open_writes -= 1
        self.open.pop(call, None)
        if not self.open:
            self.open = NOTHING
            if len(self._written) > PAIRS_AT_REST:
                self._forget(PAIRS_AT_REST // 2)

    # Sources

    def number_to_write(self, digest: Optional[int]) -> int:
        """Returns the number of a source that is written now."""
        if digest is None:
            self._unknown += 1
            return UNKNOWN
        return int(digest)

    def written(self, pair: Pair, number: int) -> None:
        """Notes that a write was answered with this pair."""
        versions = self._written = (*self._written, Version(pair, number))
        if len(versions) > MOST_PAIRS:
            self._forget(MOST_PAIRS // 2)

    def _forget(self, count: int) -> None:
        """Keeps only the `count` greatest versions."""
        versions = sorted(self._written)
        self._written = tuple(versions[-count:])
        unknown = [it.pair for it in versions[:-count] if it.value == UNKNOWN]
        if unknown and (self._forgotten is None or unknown[-1] > self._forgotten):
            self._forgotten = unknown[-1]

    def wrote_nothing(self, operation: Operation) -> None:
        """Notes that a write was not performed."""
        if operation.value == UNKNOWN:
            self._unknown -= 1
        if operation.op == "delete":
            self.deletes -= 1
        self._nothing += 1

    def number_shown(self, pair: Pair, digest: Optional[int], is_whole: bool) -> Optional[int]:
        """Returns the number to record for a get that found this pair; None if it can't be determined.

        If a write of an unknown source was answered with the pair, it is that write's, whatever is shown; if
        one may have taken it unseen, it can't be determined. If the source isn't shown completely, it is that
        of the write with this pair.
        """
        for version in reversed(self._written):
            if version.pair == pair:
                if version.value == UNKNOWN or not is_whole:
                    return version.value
                break
        else:
            if self._unknown or self._forgotten is not None and pair <= self._forgotten:
                return None
        return int(digest) if is_whole and digest is not None else None

    def goes_on(self, beginning: Beginning) -> None:
        """Forgets the pairs that aren't in the next part, to which the document moves.

        That part has what it begins with, and the open calls.
        """
        version, writes = beginning.version, [*beginning.lost, *[it.operation for it in self.open]]
        self._written = (version,) if version is not None and version.value is not None else ()
        self._forgotten = None
        # (an open write that is also carried over counts twice: then a get of a version without an
        # acknowledgement is lost, and not guessed)
        self._unknown = sum(it.value == UNKNOWN for it in writes)


class Digest(int):
    """The digest of a source, of a type that parsed JSON never has."""

    __slots__ = ()


LEAST = Digest(UNKNOWN + 1)
"""The smallest digest."""


def digest_of(source: Any) -> Optional[Digest]:
    """Returns the number of a source: different sources have the same with a probability of 2^-64. None if
    the source is nested too deeply to be compared."""
    try:
        digest = Digest.from_bytes(blake2b(canonical(source).encode(), digest_size=BYTES).digest(), "big")
    except RecursionError:
        return None
    return digest if digest > UNKNOWN else LEAST


def digest_of_object(text: Optional[bytes]) -> Optional[Digest]:
    """Returns the digest of the object in a text, or None if it can't be parsed or compared."""
    source = object_of(text)
    return digest_of(source) if source is not None else None


digest_of_short = functools.lru_cache(maxsize=MOST_REMEMBERED)(digest_of_object)
"""The same, cached."""


def digest_of_text(text: Optional[bytes]) -> Optional[Digest]:
    """The same, cached if the text is short: what is written is read again, mostly byte for byte."""
    return (
        digest_of_short(text)
        if text is not None and len(text) <= LONGEST_REMEMBERED
        else digest_of_object(text)
    )


def object_of(content: Optional[bytes]) -> Optional[Dict[str, Any]]:
    """Returns the object in a body, or None if it isn't one or can't be parsed."""
    try:
        value = read_json(content.decode("utf-8")) if content is not None else None
    except (ValueError, RecursionError):
        return None
    return value if isinstance(value, dict) else None


def is_id(text: str) -> bool:
    """Returns whether the text may be the id of a document."""
    return 1 <= length_of(text) <= LONGEST_ID

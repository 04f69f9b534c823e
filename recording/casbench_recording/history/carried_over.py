"""What the next part of a recording states about a document's past, so that everything that is refuted about
the part is true of the whole.

A recording without a limit is cut into parts, each of which is a complete history. Each document moves from
one part to the next at its own time. In its next part it starts with two lines that state its last known
version, followed by its lost writes that may still take effect, again as lost. If an order explains the whole
recording, one explains each part: docs/RECORDING.md says why.

A reading may take replies to say less. If any copy may answer a get, a version that it shows may be lost
again. If writes may be repeated, a lost write may take effect again after it was seen. An answered write is
over: the store repeats a write before it answers, and so does what a conflict hides.
"""

import json
from dataclasses import dataclass
from enum import Enum
from typing import Dict, List, NamedTuple, Optional, Sequence, Tuple, Union

from .format import CONFLICT, WRITES_A_VALUE, Loss, Operation, Pair, is_whole, pair_if, value_of
from .readings import STRICT, Conflicts, Gets, Reading, Writes
from .unperformed import changed_nothing, type_of
from .writing import Call


class Version(NamedTuple):
    """A version of a document: its pair and its value, which is None if the document was deleted with this
    pair."""

    pair: Pair
    value: Optional[int]


class ReplyKind(Enum):
    """What a reply means for its call."""

    WRITTEN = "the write was performed with the pair in the reply"
    FOUND = "the get found the version in the reply"
    MISSING = "the get found no document"
    REFUSED = "the write was answered with a conflict"
    UNCHANGED = "the update's last attempt changed nothing"
    UNKNOWN = "the outcome is unknown"


class InterpretedReply(NamedTuple):
    """A reply as its kind, and the version that it shows, if any."""

    kind: ReplyKind
    version: Optional[Version] = None


read_json = json.JSONDecoder().decode
"""Returns the value of a JSON text."""

MISSING, REFUSED, UNCHANGED, UNKNOWN = (
    InterpretedReply(it)
    for it in (ReplyKind.MISSING, ReplyKind.REFUSED, ReplyKind.UNCHANGED, ReplyKind.UNKNOWN)
)

RESULTS_OF_A_WRITE = {
    ("index", 201, "created"),
    ("index", 200, "updated"),
    ("create", 201, "created"),
    ("delete", 200, "deleted"),
    ("delete", 404, "not_found"),
}
"""The operation, the status and the result of each reply to a performed write."""


def interpret_reply(operation: Operation, status: int, text: Optional[str]) -> InterpretedReply:
    """Interprets a reply by its status and the JSON text of its body, according to the reply table of
    docs/FORMATS.md."""
    try:
        # (except for -0 the plain JSON parser returns the same integers, and it is faster)
        body = None if text is None else value_of(text) if "-0" in text else read_json(text)
    except (ValueError, RecursionError):
        return UNKNOWN
    if not isinstance(body, dict):
        return UNKNOWN
    if operation.op == "get":
        return interpret_get(status, body)
    pair = pair_if(body.get("_primary_term"), body.get("_seq_no"))
    if pair is not None and (operation.op, status, body.get("result")) in RESULTS_OF_A_WRITE:
        return InterpretedReply(ReplyKind.WRITTEN, Version(pair, operation.value))
    if status == 409 and type_of(body.get("error")) == CONFLICT:
        return REFUSED
    return UNCHANGED if operation.op == "index" and changed_nothing(status, body) else UNKNOWN


def interpret_ending(
    operation: Operation, ending: Union[Tuple[int, Optional[str]], Loss]
) -> Optional[InterpretedReply]:
    """Interprets the ending of a call; None if the call was not performed."""
    if not isinstance(ending, Loss):
        return interpret_reply(operation, *ending)
    return {Loss.UNKNOWN: UNKNOWN, Loss.OVER: UNCHANGED, Loss.VOID: None}[ending]


def interpret_get(status: int, body: Dict[str, object]) -> InterpretedReply:
    """Interprets a reply to a get."""
    pair, source = pair_if(body.get("_primary_term"), body.get("_seq_no")), body.get("_source")
    if status == 200 and body.get("found") is True and pair is not None and isinstance(source, dict):
        value = source.get("k")
        return (
            InterpretedReply(ReplyKind.FOUND, Version(pair, value))
            if is_whole(value, 0, 2**64 - 1)
            else UNKNOWN
        )
    return MISSING if status == 404 and body.get("found") is False else UNKNOWN


@dataclass(frozen=True)
class Beginning:
    """What a document starts with in its next part: the last known version, and the writes that may still
    take effect, again as lost."""

    version: Optional[Version]
    lost: List[Operation]

    @property
    def calls(self) -> int:
        """How many calls of the part it takes."""
        return (self.version is not None) + len(self.lost)


class DocumentPast:
    """What later calls of a document depend on, in a reading. It keeps what may still matter, and not every
    call."""

    __slots__ = ("version", "_reading", "_open", "_lost_blind", "_lost_conditional", "_refused", "_refusals")

    def __init__(self, reading: Reading = STRICT) -> None:
        # the lasting version with the greatest pair that a reply showed
        self.version: Optional[Version] = None
        self._reading = reading
        # (there are many documents, so empty members share one object)
        # the open calls, each with the number of refusals before it was made
        self._open: Optional[Dict[Call, int]] = None
        # writes of unknown outcome that may still take effect, without a condition and with one
        self._lost_blind: Sequence[Operation] = ()
        self._lost_conditional: Sequence[Operation] = ()
        # the last writes that were answered with a refusal and may have been performed all the same, and the
        # number of all of them
        self._refused: Sequence[Operation] = ()
        self._refusals = 0

    @property
    def is_at_rest(self) -> bool:
        """Whether no call of the document is open."""
        return not self._open

    @property
    def is_blank(self) -> bool:
        """Whether nothing is known of the document: no call is open, no version is known, and no write was
        lost."""
        return self.version is None and self.is_at_rest and not self._undecided()

    @property
    def open_calls(self) -> List[Call]:
        """The open calls."""
        return list(self._open or ())

    def called(self, call: Call) -> None:
        """Adds a call."""
        if self._open is None:
            self._open = {}
        self._open[call] = self._refusals

    def ended(self, call: Call, reply: Optional[InterpretedReply]) -> None:
        """Ends an open call with this interpretation; None if it was not performed."""
        assert self._open is not None
        operation, refusals = call.operation, self._open.pop(call)
        if not self._open:
            self._open = None
        if reply is None:
            return
        if reply.version is not None:
            if reply.kind is ReplyKind.WRITTEN or self._reading.gets is Gets.LAST:
                self._shown(reply.version, reply.kind, self._refusals - refusals)
        elif (
            reply is REFUSED
            and self._may_be_performed(operation)
            or reply is UNCHANGED
            and self._may_be_performed_before(operation)
        ):
            self._refused = appended(self._refused, operation)
            self._refusals += 1
        elif reply is UNKNOWN and operation.op != "get" and operation.condition is None:
            self._lost_blind = appended(self._lost_blind, operation)
        elif reply is UNKNOWN and operation.op != "get":
            self._lost_conditional = appended(self._lost_conditional, operation)

    def _may_be_performed(self, refused: Operation) -> bool:
        """Returns whether a write that was just answered with a conflict may have been performed after the
        last version.

        A create of an existing document needs a delete before it, which isn't answered either.
        """
        if self._reading.conflicts is Conflicts.PLAIN:
            return False
        if refused.op != "create" or self.version is None or self.version.value is None:
            return self._may_still_follow(refused)
        return any(it.op == "delete" and self._may_still_follow(it) for it in self._undecided())

    def _may_be_performed_before(self, unchanged: Operation) -> bool:
        """Returns whether an update whose last attempt changed nothing may have been performed by an earlier
        attempt, after the last version."""
        is_tried_again = (
            self._reading.writes is Writes.REPEATED or self._reading.conflicts is not Conflicts.PLAIN
        )
        return is_tried_again and self._may_still_follow(unchanged)

    def _may_still_follow(self, operation: Operation) -> bool:
        """Returns whether a write may take effect after the last version."""
        return self.version is None or may_follow(operation, self.version)

    def _undecided(self) -> List[Operation]:
        """Returns the writes of unknown outcome, and the open calls."""
        return [
            *self._lost_blind,
            *self._lost_conditional,
            *(it.operation for it in self._open or ()),
            *self._refused,
        ]

    def _shown(self, version: Version, kind: ReplyKind, since: int) -> None:
        """Adds a version that lasts and is shown by the reply to a call; `since` is the number of refusals
        since the call was made.

        A write that was answered before with a refusal takes no pair after that version, so it is dropped.
        """
        if len(self._refused) > since:
            self._refused = self._refused[len(self._refused) - since :] or ()
        if self.version is not None and version.pair <= self.version.pair:
            return
        if kind is ReplyKind.FOUND:
            self._drop_writer_of(version)
        self.version = version
        self._lost_conditional = [it for it in self._lost_conditional if may_follow(it, version)] or ()

    def _drop_writer_of(self, version: Version) -> None:
        """Drops the lost write of a version that a get found, if there is only one candidate: it took effect,
        and won't again."""
        undecided = [it for it in self._undecided() if it.op in WRITES_A_VALUE and it.value == version.value]
        writers = [it for it in undecided if may_precede(it, version)]
        if len(writers) == 1 and not self._reading.is_performed_twice(
            writers[0].op, writers[0].condition is not None
        ):
            self._lost_blind = [it for it in self._lost_blind if it is not writers[0]] or ()
            self._lost_conditional = [it for it in self._lost_conditional if it is not writers[0]] or ()

    def beginning(self) -> Beginning:
        """Returns what the document starts with in its next part.

        Open calls are among the lost ones, since a document may move before it is at rest. Replies to those
        calls belong to neither part.
        """
        return Beginning(
            self.version, [it for it in self._undecided() if it.op != "get" and self._may_still_follow(it)]
        )


def appended(operations: Sequence[Operation], operation: Operation) -> List[Operation]:
    """Returns the operations with one more."""
    if not isinstance(operations, list):
        return [*operations, operation]
    operations.append(operation)
    return operations


def may_follow(operation: Operation, version: Version) -> bool:
    """Returns whether a write may take effect after this version: not if its condition is a smaller pair."""
    return operation.condition is None or operation.condition >= version.pair


def may_precede(operation: Operation, version: Version) -> bool:
    """Returns whether a write may have written this version: not if its condition is the version's pair or a
    greater one."""
    return operation.condition is None or operation.condition < version.pair

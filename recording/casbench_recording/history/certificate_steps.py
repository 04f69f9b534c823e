"""The writes that may be performed on a document between two events, and what they make of its states."""

from typing import Dict, Iterator, NamedTuple, Optional, Set

from .certificate_states import Document, State, is_performed
from .witness_checker import CheckedCall, Numbers


class Kind(NamedTuple):
    """What counts of a lost write for its steps: the operation, the number (None stands for any), and the
    position at which its condition is met (None if it has none)."""

    op: str
    number: Optional[int]
    position: Optional[int]


class Step(NamedTuple):
    """A write that is performed: its record, and the state after it."""

    record: int
    state: State


class Writes:
    """The calls of a document up to an event, and the writes among them that may be performed then."""

    def __init__(self, document: Document) -> None:
        self.document = document
        self.made = 0  # how many calls were made: the record of the next one
        self.deletes = 0  # how many deletes without a reply and a condition were made
        self.makes = 0  # how many indexes without a reply and a condition, and creates without a reply
        self.silent_ops: Set[str] = set()  # the operations of the silent writes that were made
        self._lost: Dict[Kind, int] = {}  # a record of each kind of lost write
        self._hidden: Dict[Optional[int], Set[int]] = {}  # open conflicts, by where their conditions are met

    def make(self, record: int) -> None:
        """The call of the record is made."""
        document, call = self.document, self.document.calls[record]
        self.made = record + 1
        if not document.is_silent(call):
            return
        self.silent_ops.add(call.op)
        if call.answered is not None:
            self._hidden.setdefault(self._met_at(call), set()).add(record)
        else:
            self.deletes += is_lost_delete(call)
            self.makes += is_lost_make(call)
            self._keep(Kind(call.op, None, self._met_at(call)), record)
            self._keep(Kind(call.op, call.k, self._met_at(call)), record)

    def answer(self, record: int) -> None:
        """The call of the record is answered."""
        call = self.document.calls[record]
        if self.document.is_hidden(call):
            self._hidden[self._met_at(call)].remove(record)

    def _met_at(self, call: CheckedCall) -> Optional[int]:
        """The position at which its condition is met."""
        return None if call.condition is None else self.document.position(call.condition)

    def _keep(self, kind: Kind, record: int) -> None:
        """Keeps of each kind the call with the greatest condition: it is met wherever another is."""
        calls = self.document.calls
        kept = calls[self._lost.setdefault(kind, record)].condition
        if kept is not None and kept < (calls[record].condition or kept):
            self._lost[kind] = record

    def steps(self, state: State, now: int) -> Iterator[Step]:
        """Returns the possible steps from a state before the event `now`, but for those that others cover: of
        alike lost writes one is performed, and of pairs that nobody is known to have the least is taken."""
        document = self.document
        free, version = document.free_pair(state.least), document.next_version(state.least)
        for pair in filter(None, (free, version)):
            for record in self._candidates(document.position(state.least), pair):
                if self.may_perform(state, record, pair, now):
                    yield Step(record, self._performed(state, record, pair))

    def _candidates(self, position: int, pair: Numbers) -> Iterator[int]:
        """Returns the records of writes that may take the pair, one of each kind of lost ones."""
        version = self.document.versions.get(pair)
        if version is not None and version.writers:
            yield from version.writers
            return
        numbers: Set[Optional[int]] = set(version.numbers) if version is not None else set()
        for met_at in (None, position):
            yield from self._hidden.get(met_at, ())
            for op in ("index", "create", "delete"):
                for number in numbers or {None}:
                    record = self._lost.get(Kind(op, number, met_at))
                    if record is not None:
                        yield record

    def may_perform(self, state: State, record: int, pair: Numbers, now: int) -> bool:
        """Whether the call of a record may be performed on the state, before the event, with this pair: the
        next version of the document, or a pair below it."""
        document, call = self.document, self.document.calls[record]
        is_open = call.made < now and (call.answered is None or now <= call.answered)
        if not is_open or pair in document.elsewhere or not self._may_take(call, pair):
            return False
        if call.condition is not None and not self._is_met(state, call.condition):
            return False
        if call.op == "create" and state.exists or is_performed(call) and call.was_there != state.exists:
            return False
        if call.reply == "conflict" and record in state.spent:
            return False
        return not (
            is_lost_delete(call)
            and state.deletes >= self.deletes
            or is_lost_make(call)
            and state.makes >= self.makes
        )

    def _may_take(self, call: CheckedCall, pair: Numbers) -> bool:
        """Whether the replies let the call take the pair: its own reply shows it; or no reply says which call
        took it, and a pair that is known is that of an index or a create. It gives the numbers found."""
        version = self.document.versions.get(pair)
        if is_performed(call):
            may_take = call.pair == pair
        else:
            is_unreported = version is None or not version.writers and call.op in ("index", "create")
            may_take = self.document.is_silent(call) and is_unreported
        return may_take and (version is None or version.numbers <= {call.k})

    def _is_met(self, state: State, condition: Numbers) -> bool:
        """Whether the document may have the pair of the condition."""
        position = self.document.position
        return state.exists and position(state.least) == position(condition) and state.least <= condition

    def _performed(self, state: State, record: int, pair: Numbers) -> State:
        """The state after the call of a record was performed with this pair."""
        position, call = self.document.position, self.document.calls[record]
        exists, is_conflict = call.op != "delete", call.reply == "conflict"
        return State(
            least=pair,
            exists=exists,
            flipped=state.flipped if state.exists == exists else self.made,
            arrived=state.arrived if position(state.least) == position(pair) else self.made,
            owed=state.owed - {record} if is_conflict else state.owed,
            spent=state.spent | {record} if is_owed(call) else state.spent,
            deletes=state.deletes + is_lost_delete(call),
            makes=state.makes + is_lost_make(call),
            line=state.line,
        )


def is_lost_delete(call: CheckedCall) -> bool:
    """Whether it is a delete without a reply and without a condition."""
    return call.answered is None and call.op == "delete" and call.condition is None


def is_lost_make(call: CheckedCall) -> bool:
    """Whether it is an index without a reply and without a condition, or a create without a reply."""
    return call.answered is None and call.op in ("index", "create") and call.condition is None


def is_owed(call: CheckedCall) -> bool:
    """Whether it is a conflict of an index or a delete without a condition, which has to be performed, since
    nothing refuses it."""
    return call.reply == "conflict" and call.op in ("index", "delete") and call.condition is None

"""Checks a certificate by FORMATS.md alone: the states that a document may be in are followed along its
events, and none is left after a reply. Nothing is searched for: each state of the text is looked at once.

It shares the reading of histories with `witness_checker`, and nothing with casbench.
"""

from enum import Enum
from typing import Dict, Iterable, Iterator, List, NamedTuple, Optional, Set, Tuple

from .certificate_states import NEVER, NEVER_CHANGED, Document, State, known_pairs
from .certificate_steps import Writes, is_owed
from .certificate_text import CertificateText, Event, Happening, Table
from .witness_checker import STRICT, CheckedCall, Numbers, ReadingValues, Texts, as_read


class Rule(Enum):
    """The rules that a certificate keeps. The values are the causes of a broken one."""

    CALL = "call"
    FROM = "from"
    EVENT = "event"
    START = "start"
    MADE = "made"
    SERVED = "served"
    WAITS = "waits"
    LEFT = "left"


class Fault(NamedTuple):
    """What is wrong with a certificate: the line, the rule, the document, the call at whose event the rule is
    broken, the state that is missing or left, and the call that was performed to come there."""

    line: int
    rule: Rule
    id: str
    call: Optional[CheckedCall] = None
    state: Optional[State] = None
    performed: Optional[CheckedCall] = None


class Broken(Exception):
    """The first fault of a certificate."""

    def __init__(self, fault: Fault) -> None:
        super().__init__(fault)
        self.fault = fault


class CertificateCounts(NamedTuple):
    """The document that is ruled out, the number of the call, and how many tables and states there are."""

    id: str
    call: int
    tables: int
    states: int


class Rows:
    """The states of a table."""

    def __init__(self, document: Document, states: Iterable[State]) -> None:
        self._states: Dict[Tuple[int, bool], List[State]] = {}
        for state in states:
            place = document.position(state.least), state.exists
            self._states.setdefault(place, []).append(state)

    def __iter__(self) -> Iterator[Tuple[int, State]]:
        """The states, each with its position."""
        for (position, _), states in self._states.items():
            for state in states:
                yield position, state

    def covers(self, position: int, state: State) -> bool:
        """Whether one of them covers a state at this position."""
        return any(it.covers(state) for it in self._states.get((position, state.exists), ()))


class Walk:
    """The walk along the events of a document, with the tables of a certificate."""

    def __init__(self, document: Document, text: CertificateText) -> None:
        self.document = document
        self.text = text
        self.events = events_of(document.calls, text.claim.record)
        self.writes = Writes(document)
        # the table that was reached, and its rows
        self.table = text.tables[0]
        self.rows = Rows(document, self.table.states)

    def fault(
        self, rule: Rule, record: Optional[int], state: State, performed: Optional[int] = None
    ) -> Broken:
        """The fault that the table lacks a state, or has one left."""
        calls = self.document.calls
        call, by = (None if it is None else calls[it] for it in (record, performed))
        return Broken(Fault(self.table.line, rule, self.text.claim.id, call, state, by))

    def run(self) -> None:
        """Raises Broken at the first fault."""
        begin = self.begin()
        tables = self.tables_by_event(begin)
        for event in self.events[begin:]:
            table, after, waiting = tables.get(event), self.rows, Rows(self.document, [])
            if table is not None:
                self.table = table
                after, waiting = (Rows(self.document, it) for it in (table.states, table.waiting))
            if event.happening is Happening.MADE:
                self.make(event.record, after)
            else:
                self.answer(event.record, after, waiting)
            self.rows = after
        for _, state in self.rows:
            raise self.fault(Rule.LEFT, self.text.claim.record, state)

    def begin(self) -> int:
        """Checks the first table; returns the number of events before it."""
        begin = 0
        if self.text.begin is not None:
            first = Event(Happening.ANSWERED, self.text.begin)
            if first not in self.events[:-1]:
                raise Broken(Fault(self.table.line, Rule.FROM, self.text.claim.id))
            begin = self.events.index(first) + 1
        for event in self.events[:begin]:
            if event.happening is Happening.MADE:
                self.writes.make(event.record)
            else:
                self.writes.answer(event.record)
        for state in self.first_states(begin):
            if not self.rows.covers(self.document.position(state.least), state):
                raise self.fault(Rule.START, self.text.begin, state)
        return begin

    def tables_by_event(self, begin: int) -> Dict[Event, Table]:
        """The tables by their events, which are in the order of those after the first table."""
        left = iter(self.events[begin:])
        for table in self.text.tables[1:]:
            if not any(it == table.event for it in left):
                raise Broken(Fault(table.line, Rule.EVENT, self.text.claim.id))
        return {it.event: it for it in self.text.tables if it.event is not None}

    def first_states(self, begin: int) -> Iterator[State]:
        """The states that the document may be in after so many of the events, as good as can be."""
        if begin == 0:
            yield NEVER_CHANGED
            return
        document, pairs = self.document, self.document.pairs
        answered = (it.record for it in self.events[:begin] if it.happening is Happening.ANSWERED)
        shown = (document.calls[it].pair for it in answered)
        least = max((document.position(it) for it in shown if it is not None), default=0) // 2
        for version in range(least, len(pairs) + 1):
            if version > least and not self.may_be_taken(pairs[version - 1]):
                return
            yield from self.first_states_with(pairs[version - 1] if version else NEVER)

    def first_states_with(self, pair: Numbers) -> Iterator[State]:
        """The same with this version, and with the least pair after it that may be taken before the next."""
        document, made = self.document, self.writes.made
        for exists in sorted(document.states_of(pair)):
            yield State(pair, exists, made, made)
        free = document.free_pair(pair)
        if free is not None:
            for exists in sorted({op != "delete" for op in self.writes.silent_ops}):
                yield State(free, exists, made, made)

    def may_be_taken(self, pair: Numbers) -> bool:
        """Whether a call that was made by now may have taken the pair of a version."""
        writers = self.document.versions[pair].writers
        if writers:
            return any(it < self.writes.made for it in writers)
        return not self.writes.silent_ops.isdisjoint(("index", "create"))

    def make(self, record: int, after: Rows) -> None:
        """Checks the table after the call of a record is made."""
        call = self.document.calls[record]
        found = self.document.position(call.pair) if call.op == "get" and call.pair else None
        for position, state in self.rows:
            owing = state._replace(owed=state.owed | {record}) if is_owed(call) else state
            if (found is None or position <= found) and not after.covers(position, owing):
                raise self.fault(Rule.MADE, record, owing)
        self.writes.make(record)

    def answer(self, record: int, after: Rows, waiting: Rows) -> None:
        """Checks the tables at the reply to the call of a record."""
        now = self.document.calls[record].answered or 0
        for position, state in self.rows:
            self.place(record, position, state, after, waiting)
        for _, state in waiting:
            for step in self.writes.steps(state, now):
                position = self.document.position(step.state.least)
                self.place(record, position, step.state, after, waiting, step.record)
        self.writes.answer(record)

    def place(
        self, record: int, position: int, state: State, after: Rows, waiting: Rows, by: Optional[int] = None
    ) -> None:
        """Checks that a state is in the tables at the reply: in the one after it if it serves the call, and
        among those that wait unless that is all it may do."""
        is_served = self.is_served(record, position, state)
        if is_served and not after.covers(position, state.settled(record)):
            raise self.fault(Rule.SERVED, record, state.settled(record), by)
        waits = not is_served or self.may_come_later(record, position, state)
        if waits and not waiting.covers(position, state):
            raise self.fault(Rule.WAITS, record, state, by)

    def is_served(self, record: int, position: int, state: State) -> bool:
        """Whether the call may have had its reply by now, in this state."""
        call = self.document.calls[record]
        if call.pair is not None:
            return self.document.position(call.pair) <= position
        if call.reply == "missing":
            return not state.exists or record < state.flipped
        if call.op == "create":
            return state.exists or record < state.flipped
        if call.condition is None:
            return record not in state.owed
        has_pair = state.exists and call.condition in self.document.versions
        has_pair = has_pair and position == self.document.position(call.condition)
        return not has_pair or record < state.arrived

    def may_come_later(self, record: int, position: int, state: State) -> bool:
        """Whether the call may be performed later than this state, although a conflict was the reply."""
        call = self.document.calls[record]
        if not self.document.is_hidden(call) or record in state.spent:
            return False
        return call.condition is None or position <= self.document.position(call.condition)


def events_of(calls: List[CheckedCall], last: int) -> List[Event]:
    """The events of a document in their order, up to the reply to the call of a record."""
    events = [(call.made, Event(Happening.MADE, record)) for record, call in enumerate(calls)]
    events += [
        (call.answered, Event(Happening.ANSWERED, record))
        for record, call in enumerate(calls)
        if call.answered is not None
    ]
    end = calls[last].answered or 0
    return [event for moment, event in sorted(events, key=lambda it: it[0]) if moment <= end]


def document_of(texts: Texts, id: str) -> Document:
    """The document with this id, as the history is judged."""
    shard = texts.records[id][0].shard
    elsewhere: Set[Numbers] = set()
    for other, calls in texts.records.items():
        if other != id and calls[0].shard == shard:
            judged = (it for call in calls for it in as_read(call, texts.reading))
            elsewhere.update(pair for it in judged for pair in known_pairs(it))
    own = [it for call in texts.records[id] for it in as_read(call, texts.reading)]
    return Document(own, elsewhere, texts.reading.conflicts == "maybe")


def check(history: bytes, certificate: bytes, reading: ReadingValues = STRICT) -> CertificateCounts:
    """Checks a certificate of a history. Raises Broken at the first fault, and Refused at the first line that
    its format doesn't allow."""
    texts = Texts(history, b"", reading)
    text = CertificateText(certificate)
    claim = text.claim
    document = document_of(texts, claim.id) if claim.id in texts.records else None
    calls = [] if document is None else document.calls[claim.record : claim.record + 1]
    is_named = f"calls={claim.call}" in text.answer
    is_answered = any(it.number == claim.call and it.answered is not None for it in calls)
    if document is None or not is_named or not is_answered:
        raise Broken(Fault(claim.line, Rule.CALL, claim.id))
    Walk(document, text).run()
    states = sum(len(it.states) + len(it.waiting) for it in text.tables)
    return CertificateCounts(claim.id, claim.call, len(text.tables), states)

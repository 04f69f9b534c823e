"""Reads the text of a certificate: the states that a document may be in along its events."""

from enum import Enum
from typing import Any, FrozenSet, List, NamedTuple, Optional

from .certificate_states import NEVER, State
from .witness_checker import Members, Refused, id_in, number_in, pair_in, read, truth_in

ANSWER = b"refuted kind=ruled-out "
"""What the first line of the text begins with: it is the line of the answer."""

LINE_FEED = b"\n"

RECORD_BITS = 32
"""Numbers of records, and counts of them, are below 2 to this power."""


class Happening(Enum):
    """What happens to a call at an event of its document. The values are the keys of their lines."""

    MADE = "made"
    ANSWERED = "answered"


class Event(NamedTuple):
    """An event of a document: the call of a record is made or answered."""

    happening: Happening
    record: int


class Table(NamedTuple):
    """A table of the text: its line, the event that it follows (None for the first one), its states, and
    those that wait at the reply."""

    line: int
    event: Optional[Event]
    states: List[State]
    waiting: List[State]


class Claim(NamedTuple):
    """What the text says of a document: it is ruled out at the reply to a call, which is a record of it."""

    line: int
    call: int
    id: str
    record: int


class CertificateText:
    """A text that was read: the words of the answer, the claim, the record after whose reply the tables begin
    (None if they begin before the first call), and the tables."""

    def __init__(self, text: bytes) -> None:
        answer, _, rest = text.partition(b"\n")
        self.answer = answer.decode("ascii", "replace").split()
        self._claims: List[Claim] = []
        self.begin: Optional[int] = None
        self.tables: List[Table] = []
        # (a blank line in place of the first one keeps the numbers of the others)
        read(b"\n" + rest, "witness", self._take)
        if not self.tables:
            raise Refused(f"file=witness line={rest.count(LINE_FEED) + 2}")

    @property
    def claim(self) -> Claim:
        return self._claims[0]

    def _take(self, line: Members, number: int) -> None:
        happening = next((it for it in Happening if it.value in line), None)
        if not self._claims:
            call, record = number_in(line, "call", 64), number_in(line, "rec", RECORD_BITS)
            self._claims.append(Claim(number, call, id_in(line, "doc"), record))
        elif not self.tables:
            self.begin = None if line["from"] is None else number_in(line, "from", RECORD_BITS)
            self.tables.append(Table(number, None, [], []))
        elif happening is not None:
            event = Event(happening, number_in(line, happening.value, RECORD_BITS))
            self.tables.append(Table(number, event, [], []))
        else:
            self._take_state(line, number)

    def _take_state(self, line: Members, number: int) -> None:
        table, state = self.tables[-1], state_of(line, number)
        if not truth_in(line, "waits"):
            table.states.append(state)
        elif table.event is not None and table.event.happening is Happening.ANSWERED:
            table.waiting.append(state)
        else:
            raise ValueError("a state waits, and no call is answered")


def state_of(line: Members, number: int) -> State:
    """Returns the state of a line. Raises an error if a member is missing, or isn't as the format says."""
    its: Members = {"exists": None, "owed": [], "spent": [], "deletes": 0, "makes": 0, **line}
    return State(
        least=pair_in(line, "term", "seq") or NEVER,
        exists=truth_in(its, "exists"),
        flipped=number_in(its, "flipped", RECORD_BITS),
        arrived=number_in(its, "arrived", RECORD_BITS),
        owed=records_in(its["owed"]),
        spent=records_in(its["spent"]),
        deletes=number_in(its, "deletes", RECORD_BITS),
        makes=number_in(its, "makes", RECORD_BITS),
        line=number,
    )


def records_in(numbers: Any) -> FrozenSet[int]:
    """Returns the numbers of records in a list."""
    if not isinstance(numbers, list):
        raise TypeError(numbers)
    return frozenset(number_in({"record": it}, "record", RECORD_BITS) for it in numbers)

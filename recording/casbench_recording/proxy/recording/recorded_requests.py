"""Requests as they are recorded: their calls, and how the replies are read."""

import re
from typing import Any, List, Mapping, NamedTuple, Optional, Sequence

from casbench_recording.history.format import TAKES_A_CONDITION, Operation, Pair, pair_if
from casbench_recording.history.writing import Call
from casbench_recording.proxy.routing.routes import PARTS_OF_A_SOURCE, Route, RouteKind
from casbench_recording.proxy.state.documents import Document

from .bulk_items import BulkItems

DIGITS = re.compile(r"[0-9]{1,19}")

OF_A_VERSION = {"version", "version_type"}
"""Parameters of a condition that a history can't express."""

OF_A_CONDITION = OF_A_VERSION | {"if_seq_no", "if_primary_term"}
"""Parameters of a condition."""

HIDES_PARTS = PARTS_OF_A_SOURCE - {"_source"} | {"filter_path"}
"""Parameters of a get whose reply may not show the whole source."""

MANY_WRITES = 10**9
"""The assumed number of changes of an unreadable bulk request."""

WEIGHT_OF_A_PART = 512
"""The approximate number of bytes of a part without a call, with its parameters."""


class Requester(NamedTuple):
    """The client and the node of a request; empty if they aren't known."""

    client: str = ""
    node: str = ""


UNKNOWN_REQUESTER = Requester()
"""An unknown client and node."""


class RequestedCall:
    """A call of a request, and how its reply is read."""

    __slots__ = (
        "id",
        "op",
        "parameters",
        "digest",
        "document",
        "call",
        "requester",
        "sweeps",
        "operation",
        "turn",
    )

    # for a write whose id comes with the answer: the requester, and the number of sweeps before it
    requester: "Requester"
    sweeps: int
    # the operation in its line
    operation: Operation

    def __init__(self, id: str, op: str, parameters: Mapping[str, Any], digest: Optional[int] = None) -> None:
        # (empty if the id comes with the answer)
        self.id = id
        self.op = op
        self.parameters = parameters
        # the digest of the written source, if it is known
        self.digest = digest
        self.document: Optional[Document] = None
        # the turn of a write among those of its document, 0 for a get
        self.turn = 0
        # its call, after the line was written
        self.call: Optional[Call] = None

    @property
    def is_sure(self) -> bool:
        """Whether the line of a write has everything that it depends on, so that a conflict may be
        recorded."""
        parameters = self.parameters
        return (
            OF_A_CONDITION.isdisjoint(parameters)
            or self.operation.condition is not None
            and OF_A_VERSION.isdisjoint(parameters)
        )

    @property
    def shows_all(self) -> bool:
        """Whether the reply to a get shows the whole source."""
        parameters = self.parameters
        return (
            not parameters
            or parameters.get("_source", True) in (True, "true")
            and HIDES_PARTS.isdisjoint(parameters)
        )


class RequestedUpdate(RequestedCall):
    """An update, for which the primary's node may make several attempts."""

    __slots__ = ("is_handed_on", "is_alone", "before")

    # whether the outcome of each write before it was known, and the greatest acknowledged pair then
    is_alone: bool
    before: Optional[Pair]

    def __init__(self, id: str, parameters: Mapping[str, Any], is_handed_on: bool) -> None:
        super().__init__(id, "index", parameters)
        # whether it is a request of its own, which is forwarded to the primary's node
        self.is_handed_on = is_handed_on


class RecordedRequest:
    """A request that is passed on: its kind, its calls (None for an item that isn't recorded), and whether it
    is over when it is answered."""

    __slots__ = ("kind", "parts", "is_head", "is_over_at_answer")

    def __init__(
        self,
        kind: RouteKind,
        parts: Sequence[Optional[RequestedCall]],
        is_head: bool = False,
        is_over_at_answer: bool = True,
    ) -> None:
        self.kind = kind
        self.parts = parts
        self.is_head = is_head
        self.is_over_at_answer = is_over_at_answer

    @property
    def weight(self) -> int:
        """The approximate number of bytes that are kept for parts without a call."""
        return 8 * len(self.parts)


class IndexMakingRequest(RecordedRequest):
    """A request that may create the index and is passed on alone: its calls are written after the inspection
    of the index."""

    __slots__ = ("route", "method", "content", "requester")

    def __init__(self, route: Route, method: str, content: Optional[bytes], requester: Requester) -> None:
        super().__init__(route.kind, ())
        self.route = route
        self.method = method
        self.requester = requester
        # (None if it can't be read)
        self.content = content

    @property
    def weight(self) -> int:
        """How many bytes are kept of it."""
        return len(self.content or b"")

    @property
    def writes(self) -> int:
        """The maximum number of its changes of documents."""
        if self.kind is RouteKind.BULK:
            return MANY_WRITES if self.content is None else self.content.count(b"\n") + 1
        return int(self.kind is not RouteKind.MAKE)


class RecordedBulkRequest(RecordedRequest):
    """A bulk request, whose items are read as they are received."""

    __slots__ = ("items", "parameters", "index_name", "requester", "unnamed")

    parts: List[Optional[RequestedCall]]

    def __init__(
        self, parameters: Mapping[str, str], index_name: str, requester: Requester, longest: int
    ) -> None:
        super().__init__(RouteKind.BULK, [])
        self.items = BulkItems(longest)
        self.parameters = parameters
        self.requester = requester
        # the index in the path
        self.index_name = index_name
        # how many parts without an id are kept
        self.unnamed = 0

    def add(self, parts: Sequence[Optional[RequestedCall]], has_room: bool) -> None:
        """Keeps the parts whose replies matter: those with calls, and those without ids if there is room."""
        for it in parts:
            is_unnamed = it is not None and not it.id and has_room
            self.unnamed += is_unnamed
            self.parts.append(it if it is not None and (it.call is not None or is_unnamed) else None)

    @property
    def weight(self) -> int:
        """The same, with the parts without ids."""
        return super().weight + WEIGHT_OF_A_PART * self.unnamed

    @property
    def has_calls(self) -> bool:
        """Whether an item is recorded."""
        return any(it is not None for it in self.parts)


def condition_of(op: str, parameters: Mapping[str, Any]) -> Optional[Pair]:
    """Returns the condition in the parameters of a write, if there is one."""
    seq, term = str(parameters.get("if_seq_no")), str(parameters.get("if_primary_term"))
    if op not in TAKES_A_CONDITION or not (DIGITS.fullmatch(seq) and DIGITS.fullmatch(term)):
        return None
    return pair_if(int(term), int(seq))

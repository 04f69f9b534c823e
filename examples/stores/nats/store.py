"""JetStream of NATS as a store of documents: what each call is there, and what its answer says.

A document is the last message of a subject: its value, or that it was deleted. A write reads that message,
and publishes the next one on the condition that what it read is still the last. A get that is confirmed does
so too: its message repeats the document and changes nothing. README.md has why that is exact.
"""

import base64
import json
from typing import Any, Dict, List, NamedTuple, Optional

from protocol import Connection, NatsError

from casbench_recording.history import Call, Pair
from casbench_recording.history.format import Operation
from casbench_recording.load import Kind, Outcome, Session, lost_by

TERM = 1
"""The term of all pairs. If a sequence is given twice, acknowledged changes were lost."""

NOT_FOUND, WRONG_LAST_SEQUENCE = 10037, 10071
"""JetStream's numbers of these errors."""


class Layout(NamedTuple):
    """Where documents are: all in one stream, as in a bucket of the key-value store, or each in its own. And
    how gets and conflicts are answered: confirmed by a publish, by the leader alone, or by any replica."""

    has_bucket: bool
    is_confirmed: bool = False
    is_direct: bool = False

    def stream(self, id: str) -> str:
        """The stream of a document."""
        return "KV_docs" if self.has_bucket else f"docs-{id}"

    def subject(self, id: str) -> str:
        """The subject of a document."""
        return f"$KV.docs.{id}" if self.has_bucket else f"docs.{id}"

    def condition(self, sequence: int) -> Dict[str, str]:
        """The header of a publish on the condition that the subject or the stream has this last sequence."""
        return {f"Nats-Expected-Last-{'Subject-' if self.has_bucket else ''}Sequence": str(sequence)}


class Last(NamedTuple):
    """The last message of a document: its sequence, 0 if there is none; the sequence of the change that it
    shows; and the value, if the document is there."""

    sequence: int
    number: int
    value: Optional[int]


def message_of(sequence: int, text: str) -> Last:
    """What a message says of its document. A change has its own sequence as its number."""
    its = json.loads(text)
    return Last(sequence, its.get("number", sequence), its["k"])


def last_of(text: str) -> Last:
    """The last message, by the leader's answer. Raises NatsError after an error other than that of none."""
    answer: Dict[str, Any] = json.loads(text)
    if answer.get("error", {}).get("err_code") == NOT_FOUND:
        return Last(0, 0, None)
    if "message" not in answer:
        raise NatsError(text)
    return message_of(answer["message"]["seq"], base64.b64decode(answer["message"]["data"]).decode())


def kind_of(it: Operation, was: Last) -> Kind:
    """What a call comes to, if its document was so."""
    is_there = was.value is not None
    is_met = it.condition is None or is_there and was.number == it.condition.seq
    if it.op == "get":
        return Kind.FOUND if is_there else Kind.MISSING
    if it.op == "create" and is_there or not is_met:
        return Kind.CONFLICT
    if it.op == "delete":
        return Kind.DELETED if is_there else Kind.NOT_FOUND
    return Kind.UPDATED if is_there else Kind.CREATED


class NatsSession:
    """A connection of a client to a server."""

    is_open = True

    def __init__(self, connection: Connection, layout: Layout) -> None:
        self.connection, self.layout = connection, layout

    def send(self, call: Call) -> None:
        with lost_by(OSError):
            self.send_read(call.operation.id)

    def outcome(self, call: Call) -> Outcome:
        """Reads the document, and publishes. It begins again if that was refused: then nothing was done."""
        it = call.operation
        with lost_by(OSError, NatsError, ValueError):
            while True:
                was = self.receive_read()
                kind = kind_of(it, was)
                sequence: Optional[int] = was.sequence
                is_change = kind not in (Kind.FOUND, Kind.MISSING, Kind.CONFLICT)
                if is_change:
                    sequence = self.publish(it.id, was, call=call.number, k=it.value)
                elif self.layout.is_confirmed:
                    sequence = self.publish(it.id, was, call=call.number, k=was.value, number=was.number)
                if sequence is not None:
                    seen = Pair(TERM, sequence)
                    pair = seen if is_change else Pair(TERM, was.number) if kind is Kind.FOUND else None
                    return Outcome(kind, pair, was.value if kind is Kind.FOUND else None, seen)
                self.send_read(it.id)

    def send_read(self, id: str) -> None:
        way = "DIRECT.GET" if self.layout.is_direct else "STREAM.MSG.GET"
        asked = json.dumps({"last_by_subj": self.layout.subject(id)})
        self.connection.send(f"$JS.API.{way}.{self.layout.stream(id)}", asked)

    def receive_read(self) -> Last:
        answer = self.connection.receive()
        if not self.layout.is_direct:
            return last_of(answer.text)
        number = answer.headers.get("Nats-Sequence")
        return Last(0, 0, None) if answer.is_missing else message_of(int(number or 0), answer.text)

    def publish(self, id: str, was: Last, **members: Optional[int]) -> Optional[int]:
        """Publishes the document's next message if this is still the last one; returns its sequence."""
        condition = self.layout.condition(was.sequence)
        answer = json.loads(self.connection.ask(self.layout.subject(id), json.dumps(members), condition).text)
        if answer.get("error", {}).get("err_code") == WRONG_LAST_SEQUENCE:
            return None
        if "error" in answer:
            raise NatsError(f"{answer}")
        return int(answer["seq"])

    def close(self) -> None:
        self.connection.close()


class Nats:
    """The store: the servers on these ports, each request to be answered in so many seconds."""

    def __init__(self, ports: List[int], layout: Layout, deadline: float = 1.0) -> None:
        self.ports, self.layout, self.deadline = ports, layout, deadline
        self.nodes = len(ports)

    def connect(self, node: int) -> Session:
        """A connection to a server. Raises Unreachable."""
        return NatsSession(Connection(self.ports[node], self.deadline), self.layout)

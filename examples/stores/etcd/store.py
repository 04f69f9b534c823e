"""etcd as a store of documents: what each call is there, and what its answer says.

docs/RECORDING.md has the same table, and why each run of the store is a legal run of the model.
"""

import base64
import json
from typing import Any, Dict, List

from casbench_recording.cluster import ClusterError, Connection, connection_to
from casbench_recording.history import Call, CallError, Pair
from casbench_recording.load import Kind, NoOutcome, Outcome, Session, Unreachable

TERM = 1
"""The term of all pairs. etcd counts the changes of all keys in one number, the revision, which never falls."""

DOCUMENT, MARK = "doc/", "mark/"
"""What stands before a document's id in the keys of the document and of its mark."""


def coded(text: str) -> str:
    """A text as etcd's gateway has it."""
    return base64.b64encode(text.encode()).decode()


def decoded(text: str) -> str:
    """The text behind it."""
    return base64.b64decode(text).decode()


def put(place: str, id: str, number: object) -> Dict[str, Any]:
    """Gives the document, or its mark, this number."""
    return {"requestPut": {"key": coded(place + id), "value": coded(str(number))}}


def transaction(id: str, result: str, revision: int, success: List[Any], failure: List[Any]) -> Dict[str, Any]:
    """Compares the revision of the document's last change, 0 if it isn't there, and does the one or the other in one step."""
    compare = {"key": coded(DOCUMENT + id), "target": "MOD", "result": result, "mod_revision": str(revision)}
    return {"compare": [compare], "success": success, "failure": failure}


def transaction_of(call: Call) -> Dict[str, Any]:
    """The transaction that a write is."""
    it = call.operation
    mark = put(MARK, it.id, call.number)
    erase = {"requestDeleteRange": {"key": coded(DOCUMENT + it.id)}}
    change = [erase, mark] if it.op == "delete" else [put(DOCUMENT, it.id, it.value)]
    if it.op == "create":
        return transaction(it.id, "EQUAL", 0, change, [])
    if it.condition is not None:
        if it.condition.term != TERM or it.condition.seq == 0:
            # (to etcd the revision 0 is that of what isn't there)
            raise CallError(f"no document has the pair {it.condition} in etcd")
        return transaction(it.id, "EQUAL", it.condition.seq, change, [])
    return transaction(it.id, "GREATER", 0, change, [mark] if it.op == "delete" else change)


def outcome_of(call: Call, answer: Dict[str, Any]) -> Outcome:
    """What an answer says."""
    it, pair = call.operation, Pair(TERM, int(answer["header"]["revision"]))
    if it.op == "get":
        if not answer.get("kvs"):
            return Outcome(Kind.MISSING, seen=pair)
        (kept,) = answer["kvs"]
        return Outcome(Kind.FOUND, Pair(TERM, int(kept["mod_revision"])), int(decoded(kept["value"])), pair)
    holds = answer.get("succeeded", False)
    if not holds and (it.op == "create" or it.condition is not None):
        return Outcome(Kind.CONFLICT, seen=pair)
    if it.op == "delete":
        return Outcome(Kind.DELETED if holds else Kind.NOT_FOUND, pair)
    return Outcome(Kind.UPDATED if holds and it.op == "index" else Kind.CREATED, pair)


class EtcdSession:
    """A connection of a client to the gateway of a member. With `is_serializable` gets show what the member knows."""

    def __init__(self, connection: Connection, is_serializable: bool) -> None:
        self.connection, self.is_serializable = connection, is_serializable

    @property
    def is_open(self) -> bool:
        return self.connection.is_open

    def send(self, call: Call) -> None:
        asked = {"key": coded(DOCUMENT + call.operation.id), "serializable": self.is_serializable}
        is_get = call.operation.op == "get"
        path, body = ("/v3/kv/range", asked) if is_get else ("/v3/kv/txn", transaction_of(call))
        self.connection.send("POST", path, json.dumps(body))

    def outcome(self, call: Call) -> Outcome:
        answer = self.connection.receive()
        if answer.status != 200 or "revision" not in answer.members.get("header", {}):
            raise NoOutcome(f"status {answer.status}")
        return outcome_of(call, answer.members)

    def close(self) -> None:
        self.connection.close()


class Etcd:
    """The store: the members at these addresses, each call to be answered in so many seconds."""

    def __init__(self, urls: List[str], deadline: float = 1.0, is_serializable: bool = False) -> None:
        self.urls, self.deadline, self.is_serializable = urls, deadline, is_serializable
        self.nodes = len(urls)

    def connect(self, node: int) -> Session:
        """A connection to a member. Raises Unreachable."""
        connection = connection_to(self.urls[node], self.deadline)
        try:
            connection.open(0)
        except ClusterError as fault:
            connection.close()
            raise Unreachable(str(fault)) from fault
        return EtcdSession(connection, self.is_serializable)

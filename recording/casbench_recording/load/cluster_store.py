"""An OpenSearch cluster as the store of a load: the requests of its calls, and the meaning of the answers."""

import argparse
import json
import urllib.parse
from dataclasses import dataclass
from typing import Any, Callable, Dict, List, Optional, Sequence, Tuple

from casbench_recording.cluster import ClusterAnswer, Connection, name_of
from casbench_recording.history.format import Operation, Pair, ReplyBody, pair_of
from casbench_recording.history.unperformed import is_unperformed
from casbench_recording.history.writing import Call
from casbench_recording.shard_routing import PRIMARY


def condition_of(operation: Operation) -> Dict[str, int]:
    """Returns the condition of a call as parameters of its request."""
    pair = operation.condition
    return {"if_seq_no": pair.seq, "if_primary_term": pair.term} if pair is not None else {}


def request_of(
    index: str, operation: Operation, asks_primary: bool = False
) -> Tuple[str, str, Optional[str]]:
    """Returns the method, path and body of a call's request; a get may be sent to the primary."""
    method = {"get": "GET", "index": "PUT", "create": "PUT", "delete": "DELETE"}[operation.op]
    room = "_create" if operation.op == "create" else "_doc"
    parameters: Dict[str, Any] = (
        {"preference": PRIMARY} if asks_primary and operation.op == "get" else condition_of(operation)
    )
    query = urllib.parse.urlencode(parameters)
    path = f"/{index}/{room}/{urllib.parse.quote(operation.id, safe='')}" + ("?" + query if query else "")
    return method, path, source_of(operation)


def source_of(operation: Operation) -> Optional[str]:
    """Returns the source that a call writes, if any."""
    return None if operation.value is None else json.dumps({"k": operation.value})


def bulk_of(index: str, operations: Sequence[Operation]) -> Tuple[str, str, str]:
    """Returns the method, path and body of a bulk request."""
    lines = []
    for operation in operations:
        lines.append(json.dumps({operation.op: {"_id": operation.id, **condition_of(operation)}}))
        lines.extend(filter(None, [source_of(operation)]))
    return "POST", f"/{index}/_bulk", "\n".join(lines) + "\n"


def items_of(operations: Sequence[Operation], answer: ClusterAnswer) -> List[Optional[Dict[str, Any]]]:
    """Returns what the answer to a bulk request says about each call, or None if that can't be determined."""
    items = answer.members.get("items") if answer.status == 200 else None
    if not isinstance(items, list) or len(items) != len(operations):
        return [None] * len(operations)
    return [outcome_of(item, operation.op) for item, operation in zip(items, operations)]


def outcome_of(item: Any, action: str) -> Optional[Dict[str, Any]]:
    """Returns what an item of the answer says about its action, or None if that can't be determined."""
    outcome = item.get(action) if isinstance(item, dict) else None
    status = outcome.get("status") if isinstance(outcome, dict) else None
    return outcome if type(status) is int and 0 <= status <= 65_535 else None


@dataclass(frozen=True)
class ClusterReply:
    """A reply as received, and the members of its body."""

    status: int
    body: ReplyBody
    members: Dict[str, Any]
    seen: Optional[Pair] = None

    @property
    def there(self) -> Optional[Pair]:
        """The pair of the document after this reply, if the document exists."""
        return None if self.members.get("result") in ("deleted", "not_found") else pair_of(self.members)

    def write(self, call: Call) -> None:
        """Writes the reply of a call; or that a write was not performed, if the reply proves that."""
        if call.operation.op != "get" and is_unperformed(self.status, self.members):
            call.void()
        else:
            call.reply(self.status, self.body)


class ClusterSession:
    """A connection of a client to a node."""

    def __init__(self, connection: Connection, index: str, asks_primary: bool) -> None:
        self.connection, self.index, self.asks_primary = connection, index, asks_primary

    @property
    def is_open(self) -> bool:
        """Whether a request can be sent."""
        return self.connection.is_open

    def send(self, call: Call) -> None:
        """Sends the request of a call."""
        self.connection.send(*request_of(self.index, call.operation, self.asks_primary))

    def outcome(self, call: Call) -> ClusterReply:
        """Returns the reply."""
        answer = self.connection.receive()
        return ClusterReply(answer.status, answer.body, answer.members)

    def send_all(self, calls: Sequence[Call]) -> None:
        """Sends a bulk request of several calls."""
        self.connection.send(*bulk_of(self.index, [it.operation for it in calls]))

    def outcomes(self, calls: Sequence[Call]) -> List[Optional[ClusterReply]]:
        """Returns what the answer says about each call."""
        answer = self.connection.receive()
        if is_unperformed(answer.status, answer.members, is_handed_on=len(calls) > 1):
            return [ClusterReply(answer.status, answer.body, answer.members)] * len(calls)
        items = items_of([it.operation for it in calls], answer)
        return [None if it is None else ClusterReply(it["status"], it, it) for it in items]

    def close(self) -> None:
        """Closes the connection."""
        self.connection.close()


class ClusterStore:
    """The nodes of a cluster. A client waits for a connection for --patience seconds, and not longer than the
    load."""

    def __init__(self, setting: argparse.Namespace, is_over: Callable[[], bool]) -> None:
        self.setting, self.is_over = setting, is_over
        self.nodes = len(setting.clusters)
        # (a single node isn't named)
        self.names = [name_of(it.url) for it in setting.clusters] if self.nodes > 1 else [""]

    def connect(self, node: int) -> ClusterSession:
        """Connects to a node. Raises ClusterError, which ends the recording."""
        connection = Connection(self.setting.clusters[node])
        connection.open(self.setting.patience, self.is_over)
        return ClusterSession(connection, self.setting.index, self.setting.asks_primary)

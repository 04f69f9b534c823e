"""Records the calls of requests, before the requests are passed on."""

import re
from typing import Any, Iterator, List, Mapping, Optional, Sequence

from casbench_recording.history.format import WRITES_A_VALUE, JsonObject, Operation, Pair, length_of
from casbench_recording.index_inspection import IndexShape
from casbench_recording.proxy.json_bodies import MOST_READ
from casbench_recording.proxy.routing.body_checks import may_write
from casbench_recording.proxy.routing.routes import (
    BULK,
    CALL,
    OF_A_GET,
    OF_AN_ITEM,
    SWEEP,
    Route,
    RouteKind,
    asks_for_latest,
)
from casbench_recording.proxy.state.documents import NOT_JUDGED, Document, digest_of_text, object_of
from casbench_recording.proxy.state.judged_documents import BEFORE, JudgedDocuments

from .bulk_items import BulkItem, UnknownWrites
from .recorded_requests import (
    OF_A_CONDITION,
    UNKNOWN_REQUESTER,
    RecordedBulkRequest,
    RecordedRequest,
    RequestedCall,
    RequestedUpdate,
    Requester,
    condition_of,
)

MOST_PLACES = 5000
"""The maximum number of documents of a multi-get that is recorded."""

OF_A_PLACE = {"_index", "_type", "_id", *OF_A_GET}
"""The parameters of a document in a multi-get."""

OF_A_PARTIAL_UPDATE = {"doc", "doc_as_upsert", "upsert", "detect_noop", "_source"}
"""The members of the body of an update that writes a document and can't delete it."""

HALF = re.compile("[\ud800-\udfff]")
"""Matches half of a surrogate pair, which can't be encoded in UTF-8."""


class RequestRecorder:
    """Determines the calls of each request, and writes their lines."""

    def __init__(self, documents: JudgedDocuments) -> None:
        self._documents = documents
        self._writer = documents.writer

    def record(
        self, route: Route, method: str, content: Optional[bytes], requester: Requester = UNKNOWN_REQUESTER
    ) -> Optional[RecordedRequest]:
        """Records the calls of a request. The content is None if it can't be read."""
        try:
            if self._writer.has_ended:
                return None
            if route.kind is CALL:
                digest = digest_of_text(content) if route.op in WRITES_A_VALUE else None
                part = RequestedCall(route.id, route.op, route.parameters, digest)
                return self._record_one(CALL, part, requester, method == "HEAD")
            return self._record_other(route, content, requester)
        except Exception as fault:
            self._writer.end_by(fault)
        return None

    def begin_bulk(self, route: Route, requester: Requester = UNKNOWN_REQUESTER) -> RecordedBulkRequest:
        """Begins a bulk request whose content is received in pieces."""
        return RecordedBulkRequest(route.parameters, route.index_name, requester, MOST_READ)

    def record_items(
        self, recorded: RecordedBulkRequest, content: Optional[bytes], is_last: bool, has_room: bool = True
    ) -> None:
        """Records the calls of the items that are complete. The content is None if it can't be read.

        If there is no room, the ids in the answer are not used for items without an id.
        """
        try:
            if content is None and not self._writer.has_ended:
                raise UnknownWrites("a bulk request whose body can't be read")
            if content is not None and not self._writer.has_ended:
                parts = [self._item(it, recorded) for it in recorded.items.take(content, is_last)]
                self._write_parts(parts, recorded.requester)
                recorded.add(parts, has_room)
        except Exception as fault:
            self._writer.end_by(fault)

    def begin_sweep(self, route: Route) -> Optional[RecordedRequest]:
        """Begins a request that may change every document: those that exist now, and those that are seen
        before its answer."""
        if self._writer.has_ended:
            return None
        self._documents.begin_sweep()
        return RecordedRequest(route.kind, (), is_over_at_answer=not route.op)

    def sweeping(self, route: Route) -> Iterator[None]:
        """Stops judging the existing documents before the request is passed on, in steps between which other
        events are handled."""
        try:
            yield from self._documents.sweep(f"{route.why} may have changed it")
        except Exception as fault:
            self._writer.end_by(fault)

    def _record_other(
        self, route: Route, content: Optional[bytes], requester: Requester
    ) -> Optional[RecordedRequest]:
        """Records the calls of a request of a less frequent kind."""
        kind = route.kind
        if kind is RouteKind.NEW:
            return self._record_one(
                kind, RequestedCall("", route.op, route.parameters, digest_of_text(content)), requester
            )
        if kind is RouteKind.UPDATE:
            return self._record_all(
                kind, [self._update(route.id, route.parameters, object_of(content), True)], requester
            )
        if kind is BULK:
            bulk = self.begin_bulk(route, requester)
            self.record_items(bulk, content, True)
            return bulk if bulk.has_calls else None
        if kind is RouteKind.MULTIPLE_GET:
            return self._record_all(kind, list(self._places(route, object_of(content))), requester)
        if kind is SWEEP:
            recorded = self.begin_sweep(route)
            for _ in self.sweeping(route):
                pass
            return recorded
        if kind is RouteKind.UNJUDGED:
            self._left_out(route.id, route.why)
            if route.op == "new":
                self._documents.note_unknown_write("", route.why)
        elif (
            kind is RouteKind.END
            or kind is RouteKind.CHECK_BODY
            and may_write(route.check, content, route.parameters, self._documents.names)
        ):
            raise UnknownWrites(route.why)
        return None

    # Calls and their lines

    def _record_one(
        self, kind: RouteKind, part: RequestedCall, requester: Requester, is_head: bool = False
    ) -> RecordedRequest:
        """Records the call of a request with a single one."""
        document = self._document_of(part, requester)
        if document is not None:
            self.set_operation(part, document, requester)
            self._writer.write_call(part, document)
        return RecordedRequest(kind, (part,), is_head)

    def _record_all(
        self, kind: RouteKind, parts: List[Optional[RequestedCall]], requester: Requester
    ) -> Optional[RecordedRequest]:
        """Records the calls of all parts of a request."""
        self._write_parts(parts, requester)
        called = [it if it is not None and it.call is not None else None for it in parts]
        return RecordedRequest(kind, called) if any(it is not None for it in called) else None

    def _write_parts(self, parts: Sequence[Optional[RequestedCall]], requester: Requester) -> None:
        """Writes the calls of the parts."""
        pairs = [(it, self._document_of(it, requester)) for it in parts if it is not None]
        judged = []
        for it, document in pairs:
            # (another part of the request may have stopped the judging of the document)
            if document is not None and document.state is not NOT_JUDGED:
                self.set_operation(it, document, requester)
                judged.append(it)
        self._writer.write_calls(judged)

    def write_part(self, part: RequestedCall) -> bool:
        """Writes the call of a part whose id came with the answer, if its document is judged; returns whether
        it is."""
        document = self._document_of(part, part.requester)
        if document is None:
            return False
        self.set_operation(part, document, part.requester)
        self._writer.write_calls([part])
        return True

    def _document_of(self, part: RequestedCall, requester: Requester) -> Optional[Document]:
        """Returns the document of a part; None if it isn't judged, or if its id comes with the answer."""
        documents, id = self._documents, part.id
        if not id:
            documents.unnamed += 1
            part.requester, part.sweeps = requester, documents.sweeps
            return None
        if documents.is_settling:
            if part.op != "get":
                documents.note_unknown_write(id, BEFORE)
        elif (shape := documents.shape) is not None and shape.shards == 1 or self._is_known(part, shape):
            document = part.document = documents.document(id)
            if document is not None:
                return document
        documents.left_out += 1
        return None

    def _is_known(self, part: RequestedCall, shape: Optional[IndexShape]) -> bool:
        """Returns whether the shard of a part is known, if the index doesn't exist yet or has several. If it
        isn't known for a write, its document isn't judged any more."""
        if shape is not None and not {"routing", "parent"} & set(part.parameters):
            return True
        if part.op != "get":
            why = "it was written before the index was inspected"
            self._documents.note_unknown_write(
                part.id,
                why if shape is None else "it was written with a routing, in an index of several shards",
            )
        return False

    def set_operation(self, part: RequestedCall, document: Document, requester: Requester) -> None:
        """Sets the operation of a part, which its line describes."""
        op = part.op
        condition: Optional[Pair] = None
        number: Optional[int] = None
        if op != "get":
            if not OF_A_CONDITION.isdisjoint(part.parameters):
                condition = condition_of(op, part.parameters)
            if isinstance(part, RequestedUpdate):
                part.is_alone, part.before = document.is_settled, document.acknowledged
            part.turn = document.begins_write(op)
            if op != "delete":
                number = document.number_to_write(part.digest)
        part.operation = Operation(
            op, part.id, number, condition, document.shard, requester.client, requester.node
        )

    # The parts of a request

    def _left_out(self, id: str, why: str) -> None:
        """Counts a write that can't be determined, and stops judging its document."""
        self._left_out_of([id], why)

    def _left_out_of(self, ids: Sequence[str], why: str) -> None:
        """The same for a write of one of several documents."""
        self._documents.left_out += 1
        for it in ids:
            self._documents.note_unknown_write(it, why)

    def _update(
        self, id: str, parameters: Mapping[str, Any], body: Optional[JsonObject], is_handed_on: bool
    ) -> Optional[RequestedCall]:
        """Returns the call of an update: a write of an unknown source, unless it may be a delete."""
        if body is None or not OF_A_PARTIAL_UPDATE.issuperset(body):
            self._left_out(id, "it was updated, perhaps by a script")
            return None
        return RequestedUpdate(id, {"if_seq_no": None, **parameters}, is_handed_on)

    def _item(self, item: BulkItem, recorded: RecordedBulkRequest) -> Optional[RequestedCall]:
        """Returns the call of an item of a bulk request; None if it is for another index, or can't be
        determined."""
        op, parameters, documents = item.op, {**recorded.parameters, **item.parameters}, self._documents
        index, id = parameters.get("_index", recorded.index_name), parameters.get("_id", "")
        index, id = recorded.index_name if index is None else index, "" if id is None else id
        if op not in ("index", "create", "delete", "update") or not isinstance(index, str):
            raise UnknownWrites(f"a bulk request with the action {op[:20]!r}")
        if index not in documents.names.all and not documents.names.may_be_among(index):
            return None
        if not isinstance(id, str):
            raise UnknownWrites(f"a bulk request with an id that isn't a string, in the action {op[:20]!r}")
        if index not in documents.names.all or not id.isascii() and not length_of(id):
            self._left_out_of(ids_of(id), f"it was written by a bulk request to {index[:200]}")
            return None
        if index in documents.names.routed:
            parameters = {"routing": index, **parameters}
        if parameters.get("pipeline", "_none") != "_none":
            raise UnknownWrites(f"a bulk request with pipeline={str(parameters['pipeline'])[:200]}")
        if not OF_AN_ITEM.issuperset(parameters):
            self._left_out(
                id, f"it was written by a bulk request, with {min(set(parameters) - OF_AN_ITEM)[:200]}"
            )
            return None
        if op == "update":
            return self._update(id, parameters, object_of(item.source), False)
        op = "create" if op == "index" and parameters.get("op_type") == "create" else op
        return RequestedCall(id, op, parameters, digest_of_text(item.source))

    def _places(self, route: Route, body: Optional[JsonObject]) -> Iterator[Optional[RequestedCall]]:
        """Yields the calls of a multi-get."""
        names = self._documents.names
        places = (body or {}).get("docs")
        ids = (body or {}).get("ids")
        if not isinstance(places, list):
            places = [{"_id": it} for it in ids] if isinstance(ids, list) else []
        # (a multi-get for which there is no room isn't recorded)
        room = min(
            (it.room for it in self._writer.history.histories if not it.has_ended), default=MOST_PLACES
        )
        for place in places if len(places) <= min(room, MOST_PLACES) else ():
            parameters = {**route.parameters, **place} if isinstance(place, dict) else {}
            index, id = parameters.get("_index", route.index_name), parameters.get("_id")
            if (
                not isinstance(id, str)
                or not id
                or index not in names.all
                or not asks_for_latest(parameters, OF_A_PLACE)
            ):
                yield None
            else:
                yield RequestedCall(
                    id, "get", {"routing": index, **parameters} if index in names.routed else parameters
                )


def ids_of(id: str) -> Sequence[str]:
    """Returns the ids that servers may make of one. Half of a surrogate pair has no encoding: they write
    another character for it."""
    if length_of(id) or not id:
        return (id,)
    return [HALF.sub(it, id) for it in ("\ufffd", "?")]

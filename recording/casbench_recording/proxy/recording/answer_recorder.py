"""Records what answers say about the calls of their requests, before the answers are passed on."""

from typing import Any, Iterator, List, Optional, Sequence, Union

from casbench_recording.history.format import (
    CONFLICT,
    JsonObject,
    Loss,
    Pair,
    Reply,
    pair_if,
    pair_of,
    text_of_find,
    text_of_write,
)
from casbench_recording.history.unperformed import changed_nothing, is_unperformed, type_of
from casbench_recording.history.writing import Call, Ending
from casbench_recording.proxy.json_bodies import MOST_READ
from casbench_recording.proxy.routing.routes import BULK, SWEEP, RouteKind
from casbench_recording.proxy.state.documents import (
    NOT_JUDGED,
    UNSURE,
    Digest,
    Document,
    DocumentState,
    digest_of,
    is_id,
    object_of,
)
from casbench_recording.proxy.state.judged_documents import JudgedDocuments

from .bulk_items import items_of_long
from .fast_replies import read_reply
from .recorded_requests import RecordedRequest, RequestedCall, RequestedUpdate
from .reply_bodies import item_status, listed, missing_by_length, readable, true_members
from .request_recorder import RequestRecorder

MOST_AT_ONCE = 500
"""How many items of an answer are processed before other events are handled."""

OF_SEVERAL = (BULK, RouteKind.MULTIPLE_GET, SWEEP)
"""Requests on several documents, or on unnamed ones."""

RESULTS = {201: "created", 200: "updated"}
"""The result of a performed write of a value, by the status."""

PERFORMED = {"created", "updated", "deleted", "not_found"}
"""The results of performed writes."""


class AnswerRecorder:
    """Records answers."""

    def __init__(self, documents: JudgedDocuments, requests: RequestRecorder) -> None:
        self._documents = documents
        self._writer = documents.writer
        self._requests = requests
        # the endings that are collected, or None if each is written at once
        self._endings: Optional[List[Ending]] = None

    def record(
        self, recorded: RecordedRequest, status: int, content: Optional[bytes], length: Optional[int]
    ) -> None:
        """Records a complete answer. The content is None if it can't be read."""
        if recorded.kind in OF_SEVERAL:
            for _ in self.record_in_steps(recorded, status, content):
                pass
            return
        try:
            if self._writer.has_ended:
                return
            (part,) = recorded.parts
            assert part is not None
            if recorded.is_head:
                self._record_reply(
                    part,
                    status,
                    missing_by_length(self._documents.shape, part.id, length) if status == 404 else {},
                )
            else:
                self._record_reply(part, status, read_reply(part.op, status, content) or object_of(content))
        except Exception as fault:
            self._writer.end_by(fault)

    def record_in_steps(
        self, recorded: RecordedRequest, status: int, content: Optional[bytes]
    ) -> Iterator[None]:
        """The same for a request on several documents, in steps, between which other events may be
        handled."""
        try:
            if not self._writer.has_ended:
                yield from self._record_answer_to_several(recorded, status, content)
        except Exception as fault:
            self._writer.end_by(fault)

    def record_loss(self, recorded: RecordedRequest) -> None:
        """Records that no complete answer came. A write without an id, or a request on unnamed documents,
        stays open for good."""
        if self._writer.has_ended:
            return
        lost: List[Call] = []
        for part in filter(None, recorded.parts):
            call = ending_call(part)
            if call is not None:
                lost.append(call)
                if part.turn:
                    note_write_ending(part, Loss.UNKNOWN, 0, {}, None)
        self._writer.lose(lost)
        self._documents.rest(recorded.parts)

    def _record_answer_to_several(
        self, recorded: RecordedRequest, status: int, content: Optional[bytes]
    ) -> Iterator[None]:
        """Records an answer to a request on several documents."""
        is_long = content is not None and len(content) > MOST_READ
        body = object_of(content) if not is_long else None
        if recorded.kind is SWEEP:
            if (
                status == 200
                and recorded.is_over_at_answer
                and body is not None
                and not {"task", "timed_out"} & true_members(body)
            ):
                self._documents.open_sweeps -= 1
        elif recorded.kind is RouteKind.MULTIPLE_GET:
            items = listed(body, "docs", len(recorded.parts)) if status == 200 else iter(())
            yield from self._record_items(recorded.parts, items, "docs")
        else:
            if is_unperformed(status, body, is_handed_on=len(recorded.parts) > 1):
                for part in filter(None, recorded.parts):
                    self._record_reply(part, status, body)
                return
            whole = (
                items_of_long(content)
                if is_long and content is not None
                else listed(body, "items", len(recorded.parts))
            )
            yield from self._record_items(recorded.parts, whole if status == 200 else iter(()), "items")

    def _record_items(
        self, parts: Sequence[Optional[RequestedCall]], items: Iterator[Any], member: str
    ) -> Iterator[None]:
        """Records the items of an answer. If an item isn't at its place, its call is lost."""
        for at in range(0, len(parts), MOST_AT_ONCE):
            if at:
                yield
            if self._writer.has_ended:
                return
            self._endings, some = [], parts[at : at + MOST_AT_ONCE]
            for part in some:
                try:
                    item = next(items, None)
                except (ValueError, RecursionError):
                    items, item = iter(()), None
                if part is not None:
                    self._record_item(part, item, member)
            self._flush()
            self._documents.rest(some)

    def _record_item(self, part: RequestedCall, item: Any, member: str) -> None:
        """Records an item of an answer."""
        shown = item
        if member == "items":
            shown = next(iter(item.values())) if isinstance(item, dict) and len(item) == 1 else None
        is_its = isinstance(shown, dict) and (
            not part.id or "_id" in shown and (shown["_id"] == part.id or part.op != "get")
        )
        status = item_status(member, shown) if is_its else 0
        self._record_reply(part, status, shown if status else None)

    def _record_reply(self, part: RequestedCall, status: int, body: Optional[JsonObject]) -> None:
        """Records the reply to a call."""
        shape = self._documents.shape
        if body is not None and shape is not None and body.get("_index", shape.name) != shape.name:
            body = None
        if not part.id:
            self._record_new_document(part, status, body)
        elif part.call is not None and (document := part.document) is not None:
            if body is not None and body.get("_id", part.id) != part.id:
                self._documents.note_unknown_write(part.id, "an answer had another id")
                self._documents.note_unknown_write(
                    str(body["_id"]), "an answer to a request for another id had this one"
                )
                body = None
            if body is None:
                self._end(part, document, Loss.UNKNOWN, status, {}, None)
            else:
                pair = pair_if(body.get("_primary_term"), body.get("_seq_no"))
                self._end(part, document, self._reply(part, document, status, body, pair), status, body, pair)

    def _reply(
        self, part: RequestedCall, document: Document, status: int, body: JsonObject, pair: Optional[Pair]
    ) -> Union[Reply, Loss]:
        """Returns the status and the body to record for a reply with this pair, or what is known without
        them."""
        text: Optional[str] = None
        if part.op == "get":
            if status == 200 and pair is not None and body.get("found") is True:
                number = self._number_shown(part, document, pair, body.get("_source"))
                if number is None:
                    return Loss.UNKNOWN
                text = text_of_find(part.id, pair, number)
        elif (status >= 400 or isinstance(part, RequestedUpdate)) and is_void(part, status, body, pair):
            return Loss.VOID
        elif status == 409 and not part.is_sure:
            return Loss.OVER if type_of(body.get("error")) == CONFLICT else Loss.UNKNOWN
        elif (
            pair is not None
            and (value := part.operation.value) is not None
            and status in RESULTS
            and body.get("result") == RESULTS[status]
        ):
            document.written(pair, value)
            text = text_of_write(part.id, RESULTS[status], pair)
        if document.state is UNSURE and not self._is_settled(part, status, body):
            return Loss.UNKNOWN
        if text is not None:
            return status, text
        text = readable(part.id, body)
        return (status, text) if text is not None else Loss.UNKNOWN

    def _number_shown(
        self, part: RequestedCall, document: Document, pair: Pair, source: Any
    ) -> Optional[int]:
        """Returns the number of the version that a get found, with this source; None if it can't be
        determined."""
        if isinstance(source, Digest):
            # (`read_reply` has replaced the source)
            return document.number_shown(pair, source, part.shows_all)
        is_object = isinstance(source, dict)
        return document.number_shown(
            pair, digest_of(source) if is_object else None, is_object and part.shows_all
        )

    def _is_settled(self, part: RequestedCall, status: int, body: JsonObject) -> bool:
        """Returns whether a reply shows that the document didn't exist before the recording. If it shows that
        it existed, the document isn't judged any more."""
        document = part.document
        assert document is not None
        shown = (status, body.get("result"), body.get("found"))
        was_absent = shown in ((201, "created", None), (404, "not_found", None), (404, None, False))
        is_conflict = part.op == "create" and status == 409
        was_there = is_conflict or shown in (
            (200, "updated", None),
            (200, "deleted", None),
            (200, None, True),
        )
        if was_absent and document.deletes == int(part.op == "delete"):
            document.state = DocumentState.JUDGED
            return True
        if was_there and document.writes == int(part.op in ("index", "create")):
            self._documents.stop_judging(document.id, "it existed before")
        return False

    def _record_new_document(self, part: RequestedCall, status: int, body: Optional[JsonObject]) -> None:
        """Records the call and the reply of a write whose id comes with the answer, unless there was an
        earlier request for that document.

        The line of the call is late. That is correct: the document has no other call before it.
        """
        id, pair = (body or {}).get("_id"), pair_of(body)
        if is_unperformed(status, body):
            self._documents.unnamed -= 1
            return
        if (
            status != 201
            or body is None
            or pair is None
            or not isinstance(id, str)
            or body.get("result") != "created"
        ):
            return
        documents = self._documents
        documents.unnamed -= 1
        if documents.shape is None or documents.is_known(id) or not is_id(id) or documents.only is not None:
            documents.note_unknown_write(id, "there was a request for it before an answer had its id")
            return
        part.id = id
        documents.recent.add(Document(id, documents.shape.shard_of(id), DocumentState.JUDGED))
        if documents.sweeps != part.sweeps or documents.open_sweeps:
            documents.stop_judging(id, "it was created while a request changed unnamed documents")
        elif self._requests.write_part(part):
            self._record_reply(part, status, body)

    def _end(
        self,
        part: RequestedCall,
        document: Document,
        ending: Union[Reply, Loss],
        status: int,
        body: JsonObject,
        pair: Optional[Pair],
    ) -> None:
        """Ends the call of a part by a reply or without one."""
        call = ending_call(part)
        if call is None:
            return
        if part.turn:
            note_write_ending(part, ending, status, body, pair)
        if self._endings is None:
            self._writer.write_ending(call, ending)
            if not document.turns and self._documents.is_endless:
                self._documents.rest((part,))
        else:
            self._endings.append((call, ending))

    def _flush(self) -> None:
        """Writes the endings that were collected; those that follow are written at once."""
        endings, self._endings = self._endings or [], None
        self._writer.write_endings(endings)


def ending_call(part: RequestedCall) -> Optional[Call]:
    """Returns the call of a part, which ends now; None if it has none, or if it was lost when its document
    stopped being judged."""
    call, document = part.call, part.document
    if call is None or document is None:
        return None
    part.call = None
    document.closes(call, part.turn)
    return call if document.state is not NOT_JUDGED else None


def is_void(part: RequestedCall, status: int, body: JsonObject, pair: Optional[Pair]) -> bool:
    """Returns whether a reply proves that a write was not performed, at any attempt.

    An update is tried by the primary's node. It may have performed an earlier attempt, and then find nothing
    to change, or, after a delete, no document. If no other write was open, that can't be: it found what was
    acknowledged before.
    """
    if not isinstance(part, RequestedUpdate):
        return is_unperformed(status, body)
    if is_unperformed(status, body, part.is_handed_on):
        return True
    document = part.document
    if document is None or not changed_nothing(status, body):
        return False
    was_alone = part.is_alone and document.is_last(part.turn)
    return was_alone and (status == 404 or part.before is not None and pair == part.before)


def note_write_ending(
    part: RequestedCall, ending: Union[Reply, Loss], status: int, body: JsonObject, pair: Optional[Pair]
) -> None:
    """Notes what the ending of a write, and its reply, say of whether it was performed."""
    document = part.document
    assert document is not None
    if pair is not None and not isinstance(ending, Loss) and body.get("result") in PERFORMED:
        document.acknowledges(part.turn, pair)
    elif ending is Loss.VOID:
        document.wrote_nothing(part.operation)
    else:
        is_conflict = status == 409 and type_of(body.get("error")) == CONFLICT
        document.doubts(part.operation, is_conflict or changed_nothing(status, body))

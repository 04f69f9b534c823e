"""Decides what the proxy records: the calls of each request, and what its answer says about them.

Nothing is guessed. A call whose reply can't be determined exactly is lost. If a write of a document can't be
determined, the document isn't judged any more: its open calls are lost, later ones aren't recorded, and a
list beside the history names it. If it can't be determined which documents are written, the recording ends.
So what was recorded stays right.
"""

from typing import Callable, FrozenSet, Iterable, NamedTuple, Optional

from casbench_recording.history.writing import Histories
from casbench_recording.index_inspection import IndexShape
from casbench_recording.proxy.routing.paths import AS_SENT, Paths, parts_of, path_of
from casbench_recording.proxy.routing.routes import BULK, PASS, READS, Route, RouteKind, route_of
from casbench_recording.proxy.state.documents import UNSURE, DocumentState
from casbench_recording.proxy.state.judged_documents import JudgedDocuments
from casbench_recording.proxy.state.recent_documents import MOST_KEPT
from casbench_recording.proxy.state.unjudged_list import UnjudgedList

from .answer_recorder import AnswerRecorder
from .history_writer import HistoryWriter
from .recorded_requests import IndexMakingRequest, RecordedRequest
from .request_recorder import RequestRecorder


class Passed(NamedTuple):
    """A request that was passed on: its method, its target, how its path is read, and its route."""

    method: str
    target: bytes
    paths: Paths
    route: Route

    @property
    def name(self) -> str:
        """The first part of its path, which names the index or indexes, unless it is a name of the API."""
        return self.paths.own(parts_of(path_of(self.target.decode("utf-8", "replace")), "replace"))[0]


HARMLESS_KINDS = (RouteKind.PASS, RouteKind.MAKE, RouteKind.NODES)
"""Requests that change no document."""

JUDGED_BY_BODY = (BULK, RouteKind.CHECK_BODY)
"""Requests whose bodies name what they change, which was checked with the names known at that time."""


class Judge:
    """Decides what is recorded, and records it: `requests` writes calls, and `answers` replies. One thread
    uses it."""

    def __init__(
        self,
        shape: Optional[IndexShape],
        name: str,
        history: Histories,
        unjudged: UnjudgedList,
        first: DocumentState = DocumentState.JUDGED,
        only: Optional[FrozenSet[str]] = None,
        most_kept: int = MOST_KEPT,
    ) -> None:
        self.history = history
        self.unjudged = unjudged
        self.writer = HistoryWriter(history, unjudged)
        self.documents = JudgedDocuments(self.writer, shape, name, first, only, most_kept)
        self._is_closed = False
        # called with the description of the index when it is found
        self.on_shape: Callable[[IndexShape], object] = lambda shape: None
        # record calls and replies
        self.requests = RequestRecorder(self.documents)
        self.answers = AnswerRecorder(self.documents, self.requests)

    @property
    def shape(self) -> Optional[IndexShape]:
        """The description of the index, or None as long as it doesn't exist."""
        return self.documents.shape

    @property
    def has_ended(self) -> bool:
        """Whether the recording is over."""
        return self.writer.has_ended

    def route(self, method: str, target: bytes, paths: Paths = AS_SENT) -> Route:
        """Returns what a request does."""
        return PASS if self.writer.has_ended else route_of(method, target, self.documents.names, paths)

    def settle(self) -> None:
        """Delays the recording until `settled`: no call is recorded, and a document that is written meanwhile
        isn't judged."""
        self.documents.is_settling = True

    def settled(self) -> None:
        """Begins the recording."""
        self.documents.settled()

    def found(
        self, shape: IndexShape, passed: Iterable[Passed], gone: Iterable[Passed] = (), writes: int = 0
    ) -> None:
        """Takes the description of the index, which didn't exist before. If there were more than `writes`
        changes, only documents that are seen created are judged.

        `passed` are the requests without an answer when the index was inspected, and `gone` those that will
        never get one. If one of them may have written to the index by a name that wasn't known, the index is
        inspected again, or the recording ends.
        """
        if any(may_have_written(it, shape) for it in gone):
            self.end("a request that was never answered may write to the index, by a name that wasn't known")
        elif not any(may_have_written(it, shape) for it in passed):
            self.documents.shape, self.documents.names = shape, shape.names
            self.documents.first = (
                DocumentState.JUDGED if shape.is_empty or 0 < shape.changes <= writes else UNSURE
            )
            self.on_shape(shape)

    def made(
        self, making: IndexMakingRequest, status: int, content: Optional[bytes], length: Optional[int]
    ) -> bool:
        """Records a request that was passed on alone, and its answer; no other request on the index was open.

        Returns whether it is known what it wrote. If there is no index, and the request was refused, it wrote
        nothing.
        """
        if self.shape is None and 400 <= status < 500:
            return True
        recorded = self.requests.record(making.route, making.method, making.content, making.requester)
        if recorded is not None:
            self.answers.record(recorded, status, content, length)
        return self.shape is not None

    def lost(self, recorded: RecordedRequest) -> None:
        """Records that no complete answer came."""
        if isinstance(recorded, IndexMakingRequest):
            asked = self.requests.record(
                recorded.route, recorded.method, recorded.content, recorded.requester
            )
        else:
            asked = recorded
        if asked is not None:
            self.answers.record_loss(asked)

    def note(self, text: str) -> None:
        """Puts a note on the next line of each history."""
        for history in self.history.histories:
            history.note(text)

    def end(self, why: str) -> None:
        """Ends the recording early: all open calls are lost, and no more are written."""
        self.writer.end(why)

    def close(self) -> None:
        """Ends the recording at its time, once. Documents that were never seen created aren't judged."""
        if self._is_closed:
            return
        self._is_closed = True
        self.writer.close()
        self.documents.close()
        self.unjudged.close(self.documents.left_out)


def may_have_written(passed: Passed, shape: IndexShape) -> bool:
    """Returns whether a request that was passed on may have written to the index by a name that wasn't
    known."""
    if len(shape.names.all) == 1:
        # (the known one)
        return False
    method, target, paths, route = passed
    was_passed_by = route.kind is RouteKind.PASS and method not in READS
    return (
        was_passed_by
        and route_of(method, target, shape.names, paths).kind not in HARMLESS_KINDS
        or route.kind in JUDGED_BY_BODY
    )

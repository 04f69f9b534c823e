"""The documents that the proxy has seen: which of them are judged, and why others aren't any more."""

import re
from typing import FrozenSet, Iterable, Iterator, List, Optional, Sequence, Tuple

from casbench_recording.history.continuing import Continuing
from casbench_recording.history.writing import Call
from casbench_recording.index_inspection import IndexShape
from casbench_recording.index_names import Names
from casbench_recording.proxy.recording.history_writer import HistoryWriter
from casbench_recording.proxy.recording.recorded_requests import RequestedCall

from .documents import NOT_JUDGED, UNSURE, Document, DocumentState, is_id
from .recent_documents import MOST_KEPT, DroppedIds, RecentDocuments

MOST_SWEPT = 2000
"""How many documents are processed before other events are handled."""

BEFORE = "it was written before the recording began"
"""Why a document isn't judged that was written while the recording was delayed."""

MADE_ID = re.compile(r"[A-Za-z0-9_-]{20}")
"""Matches an id that a cluster generates."""


class JudgedDocuments:
    """The documents of the index. If a write of a document can't be determined, it isn't judged any more: its
    open calls are lost."""

    def __init__(
        self,
        writer: HistoryWriter,
        shape: Optional[IndexShape],
        name: str,
        first: DocumentState,
        only: Optional[FrozenSet[str]],
        most_kept: int = MOST_KEPT,
    ) -> None:
        self.writer = writer
        writer.on_too_many_lost = self.stop_judging
        # (None as long as the index doesn't exist)
        self.shape = shape
        self.names = shape.names if shape is not None else Names([name], [])
        # (a history is limited anyway; a recording in parts only by this)
        self._endless = writer.history if isinstance(writer.history, Continuing) else None
        self.is_endless = self._endless is not None
        self.recent = RecentDocuments(most_kept if self.is_endless else None)
        self._most_kept = most_kept
        # the ids of documents that aren't judged any more
        self._gone = DroppedIds()
        # the state of documents that are seen for the first time, and the ids of those to record, if not all
        self.first = first
        self.only = only
        # whether recording is delayed until earlier writes are over: then no call has a line
        self.is_settling = False
        # the number of writes of documents whose ids aren't known yet
        self.unnamed = 0
        # the number of calls without lines, because their documents aren't judged
        self.left_out = 0
        # the number of requests that change unnamed documents, and of those that may still go on
        self.sweeps = self.open_sweeps = 0

    def document(self, id: str) -> Optional[Document]:
        """Returns the document, or None if it isn't judged."""
        kept = self.recent
        document = kept.get(id)
        if document is None:
            document = self._first_seen(id)
        if kept.given_up:
            self._give_up()
        return document

    def is_known(self, id: str) -> bool:
        """Returns whether a document was seen before."""
        return self.recent.get(id) is not None or id in self._gone

    def _give_up(self) -> None:
        """Stops judging documents that weren't used while many others were, except for those with open
        calls."""
        given_up, self.recent.given_up = [*self.recent.given_up.values()], {}
        for it in given_up:
            if it.open:
                self.recent.add(it)
        why = f"it was not used while {self._most_kept // 2} others were"
        self._leave([(it, why) for it in given_up if not it.open])

    def rest(self, parts: Iterable[Optional[RequestedCall]]) -> None:
        """Forgets the documents of ended calls of which nothing was ever seen: later they are seen for the
        first time again."""
        if self._endless is None or self.first is not DocumentState.JUDGED:
            return
        for it in parts:
            document = it.document if it is not None else None
            if (
                document is not None
                and not document.turns
                and not document.open
                and self._endless.forgets(document.id)
            ):
                self.recent.pop(document.id)

    def _first_seen(self, id: str) -> Optional[Document]:
        """Adds a document that is seen for the first time; returns None if it isn't judged."""
        if not is_id(id) or self.only is not None and id not in self.only or id in self._gone:
            return None
        shard = self.shape.shard_of(id) if self.shape else 0
        if self.writer.has_ended or self.writer.history.of_shard(shard).has_ended:
            return None
        document = Document(id, shard, self.first)
        self.recent.add(document)
        if self.open_sweeps:
            self.stop_judging(id, "it was first seen while a request changed unnamed documents")
        elif self.unnamed and MADE_ID.fullmatch(id):
            self.stop_judging(id, "it may be a document whose id no answer had")
        return document if document.state is not NOT_JUDGED else None

    def settled(self) -> None:
        """Begins the recording. An open write whose id comes with the answer is regarded as one from
        before."""
        if self.is_settling:
            self.is_settling = False
            self.sweeps += 1

    def note_unknown_write(self, id: str, why: str) -> None:
        """Notes a write of a document that can't be determined; the id is empty if nobody knows it."""
        if not id:
            self.unnamed += 1
        elif self.recent.get(id) is not None or self._first_seen(id) is not None:
            self.stop_judging(id, why)

    def stop_judging(self, id: str, why: str) -> None:
        """Stops judging a document: its open calls are lost."""
        self.stop_judging_all([(id, why)])

    def stop_judging_all(self, reasons: Sequence[Tuple[str, str]]) -> None:
        """The same for several documents, each with the reason."""
        popped = [(self.recent.pop(id), why) for id, why in reasons]
        self._leave([(document, why) for document, why in popped if document is not None])

    def _leave(self, documents: Sequence[Tuple[Document, str]]) -> None:
        """Stops judging documents that were removed, each with the reason."""
        lost: List[Call] = []
        for document, _ in documents:
            lost += document.open
            document.state = NOT_JUDGED
            self._gone.add(document.id)
        self.writer.lose(lost)
        if self._endless is not None:
            self._endless.leave([document.id for document, _ in documents])
        self.writer.unjudged.names([(document.id, why) for document, why in documents])

    def begin_sweep(self) -> None:
        """Notes that a request may change every document: those that exist now, and those that are seen
        before its answer."""
        self.sweeps += 1
        self.open_sweeps += 1

    def sweep(self, why: str) -> Iterator[None]:
        """Stops judging the existing documents, in steps between which other events are handled."""
        ids = list(self.recent)
        for at in range(0, len(ids), MOST_SWEPT):
            if at:
                yield
            if self.writer.has_ended:
                return
            self.stop_judging_all([(id, why) for id in ids[at : at + MOST_SWEPT]])

    @property
    def judged(self) -> int:
        """The number of judged documents."""
        return sum(it.state is DocumentState.JUDGED for it in self.recent.values())

    def close(self) -> None:
        """Lists the documents that were never seen created, at the end of the recording: they aren't
        judged."""
        unsure = [it.id for it in self.recent.values() if it.state is UNSURE]
        self.writer.unjudged.names([(it, "it was never seen created") for it in unsure])

"""Writes the lines of the proxy's recording, and ends it: at its time, or early if it can't be determined
what is written."""

from typing import Callable, Dict, List, Sequence, Union

from casbench_recording.history.by_shard import Parts
from casbench_recording.history.carried_over import Beginning
from casbench_recording.history.continuing import Continuing, TooManyLost
from casbench_recording.history.format import Loss, Reply
from casbench_recording.history.writing import Call, CallWriter, Ended, Ending, Histories, HistoryError
from casbench_recording.proxy.state.documents import Document
from casbench_recording.proxy.state.unjudged_list import UnjudgedList

from .bulk_items import UnknownWrites
from .recorded_requests import RequestedCall


class HistoryWriter:
    """The history, or one for each shard, or a recording in parts, and the list of unjudged documents. One
    thread uses it."""

    def __init__(self, history: Histories, unjudged: UnjudgedList) -> None:
        self.history = history
        self.unjudged = unjudged
        self.has_ended = False
        # called with the reason when the recording, or the history of a shard, ends early
        self.on_ended: Callable[[str], None] = lambda why: None
        # called with the id and the reason when a document can't be recorded any more
        self.on_too_many_lost: Callable[[str, str], None] = lambda id, why: None
        # the documents that moved to another part with the current calls, and what they start with there
        self._moved: Dict[str, Beginning] = {}
        if isinstance(history, Continuing):
            history.on_move = self._moved.__setitem__

    def end(self, why: str) -> None:
        """Ends the recording early: all open calls are lost, and no more are written."""
        if not self.has_ended:
            self.has_ended = True
            self._ends(why)
            self._end_histories()

    def close(self) -> None:
        """Ends the recording at its time."""
        self.has_ended = True
        self._end_histories()

    def end_by(self, fault: Exception) -> None:
        """Ends the recording because of this exception; requests are still passed on."""
        self.end(
            str(fault)
            if isinstance(fault, UnknownWrites)
            else f"an internal error of the recorder: {fault!r}"
        )

    def _end_histories(self) -> None:
        """Ends each history."""
        for history in self.history.histories:
            try:
                history.end()
            except HistoryError as fault:
                self._ends(str(fault))

    def end_part(self, history: CallWriter, why: str) -> None:
        """Ends the history of a shard, or the only one."""
        self.has_ended = self.has_ended or not isinstance(self.history, Parts)
        if why not in self.unjudged.ended:
            self._ends(why)
        history.end()

    def _ends(self, why: str) -> None:
        """Reports why a history ends early."""
        self.unjudged.ends(why)
        self.on_ended(why)

    def write_calls(self, parts: Sequence[RequestedCall]) -> None:
        """Writes the lines of calls, those of one shard together. A full history ends, and its open calls are
        lost."""
        shards = {it.operation.shard for it in parts}
        for shard in shards:
            its = parts if len(shards) == 1 else [it for it in parts if it.operation.shard == shard]
            self.write_calls_of(self.history.of_shard(shard), its)

    def write_calls_of(self, history: CallWriter, parts: Sequence[RequestedCall]) -> None:
        """Writes the lines of calls to a history. A document that can't be recorded any more isn't judged any
        more."""
        while parts and not self.has_ended:
            try:
                calls = history.call_all([it.operation for it in parts])
            except (TooManyLost, Ended, HistoryError) as fault:
                parts = self._left(history, parts, fault)
                continue
            for part, call in zip(parts, calls):
                part.call = call
                if part.document is not None:
                    part.document.opens(call)
            if self._moved:
                self._go_on(parts)
            return

    def write_call(self, part: RequestedCall, document: Document) -> None:
        """The same for a single call on this document, which is faster."""
        if not self.has_ended:
            history = self.history.of_shard(document.shard)
            try:
                part.call = call = history.call_one(part.operation)
            except (TooManyLost, Ended, HistoryError) as fault:
                self._left(history, [part], fault)
                return
            document.opens(call)
            if self._moved:
                self._go_on([part])

    def _left(
        self, history: CallWriter, parts: Sequence[RequestedCall], fault: Exception
    ) -> List[RequestedCall]:
        """Handles an error; returns the parts whose lines can still be written: none if the history ended."""
        if isinstance(fault, TooManyLost):
            self.on_too_many_lost(fault.id, str(fault))
            return [it for it in parts if it.id != fault.id]
        self.end_part(history, f"{history.path} is full" if isinstance(fault, Ended) else str(fault))
        return []

    def _go_on(self, parts: Sequence[RequestedCall]) -> None:
        """Has documents that moved to another part forget what isn't in it."""
        for document in {
            it.document for it in parts if it.document is not None and it.document.id in self._moved
        }:
            document.goes_on(self._moved[document.id])
        self._moved.clear()

    def write_ending(self, call: Call, ending: Union[Reply, Loss]) -> None:
        """Writes the ending of a call. If the history ended meanwhile, the call is lost."""
        try:
            call.history.end_one(call, ending)
        except Ended:
            pass
        except HistoryError as fault:
            self.end_part(call.history, str(fault))

    def write_endings(self, endings: Sequence[Ending]) -> None:
        """Writes the lines of endings, those of one history together."""
        for history in {call.history for call, _ in endings}:
            try:
                history.end_all([it for it in endings if it[0].history is history])
            except HistoryError as fault:
                self.end_part(history, str(fault))

    def lose(self, calls: Sequence[Call]) -> None:
        """Writes calls as lost, those of one history together."""
        histories = {it.history for it in calls}
        for history in histories:
            its = calls if len(histories) == 1 else [it for it in calls if it.history is history]
            try:
                history.lose(its)
            except HistoryError as fault:
                self.end_part(history, str(fault))

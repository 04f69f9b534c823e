"""A recording without a limit: a directory of parts on the same index, each of which is a complete history.

A part takes documents until it has a number of calls. After that each document moves to the next part with
its next call, once no other call of it is open; it starts there with what `carried_over` states about it. If
a part is full, a document moves with open calls: they are lost in that part, and lost again in the next one.
A part is finished when it takes no more documents and none of its calls is open. Until then its name has the
suffix `.growing`.
"""

import argparse
import contextlib
import os
import time
from typing import Callable, Dict, List, Optional, Sequence, Tuple, Union

from .carried_over import Beginning, DocumentPast, interpret_ending
from .format import MOST_EVENTS, CallError, Loss, Operation, Reply, members_of_call
from .readings import STRICT, Reading
from .writing import Call, CallWriter, Ended, Ending, History, HistoryError

PART = 400_000
"""The default number of calls after which a part takes no more documents."""

GROWING = ".growing"
"""The suffix of a part that isn't finished."""

MOST_GROWING = 8
"""How many parts may be unfinished at a time. Then the oldest is finished as if it were full."""

MOST_LOST = 1000
"""With how many lost writes that may still take effect a document can move."""


class TooManyLost(HistoryError):
    """A document has more lost writes than its next part can start with, so it isn't recorded any more. No
    line of the call was written."""

    def __init__(self, id: str) -> None:
        super().__init__(
            f"the document {id} has more lost writes that may still take effect than are carried over"
        )
        self.id = id


class GrowingPart:
    """A part that isn't finished."""

    def __init__(self, path: str, most_calls: int, most_events: int, clock: Callable[[], float]) -> None:
        self.path = path
        self.history = History(path + GROWING, most_events, clock)
        # whether it takes no more documents, and each document at rest leaves it
        self.is_closed = False
        # how many more calls it has before it takes no more documents (without those that documents start
        # with); and calls whose lines are written next
        self._left = most_calls
        self._waiting: "List[WholeCall]" = []

    @property
    def room(self) -> int:
        """How many more calls it takes."""
        return self.history.room - len(self._waiting)

    @property
    def is_done(self) -> bool:
        """Whether nothing will be written to it any more."""
        return self.is_closed and not self._waiting and not self.history.open_calls

    def call(self, operation: Operation) -> Call:
        """Writes the line of a call."""
        call = self.history.call_one(operation)
        self._count()
        return call

    def take(self, call: "WholeCall") -> None:
        """Adds a call, whose line is written by `write`."""
        self._waiting.append(call)
        self._count()

    def _count(self) -> None:
        """Counts a call."""
        self._left -= 1
        self.is_closed = self.is_closed or self._left <= 0 or self.room <= 0

    def write(self) -> None:
        """Writes the lines of the calls that were added."""
        waiting, self._waiting = self._waiting, []
        written = self.history.call_all([it.operation for it in waiting]) if waiting else []
        for whole, own in zip(waiting, written):
            whole.own = own

    def begin(self, id: str, shard: int, beginning: Beginning) -> None:
        """Writes what a document starts with in this part."""
        version = beginning.version
        if version is not None and version.value is not None:
            self.history.call("index", id, version.value, shard=shard).indexed(version.pair, created=True)
        elif version is not None:
            self.history.call("delete", id, shard=shard).deleted(version.pair, found=False)
        if beginning.lost:
            self.history.lose(self.history.call_all(beginning.lost))

    def finish(self) -> None:
        """Ends the history, with open calls lost, and gives it its final name. Without a call there is no
        file."""
        self._waiting.clear()
        try:
            self.history.end()
            if self.history.calls:
                os.rename(self.path + GROWING, self.path)
        except OSError as fault:
            raise HistoryError(f"{self.path}: {fault.strerror}") from fault


class ContinuedDocument:
    """A document: its past, its shard, and the part with its calls."""

    __slots__ = ("past", "shard", "part", "is_left")

    def __init__(self, shard: int, reading: Reading) -> None:
        self.past = DocumentPast(reading)
        self.shard = shard
        self.part: Optional[GrowingPart] = None
        # whether it isn't recorded any more
        self.is_left = False

    def place(self) -> Optional[GrowingPart]:
        """Returns the part of its next call, or None if it has to move first."""
        part = self.part
        if (
            part is None
            or part.history.has_ended
            or part.is_closed
            and (self.past.is_at_rest or part.room == 0)
        ):
            return None
        return part


class WholeCall(Call):
    """A call with its number in the whole recording, its document, and the part with its line."""

    __slots__ = ("document", "part", "own")

    def __init__(
        self,
        history: "Continuing",
        number: int,
        operation: Operation,
        document: ContinuedDocument,
        part: GrowingPart,
    ) -> None:
        super().__init__(history, number, operation)
        self.document = document
        self.part = part
        # the call in the part, or None if it isn't written yet, or was lost there before its ending
        self.own: Optional[Call] = None

    @property
    def recorded(self) -> Optional[Call]:
        """The call of the part, if its ending is recorded there."""
        return None if self.part.history.has_ended else self.own


class Continuing(CallWriter):
    """The parts of a recording, in a directory that is created, to be judged in a reading. Like a `History`,
    it may be used by any thread.

    The numbers of its calls are those of the whole recording; each part has its own numbers. If a line can't
    be written, HistoryError is raised, as by a `History`.
    """

    def __init__(
        self,
        folder: str,
        part: int = PART,
        reading: Reading = STRICT,
        most_events: int = MOST_EVENTS,
        clock: Callable[[], float] = time.time,
    ) -> None:
        super().__init__(folder)
        # called for each document that moves, with what it starts with in the next part, before the call
        # there is returned
        self.on_move: Callable[[str, Beginning], object] = lambda id, beginning: None
        self._reading = reading
        self._most_events = min(most_events, reading.most_events)
        self._most_calls = min(part, self._most_events // 2)
        self._clock = clock
        self._documents: Dict[str, ContinuedDocument] = {}
        # the open calls, by their numbers
        self._open: Dict[int, WholeCall] = {}
        # the unfinished parts, the newest one last
        self._growing: List[GrowingPart] = []
        self._count = 0
        # the notes for the first line of the next part
        self._notes: List[str] = []
        try:
            os.mkdir(folder)
        except OSError as fault:
            raise HistoryError(f"{folder}: {fault.strerror}") from fault

    def judge_in(self, reading: Reading) -> None:
        with self._lock:
            self._reading = reading
            self._most_events = min(self._most_events, reading.most_events)
            self._most_calls = min(self._most_calls, self._most_events // 2)

    @property
    def room(self) -> int:
        """How many calls it takes at a time."""
        return 0 if self.has_ended else self._most_events // 2

    # Calls

    def note(self, text: str) -> None:
        """Puts a note on the next line of each unfinished part, or of the next part."""
        with self._lock:
            for part in self._growing:
                part.history.note(text)
            if not self._growing:
                self._notes.append(text)

    def call_one(self, operation: Operation) -> Call:
        """Writes the line of a call to the part of its document."""
        with self._lock:
            document, part = self._document(operation)
            part = part or self._move(operation.id, document)
            own = part.call(operation)
            call = self._begin(operation, document, part)
            call.own = own
            return call

    def call_all(self, operations: Sequence[Operation]) -> List[Call]:
        """Writes the lines of several calls, such as the items of a bulk request; none if CallError or
        TooManyLost is raised."""
        for it in operations:
            members_of_call(it)
        with self._lock:
            documents = [self._document(it)[0] for it in operations]
            calls = [self._take(operation, document) for operation, document in zip(operations, documents)]
            for part in {it.part for it in calls}:
                part.write()
            return [*calls]

    def _document(self, operation: Operation) -> Tuple[ContinuedDocument, Optional[GrowingPart]]:
        """Checks an operation; returns its document, and the part for the call, or None if the document has
        to move."""
        if self.has_ended:
            raise Ended
        document = self._documents.get(operation.id)
        if document is None:
            members_of_call(operation)
            document = self._documents[operation.id] = ContinuedDocument(operation.shard, self._reading)
        if document.shard != operation.shard:
            raise CallError(
                f"the document {operation.id!r} is on shard {document.shard}, and not on {operation.shard}"
            )
        part = document.place()
        if document.is_left or part is None and not self._can_move(document):
            raise TooManyLost(operation.id)
        return document, part

    def leave(self, ids: Sequence[str]) -> None:
        """Forgets documents that get no more calls. Their open calls may still end."""
        with self._lock:
            for it in ids:
                self._documents.pop(it, None)

    def forgets(self, id: str) -> bool:
        """Forgets a document if there is nothing that another part would state about it; returns whether it
        did."""
        with self._lock:
            document = self._documents.get(id)
            is_blank = document is None or document.past.is_blank
            if is_blank:
                self._documents.pop(id, None)
            return is_blank

    def _can_move(self, document: ContinuedDocument) -> bool:
        """Returns whether another part can start with the document. If not, the document isn't recorded any
        more."""
        beginning = document.past.beginning()
        document.is_left = len(beginning.lost) > MOST_LOST or beginning.calls >= self._most_events // 2
        if document.is_left:
            self._lose_in_part(document)
        return not document.is_left

    def _take(self, operation: Operation, document: ContinuedDocument) -> WholeCall:
        """Adds a call to the current part of the document; its line is written later."""
        part = document.place() or self._move(operation.id, document)
        call = self._begin(operation, document, part)
        part.take(call)
        return call

    def _begin(self, operation: Operation, document: ContinuedDocument, part: GrowingPart) -> WholeCall:
        """Counts a call, and keeps it as open."""
        call = WholeCall(self, self.calls, operation, document, part)
        self.calls += 1
        self._open[call.number] = call
        document.past.called(call)
        return call

    def _move(self, id: str, document: ContinuedDocument) -> GrowingPart:
        """Moves a document to the newest part."""
        self._lose_in_part(document)
        beginning = document.past.beginning()
        part = self._newest(beginning.calls + 1)
        part.begin(id, document.shard, beginning)
        if document.part is not None:
            self.on_move(id, beginning)
        document.part = part
        return part

    def _lose_in_part(self, document: ContinuedDocument) -> None:
        """Writes the document's open calls as lost in the part that it leaves: they may have read what is
        only in the next one."""
        part = document.part
        calls = [self._open[it.number] for it in document.past.open_calls]
        if part is None or part.history.has_ended or not calls:
            return
        part.write()
        part.history.lose([it.own for it in calls if it.own is not None])
        for it in calls:
            it.own = None

    def _newest(self, calls: int) -> GrowingPart:
        """Returns the newest part; creates one if there is none with room for this number of calls."""
        newest = self._growing[-1] if self._growing else None
        if newest is not None and not newest.is_closed and newest.room >= calls:
            return newest
        if newest is not None:
            newest.is_closed = True
            self._finish_if_done(newest)
        while len(self._growing) >= MOST_GROWING:
            self._growing[0].write()
            self._finish(self._growing[0])
        self._count += 1
        path = os.path.join(self.path, f"part-{self._count:06}.ndjson")
        part = GrowingPart(path, self._most_calls, self._most_events, self._clock)
        self._growing.append(part)
        for it in self._notes:
            part.history.note(it)
        self._notes.clear()
        return part

    # Endings

    def is_open(self, call: Call) -> bool:
        with self._lock:
            return call.number in self._open

    def end_one(self, call: Call, ending: Union[Reply, Loss]) -> None:
        with self._lock:
            whole = self._still_open(call)
            own = whole.recorded
            if own is not None:
                own.history.end_one(own, ending)
            self._end(whole, ending)

    def end_all(self, endings: Sequence[Ending]) -> None:
        with self._lock:
            by_part: Dict[GrowingPart, List[Ending]] = {}
            ends: Dict[WholeCall, Union[Reply, Loss]] = {}
            for it, ending in endings:
                if it.number in self._open:
                    # (if a call has two endings, the first one counts)
                    ends.setdefault(self._open[it.number], ending or Loss.UNKNOWN)
            for whole, ending in ends.items():
                own = whole.recorded
                if own is not None:
                    by_part.setdefault(whole.part, []).append((own, ending))
            for part, its in by_part.items():
                part.history.end_all(its)
            for whole, ending in ends.items():
                self._end(whole, ending)

    def _still_open(self, call: Call) -> WholeCall:
        """Returns the call; raises CallError if it isn't open."""
        if self.has_ended:
            raise Ended
        if call.number not in self._open:
            raise CallError(f"call {call.number} has ended already")
        return self._open[call.number]

    def _end(self, call: WholeCall, ending: Union[Reply, Loss]) -> None:
        """Notes the ending of a call, which was written if its part is still there."""
        del self._open[call.number]
        call.document.past.ended(call, interpret_ending(call.operation, ending))
        is_lost = isinstance(ending, Loss)
        self.replies += not is_lost
        self.lost += is_lost
        self._finish_if_done(call.part)

    # The end of parts

    def _finish_if_done(self, part: GrowingPart) -> None:
        """Finishes a part if nothing will be written to it any more."""
        if part.is_done and part in self._growing:
            self._finish(part)

    def _finish(self, part: GrowingPart) -> None:
        """Finishes a part."""
        self._growing.remove(part)
        part.finish()

    def end(self) -> None:
        """Finishes all parts; later calls and endings raise Ended. Without a call, no file and no directory
        are left."""
        with self._lock:
            if self.has_ended:
                return
            self.has_ended = True
            self.lost += len(self._open)
            self._open.clear()
            fault: Optional[HistoryError] = None
            for part in self._growing[:]:
                try:
                    self._finish(part)
                except HistoryError as it:
                    fault = it
            with contextlib.suppress(OSError):
                os.rmdir(self.path)
            if fault is not None:
                raise fault

    def damage(self) -> Optional[str]:
        """Returns what another process did to an unfinished part, or None."""
        with self._lock:
            return next(filter(None, (it.history.damage() for it in self._growing)), None)


def part_of(text: str) -> int:
    """Parses --part: the number of calls of a part."""
    if not text.isdecimal() or not 1 <= int(text) <= MOST_EVENTS // 2:
        raise argparse.ArgumentTypeError(f"a part has 1 to {MOST_EVENTS // 2} calls")
    return int(text)


def add_part_options(add: Callable[..., object]) -> None:
    """Adds the options of a recording in parts."""
    add(
        "--parts",
        dest="part",
        action="store_const",
        const=PART,
        help=f"record without a limit: OUT is a directory of parts of {PART} calls each",
    )
    add("--part", type=part_of, metavar="N", help="the same, with N calls in each part")

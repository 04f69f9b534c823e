"""Discovers an index that doesn't exist yet: it is looked for after each write that may have created it.

Requests for the index are queued. One that may create it is passed on alone: after its answer the index is
inspected, its call and its reply are written, and the next ones follow. Requests for other indexes don't
wait.

A thread asks the cluster, with one request at a time. Writes that were passed on meanwhile may have been to
the index, by a name that isn't known yet, so they are remembered.
"""

import threading
from typing import Dict, List, NamedTuple, Optional, Set, Union

from casbench_recording.cluster import ClusterError
from casbench_recording.index_inspection import SECONDS, IndexShape, Inspector
from casbench_recording.proxy.http.loop import Loop
from casbench_recording.proxy.http.request_queue import GoOn, RequestQueue
from casbench_recording.proxy.routing.routes import BULK, Route, RouteKind

from .judge import JUDGED_BY_BODY, Judge, Passed
from .recorded_requests import IndexMakingRequest

MOST_GONE = 1000
"""How many requests without an answer are remembered."""

LONGEST_GONE = 2048
"""The maximum length in bytes of the target of such a request."""

PACKED = (b"\x1f\x8b", b"\x78")
"""The first bytes of content that is compressed by gzip or deflate."""

PATIENCE = SECONDS + 2.0
"""The timeout in seconds for an answer of the cluster."""

MOST_FOR_OTHERS = 0.5
"""How many seconds requests for other indexes wait at most. (An application that uses an unknown name of the
index goes on after the inspection, if the cluster answers as usual.)"""


class Waiting(NamedTuple):
    """A request that waits for the inspection, and whether it waits as long as that takes."""

    go_on: GoOn
    is_for_index: bool


class IndexDiscovery:
    """Discovers an index that doesn't exist yet."""

    def __init__(self, loop: Loop, inspector: Inspector, index: str, judge: Judge) -> None:
        self._loop = loop
        self._inspector = inspector
        self._index = index
        self._judge = judge
        # writes that were passed on: those without an answer, those answered during the inspection, and those
        # that will never be answered
        self._open: Dict[object, Passed] = {}
        self._meanwhile: List[Passed] = []
        self._gone: List[Passed] = []
        self._has_forgotten = False
        # the requests that wait for the current inspection, and for the next one
        self._waiting: List[Waiting] = []
        self._waiting_next: List[Waiting] = []
        # whether another inspection is needed
        self._is_due = False
        self._asked_at: Optional[float] = None
        self.queue = RequestQueue(loop)
        # the request that may create the index, when it was passed on, and the callback for its timeout
        self._making: Optional[IndexMakingRequest] = None
        self._made_since = 0.0
        self._give_up: GoOn = turn_ended
        # how many changes others may have made to documents that aren't judged
        self._unknown = 0
        # the names in the paths of other answered writes, which may be names of the index; None if they can't
        # be determined
        self._names: Optional[Set[str]] = set()
        loop.ticks[self._tick] = None

    @property
    def is_over(self) -> bool:
        """Whether the index was found, or isn't looked for any more."""
        return self._judge.shape is not None or self._judge.has_ended

    @property
    def has_queue(self) -> bool:
        """Whether a request still has its turn, or waits for it."""
        return not self.queue.is_over

    def concerns(self, route: Route, content: Optional[bytes]) -> bool:
        """Returns whether a request may be for the index. A bulk request that doesn't contain its name isn't;
        a compressed one may be."""
        if route.kind is not BULK or route.index_name == self._index or content is None:
            return True
        return self._index.encode() in content or b"\\" in content or content.startswith(PACKED)

    def note_passed(self, exchange: object, passed: Passed) -> None:
        """Called when a write is passed on."""
        self._open[exchange] = passed

    def begin_making(self, making: IndexMakingRequest, give_up: GoOn) -> None:
        """Called when a request that may create the index is passed on, in its turn. After the timeout
        `give_up` is called."""
        self._making, self._made_since, self._give_up = making, self._loop.now, give_up

    def end_making(self, is_known: bool) -> None:
        """Called when this request is over; `is_known` if it is known what it wrote."""
        if not is_known and self._making is not None:
            self._unknown += self._making.writes
        self._making = None
        self.queue.end()

    def answered(self, exchange: object, go_on: GoOn, is_for_index: bool) -> None:
        """Called when a write was answered: looks for the index, and then calls `go_on`. If the write isn't
        for the index by its known names, it doesn't wait long."""
        passed = self._open.pop(exchange, None)
        if passed is not None:
            self._remember(passed)
        if passed is not None and self._asked_at is not None:
            self._meanwhile.append(passed)
        self._waiting_next.append(Waiting(go_on, is_for_index))
        self._is_due = True
        if self._asked_at is None:
            self._look()
        else:
            self._release_others(self._loop.now)

    def _remember(self, passed: Passed) -> None:
        """Remembers the name in the path of a write that isn't for the index by its known names."""
        if self._names is not None and passed.route.kind is RouteKind.PASS:
            self._names.add(passed.name)
        if (
            passed.route.kind in JUDGED_BY_BODY
            or len(self._names or ()) > MOST_GONE
            or len(passed.target) > LONGEST_GONE
        ):
            self._names = None

    def _writes_of(self, shape: IndexShape) -> int:
        """Returns how many changes others may have made to documents that aren't judged; 0 if there may be
        more, by another name."""
        has_more_names = len(shape.names.all) > 1
        if has_more_names and (
            self._names is None or any(shape.names.may_be_among(it) for it in self._names)
        ):
            return 0
        return self._unknown + (self._making.writes if self._making is not None else 0)

    def note_never_answered(self, exchange: object) -> None:
        """Called when a write that was passed on will never be answered. It may be performed at any time."""
        passed = self._open.pop(exchange, None)
        if passed is None or self.is_over:
            return
        if len(self._gone) < MOST_GONE and len(passed[1]) <= LONGEST_GONE:
            self._gone.append(passed)
        else:
            self._has_forgotten = True

    def _look(self) -> None:
        """Starts an inspection for all that wait, or has them go on if none is needed."""
        self._waiting, self._waiting_next = self._waiting_next, []
        is_due, self._is_due = self._is_due, False
        if self.is_over:
            self._go_on()
        elif is_due:
            self._asked_at = self._loop.now
            threading.Thread(target=self._inspect, daemon=True).start()

    def _inspect(self) -> None:
        """Inspects the index, on its own thread."""
        result: Union[IndexShape, ClusterError, None]
        try:
            result = self._inspector.inspect(self._index)
        except ClusterError as fault:
            result = fault
        except Exception as fault:
            result = ClusterError(f"the index can't be inspected: {fault!r}")
        self._loop.call(lambda: self._take_result(result))

    def _take_result(self, result: Union[IndexShape, ClusterError, None]) -> None:
        """Takes the result, unless it is too late."""
        if self._asked_at is None:
            return
        self._asked_at = None
        if isinstance(result, ClusterError):
            self._judge.end(str(result))
        elif result is not None and self._has_forgotten:
            self._judge.end("too many requests were never answered, and may write to the index")
        elif result is not None:
            self._judge.found(
                result, [*self._open.values(), *self._meanwhile], self._gone, self._writes_of(result)
            )
        self._meanwhile.clear()
        self._go_on()
        self._look()

    def _go_on(self) -> None:
        """Has the waiting requests go on."""
        waiting, self._waiting = self._waiting, []
        for it in waiting:
            self._loop.soon(it.go_on)

    def _release_others(self, now: float) -> None:
        """Has requests for other indexes go on, if the inspection takes long."""
        if self._asked_at is None or now < self._asked_at + MOST_FOR_OTHERS:
            return
        for waiting in (self._waiting, self._waiting_next):
            for it in waiting:
                if not it.is_for_index:
                    self._loop.soon(it.go_on)
            waiting[:] = [it for it in waiting if it.is_for_index]

    def _tick(self, now: float) -> None:
        """Checks the timeouts."""
        self._release_others(now)
        if self._asked_at is not None and now > self._asked_at + PATIENCE:
            self._take_result(
                ClusterError(
                    f"the cluster didn't answer within {PATIENCE:.0f} seconds whether the index exists"
                )
            )
        elif self._making is not None and now > self._made_since + PATIENCE:
            self._give_up()


def turn_ended() -> None:
    """Does nothing, while no request has its turn."""

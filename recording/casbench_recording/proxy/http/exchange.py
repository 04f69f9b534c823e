"""An exchange: a request and its answer, and how far they were received and passed on."""

import zlib
from collections import deque
from enum import Enum
from typing import Deque, Iterator, Optional, Tuple, Union

from casbench_recording.http1 import Body, Request, Response, decoder_of
from casbench_recording.proxy.recording.recorded_requests import RecordedRequest
from casbench_recording.proxy.routing.routes import Route

SLICE = 65_536
"""How many bytes of a compressed body are decompressed at a time."""

MOST_PLAIN = 128 * 1024 * 1024
"""The maximum length of a bulk request in bytes, decompressed. A cluster accepts 100 MiB."""


class ExchangeState(Enum):
    """How far a request and its answer are.

    The methods of `Exchange` are all transitions:

        TAKING --hold--> HELD --go_on--> TAKING
        TAKING, HELD --send_all--> SENT --end_answer--> ANSWERED
        TAKING, HELD --end_answer--> ANSWERED_EARLY --send_all--> ANSWERED
    """

    TAKING = "the request is received, and passed on as far as it can be"
    HELD = "receiving pauses until other work is done, such as writing many calls"
    SENT = "the whole request was passed on"
    ANSWERED = "the whole answer was received, and is passed on when its replies are written"
    ANSWERED_EARLY = "the same, before the whole request was passed on"


TAKING, HELD, SENT = ExchangeState.TAKING, ExchangeState.HELD, ExchangeState.SENT
"""These states have names of their own, since looking up a member of an Enum by its name is slow."""

ANSWERED, ANSWERED_EARLY = ExchangeState.ANSWERED, ExchangeState.ANSWERED_EARLY
WITH_ANSWER = (ANSWERED, ANSWERED_EARLY)
"""The states in which the complete answer was received."""


class Exchange:
    """A request and its answer. It is over when the answer was passed on."""

    state = TAKING
    # the received part of a request, if it is received in pieces
    incoming: Optional["IncomingRequest"] = None
    # whether the client was sent 100 Continue
    was_continued = False
    recorded: Optional[RecordedRequest] = None
    # the answer, if it is received in pieces
    response: Optional[Response] = None
    body: Optional[Body] = None
    # the part of the answer that wasn't passed on yet
    answer: Union[bytes, bytearray] = b""
    # the number of bytes kept for a long head
    weight = 0
    # whether a part of the answer was passed on
    has_begun = False

    def __init__(self, request: Request, route: Route) -> None:
        self.request = request
        self.route = route

    def hold(self) -> None:
        """Stops receiving the request until `go_on`."""
        if self.state is TAKING:
            self.state = HELD

    def go_on(self) -> None:
        """Receives the rest of the request, unless it was passed on or answered meanwhile."""
        if self.state is HELD:
            self.state = TAKING

    def send_all(self) -> None:
        """Called when the last part of the request is passed on."""
        self.state = ANSWERED if self.state is ANSWERED_EARLY else SENT

    def end_answer(self) -> None:
        """Called when the last part of the answer was received."""
        self.state = ANSWERED if self.state is SENT else ANSWERED_EARLY


class IncomingRequest:
    """The part of a request that was received and not passed on yet: all of it until its body can be read, or
    nothing."""

    def __init__(self, head: bytes, body: Body, is_read: bool) -> None:
        self.held = bytearray(head)
        self.body = body
        # whether it is held back until it can be read
        self.is_read = body.is_kept = is_read

    def taken(self) -> bytes:
        """Returns what is held, and drops it."""
        held, self.held = bytes(self.held), bytearray()
        return held


class Unpacker:
    """Content that is received in pieces and may be compressed."""

    def __init__(self, encoding: bytes) -> None:
        self._decoder = decoder_of(encoding)
        self._is_known = self._decoder is not None or encoding in (b"", b"identity")
        self._length = 0

    def slices(self, content: bytes, is_last: bool) -> Iterator[Optional[bytes]]:
        """Returns the plain content of a piece, in slices; None if it can't be determined."""
        if not self._is_known:
            yield None
        elif self._decoder is None:
            yield content
        else:
            yield from self._unpacked(self._decoder, content, is_last)

    def _unpacked(
        self, decoder: "zlib._Decompress", content: bytes, is_last: bool
    ) -> Iterator[Optional[bytes]]:
        """The same for a compressed piece."""
        plain = bytes(SLICE)
        while not decoder.eof and (content or len(plain) == SLICE):
            try:
                plain = decoder.decompress(content, SLICE)
            except zlib.error:
                yield None
                return
            content = decoder.unconsumed_tail
            self._length += len(plain)
            yield plain if self._length <= MOST_PLAIN else None
        if decoder.unused_data or content or is_last and not decoder.eof:
            yield None


class IncomingBulkRequest(IncomingRequest):
    """The part of a bulk request that was received and not passed on yet: a piece is passed on when the calls
    are written of all items that start in it."""

    def __init__(self, head: bytes, body: Body, encoding: bytes) -> None:
        super().__init__(head, body, True)
        self.unpacker = Unpacker(encoding)
        # how many bytes of the plain content were received; and the waiting pieces, each with its length and
        # that number at its end
        self.length = 0
        self._waiting: Deque[Tuple[int, int]] = deque()

    def add(self, raw: bytes) -> None:
        """Adds a piece whose content was read."""
        self.held += raw
        before = self._waiting.pop()[0] if self._waiting and self._waiting[-1][0] < SLICE else 0
        self._waiting.append((before + len(raw), self.length))

    def ready(self, read: int, is_all: bool) -> bytes:
        """Returns what may be passed on after this many bytes of the content were read, or all of it."""
        if is_all:
            self._waiting.clear()
            return self.taken()
        waiting = sum(length for length, _ in self._waiting)
        while self._waiting and self._waiting[0][1] <= read:
            waiting -= self._waiting.popleft()[0]
        count = len(self.held) - waiting
        ready = bytes(self.held[:count])
        del self.held[:count]
        return ready

"""One loop that waits for many connections at once, on one thread.

Received data is handed on in the same turn, and written data is passed to the operating system at once as far
as it accepts it: there is no task and no queue in between.
"""

import contextlib
import errno
import functools
import selectors
import signal
import socket
import threading
import time
from collections import deque
from typing import Any, Callable, Deque, Dict, List, Protocol, Union

from casbench_recording.console import report_fault, report_line

PIECE = 65_536
"""The most bytes that are read at once. For larger pieces memory would be requested from the system each
time."""

MOST_WAITING = 65_536
"""How many bytes may wait to be sent before the writer has to pause."""

READ, WRITE = selectors.EVENT_READ, selectors.EVENT_WRITE

TICK = 0.5
"""The seconds between two checks for timeouts."""

LINGERING = 2.0
"""For how many seconds after the end of an answer received data is read and discarded."""

MOST_LINGERING = 16
"""For how many connections that is done at once."""

NO_ROOM = (errno.EMFILE, errno.ENFILE, errno.ENOBUFS, errno.ENOMEM)
"""The errors of the system if it has no room for another connection."""


class StreamUser(Protocol):
    """The user of a connection."""

    def received(self, data: bytes) -> None:
        """Takes received data, at least one byte."""

    def pause_writing(self) -> None:
        """Called when many bytes wait to be sent."""

    def resume_writing(self) -> None:
        """Called when no more bytes wait to be sent."""

    def ended(self) -> None:
        """Called when the other side sends no more. It may still receive data."""

    def connection_lost(self) -> None:
        """Called once when the connection is closed, by either side, and not during another method."""


class Loop:
    """The loop. Any thread or signal handler may call `call` and `stop`; all else is for the thread that runs
    it."""

    def __init__(self) -> None:
        self.is_over = self._has_signals = False
        # the current time
        self.now = time.monotonic()
        # how many bytes wait to be sent on all connections
        self.waiting = 0
        # called at each tick with the time
        self.ticks: Dict[Callable[[float], None], None] = {self._end_lingering: None}
        self._selector = selectors.DefaultSelector()
        self._calls: Deque[Callable[[], None]] = deque()
        # called in the next turn
        self._next: Deque[Callable[[], None]] = deque()
        self._lingering: "Deque[Stream]" = deque()
        # whether a tick is due, and whether the loop is closed
        self._is_tick_due = False
        self._has_closed = threading.Event()
        # called when a connection was closed
        self._waiting_for_room: List[Callable[[], None]] = []
        self._woken, self._waker = socket.socketpair()
        for it in (self._woken, self._waker):
            it.setblocking(False)
        self._selector.register(self._woken, READ, self._wake)

    def run(self) -> None:
        """Runs until it is stopped.

        A separate thread wakes the loop for each tick: a timeout for each wait would cost more than all ticks
        do.
        """
        select, calls, following, clock = self._selector.select, self._calls, self._next, time.monotonic
        threading.Thread(target=self._keep_time, daemon=True).start()
        while not self.is_over:
            ready = select(0 if following else None)
            self.now = clock()
            for key, events in ready:
                key.data(events)
            if following:
                calls.extend(following)
                following.clear()
            if calls:
                self._make_calls()

    def _keep_time(self) -> None:
        """Has `_tick` called every TICK seconds, until the loop is closed."""
        while not self._has_closed.wait(TICK):
            if not self._is_tick_due:
                self._is_tick_due = True
                self.call(self._tick)

    def _tick(self) -> None:
        """Schedules the calls of a tick. If one fails, the others are still made."""
        self._is_tick_due = False
        self._calls.extend([functools.partial(it, self.now) for it in self.ticks])

    def _make_calls(self) -> None:
        """Makes the calls that are due. If one fails, the others are still made."""
        while self._calls:
            try:
                self._calls.popleft()()
            except Exception:
                report_fault()

    def close(self) -> None:
        """Makes the calls that are due, and releases the resources of the loop."""
        self._has_closed.set()
        self._make_calls()
        if self._has_signals:
            signal.set_wakeup_fd(-1)
        self._selector.close()
        self._woken.close()
        self._waker.close()

    def soon(self, what: Callable[[], None]) -> None:
        """Calls it before the loop waits again."""
        self._calls.append(what)

    def later(self, what: Callable[[], None]) -> None:
        """Calls it in the next turn, after all that can be done now."""
        self._next.append(what)

    def call(self, what: Callable[[], None]) -> None:
        """Calls it in a turn of the loop."""
        self._calls.append(what)
        self._wake_up()

    def stop(self) -> None:
        """Ends the loop."""
        self.is_over = True
        self._wake_up()

    def stop_at(self, *signals: int) -> None:
        """Ends the loop at a signal, whichever thread receives it. The main thread calls this, and runs the
        loop."""
        self._has_signals = True
        signal.set_wakeup_fd(self._waker.fileno(), warn_on_full_buffer=False)
        for it in signals:
            signal.signal(it, lambda *_: self.stop())

    def _wake_up(self) -> None:
        """Ends the waiting."""
        with contextlib.suppress(OSError):
            # (the socket is full of wake-ups, or the loop is closed)
            self._waker.send(b"!")

    def _wake(self, events: int) -> None:
        """Reads what ended the waiting."""
        self._woken.recv(PIECE)

    def wait_for_room(self, what: Callable[[], None]) -> None:
        """Calls it when the next connection is closed."""
        self._waiting_for_room.append(what)

    def has_room(self) -> None:
        """Called when a connection was closed."""
        self._calls.extend(self._waiting_for_room)
        self._waiting_for_room.clear()

    def linger(self, stream: "Stream") -> None:
        """Closes a connection after a while, unless the other side closes it first."""
        self._lingering.append(stream)
        if len(self._lingering) > MOST_LINGERING:
            self._lingering.popleft().abort()

    def _end_lingering(self, now: float) -> None:
        """Closes the connections that lingered long enough."""
        while self._lingering and (self._lingering[0].is_closed or self._lingering[0].lingers_to <= now):
            self._lingering.popleft().abort()

    def watch(
        self, what: socket.socket, before: int, after: int, handle_events: Callable[[int], None]
    ) -> None:
        """Watches a socket for these events instead of those before."""
        if not before:
            self._selector.register(what, after, handle_events)
        elif not after:
            self._selector.unregister(what)
        else:
            self._selector.modify(what, after, handle_events)

    def listen(self, host: str, port: int, accepted: Callable[[socket.socket], object]) -> "List[Listener]":
        """Listens on each address of the host; hands on each accepted connection."""
        kind = socket.SOCK_STREAM
        addresses = dict.fromkeys(socket.getaddrinfo(host, port, type=kind, flags=socket.AI_PASSIVE))
        listeners: "List[Listener]" = []
        for family, _, _, _, address in addresses:
            try:
                listeners.append(Listener(self, family, address, accepted))
            except OSError:
                for it in listeners:
                    it.close()
                raise
        return listeners


class Listener:
    """A listening socket."""

    def __init__(
        self, loop: Loop, family: int, address: Any, accepted: Callable[[socket.socket], object]
    ) -> None:
        self._loop = loop
        self._accepted = accepted
        self.socket = socket.socket(family, socket.SOCK_STREAM)
        try:
            self.socket.setsockopt(socket.SOL_SOCKET, socket.SO_REUSEADDR, 1)
            if family == socket.AF_INET6:
                self.socket.setsockopt(socket.IPPROTO_IPV6, socket.IPV6_V6ONLY, 1)
            self.socket.bind(address)
            self.socket.listen(1024)
            self.socket.setblocking(False)
        except OSError:
            self.socket.close()
            raise
        self._events = 0
        self._watch(READ)

    @property
    def port(self) -> int:
        """The port that it listens on."""
        return int(self.socket.getsockname()[1])

    def handle_events(self, events: int) -> None:
        """Accepts a connection, if there is one. If the system has no room for it, accepts none until one is
        closed."""
        try:
            connection, _ = self.socket.accept()
        except OSError as fault:
            if fault.errno in NO_ROOM:
                report_line(f"no more connections are accepted until one is closed: {fault.strerror}")
                self._watch(0)
                self._loop.wait_for_room(lambda: self._watch(READ))
            return
        try:
            self._accepted(connection)
        except Exception:
            report_fault()
            connection.close()

    def _watch(self, events: int) -> None:
        """Watches for these events, as long as it listens."""
        if events != self._events and self.socket.fileno() >= 0:
            self._loop.watch(self.socket, self._events, events, self.handle_events)
            self._events = events

    def close(self) -> None:
        """Accepts no more connections."""
        self._watch(0)
        self.socket.close()


class Stream:
    """A connection. Bytes that wait to be sent are sent as the other side accepts them."""

    def __init__(self, loop: Loop, connection: socket.socket, user: StreamUser) -> None:
        self.user = user
        self._loop = loop
        self._socket = connection
        connection.setblocking(False)
        if connection.family in (socket.AF_INET, socket.AF_INET6):
            with contextlib.suppress(OSError):
                # (the other side may have closed it, which a read shows)
                connection.setsockopt(socket.IPPROTO_TCP, socket.TCP_NODELAY, 1)
        self._waiting = bytearray()
        # whether the writer has to pause
        self.is_paused = False
        self.is_closing = self.is_closed = False
        # whether the other side sends no more
        self.is_at_end = False
        # until when received data is discarded
        self.lingers_to: float = 0.0
        # the events that the socket is watched for
        self._events = 0
        self._watch(READ)

    @property
    def waiting(self) -> int:
        """How many bytes wait to be sent."""
        return len(self._waiting)

    def handle_events(self, events: int) -> None:
        """Handles events of the socket. An exception of the connection's user closes this connection, and no
        other one."""
        try:
            if events & WRITE:
                self._send_waiting()
            if events & self._events & READ:
                self._receive()
        except Exception:
            report_fault()
            self.abort()

    def _receive(self) -> None:
        """Hands on received data."""
        try:
            data = self._socket.recv(PIECE)
        except (BlockingIOError, InterruptedError):
            return
        except OSError:
            self.abort()
            return
        if not data:
            self.is_at_end = True
            self.pause_reading()
            if self.is_closing:
                self._close_now()
            else:
                self.user.ended()
        elif not self.is_closing:
            self.user.received(data)

    def write(self, data: Union[bytes, bytearray]) -> None:
        """Sends bytes, in their order."""
        if self.is_closed or not data:
            return
        if not self._waiting:
            count = self._send(data)
            if count == len(data) or self.is_closed:
                return
            data = memoryview(data)[count:] if count else data
        self._waiting += data
        self._loop.waiting += len(data)
        self._watch(self._events | WRITE)
        if len(self._waiting) > MOST_WAITING and not self.is_paused:
            self.is_paused = True
            self.user.pause_writing()

    def _send(self, data: Union[bytes, bytearray]) -> int:
        """Passes bytes to the system; returns how many it accepted. After an error the connection is
        closed."""
        try:
            return self._socket.send(data)
        except (BlockingIOError, InterruptedError):
            return 0
        except OSError:
            self.abort()
            return 0

    def _send_waiting(self) -> None:
        """Sends the waiting bytes, as far as the system accepts them."""
        if self.is_closed:
            return
        count = self._send(self._waiting)
        if self.is_closed:
            return
        del self._waiting[:count]
        self._loop.waiting -= count
        if self._waiting:
            return
        self._watch(self._events & ~WRITE)
        if self.is_closing:
            self._all_sent()
        elif self.is_paused:
            self.is_paused = False
            self.user.resume_writing()

    def pause_reading(self) -> None:
        """Stops reading."""
        self._watch(self._events & ~READ)

    def resume_reading(self) -> None:
        """Reads again."""
        if not self.is_closing and not self.is_at_end:
            self._watch(self._events | READ)

    def _watch(self, events: int) -> None:
        """Watches for these events."""
        if events != self._events and not self.is_closed:
            self._loop.watch(self._socket, self._events, events, self.handle_events)
            self._events = events

    def close(self) -> None:
        """Closes the connection when all waiting bytes are sent. Nothing more is read."""
        if not self.is_closing:
            self.is_closing = True
            self.pause_reading()
            if not self._waiting:
                self._close_now()

    def linger(self) -> None:
        """Closes the connection when all waiting bytes are sent and the other side has closed it too, or
        after a while.

        Data received until then is discarded. If it weren't read, the system would reset the connection, and
        the other side would lose what it hasn't read yet.
        """
        if self.is_closing:
            return
        self.is_closing = True
        self.lingers_to = self._loop.now + LINGERING
        if not self.is_at_end:
            self._watch(self._events | READ)
        if not self._waiting:
            self._all_sent()

    def _all_sent(self) -> None:
        """Called when all bytes were sent before the end."""
        if not self.lingers_to or self.is_at_end:
            self._close_now()
            return
        try:
            self._socket.shutdown(socket.SHUT_WR)
            self._loop.linger(self)
        except OSError:
            self._close_now()

    def abort(self) -> None:
        """Closes the connection at once."""
        self.is_closing = True
        self._close_now()

    def _close_now(self) -> None:
        """Closes the socket; `connection_lost` of the user is called soon."""
        if not self.is_closed:
            self._watch(0)
            self.is_closed = True
            self._loop.waiting -= len(self._waiting)
            self._waiting.clear()
            self._socket.close()
            self._loop.has_room()
            self._loop.soon(self.user.connection_lost)
            # (the user refers to this stream; except by that call it is not called any more)
            del self.user

"""Non-blocking connections to the cluster: the addresses of a node are tried one by one, until one accepts or
the time is over."""

import contextlib
import errno
import os
import socket
import threading
from typing import Any, Callable, List, Tuple, Union

from .loop import WRITE, Loop

SECONDS = 5.0
"""How many seconds a connection may take."""

Address = Tuple[int, Any]
"""The address family and the address of a socket."""

Made = Callable[[Union[socket.socket, OSError]], None]
"""Called with the connection, or with the error if there is none."""


class Addresses:
    """The IP addresses of a host. They are looked up at the start, and again, by one thread at most, after
    all of them failed."""

    def __init__(self, host: str, port: int) -> None:
        self._host = host
        self._port = port
        self._is_looking = False
        self.known = self._look()

    def _look(self) -> List[Address]:
        found = socket.getaddrinfo(self._host, self._port, type=socket.SOCK_STREAM)
        return list(dict.fromkeys((family, address) for family, _, _, _, address in found))

    def look_again(self) -> None:
        """Looks the addresses up again, without waiting for it."""
        if not self._is_looking:
            self._is_looking = True
            threading.Thread(target=self._renew, daemon=True).start()

    def _renew(self) -> None:
        """Looks the addresses up, and keeps the result."""
        with contextlib.suppress(OSError):
            self.known = self._look()
        self._is_looking = False


class Connecting:
    """A connection that is being made. `made` is called once, unless it is cancelled before."""

    def __init__(self, loop: Loop, addresses: Addresses, made: Made) -> None:
        self._loop = loop
        self._addresses = addresses
        self._left = list(addresses.known)
        self._made = made
        # the timeout of each address in seconds, and when that of the current one is over
        self._each = SECONDS / max(1, len(self._left))
        self._end = 0.0
        self._fault = OSError(errno.EHOSTUNREACH, os.strerror(errno.EHOSTUNREACH))
        self._socket: Union[socket.socket, None] = None
        self._is_over = False
        loop.ticks[self._tick] = None
        self._try_next()

    def _try_next(self) -> None:
        """Tries the remaining addresses, until one of them takes time to connect."""
        while self._left:
            family, address = self._left.pop(0)
            self._end = self._loop.now + self._each
            try:
                self._socket = socket.socket(family, socket.SOCK_STREAM)
                self._socket.setblocking(False)
                fault = self._socket.connect_ex(address)
                if fault in (0, errno.EINPROGRESS):
                    self._loop.watch(self._socket, 0, WRITE, self._handle_events)
                    return
                self._fault = OSError(fault, os.strerror(fault))
            except OSError as error:
                self._fault = error
            self._drop()
        self._addresses.look_again()
        self._finish(self._fault)

    def _handle_events(self, events: int) -> None:
        """Called when the connection is made or has failed."""
        if self._socket is None:
            # (it was cancelled in the same turn)
            return
        fault = self._socket.getsockopt(socket.SOL_SOCKET, socket.SO_ERROR)
        self._loop.watch(self._socket, WRITE, 0, self._handle_events)
        if fault:
            self._fault = OSError(fault, os.strerror(fault))
            self._drop()
            self._try_next()
        else:
            connection, self._socket = self._socket, None
            self._finish(connection)

    def _tick(self, now: float) -> None:
        """Goes on with the next address if one takes too long."""
        if now >= self._end and not self._is_over:
            self._drop_watched()
            self._fault = TimeoutError(errno.ETIMEDOUT, os.strerror(errno.ETIMEDOUT))
            self._try_next()

    def _finish(self, made: Union[socket.socket, OSError]) -> None:
        """Passes on the result."""
        self._is_over = True
        del self._loop.ticks[self._tick]
        self._loop.soon(lambda: self._made(made))

    def cancel(self) -> None:
        """Cancels the connection."""
        if not self._is_over:
            self._is_over = True
            del self._loop.ticks[self._tick]
            self._drop_watched()

    def _drop_watched(self) -> None:
        """Closes the socket that is being connected."""
        if self._socket is not None:
            self._loop.watch(self._socket, WRITE, 0, self._handle_events)
            self._drop()

    def _drop(self) -> None:
        """Closes the socket."""
        if self._socket is not None:
            self._socket.close()
            self._socket = None

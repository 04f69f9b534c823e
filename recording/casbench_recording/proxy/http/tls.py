"""TLS for the connections of the loop."""

import socket
import ssl
from typing import Callable, Optional

from .loop import PIECE, Loop, Stream, StreamUser

NO_RENEGOTIATION = getattr(ssl, "OP_NO_RENEGOTIATION", 0)
"""With this option no write has to wait for a read."""


class TlsStream:
    """An encrypted connection. Its user uses it as a stream, and it uses the stream with the encrypted data.

    Nothing is written before it is ready. `on_ready` is called once: with None when it is ready, or with
    the error if it never will be.
    """

    def __init__(
        self,
        loop: Loop,
        connection: socket.socket,
        user: StreamUser,
        tls: ssl.SSLContext,
        host: Optional[str],
        on_ready: Callable[[Optional[OSError]], None],
    ) -> None:
        # (with a host it is a client, without one a server)
        self.user = user
        self._on_ready = on_ready
        self._is_ready = self._has_reported = False
        # whether the other side sent close_notify; the end of the connection alone doesn't count
        self.is_at_end = False
        self._incoming, self._outgoing = ssl.MemoryBIO(), ssl.MemoryBIO()
        self._tls = tls.wrap_bio(
            self._incoming, self._outgoing, server_side=host is None, server_hostname=host
        )
        self._stream = Stream(loop, connection, self)
        loop.soon(self._shake_hands)

    @property
    def is_closing(self) -> bool:
        """Whether it is closed, or will be when everything is sent."""
        return self._stream.is_closing

    @property
    def waiting(self) -> int:
        """How many bytes wait to be sent."""
        return self._stream.waiting

    def _shake_hands(self) -> None:
        """Continues the handshake."""
        try:
            self._tls.do_handshake()
            self._is_ready = True
        except ssl.SSLWantReadError:
            pass
        except OSError as fault:
            self._report_ready(fault)
            self._send()
            self._stream.close()
        self._send()
        if self._is_ready:
            self._report_ready(None)

    def _report_ready(self, fault: Optional[OSError]) -> None:
        """Calls `on_ready`, once."""
        if not self._has_reported:
            self._has_reported = True
            self._on_ready(fault)

    def _send(self) -> None:
        """Sends the encrypted data."""
        self._stream.write(self._outgoing.read())

    def received(self, data: bytes) -> None:
        """Decrypts data, and passes it on."""
        self._incoming.write(data)
        if not self._is_ready:
            self._shake_hands()
        plain = self._read()
        while plain:
            self.user.received(plain)
            plain = self._read()
        self._send()

    def _read(self) -> bytes:
        """Returns decrypted bytes, none if nothing is left. An error or the end closes the connection."""
        if not self._is_ready or self.is_closing:
            return b""
        try:
            plain = self._tls.read(PIECE)
            self.is_at_end = not plain
        except ssl.SSLWantReadError:
            return b""
        except OSError:
            plain = b""
        if not plain:
            self.close()
        return plain

    def ended(self) -> None:
        """Called when no more encrypted bytes come."""
        self._stream.close()

    def write(self, data: bytes) -> None:
        """Sends bytes, in their order."""
        if data and not self.is_closing:
            self._tls.write(data)
            self._send()

    def pause_reading(self) -> None:
        """Stops reading."""
        self._stream.pause_reading()

    def resume_reading(self) -> None:
        """Reads again."""
        self._stream.resume_reading()

    def close(self) -> None:
        """Sends close_notify, and closes the connection when all waiting bytes are sent."""
        if not self.is_closing:
            try:
                self._tls.unwrap()
            except OSError:
                # (it needn't wait for close_notify of the other side)
                pass
            self._send()
            self._stream.close()

    def abort(self) -> None:
        """Closes the connection at once."""
        self._stream.abort()

    def pause_writing(self) -> None:
        """Called when many bytes wait to be sent."""
        if self._is_ready:
            self.user.pause_writing()

    def resume_writing(self) -> None:
        """Called when no more bytes wait to be sent."""
        if self._is_ready:
            self.user.resume_writing()

    def connection_lost(self) -> None:
        """Called when the connection is closed."""
        self._report_ready(ConnectionResetError("the connection was closed before it was encrypted"))
        if self._is_ready:
            self.user.connection_lost()
        # (the user refers to this stream, and is not called any more)
        del self.user

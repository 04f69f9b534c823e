"""HTTP/1.1 messages on a connection: their heads, and where their bodies end.

Bytes are inspected and never changed, so that they can be passed on as received. A message that two servers
could read with different lengths is refused; `http.client` accepts some of them.
"""

import functools
import re
import zlib
from typing import NamedTuple, Optional, Tuple

HEAD_END = b"\r\n\r\n"

LONGEST_HEAD = 65_536
"""The maximum length of the head of a message in bytes."""

MOST_REMEMBERED = 2048
"""How many parsed heads are cached. Clients and clusters repeat theirs, byte for byte."""

LONGEST_REMEMBERED = 1024
"""The maximum length of a cached head in bytes."""

LONGEST_OPAQUE_ID = 80
"""How many bytes of an X-Opaque-Id are kept."""

LONGEST_CHUNK_LINE = 16_384
"""The maximum length of a line between chunks in bytes."""

MOST_TRAILERS = 65_536
"""The maximum total length of the fields after the last chunk in bytes."""

TOKEN = rb"[!#$%&'*+.^_`|~0-9A-Za-z-]+"
VALUE = rb"[\t -~\x80-\xff]*"

FIELD = re.compile(
    rb"\r\n(content-length|transfer-encoding|content-encoding|expect|x-opaque-id|upgrade|http2-settings)"
    rb":[ \t]*([^\r\n]*)",
    re.IGNORECASE,
)
FIELDS = re.compile(rb"(?:\r\n" + TOKEN + rb":" + VALUE + rb")*\r\n\r\n")
TRAILER = re.compile(TOKEN + rb":" + VALUE)
CHUNK_LINE = re.compile(rb"([0-9a-fA-F]{1,15})[ \t]*(?:;" + VALUE + rb")?")
REQUEST_LINE = re.compile(rb"(" + TOKEN + rb") ([!-~\x80-\xff]+) HTTP/1\.([01])\r\n")
STATUS_LINE = re.compile(rb"HTTP/1\.([01]) ([1-5][0-9][0-9])(?: [\t -~\x80-\xff]*)?\r\n")
NUMBER = re.compile(rb"[0-9]{1,18}")
EMPTY_LINES = re.compile(rb"(?:\r\n)*")
OF_AN_UPGRADE = re.compile(rb"\r\n(?:upgrade|http2-settings):[^\r\n]*", re.IGNORECASE)
HOST = re.compile(rb"(\r\nhost:[ \t]*)[^\r\n]*", re.IGNORECASE)
CONNECTION = re.compile(rb"\r\n(connection):([^\r\n]*)", re.IGNORECASE)


class BadMessage(Exception):
    """A message that isn't valid HTTP/1.1, or whose length is ambiguous."""


class Body:
    """The body of a message, which is fed as it is received. Its content is kept unless `is_kept` is set to
    false."""

    is_done = False
    is_kept = True

    def __init__(self) -> None:
        self.kept = bytearray()

    def take(self, data: bytes) -> int:
        """Feeds bytes; returns how many of them, from the first on, belong to the body."""
        raise NotImplementedError

    def content(self) -> bytes:
        """Returns the content that was kept so far, and drops it."""
        content = bytes(self.kept)
        self.kept = bytearray()
        return content

    def keep(self, piece: bytes) -> None:
        """Keeps a piece of the content."""
        if self.is_kept:
            self.kept += piece

    def at_close(self) -> bool:
        """Whether the body is complete if the connection is closed now."""
        return self.is_done


class LengthBody(Body):
    """A body with a Content-Length."""

    def __init__(self, length: int) -> None:
        super().__init__()
        self.left = length
        self.is_done = not length

    def take(self, data: bytes) -> int:
        count = min(self.left, len(data))
        self.left -= count
        self.is_done = not self.left
        self.keep(data[:count])
        return count


class ClosedBody(Body):
    """A body that ends with its connection."""

    def take(self, data: bytes) -> int:
        self.keep(data)
        return len(data)

    def at_close(self) -> bool:
        return True


class ChunkedBody(Body):
    """A chunked body, perhaps with fields after the last chunk."""

    def __init__(self) -> None:
        super().__init__()
        self.line = b""
        self.left = 0  # of the current chunk
        self.trailers = 0  # bytes of the fields after the last chunk
        self.is_behind_chunk = self.is_behind_last = False

    def take(self, data: bytes) -> int:
        at = 0
        while at < len(data) and not self.is_done:
            if self.left:
                count = min(self.left, len(data) - at)
                self.keep(data[at : at + count])
                self.left -= count
                at += count
            else:
                at = self.take_line(data, at)
        return at

    def take_line(self, data: bytes, at: int) -> int:
        """Reads bytes up to the end of a line; returns the position after them."""
        end = data.find(b"\n", at)
        self.line += data[at:] if end < 0 else data[at : end + 1]
        if len(self.line) > LONGEST_CHUNK_LINE:
            raise BadMessage("a line between chunks is too long")
        if end < 0:
            return len(data)
        line, self.line = self.line, b""
        if not line.endswith(b"\r\n"):
            raise BadMessage("a line between chunks has a bare line feed")
        self.handle_line(line[:-2])
        return end + 1

    def handle_line(self, line: bytes) -> None:
        """Handles a line: the end of a chunk, the length of the next one, or a field after the last one."""
        if self.is_behind_last:
            self.trailers += len(line)
            if line and not TRAILER.fullmatch(line) or self.trailers > MOST_TRAILERS:
                raise BadMessage("a field after the last chunk is invalid")
            self.is_done = not line
        elif self.is_behind_chunk:
            self.is_behind_chunk = False
            if line:
                raise BadMessage("a chunk is longer than its length")
        else:
            size = CHUNK_LINE.fullmatch(line)
            if size is None:
                raise BadMessage("a chunk has no length")
            self.left = int(size[1], 16)
            self.is_behind_last = not self.left
            self.is_behind_chunk = bool(self.left)


class Fields(NamedTuple):
    """The fields of a head that matter for reading the message."""

    length: Optional[int]
    is_chunked: bool
    encoding: bytes
    expects: bool
    # X-Opaque-Id, truncated to what a history takes
    opaque_id: str = ""
    # whether it offers another protocol
    offers_upgrade: bool = False


class Request:
    """The head of a request."""

    __slots__ = ("method", "target", "fields", "length")

    def __init__(self, method: str, target: bytes, fields: Fields) -> None:
        self.method = method
        self.target = target
        self.fields = fields
        # the length of the body, or None if it isn't in the head
        self.length = None if fields.is_chunked else fields.length or 0

    def body(self) -> Body:
        """Returns its body, to which nothing was fed yet."""
        return ChunkedBody() if self.length is None else LengthBody(self.length)


class Response:
    """The head of a response."""

    __slots__ = ("status", "fields", "length")

    def __init__(self, status: int, fields: Fields) -> None:
        self.status = status
        self.fields = fields
        # the length of the body (except after HEAD), or None if it isn't in the head. With some statuses
        # there is no body, whatever the head says
        self.length = (
            0 if status < 200 or status in (204, 304) else None if fields.is_chunked else fields.length
        )

    def length_for(self, method: str) -> Optional[int]:
        """Returns the length of the body in the answer to this method."""
        return 0 if method == "HEAD" else self.length

    def body(self, method: str) -> Body:
        """Returns its body in the answer to this method, to which nothing was fed yet."""
        length = self.length_for(method)
        if length is not None:
            return LengthBody(length)
        return ChunkedBody() if self.fields.is_chunked else ClosedBody()


def fields_of(head: bytes, is_old: bool) -> Fields:
    """Parses the fields of a head, from the end of its first line on. Refuses anything that isn't a field, a
    field with two different values or on two lines, and what the version of HTTP doesn't have."""
    if FIELDS.fullmatch(head) is None:
        raise BadMessage("a line of the head isn't a field")
    length: Optional[int] = None
    is_chunked = expects = offers_upgrade = False
    encoding, opaque_id = b"", ""
    for name, text in FIELD.findall(head):
        name, value = name.lower(), text.strip(b" \t").lower()
        if name == b"content-length":
            if not NUMBER.fullmatch(value) or length not in (None, int(value)):
                raise BadMessage("the Content-Length is invalid")
            length = int(value)
        elif name == b"transfer-encoding":
            if value != b"chunked" or is_chunked or is_old:
                raise BadMessage("the Transfer-Encoding isn't supported")
            is_chunked = True
        elif name == b"content-encoding":
            encoding = encoding + b"," + value if encoding else value
        elif name == b"x-opaque-id":
            opaque_id = text.strip(b" \t")[:LONGEST_OPAQUE_ID].decode("utf-8", "replace")
        elif name == b"expect":
            expects = value == b"100-continue"
        else:
            offers_upgrade = True
    if is_chunked and length is not None:
        raise BadMessage("there are both a Content-Length and a Transfer-Encoding")
    return Fields(length, is_chunked, encoding, expects, opaque_id, offers_upgrade)


remembered_fields = functools.lru_cache(maxsize=MOST_REMEMBERED)(fields_of)
"""The same, cached: a client often sends the same fields after different first lines."""


def fields_behind(head: bytes, is_old: bool) -> Fields:
    """Parses the fields after the first line of a head."""
    return remembered_fields(head, is_old) if len(head) <= LONGEST_REMEMBERED else fields_of(head, is_old)


def read_request(head: bytes) -> Request:
    """Parses the head of a request."""
    line = REQUEST_LINE.match(head)
    if line is None:
        raise BadMessage("it doesn't start like an HTTP/1.1 request")
    return Request(line[1].decode("ascii"), line[2], fields_behind(head[line.end() - 2 :], line[3] == b"0"))


def read_response(head: bytes) -> Response:
    """Parses the head of a response."""
    line = STATUS_LINE.match(head)
    if line is None:
        raise BadMessage("it doesn't start like an HTTP/1.1 response")
    return Response(int(line[2]), fields_behind(head[line.end() - 2 :], line[1] == b"0"))


# (only for heads of at most LONGEST_REMEMBERED bytes)
remembered_request = functools.lru_cache(maxsize=MOST_REMEMBERED)(read_request)
remembered_response = functools.lru_cache(maxsize=MOST_REMEMBERED)(read_response)


def request_of(head: bytes) -> Request:
    """Parses the head of a request, with a cache."""
    return remembered_request(head) if len(head) <= LONGEST_REMEMBERED else read_request(head)


def without_empty_lines(data: bytes) -> bytes:
    """Returns the bytes without the empty lines that may precede a request."""
    empty = EMPTY_LINES.match(data)
    return data[empty.end() :] if empty is not None else data


def passed_head(head: bytes, host: bytes) -> bytes:
    """Returns the head of a request as it is passed on: without an offer of another protocol, such as h2c,
    which is for the next server only; and with this host, unless it is empty."""
    head = CONNECTION.sub(without_upgrade_options, OF_AN_UPGRADE.sub(b"", head))
    return HOST.sub(lambda field: field[1] + host, head) if host else head


def without_upgrade_options(field: "re.Match[bytes]") -> bytes:
    """Returns a field Connection without the options of an upgrade; empty if no option is left."""
    options = [it.strip(b" \t") for it in field[2].split(b",")]
    kept = [it for it in options if it.lower() not in (b"", b"upgrade", b"http2-settings")]
    return b"\r\n" + field[1] + b": " + b", ".join(kept) if kept else b""


def head_end(data: bytes) -> int:
    """Returns the position after the head at the start of the bytes; 0 if it isn't complete yet."""
    end = data.find(HEAD_END)
    if end >= 0:
        return end + 4
    if len(data) > LONGEST_HEAD:
        raise BadMessage("the head is too long")
    return 0


def split_head(data: bytes) -> Tuple[bytes, bytes]:
    """Splits bytes after the head at their start; the head is empty if it isn't complete yet."""
    end = head_end(data)
    return data[:end], data[end:]


def decoded(content: bytes, encoding: bytes, most: int) -> Optional[bytes]:
    """Returns the content without its encoding; None if the encoding is unknown, the content is broken, or
    the result is longer than `most`."""
    if encoding in (b"", b"identity"):
        return content if len(content) <= most else None
    decoder = decoder_of(encoding)
    if decoder is None:
        return None
    try:
        plain = decoder.decompress(content, most)
    except zlib.error:
        return None
    return plain if decoder.eof and not decoder.unused_data else None


def decoder_of(encoding: bytes) -> "Optional[zlib._Decompress]":
    """Returns a decompressor for an encoding; None if the encoding is unknown or changes nothing."""
    return zlib.decompressobj(zlib.MAX_WBITS | 32) if encoding in (b"gzip", b"x-gzip", b"deflate") else None

"""The requests of clients, parsed."""

import json
import urllib.parse
from typing import Any, Dict, List, NamedTuple

from casbench_recording.http1 import Request, decoded

MOST_BODY = 100 * 1024 * 1024
"""The maximum length of a request's body in bytes."""

OF_DOCUMENTS = {"_doc", "_create", "_update", "_bulk", "_mget"}
"""The parts of paths of requests on documents."""


class ParsedRequest(NamedTuple):
    """A request: its method, the parts of its path, its parameters, and its body."""

    method: str
    path: List[str]
    parameters: Dict[str, str]
    body: str

    @property
    def value(self) -> Dict[str, Any]:
        """The value of the body, empty if there is none."""
        value = json.loads(self.body) if self.body else {}
        if not isinstance(value, dict):
            raise ValueError("the body isn't an object")
        return value

    @property
    def is_of_documents(self) -> bool:
        """Whether the request is on documents, and so eligible for faults."""
        return not OF_DOCUMENTS.isdisjoint(self.path)


def read_request(request: Request, content: bytes) -> ParsedRequest:
    """Parses a request and its body."""
    path, _, query = request.target.decode("utf-8", "replace").partition("?")
    parameters = dict(urllib.parse.parse_qsl(query, keep_blank_values=True)) if query else {}
    body = (decoded(content, request.fields.encoding, MOST_BODY) or b"").decode("utf-8", "replace")
    return ParsedRequest(
        request.method, [urllib.parse.unquote(it) for it in path.strip("/").split("/")], parameters, body
    )

"""Request paths as OpenSearch reads them, and as it may receive them from a server that normalises paths.

OpenSearch decodes each part of a path separately: `..` is a name, and an encoded slash belongs to a part. A
load balancer, an ingress or a web server between the proxy and the cluster may resolve `.` and `..`, decode
slashes and drop empty parts.
"""

import re
import urllib.parse
from typing import List, Optional

MAY_CHANGE = re.compile(r"%(?:2e|2f|3f|5c)|\\|/\.{1,2}(?:/|$)", re.IGNORECASE)
"""Matches what such a server may change in a path. Empty parts don't matter: the result changes no document
in OpenSearch."""

SEPARATORS = re.compile(r"[/\\]")
"""What such a server may take for a separator: some accept a backslash as a slash."""

OF_ONE_DOCUMENT = ("_doc", "_create", "_update", "_source", "_explain", "_termvectors")
"""The second parts of paths whose third and last part is the id of a document, which may contain slashes."""


class Paths:
    """How the paths of requests lead to the cluster: the prefix before OpenSearch's own parts, and whether
    all paths are passed on unchanged. (Instances are compared by identity, which makes cached lookups
    cheap.)"""

    __slots__ = ("_prefix", "are_unchanged")

    def __init__(self, prefix: str = "", are_unchanged: bool = False) -> None:
        self._prefix = parts_of(prefix, "strict") if prefix.strip("/") else []
        self.are_unchanged = are_unchanged

    def own(self, parts: List[str]) -> List[str]:
        """Returns the parts of a path after the prefix; all of them if it doesn't begin with the prefix."""
        count = len(self._prefix)
        return parts[count:] or [""] if count and parts[:count] == self._prefix else parts


AS_SENT = Paths()
"""Paths without a prefix."""


def path_of(target: str) -> str:
    """Returns the path of a request's target, which may be a complete URL."""
    path, _, _ = target.partition("?")
    return path if path.startswith("/") else "/" + path.partition("://")[2].partition("/")[2]


def parts_of(path: str, faults: str) -> List[str]:
    """Returns the parts of a path as OpenSearch reads them. It ignores slashes at the end."""
    parts = path.rstrip("/")[1:].split("/")
    return [text_of(it, faults) for it in parts] if "%" in path else parts


def text_of(part: str, faults: str) -> str:
    """Returns a part of a path, decoded."""
    return urllib.parse.unquote(part, errors=faults) if "%" in part else part


def has_dots(path: str, faults: str) -> bool:
    """Returns whether a part of a path is `.` or `..`, encoded or not."""
    return any(it in (".", "..") for it in SEPARATORS.split(text_of(path, faults)))


def normalised_parts(path: str, faults: str) -> Optional[List[str]]:
    """Returns the parts of a path without dots if it is decoded as a whole; None if that changes nothing
    before the id of a document."""
    sent = path.rstrip("/")[1:].split("/")
    if (
        len(sent) == 3
        and text_of(sent[1], faults) in OF_ONE_DOCUMENT
        and not MAY_CHANGE.search("/".join(sent[:2]))
    ):
        return None
    plain, _, _ = text_of(path, faults).partition("?")
    return [it for it in SEPARATORS.split(plain) if it] or [""]

"""The result of an update: a write of the changed document, by a partial document or a script."""

from typing import Any, Dict, Mapping, NamedTuple, Optional

from .shard_copy import Entry


class Change(NamedTuple):
    """The result of an update: a write of this kind and source, or nothing, because the document is unchanged
    or missing."""

    kind: str = "index"
    source: Optional[Dict[str, Any]] = None
    is_noop: bool = False
    is_missing: bool = False


def prepared(body: Mapping[str, Any], last: Optional[Entry]) -> Change:
    """Returns the result of an update with this body, for a document with this last change. The only script
    is `delete`."""
    if last is None or last.source is None:
        first = body.get("upsert", body.get("doc") if body.get("doc_as_upsert") else None)
        return Change("create", first) if first is not None else Change(is_missing=True)
    if "script" in body:
        return Change("delete")
    source = merged(last.source, body["doc"])
    return Change("index", source, is_noop=source == last.source and body.get("detect_noop", True) is True)


def merged(source: Mapping[str, Any], change: Mapping[str, Any]) -> Dict[str, Any]:
    """Returns a source merged with the members of a change, recursively."""
    both = {
        key: merged(source[key], it)
        for key, it in change.items()
        if isinstance(it, dict) and isinstance(source.get(key), dict)
    }
    return {**source, **change, **both}

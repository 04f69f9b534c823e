"""Reads the bodies of answers, and makes the text of them that is recorded."""

import functools
import json
from typing import Any, FrozenSet, Iterator, Optional

from casbench_recording.history.format import (
    JsonObject,
    compact,
    counting_members,
    is_whole,
    text_of,
    text_of_missing,
)
from casbench_recording.index_inspection import IndexShape

MOST_REMEMBERED = 4096
"""How many texts of replies are cached."""

LONGEST_REMEMBERED = 1024
"""The maximum length of a cached text."""

OF_A_MISSING_ONE = {"_index", "_id", "found"}
"""The members of the usual reply to a get that found nothing."""


def readable(id: str, body: JsonObject) -> Optional[str]:
    """Returns the text of the relevant members of a document's body, or None if casbench wouldn't read it."""
    if body.keys() == OF_A_MISSING_ONE and body["found"] is False:
        return text_of_missing(id)
    counting = counting_members(body)
    counting.pop("_source", None)
    try:
        text = compact(counting)
    except (ValueError, RecursionError):
        return None
    return read_again(text) if len(text) <= LONGEST_REMEMBERED else text_of(text)


read_again = functools.lru_cache(maxsize=MOST_REMEMBERED)(text_of)
"""Returns a text that casbench reads, cached: most replies without a pair are equal."""


def listed(body: Optional[JsonObject], member: str, count: int) -> Iterator[Any]:
    """Returns the items of an answer, if there are this many; else none."""
    items = (body or {}).get(member)
    return iter(items if isinstance(items, list) and len(items) == count else ())


def true_members(body: JsonObject) -> FrozenSet[str]:
    """Returns the keys of a body whose values aren't false or empty."""
    return frozenset(key for key, it in body.items() if it)


def item_status(member: str, item: JsonObject) -> int:
    """Returns the status of an item of an answer, 0 if it has none. That of a multi-get follows from what it
    found."""
    if member == "items":
        status = item.get("status", 0)
        return int(status) if is_whole(status, 0, 65_535) else 0
    if "error" in item or not isinstance(item.get("found"), bool):
        return 0
    return 200 if item["found"] else 404


def missing_by_length(shape: Optional[IndexShape], id: str, length: Optional[int]) -> JsonObject:
    """Returns what a 404 to a HEAD says: that the document is missing, if the Content-Length is that of such
    a body."""
    body: JsonObject = {"_index": shape.name if shape else "", "_id": id, "found": False}
    texts = [
        json.dumps(it, separators=(",", ":"), ensure_ascii=False) for it in (body, {**body, "_type": "_doc"})
    ]
    return {"found": False} if length in [len(it.encode()) for it in texts] else {}

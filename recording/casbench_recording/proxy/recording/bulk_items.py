"""The items of bulk requests, as they are received, and those of long answers, one by one.

A bulk request may be long. Only the current item of it is kept.
"""

import json
import re
from typing import Any, Iterator, List, Optional, Sequence

from casbench_recording.history.format import JsonObject
from casbench_recording.proxy.json_bodies import action_of, whole_number

LONGEST_ACTION = 65_536
"""The maximum length of the line of an action in bytes."""

UNREADABLE = "a bulk request with an action that can't be read"
"""Why an item isn't recorded whose action isn't an object with one object: what it writes is unknown."""


class UnknownWrites(Exception):
    """It can't be determined which documents a request writes."""


class BulkItem:
    """An item: its operation, the parameters of its action, and its source, or None if it has none or one
    that is too long."""

    __slots__ = ("op", "parameters", "source")

    def __init__(self, op: str, parameters: JsonObject) -> None:
        self.op = op
        self.parameters = parameters
        self.source: Optional[bytes] = None


class BulkItems:
    """The items of a bulk request, whose content is fed as it is received."""

    def __init__(self, longest: int) -> None:
        # the maximum length of a source that is read
        self._longest = longest
        # the received part of the current line, and whether its rest is skipped
        self._line = bytearray()
        self._skips = False
        # the item whose source wasn't received yet
        self._begun: Optional[BulkItem] = None
        # the number of bytes before that line, or skipped of it
        self._taken = 0
        # the position up to which all items were returned
        self.end = 0

    def take(self, content: bytes, is_last: bool) -> List[BulkItem]:
        """Feeds content; returns the items that are complete now. Raises UnknownWrites if one can't be
        read."""
        items: List[BulkItem] = []
        *lines, rest = content.split(b"\n")
        if lines and self._line:
            lines[0] = bytes(self._line) + lines[0]
            self._line.clear()
        for line in lines:
            self._taken += len(line) + 1
            self._take_line(line, items)
            if self._begun is None:
                self.end = self._taken
        self._take_piece(rest, items)
        if is_last and self._line:
            self._taken += len(self._line)
            self._take_line(bytes(self._line), items)
            self._line.clear()
        if self._begun is None and not self._line:
            self.end = self._taken
        if is_last and self._begun is not None:
            items.append(self._begun)
        return items

    def _take_piece(self, piece: bytes, items: List[BulkItem]) -> None:
        """Adds a part of a line. An item whose source is too long is returned before the end of it."""
        if self._skips:
            self._taken += len(piece)
        else:
            self._line += piece
            if self._begun is None:
                check_action(self._line)
            elif len(self._line) > self._longest:
                items.append(self._begun)
                self._begun, self._skips = None, True
                self._taken += len(self._line)
                self._line.clear()

    def _take_line(self, line: bytes, items: List[BulkItem]) -> None:
        """Processes a complete line: the source of an item, or the next action."""
        item = self._begun
        if self._skips:
            self._skips = False
        elif item is not None:
            if len(line) <= self._longest:
                item.source = line
            items.append(item)
            self._begun = None
        else:
            check_action(line)
            if line.strip():
                self._begin(line, items)

    def _begin(self, line: bytes, items: List[BulkItem]) -> None:
        """Processes an action, which is the whole item if it has no source."""
        action = action_of(line)
        if action is None or len(action) != 1:
            raise UnknownWrites(UNREADABLE)
        ((op, parameters),) = action.items()
        if not isinstance(parameters, dict):
            raise UnknownWrites(UNREADABLE)
        item = BulkItem(op, parameters)
        if op == "delete":
            items.append(item)
        else:
            self._begun = item


def check_action(line: Sequence[int]) -> None:
    """Raises UnknownWrites if the line of an action is too long."""
    if len(line) > LONGEST_ACTION:
        raise UnknownWrites("a bulk request with an action that is too long")


START = re.compile(r'\{(?:"(?:took|ingest_took|errors)":(?:[0-9]+|true|false),)*"items":\[')
"""Matches the usual start of the answer to a bulk request."""

LONGEST_ITEM = 65_536
"""The maximum length of an item of a long answer that is certainly read."""

WINDOW = 4 * LONGEST_ITEM
"""How much of a long answer is parsed at a time, which limits the memory for an unreadable item."""

read_next = json.JSONDecoder(parse_int=whole_number).raw_decode


def items_of_long(content: bytes) -> Iterator[Any]:
    """Yields the items of an answer that is too long to be parsed at once, if it has the usual form, is
    ASCII, and no item is too long. Raises ValueError otherwise."""
    text = content.decode("ascii")
    start = START.match(text)
    if start is None:
        raise ValueError("no answer of the usual form")
    at, behind = start.end(), ","
    window, begin = "", at
    while behind == ",":
        if at - begin > len(window) - LONGEST_ITEM:
            window, begin = text[at : at + WINDOW], at
        item, end = read_next(window, at - begin)
        at = begin + end
        yield item
        behind = text[at : at + 1]
        at += 1
    if behind != "]":
        raise ValueError("no end of the items")

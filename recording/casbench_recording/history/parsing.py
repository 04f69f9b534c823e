"""A history text, parsed into calls: what each of them wrote and showed, and the text of a subset, with its
part of a witness."""

import json
from bisect import bisect_left
from typing import Any, Collection, Dict, Iterable, List, NamedTuple, Optional, Tuple

from .format import pair_of
from .readings import STRICT, Conflicts, Failed, Reading

VersionKey = Tuple[str, int, int]
"""A version of a document: its id, its term and its sequence number."""


class ParsedCall:
    """A call: its document, its lines, and the versions that it made and depends on."""

    __slots__ = (
        "number",
        "id",
        "op",
        "has_condition",
        "is_refused",
        "is_void",
        "result",
        "made",
        "stands_on",
        "line",
        "ending",
    )

    def __init__(self, event: Dict[str, Any], line: int) -> None:
        self.number: int = event["n"]
        self.id: str = event["id"]
        self.op: str = event["op"]
        self.has_condition = "if_seq_no" in event
        self.is_refused = False
        # whether its ending says that nothing was performed
        self.is_void = False
        self.result = ""
        self.made: Optional[VersionKey] = None
        self.stands_on: Optional[VersionKey] = None
        self.line = line
        self.ending: Optional[int] = None
        if self.has_condition:
            self.stands_on = (self.id, event["if_primary_term"], event["if_seq_no"])

    def end(self, event: Dict[str, Any], line: int) -> None:
        """Adds the ending. A call with a conflict depends on no version, since that may be gone."""
        self.ending = line
        if event["e"] != "reply":
            self.is_void = event.get("void") is True
            return
        body = event.get("body")
        pair = pair_of(body)
        self.is_refused = event.get("status") == 409
        if self.op != "get":
            self.made = (self.id, *pair) if pair else None
            self.stands_on = self.stands_on if pair else None
            self.result = body.get("result", "") if isinstance(body, dict) else ""
        elif pair:
            self.stands_on = (self.id, *pair)


class Record(NamedTuple):
    """What a place of a witness refers to: the number of a call, or its write that the store may have
    performed again."""

    number: int
    is_again: bool


class WitnessPlace(NamedTuple):
    """A place of a witness: its rank among those of its document, and the members of its line without the
    record."""

    rank: int
    pair: Dict[str, int]


class ParsedHistory:
    """The calls of a history that is judged in a reading, and the text of subsets of them."""

    def __init__(self, lines: Iterable[bytes], reading: Reading = STRICT) -> None:
        self.reading = reading
        self.lines = [it.rstrip(b"\n") + b"\n" for it in lines if it.strip()]
        self.calls: Dict[int, ParsedCall] = {}
        self.places: Dict[Record, WitnessPlace] = {}

    def read(self) -> None:
        """Parses the calls. casbench has accepted the text."""
        decode = json.JSONDecoder().decode
        for line, text in enumerate(self.lines):
            event = decode(text.decode())
            if event["e"] == "call":
                self.calls[event["n"]] = ParsedCall(event, line)
            else:
                self.calls[event["n"]].end(event, line)

    def read_witness(self, text: bytes) -> None:
        """Parses the places of the calls in a witness. casbench has accepted the text."""
        records: Dict[str, List[Record]] = {}
        for it in self.calls.values():
            records.setdefault(it.id, []).extend(self.records_of(it))
        its: List[Record] = []
        for rank, line in enumerate(filter(None, map(bytes.strip, text.split(b"\n")))):
            members = json.loads(line)
            if "doc" in members:
                its = records[members["doc"]]
            else:
                pair = {key: members[key] for key in ("seq", "term") if key in members}
                self.places[its[members["rec"]]] = WitnessPlace(rank, pair)

    def does_nothing(self, call: ParsedCall) -> bool:
        """Returns whether the call changes nothing: it is a get, or a void call that is trusted."""
        return call.op == "get" or call.is_void and self.reading.failed is Failed.TRUSTED

    def is_repeated(self, call: ParsedCall) -> bool:
        """Returns whether the store may have performed the call's write again."""
        return not self.does_nothing(call) and self.reading.is_performed_twice(call.op, call.has_condition)

    def is_decided(self, call: ParsedCall) -> bool:
        """Returns whether it is known which writes the store performed for the call."""
        is_known = call.made is not None or call.is_refused and self.reading.conflicts is Conflicts.PLAIN
        return self.does_nothing(call) or is_known and not self.is_repeated(call)

    def records_of(self, call: ParsedCall) -> List[Record]:
        """Returns the records of a call, as a witness counts them."""
        return [Record(call.number, it) for it in ((False, True) if self.is_repeated(call) else (False,))]

    def text_of(self, kept: Collection[int]) -> bytes:
        """Returns the lines of these calls."""
        calls = [self.calls[it] for it in kept]
        lines = sorted([it.line for it in calls] + [it.ending for it in calls if it.ending is not None])
        return b"".join(map(self.lines.__getitem__, lines))

    def witness_of(self, kept: Collection[int]) -> bytes:
        """Returns the part of the witness for these calls: their places in the same order, with new numbers
        of records."""
        entries: Dict[str, List[Tuple[WitnessPlace, int]]] = {}
        records: Dict[str, int] = {}
        for call in self.in_order(kept):
            places = entries.setdefault(call.id, [])
            for record in self.records_of(call):
                number = records[call.id] = records.get(call.id, -1) + 1
                if record in self.places:
                    places.append((self.places[record], number))
        rows: List[Dict[str, Any]] = []
        for id, places in entries.items():
            rows.append({"doc": id})
            rows += [
                {"rec": number, **place.pair} for place, number in sorted(places, key=lambda it: it[0].rank)
            ]
        return b"".join(json.dumps(it, separators=(",", ":")).encode() + b"\n" for it in rows)

    def in_order(self, numbers: Iterable[int]) -> List[ParsedCall]:
        """Returns the calls with these numbers, in the order of their lines."""
        return sorted((self.calls[it] for it in numbers), key=lambda it: it.line)


class Beginnings:
    """Which call created each document that exists at a line, according to the preceding replies."""

    def __init__(self, calls: Iterable[ParsedCall]) -> None:
        self.lines: Dict[str, List[int]] = {}
        self.makers: Dict[str, List[Optional[int]]] = {}
        for it in sorted((it for it in calls if it.made), key=lambda it: it.ending or 0):
            makers = self.makers.setdefault(it.id, [])
            is_there = it.result in ("created", "updated")
            maker = it.number if it.result == "created" else makers[-1] if makers and is_there else None
            makers.append(maker)
            self.lines.setdefault(it.id, []).append(it.ending or 0)

    def maker_at(self, id: str, line: int) -> Optional[int]:
        """Returns the number of the call that created the document, if it exists at this line."""
        at = bisect_left(self.lines.get(id, []), line)
        return self.makers[id][at - 1] if at else None

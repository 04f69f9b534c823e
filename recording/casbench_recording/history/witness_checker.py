"""Checks a witness by MODEL.md and FORMATS.md alone. It shares nothing with casbench or this package."""

import json
from bisect import bisect_left
from contextlib import suppress
from dataclasses import dataclass, replace
from itertools import accumulate
from typing import Any, Callable, Dict, Iterable, Iterator, List, NamedTuple, Optional, Set, Tuple

Members = Dict[str, Any]
Numbers = Tuple[int, int]  # primary term and sequence number, compared in this order
Placed = Tuple[int, Optional[Numbers]]  # the number of a record, and the pair that is given
DocVersion = Tuple[Optional[Numbers], Optional[int]]  # the pair of the last change; k, None if deleted

EVENTS, HAS_K = ("call", "reply", "lost"), {"get": False, "index": True, "create": True, "delete": False}
ROWS: Dict[Tuple[str, int, str], Tuple[str, Optional[bool]]] = {  # op, status, body: reply, was it there
    **{("get", 200, "true"): ("found", True), ("get", 404, "false"): ("missing", False)},
    **{(op, 201, '"created"'): ("created", False) for op in ("index", "create")},
    **{("index", 200, '"updated"'): ("updated", True), ("delete", 200, '"deleted"'): ("deleted", True)},
    ("delete", 404, '"not_found"'): ("not_found", False),
    **{(op, 409, '"version_conflict_engine_exception"'): ("conflict", None) for op in HAS_K if op != "get"},
}


class ReadingValues(NamedTuple):
    """What the store promises: the values of casbench's options. The defaults are those of a strict check."""

    gets: str = "last"
    conflicts: str = "plain"
    writes: str = "once"
    failed: str = "lost"


STRICT = ReadingValues()


class Refused(Exception):
    """A line that the format doesn't allow: its file and its number."""


class Broken(Exception):
    """The first fault: where, as casbench writes it; the document; the calls; the version before a place."""


@dataclass
class CheckedCall:
    """A call: what it asks, and at which event; if it was answered, at which event and with what."""

    number: int
    id: str
    shard: int
    op: str
    k: Optional[int]
    condition: Optional[Numbers]
    made: int
    answered: Optional[int] = None
    reply: str = "no reply"
    was_there: Optional[bool] = None
    pair: Optional[Numbers] = None
    found: Optional[int] = None
    is_void: bool = False  # whether its lost line states that nothing was performed
    is_again: bool = False  # whether it is the second time that the store may have performed its write

    def unanswered(self, reply: str) -> "CheckedCall":
        """The call without its reply, in place of which these words stand."""
        return replace(self, answered=None, reply=reply, was_there=None, pair=None, found=None)


def number_in(members: Members, key: str, bits: int, least: int = 0) -> int:
    """The number under the key: whole, and below 2 to the power of `bits`."""
    if type(members[key]) is not int or not least <= members[key] < 2**bits:
        raise ValueError(key)
    return int(members[key])


def pair_in(its: Members, term: str, seq: str) -> Optional[Numbers]:
    """The pair under the two keys, None if neither is there."""
    return (number_in(its, term, 63, 1), number_in(its, seq, 63)) if term in its or seq in its else None


def truth_in(members: Members, key: str) -> bool:
    """Whether the value under the key is true; if there is none it isn't."""
    if type(members.get(key, False)) is not bool:
        raise ValueError(key)
    return bool(members.get(key))


def id_in(members: Members, key: str) -> str:
    if not 1 <= len(members[key].encode()) <= 512:
        raise ValueError(key)
    return str(members[key])


def call_of(line: Members, event: int) -> CheckedCall:
    op = line["op"]
    k = number_in(line, "k", 64) if HAS_K[op] else None
    condition = pair_in(line, "if_primary_term", "if_seq_no") if op in ("index", "delete") else None
    shard = number_in({"shard": 0, **line}, "shard", 10)
    return CheckedCall(number_in(line, "n", 64), id_in(line, "id"), shard, op, k, condition, event)


def hear(call: CheckedCall, event: int, status: int, body: Any) -> None:
    """Notes a reply, unless no row of the table fits: then the outcome is unknown."""
    if isinstance(body, dict) and isinstance(body.get("_id"), str) and body["_id"] != call.id:
        raise ValueError("a reply of another document")
    with suppress(KeyError, TypeError, ValueError):
        says = body["error"]["type"] if status == 409 else body["found" if call.op == "get" else "result"]
        reply, was_there = ROWS[call.op, status, json.dumps(says)]
        has_pair = reply not in ("missing", "conflict")
        pair = (number_in(body, "_primary_term", 63, 1), number_in(body, "_seq_no", 63)) if has_pair else None
        call.found = number_in(body["_source"], "k", 64) if reply == "found" else None
        call.answered, call.reply, call.was_there, call.pair = event, reply, was_there, pair


def read(text: bytes, file: str, take: Callable[[Any, int], None]) -> None:
    """Hands the value and number of each line that isn't blank to `take`, which raises an error to refuse."""
    for number, line in enumerate(text.split(b"\n"), 1):
        try:
            if line.strip(b" \t\r"):
                take(json.loads(line.decode()), number)
        except (AttributeError, IndexError, KeyError, TypeError, ValueError, RecursionError) as fault:
            raise Refused(f"file={file} line={number}") from fault


class Texts:
    """What was read: the calls by number, each document's records in order, the entries of the witness."""

    def __init__(self, history: bytes, witness: bytes, reading: ReadingValues = STRICT) -> None:
        self.reading = reading
        self.calls: Dict[int, CheckedCall] = {}
        self.ended: Set[int] = set()
        self.records: Dict[str, List[CheckedCall]] = {}
        self.entries: List[Tuple[str, List[Placed]]] = []
        read(history, "history", self.take_event)
        read(witness, "witness", self.take_place)

    def take_event(self, line: Members, _: int) -> None:
        # (the number behind that of a call is for the second time that its write is performed)
        event, is_call = 2 * (len(self.calls) + len(self.ended)), line["e"] == "call"
        call = call_of(line, event) if is_call else self.calls[number_in(line, "n", 64)]
        first = self.records.get(call.id, [call])[0]
        is_twice = call.number in (self.calls if is_call else self.ended)
        if is_twice or line["e"] not in EVENTS or call.shard != first.shard:
            raise ValueError(line)
        if line["e"] == "reply":
            hear(call, event, number_in(line, "status", 16), line.get("body"))
        if line["e"] == "lost" and self.reading.failed == "trusted":
            call.is_void = truth_in(line, "void")
        if is_call:
            self.calls[call.number] = call
            self.records.setdefault(call.id, []).append(call)
        else:
            self.ended.add(call.number)

    def take_place(self, line: Members, _: int) -> None:
        if "doc" in line:
            self.entries.append((id_in(line, "doc"), []))
        else:
            self.entries[-1][1].append((number_in(line, "rec", 32), pair_in(line, "term", "seq")))


def as_read(call: CheckedCall, reading: ReadingValues) -> Iterator[CheckedCall]:
    """What is judged in the place of a call. A void one does nothing, as a get; a reply that shows nothing is
    none; a write without a condition may be performed again, before it is answered or later."""
    if call.is_void:
        yield replace(call, op="get", k=None, condition=None)
        return
    hides_get = reading.gets == "any" and call.reply in ("found", "missing")
    hides_conflict = reading.conflicts == "unknown" and call.reply == "conflict"
    yield call.unanswered(f"{call.reply}, which shows nothing") if hides_get or hides_conflict else call
    if reading.writes == "repeated" and call.op != "get" and call.condition is None:
        yield replace(call.unanswered("no reply"), made=call.made + 1, is_again=True)


def version_after(call: CheckedCall, given: Optional[Numbers], before: DocVersion) -> Optional[DocVersion]:
    """The document after the call, None if the call can't be answered so in this version of it."""
    (last, k), pair, is_there = before, given or call.pair, before[1] is not None
    now = last if is_there else None
    if call.op == "get":
        return before if (call.was_there, call.pair, call.found) == (is_there, now, k) else None
    is_met = not is_there if call.op == "create" else call.condition in (None, now)
    if is_met != bool(pair) or call.was_there not in (None, is_there) or pair and last and pair <= last:
        return None
    return (pair, call.k) if pair else before


Taken = Tuple[Numbers, CheckedCall]


def taken_in(entry: int, places: List[Placed], records: List[CheckedCall], is_maybe: bool) -> Iterator[Taken]:
    """The pairs that the calls of an entry take, each with its call. Raises Broken at the first fault."""
    placed: Set[int] = set()
    latest, version = records[0], (None, None)  # type: CheckedCall, DocVersion
    for at, (record, given) in enumerate(places):
        call = records[min(record, len(records) - 1)]
        is_answered, latest = call.answered is not None, max(latest, call, key=lambda it: it.made)
        after, pair = version_after(call, given, version), given or call.pair
        faults = {
            "stranger": record >= len(records) or call.op == "get" and not is_answered,
            "twice": record in placed,
            "pair-missing": given is None and not is_answered,
            "pair-given": given is not None and is_answered and not (is_maybe and call.reply == "conflict"),
            "late": call.answered is not None and call.answered < latest.made,
            "illegal": after is None,
        }
        if after is None or any(faults.values()):
            cause = next(it for it, is_so in faults.items() if is_so)
            calls = [] if record >= len(records) else [call, latest]
            raise Broken(f"entry={entry} cause={cause} place={at}", call.id, calls, version)
        placed.add(record)
        if call.op != "get" and pair:
            yield pair, call
        version = after
    for record, call in enumerate(records):
        if call.answered is not None and record not in placed:
            raise Broken(f"entry={entry} cause=absent rec={record}", call.id, [call])


def check_order(texts: Texts, records: Dict[str, List[CheckedCall]]) -> None:
    """Raises Broken at the first fault of the entries, as an order of these records."""
    seen: Set[str] = set()
    takers: Dict[Tuple[int, Numbers], List[CheckedCall]] = {}
    for entry, (id, places) in enumerate(texts.entries):
        if id not in records or id in seen:
            raise Broken(f"entry={entry} cause={'doc-twice' if id in seen else 'doc-stranger'}", id, [])
        seen.add(id)
        for pair, call in taken_in(entry, places, records[id], texts.reading.conflicts == "maybe"):
            takers.setdefault((call.shard, pair), []).append(call)
    for number, id in enumerate(records):
        if id not in seen:
            raise Broken(f"doc={number} cause=doc-missing", id, records[id][:1])
    for (on, (term, seq)), by in sorted(takers.items(), key=lambda it: it[0]):
        if len(by) > 1:
            raise Broken(f"{term=} {seq=} cause=pair-twice{f' shard={on}' if on else ''}", by[0].id, by)


def shown(call: CheckedCall) -> Numbers:
    """The pair that the reply shows, a lesser one than any if it shows none."""
    return call.pair or (0, 0)


class Greatest:
    """The performed write with the greatest pair before a moment; each counts from a moment of its own on."""

    def __init__(self, writes: Iterable[CheckedCall], since: Callable[[CheckedCall], int]) -> None:
        counted = sorted((it for it in writes if it.pair), key=since)
        self.moments = [since(it) for it in counted]
        self.greatest = list(accumulate(counted, lambda one, other: max(one, other, key=shown)))

    def before(self, moment: int) -> Optional[CheckedCall]:
        at = bisect_left(self.moments, moment)
        return self.greatest[at - 1] if at else None


class DocumentWrites:
    """The writes of a document, by which each of its gets is judged by itself if any copy may answer it."""

    def __init__(self, calls: Iterable[CheckedCall], reading: ReadingValues) -> None:
        self.reading = reading
        writes = [it for it in calls if it.op != "get" and not it.is_void]
        self.givers: Dict[Optional[int], List[CheckedCall]] = {}
        for it in writes:
            self.givers.setdefault(it.k, []).append(it)
        self.acknowledged = Greatest(writes, lambda it: it.answered or 0)
        self.made = Greatest((it for it in writes if it.op != "delete"), lambda it: it.answered or 0)
        deletes = [it for it in writes if it.op == "delete"]
        self.deleted = Greatest(deletes, lambda it: it.made)
        again = reading.writes == "repeated"
        self.any_pair = [it.made for it in deletes if self.is_open(it) or again and it.condition is None]

    def is_open(self, write: CheckedCall) -> bool:
        """Whether what was heard of the write leaves open whether it was performed, and with which pair."""
        return write.answered is None or write.reply == "conflict" and self.reading.conflicts != "plain"

    def may_give(self, write: CheckedCall, get: CheckedCall) -> bool:
        """Whether the write, whose number the get found, may have given the document its pair by then."""
        is_its_pair = write.pair == get.pair or self.is_open(write) or self.reading.writes == "repeated"
        return write.op != "delete" and write.made < (get.answered or 0) and is_its_pair

    def may_be_gone(self, made: CheckedCall, get: CheckedCall) -> bool:
        """Whether a delete that was called before the get's reply may stand behind this write."""
        replied = get.answered or 0
        last = self.deleted.before(replied)
        return min(self.any_pair, default=replied) < replied or last is not None and shown(made) < shown(last)

    def fault_of(self, get: CheckedCall) -> Optional[Tuple[str, List[CheckedCall]]]:
        """Why no copy can have answered the get so, and the calls that show it."""
        if get.reply == "found":
            if not any(self.may_give(it, get) for it in self.givers.get(get.found, ())):
                return "no-writer", [get]
            last = self.acknowledged.before(get.made)
            return ("stale-get", [get, last]) if last is not None and shown(get) < shown(last) else None
        made = self.made.before(get.made)
        return None if made is None or self.may_be_gone(made, get) else ("missed-write", [get, made])


def check_gets(texts: Texts, gets: List[CheckedCall]) -> None:
    """Raises Broken at the first of these gets, in the order of replies, that no copy can have answered."""
    writes = {id: DocumentWrites(calls, texts.reading) for id, calls in texts.records.items()}
    for get in sorted(gets, key=lambda it: it.answered or 0):
        fault = writes[get.id].fault_of(get)
        if fault is not None:
            cause, calls = fault
            raise Broken(f"cause={cause} calls={','.join(str(it.number) for it in calls)}", get.id, calls)


class WitnessCounts(NamedTuple):
    """How many documents, calls, calls in no place, and gets judged by themselves (None if none is)."""

    docs: int
    calls: int
    left_out: int
    gets: Optional[int]


def check(texts: Texts) -> WitnessCounts:
    """Checks the witness, and the gets that are judged one by one; raises Broken at the first fault."""
    reading, calls, is_any = texts.reading, texts.calls, texts.reading.gets == "any"
    records = {id: [it for call in its for it in as_read(call, reading)] for id, its in texts.records.items()}
    check_order(texts, records)
    gets = [it for it in calls.values() if is_any and it.op == "get" and it.answered is not None]
    check_gets(texts, gets)
    placed = sum(not records[id][record].is_again for id, places in texts.entries for record, _ in places)
    left_out = len(calls) - placed - len(gets)
    return WitnessCounts(len(texts.records), len(calls), left_out, len(gets) if is_any else None)

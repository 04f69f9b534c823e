"""Witnesses: made from the log of a store, and checked without casbench.

`witness_by_log` makes the witness of a history from the changes in the store's own log, for a strict check.
`checked` runs `witness_checker`, which is independent of the prover, and adds a sentence about the calls if
the witness isn't valid. In place of a witness it takes a certificate.
"""

import heapq
from bisect import bisect_right
from typing import Iterator, List, Mapping, NamedTuple, Optional, Sequence, Tuple

from . import certificate, witness_checker
from .format import Pair, compact
from .named_calls import named, spelled
from .readings import STRICT, Reading

# From a log


class StoreLog(NamedTuple):
    """What a store's own log says of the calls of a history, by their numbers.

    `changes` has the pair of each change, by the call that made it. `seen` has for each other answered call
    the pair of the last change that its answer had seen: of its shard, or of its document alone.
    """

    changes: Mapping[int, Pair]
    seen: Mapping[int, Pair]


class PlaceInLog(NamedTuple):
    """A place of a document: its pair, whether it follows the change with this pair, the number of its
    record, and whether the pair is written to the witness."""

    pair: Pair
    is_behind: bool
    record: int
    is_given: bool


def witness_by_log(history: bytes, log: StoreLog) -> Iterator[str]:
    """Returns the lines of a witness according to the log: each change in the order of the log, each other
    answered call after the last change that it had seen. Calls that are neither in the log nor in `seen` have
    no place.

    An answer that had not seen a change which was acknowledged before its call came from a node that was
    behind, such as a leader that was replaced. If it is true at a moment of the call all the same, as a
    conflict may be, the call has the first such place.
    """
    for id, calls in witness_checker.Texts(history, b"").records.items():
        yield compact({"doc": id}) + "\n"
        places = sorted(filter(None, (place_of(*it, log) for it in enumerate(calls))))
        for place in sorted(DocumentOrder(calls, places).in_time()):
            yield text_of_place(place)


class DocumentOrder:
    """The changes of a document in the order of the log, what the document is after each, and the places of
    its other calls."""

    def __init__(
        self, calls: Sequence[witness_checker.CheckedCall], places: Sequence[PlaceInLog]
    ) -> None:
        self.calls = calls
        self.changes = [it for it in places if not it.is_behind]
        self.others = sorted((it for it in places if it.is_behind), key=lambda it: it.record)
        self.versions: List[witness_checker.DocVersion] = [(None, None)]
        for it in self.changes:
            call, given = calls[it.record], it.pair if it.is_given else None
            after = witness_checker.version_after(call, given, self.versions[-1])
            self.versions.append(after or (it.pair, call.k))

    def in_time(self) -> Iterator[PlaceInLog]:
        """Returns the places. A call whose answer was behind has a later one if it fits there."""
        yield from self.changes
        pairs = [it.pair for it in self.changes]
        # the answers so far, each with how many changes stand before what is called after it
        before = [(self.calls[it.record].answered, at) for at, it in enumerate(self.changes, 1)]
        answers = [(answered, at) for answered, at in before if answered is not None]
        heapq.heapify(answers)
        least = 0
        for it in self.others:
            call = self.calls[it.record]
            while answers and answers[0][0] < call.made:
                least = max(least, heapq.heappop(answers)[1])
            at = bisect_right(pairs, it.pair)
            later = self.later(call, least) if at < least else None
            if later is not None:
                at, it = later, it._replace(pair=pairs[later - 1])
            heapq.heappush(answers, (call.answered or 0, at))
            yield it

    def later(self, call: witness_checker.CheckedCall, least: int) -> Optional[int]:
        """Returns the least number of changes, of `least` and more, after which the document is as the reply
        says. None of them was called after the reply."""
        for at in range(least, len(self.versions)):
            if at > least and self.calls[self.changes[at - 1].record].made > (call.answered or 0):
                return None
            if witness_checker.version_after(call, None, self.versions[at]) is not None:
                return at
        return None


def place_of(record: int, call: witness_checker.CheckedCall, log: StoreLog) -> Optional[PlaceInLog]:
    """Returns the place of a call. It gives the pair of a change if no reply shows it."""
    if call.number in log.changes:
        return PlaceInLog(log.changes[call.number], False, record, call.pair is None)
    if call.answered is not None and call.number in log.seen:
        return PlaceInLog(log.seen[call.number], True, record, False)
    return None


def text_of_place(place: PlaceInLog) -> str:
    """Returns the line of a place."""
    given = {"seq": place.pair.seq, "term": place.pair.term} if place.is_given else {}
    return compact({"rec": place.record, **given}) + "\n"


# The check


def version_named(last: Optional[Tuple[int, int]], k: Optional[int]) -> str:
    """Describes a document by the pair of its last change and its number."""
    if last is None:
        return "was never written"
    return f"was deleted by {spelled(last)}" if k is None else f"has the version {spelled(last)} with k={k}"


SENTENCES = {
    "doc-stranger": "No call of the history is of the document {id}.",
    "doc-twice": "An earlier entry is of the document {id} too.",
    "doc-missing": "No entry is of the document {id}, whose first call is {first}.",
    "no-record": "The document {id} has no record with this number.",
    "stranger": "A get without a reply has no place, and this place is that of {first}.",
    "twice": "An earlier place of the document {id} is that of {first} too.",
    "pair-missing": "The place gives no pair, though no reply shows which pair was taken by {first}.",
    "pair-given": "The place gives a pair, though its call was answered: {first}.",
    "late": "Before the place stands {second}, which was made after the reply to {first}.",
    "illegal": "The reply can't be that of {first}, since the document {id} {version} before the place.",
    "absent": "The document {id} has no place for an answered call, {first}.",
    "pair-twice": "One pair is taken by two calls of a shard, {first} and {second}.",
    "no-writer": "No write that was made before the reply can have given the document {id} what was found by "
    "{first}.",
    "stale-get": "An older version was found by {first} than was written by {second}, whose reply came "
    "before the get was made.",
    "missed-write": "Nothing was found by {first}, though a reply came before it was made to {second}, and "
    "no delete can be behind that.",
}
"""What is wrong, by the cause. `first` and `second` are calls, `version` is the document before a place."""


def sentence_of(fault: witness_checker.Broken) -> str:
    """Returns what is wrong with a witness, in one sentence that names the calls."""
    where, id, calls, *version = fault.args
    cause = dict(it.split("=", 1) for it in where.split())["cause"]
    first, second = ([named(it) for it in calls] + ["", ""])[:2]
    sentence = SENTENCES["no-record" if cause == "stranger" and not calls else cause]
    return sentence.format(
        id=compact(id), first=first, second=second, version=version_named(*version[0]) if version else ""
    )


def words_of(reading: Reading) -> witness_checker.ReadingValues:
    """Returns the reading as the checker takes it: the values of the options."""
    return witness_checker.ReadingValues(*(it.value for it in reading))


def checked(history: bytes, witness: bytes, reading: Reading = STRICT) -> Tuple[int, str]:
    """Checks the two texts, of which the second may be a certificate; returns the exit status and the
    output."""
    if certificate.is_certificate(witness):
        return certificate.checked(history, witness, words_of(reading))
    try:
        counts = witness_checker.check(witness_checker.Texts(history, witness, words_of(reading)))
    except witness_checker.Refused as fault:
        return 2, f"refused {fault}"
    except witness_checker.Broken as fault:
        return 1, f"broken {fault.args[0]}\n{sentence_of(fault)}"
    gets = "" if counts.gets is None else f" gets={counts.gets}"
    return 0, f"verified docs={counts.docs} calls={counts.calls} left_out={counts.left_out}{gets}"

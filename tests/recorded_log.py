#!/usr/bin/env python3
"""Tests witnesses that the package makes by the log of a store.

    python3 tests/recorded_log.py [PROGRAM]

PROGRAM is the built casbench; if it isn't named, the one that ./casbench would run. The last line says how
many tests passed and failed.
"""

import json
import sys

from program import TOP
from program_test import ProgramTest, run_tests
from running import asked

sys.path.insert(0, str(TOP / "recording"))

from casbench_recording.history import Pair
from casbench_recording.history.witness import StoreLog, checked, witness_by_log

CONFLICT = {"error": {"type": "version_conflict_engine_exception"}}


def call(number, op, **condition):
    """The line of a call on a document."""
    k = {"k": number} if op in ("index", "create") else {}
    return {"e": "call", "n": number, "id": "d", "op": op, **k, **condition}


def under(number):
    """The condition of a write."""
    return {"if_seq_no": number, "if_primary_term": 1}


def changed(number, result, seq):
    """The line of the reply to a write that was performed."""
    status = {"created": 201, "not_found": 404}.get(result, 200)
    body = {"_id": "d", "result": result, "_seq_no": seq, "_primary_term": 1}
    return {"e": "reply", "n": number, "status": status, "body": body}


def conflict(number):
    """The line of the reply to a write whose condition was not met."""
    return {"e": "reply", "n": number, "status": 409, "body": CONFLICT}


def missing(number):
    """The line of the reply to a get that found nothing."""
    return {"e": "reply", "n": number, "status": 404, "body": {"_id": "d", "found": False}}


def found(number, seq, k):
    """The line of the reply to a get that found this version."""
    body = {"_id": "d", "found": True, "_seq_no": seq, "_primary_term": 1, "_source": {"k": k}}
    return {"e": "reply", "n": number, "status": 200, "body": body}


# The document is created by the call 0, and updated or deleted by the call 1, before anything else is asked.
CREATED = [call(0, "create"), changed(0, "created", 1)]
UPDATED = [*CREATED, call(1, "index"), changed(1, "updated", 2)]
DELETED = [*CREATED, call(1, "delete"), changed(1, "deleted", 2)]
BOTH = {0: 1, 1: 2}


class WitnessesByLog(ProgramTest):
    """The place of each call."""

    def witness(self, lines, changes, seen):
        """The places of the witness by a log, and what is said of it. The log has the number of the change
        that each call made, or had seen."""
        history = "".join(json.dumps(it) + "\n" for it in lines).encode()
        log = StoreLog(*({call: Pair(1, seq) for call, seq in it.items()} for it in (changes, seen)))
        witness = "".join(witness_by_log(history, log)).encode()
        answer, own = asked(self.program, "verify", history, witness)[1].strip(), checked(history, witness)[1]
        self.assertEqual(answer, own.partition("\n")[0])
        return [json.loads(it)["rec"] for it in witness.splitlines()[1:]], answer

    def check_verified(self, order, *texts):
        calls = len(order)
        self.assertEqual(self.witness(*texts), (order, f"verified docs=1 calls={calls} left_out=0"))

    def check_broken(self, order, cause, *texts):
        placed, answer = self.witness(*texts)
        self.assertEqual(placed, order)
        self.assertRegex(answer, f"^broken entry=0 cause={cause} ")

    def test_a_call_stands_after_the_change_that_it_had_seen(self):
        lines = [*UPDATED, call(2, "get"), found(2, 2, 1), call(3, "create"), conflict(3)]
        self.check_verified([0, 1, 2, 3], lines, BOTH, {2: 2, 3: 2})

    def test_a_call_that_meets_a_change_stands_where_it_had_seen(self):
        """It may stand before the change, or after it, and was answered by what was before."""
        lines = [*CREATED, call(1, "index"), call(2, "create"), changed(1, "updated", 2), conflict(2)]
        self.check_verified([0, 2, 1], lines, BOTH, {2: 1})
        self.check_verified([0, 1, 2], lines, BOTH, {2: 2})

    def test_a_conflict_that_was_behind_stands_later_if_it_holds_there(self):
        self.check_verified([0, 1, 2], [*UPDATED, call(2, "create"), conflict(2)], BOTH, {2: 1})
        self.check_verified([0, 1, 2], [*UPDATED, call(2, "index", **under(1)), conflict(2)], BOTH, {2: 0})

    def test_a_get_that_missed_a_document_made_and_deleted_stands_later(self):
        self.check_verified([0, 1, 2], [*DELETED, call(2, "get"), missing(2)], BOTH, {2: 0})

    def test_it_stands_at_the_first_place_that_fits(self):
        """What was changed after it, though before its reply, stands after it."""
        writes = [call(3, "create"), call(4, "delete"), changed(3, "created", 3), changed(4, "deleted", 4)]
        lines = [*DELETED, call(2, "get"), *writes, missing(2)]
        self.check_verified([0, 1, 2, 3, 4], lines, {**BOTH, 3: 3, 4: 4}, {2: 0})

    def test_it_stands_after_the_calls_that_ended_before_it(self):
        """The first get had seen that the document was deleted; the second one was behind, and can't stand
        before the first."""
        more = [call(2, "create"), call(3, "delete"), call(4, "get"), missing(4), call(5, "get"), missing(5)]
        lines = [*DELETED, *more, changed(2, "created", 3), changed(3, "deleted", 4)]
        self.check_verified([0, 1, 2, 3, 4, 5], lines, {**BOTH, 2: 3, 3: 4}, {4: 4, 5: 2})

    def test_a_stale_get_has_no_other_place(self):
        self.check_broken([0, 2, 1], "late", [*UPDATED, call(2, "get"), found(2, 1, 0)], BOTH, {2: 1})
        self.check_broken([2, 0, 1], "late", [*UPDATED, call(2, "get"), missing(2)], BOTH, {2: 0})

    def test_a_conflict_that_holds_nowhere_has_no_other_place(self):
        """The node that refused the write was behind: the document had the version that the write names."""
        lines = [*UPDATED, call(2, "index", **under(2)), conflict(2)]
        self.check_broken([0, 2, 1], "late", lines, BOTH, {2: 1})

    def test_a_place_after_its_reply_does_not_count(self):
        lines = [*UPDATED, call(2, "get"), missing(2), call(3, "delete"), changed(3, "deleted", 3)]
        self.check_broken([2, 0, 1, 3], "late", lines, {**BOTH, 3: 3}, {2: 0})


if __name__ == "__main__":
    sys.exit(run_tests())

#!/usr/bin/env python3
"""Tests recordings without end: which part a call goes to, with which lines a document begins there, and when a part is finished.

    python3 tests/recorded_continuing.py [PROGRAM]

PROGRAM is the built casbench; if it isn't named, the one that ./casbench would run. The last line says how many tests passed and
failed. That what is refuted of a part is true of the whole is tested by tests/continuing.py.
"""

import contextlib
import itertools
import json
import os
import pathlib
import re
import resource
import signal
import sys

from program_test import run_tests
from recordings import FolderTest, judged
from texts import created, found, get, index, lost, missing, updated

from casbench_recording.history import MOST_EVENTS, CallError, Ended, HistoryError, Operation, Pair
from casbench_recording.history.continuing import MOST_GROWING, MOST_LOST, Continuing, TooManyLost
from casbench_recording.history.readings import OPENSEARCH, STRICT, Conflicts, Gets, Reading, Writes


def rows(text):
    """The lines of a text without their times, and of a reply's body without what doesn't count."""
    return re.sub(r'"t":\d+,|,"t":\d+', "", text)


@contextlib.contextmanager
def files_of_at_most(count):
    """Has no file take more than so many bytes in the block."""
    handler = signal.signal(signal.SIGXFSZ, signal.SIG_IGN)
    limits = resource.getrlimit(resource.RLIMIT_FSIZE)
    resource.setrlimit(resource.RLIMIT_FSIZE, (count, limits[1]))
    try:
        yield
    finally:
        resource.setrlimit(resource.RLIMIT_FSIZE, limits)
        signal.signal(signal.SIGXFSZ, handler)


class ContinuingTest(FolderTest):
    """A test with a recording without end, in parts of two calls, if nothing else is said."""

    def setUp(self):
        super().setUp()
        self.parts = pathlib.Path(self.folder) / "parts"

    def recording(self, part=2, **how):
        recording = Continuing(str(self.parts), part, **how)
        self.addCleanup(recording.end)
        return recording

    def names(self):
        """The files of the directory."""
        return sorted(os.listdir(self.parts))

    def text(self, number, suffix=""):
        """The lines of a part."""
        return rows((self.parts / f"part-{number:06}.ndjson{suffix}").read_text())


class Beginnings(ContinuingTest):
    """The lines with which a document begins its next part."""

    def begun(self, *made, reading=STRICT):
        """The lines of the second part, after these calls in the first one: each a call, and what ends it."""
        self.parts = self.parts.with_name(f"parts-{next(self.names_left)}")
        with self.recording(len(made), reading=reading) as recording:
            for call, end in made:
                end(recording.call(*call))
            recording.call("get", "d").missing()
        return self.text(2)

    def setUp(self):
        super().setUp()
        self.names_left = itertools.count()

    CREATED = (("index", "d", 7), lambda call: call.indexed(Pair(1, 4), created=True))
    DELETED = (("delete", "d"), lambda call: call.deleted(Pair(1, 5), found=True))
    LOST = (("index", "d", 8), lambda call: call.lost())
    STATED = index(0, k=7) + created(0, 1, 4, "d")

    def test_the_last_version(self):
        self.assertEqual(self.begun(self.CREATED), self.STATED + get(1) + missing(1, "d"))

    def test_a_version_that_only_a_get_showed(self):
        found = (("get", "d"), lambda call: call.found(Pair(1, 6), 9))
        self.assertEqual(self.begun(self.CREATED, found), index(0, k=9) + created(0, 1, 6, "d") + get(1) + missing(1, "d"))

    def test_the_greatest_pair_and_not_the_last_one(self):
        late = (("index", "d", 9), lambda call: call.indexed(Pair(1, 2), created=False))
        self.assertEqual(self.begun(self.CREATED, late), self.STATED + get(1) + missing(1, "d"))

    def test_a_deletion(self):
        stated = '{"e":"call","n":0,"id":"d","op":"delete"}\n'
        stated += '{"e":"reply","n":0,"status":404,"body":{"_id":"d","result":"not_found","_seq_no":5,"_primary_term":1}}\n'
        self.assertEqual(self.begun(self.CREATED, self.DELETED), stated + get(1) + missing(1, "d"))

    def test_no_version(self):
        self.assertEqual(self.begun(self.LOST), index(0, k=8) + lost(0) + get(1) + missing(1, "d"))

    def test_lost_writes(self):
        """Those that can't take effect any more are left out: a get, one whose condition is a lesser pair, one that a get found."""
        unmet = (("index", "d", 10, Pair(1, 3)), lambda call: call.lost())
        met = (("index", "d", 11, Pair(1, 4)), lambda call: call.lost())
        reading = (("get", "d"), lambda call: call.lost())
        unknown = (("delete", "d"), lambda call: call.reply(503, b"busy"))
        again = index(1, k=8) + '{"e":"call","n":2,"id":"d","op":"delete"}\n' + index(3, ',"if_seq_no":4,"if_primary_term":1', k=11)
        self.assertEqual(
            self.begun(self.CREATED, self.LOST, unmet, met, reading, unknown),
            self.STATED + again + lost(1) + lost(2) + lost(3) + get(4) + missing(4, "d"),
        )
        shown = (("get", "d"), lambda call: call.found(Pair(1, 5), 8))
        self.assertEqual(self.begun(self.CREATED, self.LOST, shown), index(0, k=8) + created(0, 1, 5, "d") + get(1) + missing(1, "d"))

    def test_conflicts(self):
        """Under maybe a conflict is carried over, until a call that was made after it shows a version."""
        conflict = (("index", "d", 9, Pair(1, 4)), lambda call: call.conflict())
        shown = (("get", "d"), lambda call: call.found(Pair(1, 4), 7))
        again = index(1, ',"if_seq_no":4,"if_primary_term":1', k=9) + lost(1)
        maybe = Reading(conflicts=Conflicts.MAYBE)
        self.assertEqual(self.begun(self.CREATED, conflict), self.STATED + get(1) + missing(1, "d"))
        self.assertEqual(self.begun(self.CREATED, conflict, reading=maybe), self.STATED + again + get(2) + missing(2, "d"))
        self.assertEqual(self.begun(self.CREATED, conflict, shown, reading=maybe), self.STATED + get(1) + missing(1, "d"))

    # Weaker readings: any copy may answer a get, and a lost write without a condition may be performed again.

    UNDER = (("index", "d", 9, Pair(1, 4)), lambda call: call.conflict())
    FOUND = (("get", "d"), lambda call: call.found(Pair(1, 5), 8))
    NEXT = (("index", "d", 10), lambda call: call.indexed(Pair(1, 6), created=False))
    LOST_AGAIN = index(1, k=8) + lost(1) + get(2) + missing(2, "d")

    def test_gets_of_any_copy(self):
        """What a get shows isn't stated, and its writer is carried over."""
        for reading in (Reading(Gets.ANY), OPENSEARCH):
            self.assertEqual(self.begun(self.CREATED, self.LOST, self.FOUND, reading=reading), self.STATED + self.LOST_AGAIN)

    def test_conflicts_that_show_nothing(self):
        """Such a write is carried over until a write that was made after its reply is answered; with gets of any copy no get ends that."""
        again = index(1, ',"if_seq_no":4,"if_primary_term":1', k=9) + lost(1) + get(2) + missing(2, "d")
        same = (("get", "d"), lambda call: call.found(Pair(1, 4), 7))
        unknown = Reading(conflicts=Conflicts.UNKNOWN)
        self.assertEqual(self.begun(self.CREATED, self.UNDER, reading=unknown), self.STATED + again)
        self.assertEqual(self.begun(self.CREATED, self.UNDER, same, reading=unknown), self.STATED + get(1) + missing(1, "d"))
        self.assertEqual(self.begun(self.CREATED, self.UNDER, same, reading=OPENSEARCH), self.STATED + again)
        stated = index(0, k=10) + created(0, 1, 6, "d") + get(1) + missing(1, "d")
        self.assertEqual(self.begun(self.CREATED, self.UNDER, self.NEXT, reading=OPENSEARCH), stated)

    def test_creates_that_are_refused(self):
        """One is carried over if a delete that isn't answered may have come before it."""
        refused = (("create", "d", 9), lambda call: call.conflict())
        gone = (("delete", "d"), lambda call: call.lost())
        again = '{"e":"call","n":1,"id":"d","op":"delete"}\n{"e":"call","n":2,"id":"d","op":"create","k":9}\n' + lost(1) + lost(2)
        self.assertEqual(self.begun(self.CREATED, refused, reading=OPENSEARCH), self.STATED + get(1) + missing(1, "d"))
        self.assertEqual(self.begun(self.CREATED, gone, refused, reading=OPENSEARCH), self.STATED + again + get(3) + missing(3, "d"))

    def test_writes_that_are_repeated(self):
        """A lost write that was seen may be performed again; an answered one is over."""
        repeated = Reading(writes=Writes.REPEATED)
        shown = index(0, k=8) + created(0, 1, 5, "d")
        self.assertEqual(self.begun(self.CREATED, self.LOST, self.FOUND, reading=repeated), shown + self.LOST_AGAIN)
        self.assertEqual(self.begun(self.CREATED, reading=repeated), self.STATED + get(1) + missing(1, "d"))


class Placing(ContinuingTest):
    """The part that a call goes to, and when a part is finished."""

    def test_a_document_moves_when_none_of_its_calls_is_open(self):
        recording = self.recording()
        open_call = recording.call("index", "d", 1)
        recording.call("index", "e", 2).indexed(Pair(1, 0), created=True)
        # (d has an open call, so it stays; e and f go to the next part)
        recording.call("get", "d").missing()
        recording.call("get", "e").found(Pair(1, 0), 2)
        recording.call("get", "f").missing()
        self.assertEqual(self.names(), ["part-000001.ndjson.growing", "part-000002.ndjson"])
        open_call.indexed(Pair(1, 1), created=True)
        self.assertEqual(self.names(), ["part-000001.ndjson", "part-000002.ndjson"])
        recording.call("get", "d").found(Pair(1, 1), 1)
        recording.end()
        first = index(0) + index(1, doc="e", k=2) + created(1, 1, 0, "e") + get(2) + missing(2, "d") + created(0, 1, 1, "d")
        self.assertEqual(self.text(1), first)
        second = index(0, doc="e", k=2) + created(0, 1, 0, "e") + get(1, doc="e") + found(1, 1, 0, 2, "e")
        self.assertEqual(self.text(2), second + get(2, doc="f") + missing(2, "f"))
        self.assertEqual(self.text(3), index(0) + created(0, 1, 1, "d") + get(1) + found(1, 1, 1, doc="d"))
        self.assertEqual((recording.calls, recording.lost, recording.unanswered), (6, 0, 0))
        self.assertEqual([judged(self.program, self.parts / it).partition(" ")[0] for it in self.names()], ["yes"] * 3)

    def test_a_full_part(self):
        """Its documents leave it with open calls, which are lost in it and in the next part, whatever is heard of them later."""
        recording = self.recording(most_events=4)
        write = recording.call("index", "d", 1)
        read = recording.call("get", "d")
        other = recording.call("get", "d")
        write.indexed(Pair(1, 0), created=True)
        read.found(Pair(1, 0), 1)
        other.found(Pair(1, 0), 1)
        recording.call("index", "d", 2).indexed(Pair(1, 1), created=False)
        recording.end()
        self.assertEqual(self.text(1), index(0) + get(1) + lost(0) + lost(1))
        self.assertEqual(self.text(2), index(0) + lost(0) + get(1) + found(1, 1, 0, doc="d"))
        self.assertEqual(self.text(3), index(0) + created(0, 1, 0, "d") + index(1, k=2) + updated(1, 1, 1, "d"))
        self.assertEqual((recording.calls, recording.lost, recording.unanswered), (4, 0, 0))

    def test_a_full_part_that_still_grows(self):
        """What is heard of a call whose document left the part isn't written there."""
        recording = self.recording(most_events=4)
        write, read, held = recording.call("index", "d", 1), recording.call("get", "e"), recording.call("get", "d")
        self.assertEqual(self.names(), ["part-000001.ndjson.growing", "part-000002.ndjson.growing"])
        write.indexed(Pair(1, 0), created=True)
        read.missing()
        self.assertEqual(self.text(1), index(0) + get(1, doc="e") + lost(0) + missing(1, "e"))
        held.found(Pair(1, 0), 1)
        self.assertEqual((recording.calls, recording.replies, recording.lost), (3, 3, 0))

    def test_many_parts_that_grow(self):
        recording = self.recording(1)
        calls = [recording.call("get", f"d{number}") for number in range(MOST_GROWING + 2)]
        self.assertEqual(sum(it.endswith(".growing") for it in self.names()), MOST_GROWING)
        for call in calls:
            call.missing()
        self.assertEqual(self.text(1), '{"e":"call","n":0,"id":"d0","op":"get"}\n' + lost(0))
        self.assertEqual(self.text(3), '{"e":"call","n":0,"id":"d2","op":"get"}\n' + missing(0, "d2"))
        recording.call("get", "d0").missing()
        self.assertEqual((recording.calls, recording.replies), (MOST_GROWING + 3, MOST_GROWING + 3))

    def test_several_calls_at_once(self):
        recording = self.recording(3)
        calls = recording.call_all([Operation("get", "d"), Operation("get", "e"), Operation("get", "d"), Operation("get", "f")])
        self.assertEqual([it.operation.id for it in calls], ["d", "e", "d", "f"])
        recording.end_all([(it, (404, '{"found":false}')) for it in calls])
        recording.end()
        self.assertEqual(self.text(1).count('"call"'), 3)
        self.assertEqual(self.text(2), get(0, doc="f") + '{"e":"reply","n":0,"status":404,"body":{"found":false}}\n')
        with self.assertRaises(Ended):
            recording.call("get", "d")

    def test_calls_that_no_history_can_have(self):
        recording = self.recording()
        for wrong in (Operation("get", ""), Operation("get", "d", shard=2), Operation("index", "d")):
            recording.call("get", "d").missing()
            before = recording.calls
            with self.assertRaises(CallError):
                recording.call_all([Operation("get", "e"), wrong])
            self.assertEqual(recording.calls, before)
        call = recording.call("get", "d")
        call.missing()
        with self.assertRaises(CallError):
            call.lost()
        recording.end()
        self.assertNotIn('"id":"e"', "".join(self.text(it) for it in (1, 2)))

    def test_a_document_with_too_many_lost_writes(self):
        recording = self.recording(MOST_LOST + 3)
        for number in range(MOST_LOST + 1):
            recording.call("index", "d", number).lost()
        recording.call("get", "e").missing()
        held = recording.call("get", "e")
        recording.call("get", "f").missing()
        with self.assertRaises(TooManyLost) as raised:
            recording.call_all([Operation("get", "g"), Operation("get", "d")])
        self.assertEqual(raised.exception.id, "d")
        with self.assertRaises(TooManyLost):
            recording.call("get", "d")
        held.missing()
        recording.call("get", "g").missing()
        recording.end()
        self.assertEqual(self.text(2).count('"call"'), 2)
        self.assertNotIn('"id":"d"', self.text(2))

    def test_two_endings_of_a_call(self):
        """The first one counts, also if both come at once."""
        recording = self.recording()
        call, other = recording.call("get", "d"), recording.call("get", "e")
        recording.end_all([(call, None), (call, (404, '{"found":false}')), (other, None), (call, None)])
        self.assertRaises(CallError, call.lost)
        recording.lose([call, call])
        recording.end()
        self.assertEqual(self.text(1), get(0) + get(1, doc="e") + lost(0) + lost(1))
        self.assertEqual((recording.replies, recording.lost), (0, 2))

    def test_room_for_writes_that_are_repeated(self):
        """A part has room for what a check makes of it."""
        repeated = Reading(writes=Writes.REPEATED)
        self.assertEqual(self.recording(reading=repeated).room, MOST_EVENTS // 3)
        self.parts = self.parts.with_name("others")
        self.assertEqual(self.recording().room, MOST_EVENTS // 2)

    def test_the_end(self):
        recording = self.recording()
        call = recording.call("index", "d", 1)
        recording.end()
        self.assertEqual((self.text(1), recording.lost), (index(0) + lost(0), 1))
        self.assertRaises(Ended, call.lost)
        call.history.lose([call])
        with self.assertRaises(HistoryError):
            Continuing(str(self.parts))
        empty = Continuing(self.file)
        empty.end()
        self.assertFalse(os.path.exists(self.file))

    def test_notes_and_clients(self):
        """A note is on the next line of each part that grows, or of the next part; a lost write keeps its client."""
        recording = self.recording(1)
        recording.note("first")
        recording.call("index", "d", 1, client="one").lost()
        held = recording.call("get", "e")
        recording.call("get", "d")
        recording.note("both")
        held.missing()
        recording.end()
        noted = [[row.get("note") for row in map(json.loads, self.text(it).splitlines())] for it in (1, 2, 3)]
        self.assertEqual(noted, [["first", None], [None, "both"], [None, None, None, "both"]])
        self.assertEqual(self.text(3).count('"client":"one"'), 1)

    def test_a_value_that_no_other_call_writes(self):
        recording = self.recording(1)
        values = []
        for _ in range(3):
            call = recording.write("index", "d")
            values.append(call.operation.value)
            call.indexed(Pair(1, len(values)), created=len(values) == 1)
        self.assertEqual(values, [0, 1, 2])
        several = recording.write_all([Operation("get", "d"), Operation("create", "e"), Operation("delete", "d"), Operation("index", "d")])
        self.assertEqual([it.operation.value for it in several], [None, 4, None, 6])

    def test_a_disk_that_is_full_for_a_while(self):
        """A part that is full or not: its lines are whole, and the recording goes on in the next one."""
        for part in (1, 2):
            self.parts = pathlib.Path(self.folder) / f"parts-{part}"
            with self.recording(part) as recording:
                recording.call("index", "d", 1).indexed(Pair(1, 0), created=True)
                with files_of_at_most(60):
                    self.assertRaises(HistoryError, recording.call, "get", "d")
                recording.call("get", "d").found(Pair(1, 0), 1)
            answers = [judged(self.program, it) for it in sorted(self.parts.iterdir())]
            self.assertEqual(answers, ["yes docs=1 calls=1 left_out=0", "yes docs=1 calls=2 left_out=0"])

    def test_damage(self):
        recording = self.recording()
        recording.call("get", "d")
        self.assertIsNone(recording.damage())
        os.remove(self.parts / "part-000001.ndjson.growing")
        self.assertIn("was removed while it was recorded", recording.damage())
        self.assertRaises(HistoryError, recording.end)

    def test_what_is_remembered(self):
        """A recording of many calls keeps as much in memory as one of few."""
        for reading in (STRICT, Reading(conflicts=Conflicts.MAYBE), OPENSEARCH):
            self.parts = self.parts.with_name(f"parts-{reading.conflicts.value}")
            self.check_remembered(self.recording(50, reading=reading))

    def check_remembered(self, recording):
        pair = 0
        for number in range(1000):
            recording.call("index", "d", number, Pair(1, pair)).lost()
            pair += 2
            recording.call("index", "d", number).indexed(Pair(1, pair), created=False)
            recording.call("create", "d", number).conflict()
        document = recording._documents["d"]
        past = document.past
        kept = [len(it) for it in (recording._open, recording._growing, past._lost_blind, past._lost_conditional, past._refused)]
        self.assertLessEqual(max(kept), 1, kept)


if __name__ == "__main__":
    sys.exit(run_tests())

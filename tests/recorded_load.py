#!/usr/bin/env python3
"""Tests the package's load, the clients that a store is recorded by, on stores in memory.

    python3 tests/recorded_load.py [PROGRAM]

PROGRAM is the built casbench; if it isn't named, the one that ./casbench would run. The last line says how many tests passed and failed.
"""

import contextlib
import io
import sys
import threading
import time
from collections import Counter
from itertools import groupby

from program import TOP
from program_test import run_tests
from recordings import FolderTest

from casbench_recording.history import History, HistoryError, Pair
from casbench_recording.load import MIXTURE, Draw, Habits, Kind, Load, NoOutcome, Outcome, Unreachable
from casbench_recording.load import lost_by, own_shard

sys.path.insert(0, str(TOP / "examples" / "harness"))

from dictionary import Dictionary, Session

MANY = Habits(MIXTURE, documents=3)


class Nodes(Dictionary):
    """A dictionary behind several nodes, which notes what is asked at each, and takes so many seconds for it. What the faults of a node say
    happens there."""

    def __init__(self, nodes, faults=(), pause=0.0):
        super().__init__("none")
        self.nodes, self.faults, self.pause = nodes, dict(faults), pause
        self.connected, self.sent, self.closed, self.after_a_fault, self.bulks = Counter(), Counter(), Counter(), 0, 0
        self.guard = threading.Lock()

    def connect(self, node):
        with self.guard:
            self.connected[node] += 1
        if self.faults.get(node) == "unreachable":
            raise Unreachable
        return NodeSession(self, node)


class NodeSession(Session):
    """A session with a node. One whose answer didn't come has an answer owed, and must not be asked again. It takes several calls by one
    request, of which it answers none that deletes."""

    def __init__(self, store, node):
        super().__init__(store)
        self.node, self.has_failed = node, False

    def send(self, call):
        self.send_all([call])

    def send_all(self, calls):
        time.sleep(self.store.pause)
        with self.store.guard:
            self.store.sent[self.node] += 1
            self.store.bulks += len(calls) > 1
            self.store.after_a_fault += self.has_failed or not self.is_open

    def outcomes(self, calls):
        return [None if call.operation.op == "delete" else self.outcome(call) for call in calls]

    def outcome(self, call):
        outcome = super().outcome(call)
        if self.store.faults.get(self.node) == "silent":
            self.has_failed = True
            raise NoOutcome("silent")
        if self.store.faults.get(self.node) == "odd" and call.number % 4 == 0:
            self.has_failed = True
            raise KeyError("odd\nlines")
        self.is_open = self.store.faults.get(self.node) != "closes"
        return outcome

    def close(self):
        with self.store.guard:
            self.store.closed[self.node] += 1


def two_groups(history, store):
    """A load of two clients on each of two nodes, and those of the second, which only read."""
    load = Load(history, seed=3)
    load.add_clients(2, store, MANY, node=0)
    return load, load.add_clients(2, store, Habits({"get": 1}), node=1)


class LoadTest(FolderTest):
    """What the clients do."""

    def run_load(self, store, calls=400, clients=4, habits=MANY, **run):
        """Runs a load with a history of so many calls."""
        with History(self.file, most_events=2 * calls) as history:
            load = Load(history, seed=3)
            load.add_clients(clients, store, habits)
            load.run(**run)
        return load

    def test_what_an_honest_store_answers_is_recorded(self):
        self.run_load(Nodes(2))
        self.assertEqual(self.check(), "yes docs=3 calls=400 left_out=0")
        rows = self.lines()
        self.assertEqual({it["op"] for it in rows if it["e"] == "call"}, {"get", "index", "create", "delete"})
        self.assertTrue(any("if_seq_no" in it and it["op"] == "delete" for it in rows))
        # the value of a write is the number of its call
        self.assertTrue(all(it["k"] == it["n"] for it in rows if "k" in it))

    def test_one_client_makes_the_same_calls_by_one_seed(self):
        texts = []
        for name in ("one", "two"):
            self.file = f"{self.folder}/{name}"
            self.run_load(Nodes(1), calls=100, clients=1)
            texts.append([{key: value for key, value in it.items() if key != "t"} for it in self.lines()])
        self.assertEqual(*texts)
        self.assertEqual([Draw("7/0").below(100) for _ in range(3)], [Draw("7/0").below(100)] * 3)

    def test_dropped_answers_are_lost_whether_they_were_performed_or_not(self):
        store = Nodes(1)
        load = self.run_load(store, habits=Habits(MIXTURE, 3, dropped=200))
        self.assertTrue(40 <= load.history.lost <= 160, load.history.lost)
        self.assertEqual(sum(store.sent.values()), 400)
        self.assertEqual(self.check().partition(" left_out")[0], "yes docs=3 calls=400")
        # a client with an answer owed closes its connection
        self.assertEqual(store.connected[0], store.closed[0])
        self.assertGreater(store.closed[0], load.history.lost)

    def test_a_call_without_an_outcome_is_lost_and_the_next_node_is_asked(self):
        store = Nodes(2, {0: "silent"})
        load = self.run_load(store)
        self.assertEqual(store.sent[0], load.history.lost)
        self.assertGreater(store.sent[1], 300)
        self.assertEqual(store.after_a_fault, 0)

    def test_a_node_that_is_not_reached_is_not_asked(self):
        store = Nodes(2, {0: "unreachable"})
        load = self.run_load(store)
        self.assertEqual((store.sent[0], load.history.lost), (0, 0))
        self.assertGreater(store.connected[0], 0)

    def test_a_node_that_closes_a_connection_is_connected_to_again(self):
        store = Nodes(2, {0: "closes", 1: "closes"})
        load = self.run_load(store)
        self.assertEqual((store.after_a_fault, load.history.lost), (0, 0))
        # (each of two clients stays with its node; one that connected as the history became full sent nothing)
        for node in (0, 1):
            self.assertIn(store.connected[node] - store.sent[node], range(3))
        self.assertEqual(store.connected, store.closed)
        self.assertGreater(min(store.sent[0], store.sent[1]), 50)

    def test_several_calls_are_made_by_one_request(self):
        store = Nodes(1)
        habits = Habits({"index-if": 2, "delete-if": 1, "create": 1, "bulk": 3}, 3, calls=100, bulk_items=5)
        load = self.run_load(store, calls=1000, habits=habits)
        rows = self.lines()
        self.assertEqual(self.check().partition(" left_out")[0], "yes docs=3 calls=400")
        self.assertGreater(store.bulks, 20)
        # what one answer says nothing of is lost, the rest of the request isn't
        self.assertGreater(load.history.lost, 10)
        self.assertGreater(load.history.replies, 300)
        # all items are called before any is answered, and some under a pair that was received before
        runs = [list(its) for kind, its in groupby(rows, key=lambda it: it["e"]) if kind == "call"]
        self.assertTrue(any(len(it) >= 5 and any("if_seq_no" in row for row in it) for it in runs))
        self.assertTrue(all(it["k"] == it["n"] for it in rows if "k" in it))

    def test_a_client_makes_as_many_calls_as_it_is_given(self):
        for habits in (Habits(MIXTURE, 3, calls=7), Habits({"bulk": 1}, 3, calls=7, bulk_items=3)):
            self.file = f"{self.folder}/{habits.bulk_items}"
            load = self.run_load(Nodes(1), habits=habits)
            self.assertEqual([it.calls for it in load.clients], [7] * 4)
            self.assertEqual(load.history.calls, 28)

    def test_it_ends_on_request(self):
        with History(self.file) as history:
            load = Load(history, seed=3, has_ended=lambda: history.calls >= 50)
            load.add_clients(4, Nodes(1, pause=0.001), MANY)
            load.run()
        # (each of four clients may be at its call, or at the second one of its turn)
        self.assertTrue(50 <= history.calls <= 53, history.calls)

    def test_an_interruption_does_not_wait_for_open_calls(self):
        """Then the history ends, and with it the clients."""

        def disturb():
            load.wait_for(4)
            raise KeyboardInterrupt

        with History(self.file, most_events=1000) as history:
            load = Load(history, seed=3)
            load.add_clients(4, Nodes(1, pause=5), MANY)
            began = time.monotonic()
            self.assertRaises(KeyboardInterrupt, load.run, disturb, calls_between=0)
        self.assertLess(time.monotonic() - began, 4)
        for it in load.clients:
            it.join()
        self.assertEqual((history.calls, history.lost, load.faults), (4, 4, []))

    def test_a_fault_that_says_nothing_of_a_call_loses_it(self):
        with self.assertRaisesRegex(NoOutcome, "odd"), lost_by(OSError):
            raise ConnectionError("odd")
        with self.assertRaises(ValueError), lost_by(OSError, KeyError):
            raise ValueError("odd")

    def test_a_bound_client_stays(self):
        store = Nodes(2, {0: "silent"})
        with History(self.file, most_events=14) as history:
            load = Load(history, seed=3)
            load.add_clients(1, store, Habits({"get": 1}, is_bound=True), node=0)
            load.run()
        self.assertEqual((store.sent[0], store.sent[1], history.lost), (7, 0, 7))

    def test_a_client_that_is_answered_at_once_with_an_error_pauses(self):
        """Each pause is twice as long as the one before, up to half a second."""
        store = Nodes(2, {0: "silent"})
        with History(self.file, most_events=14) as history:
            load = Load(history, seed=3)
            load.add_clients(1, store, Habits({"get": 1}, is_bound=True), node=0)
            began = time.monotonic()
            load.run()
        # (before the second call to the seventh)
        self.assertGreaterEqual(time.monotonic() - began, 0.02 + 0.04 + 0.08 + 0.16 + 0.32 + 0.5)

    def test_a_node_that_is_out_of_order_uses_up_few_calls(self):
        """Of two clients one is bound to such a node; the other one makes nearly all calls."""
        store = Nodes(2, {0: "silent"})
        with History(self.file, most_events=1000) as history:
            load = Load(history, seed=3)
            for node in (0, 1):
                load.add_clients(1, store, Habits({"get": 1}, is_bound=True), node=node)
            load.run()
        self.assertEqual(history.calls, 500)
        self.assertTrue(1 <= history.lost <= 50, history.lost)

    def test_a_client_does_not_pause_for_what_came_late_or_was_dropped(self):
        for store, dropped in ((Nodes(1, {0: "silent"}, pause=0.06), 0), (Nodes(1), 1000)):
            self.file = f"{self.folder}/{dropped}"
            with History(self.file, most_events=20) as history:
                load = Load(history, seed=3)
                (client,) = load.add_clients(1, store, Habits({"get": 1}, dropped=dropped))
                load.run()
            self.assertEqual((history.lost, client.pause), (10, 0.0))

    def test_documents_on_shards_of_their_own(self):
        self.run_load(Nodes(1), habits=Habits(MIXTURE, 3, shard_of=own_shard))
        calls = [it for it in self.lines() if it["e"] == "call"]
        self.assertEqual({(it["id"], it.get("shard", 0)) for it in calls}, {("d0", 0), ("d1", 1), ("d2", 2)})
        self.assertEqual(self.check(), "yes docs=3 calls=400 left_out=0")

    def test_an_exception_that_no_lost_by_names_loses_the_call(self):
        """It is reported once, in one line, and the recording goes on."""
        for kind in ("get", "bulk"):
            self.file = f"{self.folder}/{kind}"
            with contextlib.redirect_stderr(io.StringIO()) as reported:
                load = self.run_load(Nodes(1, {0: "odd"}), habits=Habits({kind: 1, "index": 1}, 3))
            self.assertEqual((load.history.calls, load.faults), (400, []))
            self.assertGreaterEqual(load.history.lost, 100)
            (line,) = reported.getvalue().splitlines()
            self.assertRegex(line, r"^load: call \d+ is lost by KeyError, which no lost_by names, at ")
            self.assertRegex(line, r" at recorded_load.py:\d+: .*odd")
            self.assertEqual(self.check().partition(" left_out")[0], "yes docs=3 calls=400")

    def test_an_exception_by_which_each_call_is_lost_ends_the_recording(self):
        """A history without replies would get `yes`, though the mapping never works."""

        class Broken(Nodes):
            def get(self, id):
                raise KeyError(id)

        with contextlib.redirect_stderr(io.StringIO()) as reported:
            self.assertRaises(KeyError, self.run_load, Broken(1), calls=20, habits=Habits({"get": 1}))
        self.assertIn("which no lost_by names", reported.getvalue())

    def test_a_fault_of_the_history_ends_the_recording(self):
        class Full(Outcome):
            def write(self, call):
                raise HistoryError("no space left")

        class Store(Nodes):
            def get(self, id):
                return Full(Kind.MISSING)

        self.assertRaises(HistoryError, self.run_load, Store(1), habits=Habits({"get": 1}))

    def test_it_is_disturbed_each_time_there_are_so_many_more_calls(self):
        at = []
        load = self.run_load(Nodes(1, pause=0.01), disturb=lambda: at.append(None), calls_between=100)
        self.assertTrue(1 <= len(at) <= 3, len(at))
        self.assertEqual(load.history.calls, 400)

    def test_held_clients_make_no_calls(self):
        store = Nodes(2, pause=0.01)
        counts = []
        with History(self.file, most_events=1200) as history:
            load, readers = two_groups(history, store)

            def disturb():
                load.hold(readers)
                load.wait(0.5, 0.5)
                counts.append(store.sent[1])
                load.wait_for(history.calls + 50)
                counts.append(store.sent[1])
                load.release(readers)
                load.wait(0.2, 0.2)

            load.run(disturb, calls_between=100)
        self.assertEqual(counts[0::2], counts[1::2])
        self.assertGreater(counts[-1], counts[0])

    def test_clients_are_waited_for(self):
        store = Nodes(2, pause=0.01)
        waited = []
        with History(self.file, most_events=400) as history:
            load, others = two_groups(history, store)

            def disturb():
                before = [it.calls for it in others]
                load.wait_for_each(others, 60)
                waited.extend(it.calls - calls for it, calls in zip(others, before))
                load.hold(others)
                began = time.monotonic()
                load.wait_for_each(others, 0.2)
                load.wait_for_each(others, 0.2)
                self.assertLess(time.monotonic() - began, 10)
                load.release(others)

            load.run(disturb, calls_between=40)
        self.assertGreater(len(waited), 0)
        # (at the end of the load nobody is waited for)
        self.assertGreater(min(waited[:-2] or waited), 0)

    def test_what_a_client_meets_is_raised(self):
        for fault in (OSError("odd"), KeyboardInterrupt()):

            def disturb():
                raise fault

            self.file = f"{self.folder}/{type(fault).__name__}"
            self.assertRaises(type(fault), self.run_load, Nodes(1, pause=0.01), disturb=disturb, calls_between=100)

    def test_an_outcome_without_a_pair_is_none(self):
        with History(self.file) as history:
            call = history.call("index", "d", 1)
            self.assertRaises(NoOutcome, Outcome(Kind.CREATED).write, call)
            self.assertTrue(call.is_open)
            Outcome(Kind.CREATED, Pair(1, 3)).write(call)
            self.assertFalse(call.is_open)


if __name__ == "__main__":
    sys.exit(run_tests())

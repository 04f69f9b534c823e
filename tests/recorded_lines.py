#!/usr/bin/env python3
"""Tests the histories that recorders write with the package in recording/: their lines, limits and parts.

    python3 tests/recorded_lines.py [PROGRAM]

PROGRAM is the built casbench; if it isn't named, the one that ./casbench would run. The last line says how many tests
passed and failed.
"""

import importlib.util
import json
import os
import pathlib
import resource
import subprocess
import sys
import threading
import unittest

from program_test import run_tests
from recordings import PACKAGE, FolderTest, environment, judged

from casbench_recording.history import CallError, Ended, History, HistoryError, Operation, Pair
from casbench_recording.history.by_shard import Parts
from casbench_recording.history.format import LONGEST_LINE

CREATED = {"_id": "d", "result": "created", "_seq_no": 0, "_primary_term": 1}


class Lines(FolderTest):
    """The lines of calls and of their endings."""

    def test_a_call_in_five_lines(self):
        with History(self.file) as history:
            with history.call("index", "d", 7) as call:
                call.reply(201, b'{"_id":"d","result":"created",\n"_seq_no":0,"_primary_term":1}')
            with history.call("get", "d") as call:
                call.reply(200, {"_id": "d", "_seq_no": 0, "_primary_term": 1, "found": True, "_source": {"k": 7}})
        first, second, third, _ = self.lines()
        self.assertEqual(list(first), ["e", "n", "t", "id", "op", "k"])
        self.assertEqual((second["e"], second["status"], second["body"]), ("reply", 201, CREATED))
        self.assertEqual((third["n"], third["op"]), (1, "get"))
        self.assertEqual(self.check(), "yes docs=1 calls=2 left_out=0")

    def test_the_line_of_a_call_is_there_before_its_block(self):
        with History(self.file) as history:
            with history.call("index", "d", 7, Pair(term=2, seq=5), 3):
                (line,) = self.lines()
                del line["t"]
                wanted = {"e": "call", "n": 0, "id": "d", "op": "index", "k": 7, "if_seq_no": 5, "if_primary_term": 2, "shard": 3}
                self.assertEqual(line, wanted)

    def test_calls_without_a_reply_are_lost(self):
        with History(self.file) as history:
            with history.call("index", "d", 1):
                pass
            with self.assertRaises(ConnectionError), history.call("delete", "d"):
                raise ConnectionError
            history.call("get", "d").lost()
            forgotten = history.call("index", "d", 2)
            self.assertTrue(forgotten.is_open)
            self.assertEqual((history.calls, history.lost, history.unanswered), (4, 3, 4))
        self.assertFalse(forgotten.is_open)
        self.assertEqual([it["n"] for it in self.lines() if it["e"] == "lost"], [0, 1, 2, 3])
        self.assertEqual(self.check(), "yes docs=1 calls=4 left_out=4")

    def test_replies_by_what_they_say(self):
        with History(self.file) as history:
            history.call("index", "d", 1).indexed(Pair(1, 0), created=True)
            history.call("index", "d", 2).indexed(Pair(1, 1), created=False)
            history.call("create", "d", 3).conflict()
            history.call("get", "d").found(Pair(1, 1), 2)
            history.call("delete", "d", condition=Pair(1, 1)).deleted(Pair(1, 2), found=True)
            history.call("delete", "d").deleted(Pair(1, 3), found=False)
            history.call("get", "d").missing()
            history.call("create", "d", 4).indexed(Pair(2, 4), created=True)
        # each reply is read as what it says, and none as unknown: a wrong one is seen
        self.assertEqual(self.check(), "yes docs=1 calls=8 left_out=0")
        statuses = [it["status"] for it in self.lines() if it["e"] == "reply"]
        self.assertEqual(statuses, [201, 200, 409, 200, 200, 404, 404, 201])
        with open(self.file, encoding="utf-8") as file:
            text = file.read()
        for right, wrong in (('"k":2}}', '"k":1}}'), ('"found":false', '"found":true')):
            with open(self.file, "w", encoding="utf-8") as file:
                file.write(text.replace(right, wrong))
            self.assertNotEqual(self.check(), "yes docs=1 calls=8 left_out=0")

    def test_a_value_that_is_the_number_of_its_call(self):
        with History(self.file) as history:
            history.call("get", "d").missing()
            call = history.write("create", "d")
            self.assertEqual(call.operation, Operation("create", "d", 1))
            call.indexed(Pair(1, 0), created=True)
            history.write("index", "d", Pair(1, 0), 0).indexed(Pair(1, 1), created=False)
            history.call("get", "d").found(Pair(1, 1), 2)
            for wrong in (("get", "d"), ("delete", "d"), ("create", "d", Pair(1, 0)), ("index", "e", None, 1024)):
                self.assertRaises(CallError, history.write, *wrong)
        self.assertEqual([it.get("k") for it in self.lines() if it["e"] == "call"], [None, 1, 2, None])
        self.assertEqual(self.check(), "yes docs=1 calls=4 left_out=0")

    def test_a_call_ends_once_and_as_its_operation_may(self):
        with History(self.file) as history:
            call = history.call("get", "d")
            for wrong in (call.conflict, lambda: call.indexed(Pair(1, 0), True), lambda: call.deleted(Pair(1, 0), True)):
                self.assertRaises(CallError, wrong)
            self.assertRaises(CallError, call.found, Pair(0, 0), 1)
            self.assertRaises(CallError, call.found, Pair(1, 0), 2**64)
            self.assertRaises(CallError, call.reply, 65_536)
            call.missing()
            self.assertRaises(CallError, call.missing)
            self.assertRaises(CallError, call.lost)
            create = history.call("create", "d", 1)
            self.assertRaises(CallError, create.indexed, Pair(1, 0), False)
            self.assertRaises(CallError, create.missing)
        self.assertEqual([it["e"] for it in self.lines()], ["call", "reply", "call", "lost"])
        self.assertRaises(Ended, create.lost)

    def test_calls_that_no_history_has(self):
        wrong = [("put", "d"), ("get", ""), ("get", "ü" * 257), ("get", "\ud800"), ("index", "d"), ("index", "d", -1)]
        wrong += [("index", "d", 2**64), ("index", "d", True), ("create", "d", 1, Pair(1, 0)), ("get", "d", None, Pair(1, 0))]
        wrong += [("delete", "d", None, Pair(1, 2**63)), ("get", "d", None, None, 1024), ("get", "e", None, None, 1)]
        with History(self.file) as history:
            history.call("get", "e").missing()
            for it in wrong:
                self.assertRaises(CallError, history.call, *it)
            self.assertEqual(history.calls, 1)
            history.call("get", "ü" * 256, shard=1023).missing()
            history.call("index", "d", 2**64 - 1, Pair(2**63 - 1, 2**63 - 1)).conflict()
        self.assertEqual(self.check(), "yes docs=3 calls=3 left_out=0")

    def test_times_of_day(self):
        times = iter((0.0, 1.5, 1_764_000_000.123, 3.0))
        with History(self.file, clock=lambda: next(times)) as history:
            history.call("get", "d").missing()
            history.call("get", "d")
        self.assertEqual([it["t"] for it in self.lines()], [0, 1500, 1_764_000_000_123, 3000])

    def test_an_empty_history_leaves_no_file(self):
        History(self.file).end()
        self.assertFalse(os.path.exists(self.file))


class Bodies(FolderTest):
    """Bodies of replies that are long, or that casbench doesn't read."""

    def test_what_casbench_does_not_read_is_left_out(self):
        odd = [b"", b"{", b"NaN", b"1e999", b'"\\ud800"', b"9" * 400, b"[" * 120 + b"]" * 120, b"\xff", "\ud800", "\ufeff{}", object()]
        odd += [b'{"a":1e999,"a":1}', b'{"a":"\\udfff","a":1}', float("inf"), b"9" * 5000, b'{"a":' * 3000, {1: {2}}]
        with History(self.file) as history:
            for body in odd:
                history.call("get", "d").reply(200, body)
        self.assertEqual([it.get("body") for it in self.lines() if it["e"] == "reply"], [None] * len(odd))
        self.assertEqual(self.check(), f"yes docs=1 calls={len(odd)} left_out={len(odd)}")

    def test_a_body_stays_as_it_came(self):
        bodies = [b'{\n"a":\r1.50}', '{"x":"\\ud83d\\ude00"}', '{"ö":"\u2028"}'.encode(), b"[" * 99 + b"]" * 99, {"a": [None, True]}, b"-0"]
        with History(self.file) as history:
            for body in bodies:
                history.call("get", "d").reply(200, body)
        self.assertEqual(self.check(), f"yes docs=1 calls={len(bodies)} left_out={len(bodies)}")
        with open(self.file, encoding="utf-8") as file:
            text = file.read()
        for kept in ('{ "a": 1.50}', "\\ud83d\\ude00", "ö", '{"a":[null,true]}', '"body":-0'):
            self.assertIn(kept, text)

    def test_a_long_body_keeps_what_counts(self):
        found = {"_id": "d", "_seq_no": 0, "_primary_term": 1, "found": True, "_source": {"k": 7, "pad": "x" * LONGEST_LINE}}
        failed = {"error": {"type": "version_conflict_engine_exception", "reason": "x" * LONGEST_LINE}}
        with History(self.file) as history:
            history.call("index", "d", 7).reply(201, {**CREATED, "pad": "x" * LONGEST_LINE})
            history.call("get", "d").reply(200, found)
            history.call("create", "d", 1).reply(409, failed)
            history.call("get", "d").reply(200, ["x" * LONGEST_LINE])
            history.call("get", "d").reply(200, {"_id": "x" * LONGEST_LINE})
        self.assertEqual(self.check(), "yes docs=1 calls=5 left_out=2")

    def test_lines_of_the_greatest_length(self):
        frame = len(json.dumps({"x": ""}, separators=(",", ":")))
        with History(self.file) as history:
            for more in range(-110, 5):
                history.call("get", "d").reply(200, {"x": "y" * (LONGEST_LINE - frame + more)})
        with open(self.file, "rb") as file:
            lengths = {len(it) - 1 for it in file}
        self.assertLessEqual(max(lengths), LONGEST_LINE)
        self.assertGreater(max(lengths), LONGEST_LINE - 60)

    def test_a_zero_with_a_sign_stays_one(self):
        body = b'{"_id":"d","_seq_no":-0,"_primary_term":1,"result":"created","pad":"' + b"x" * LONGEST_LINE + b'"}'
        with History(self.file) as history:
            history.call("index", "d", 7).reply(201, body)
        self.assertEqual(self.check(), "yes docs=1 calls=1 left_out=1")


class Ends(FolderTest):
    """Histories that are full, or can't be written any further."""

    def test_a_full_history_takes_no_call_and_all_endings(self):
        with History(self.file, most_events=7) as history:
            calls = [history.call("get", "d") for _ in range(3)]
            self.assertEqual(history.room, 0)
            self.assertRaises(Ended, history.call, "get", "d")
            for call in calls:
                call.missing()
        self.assertEqual(self.check(), "yes docs=1 calls=3 left_out=0")

    def test_several_calls_are_all_written_or_none(self):
        with History(self.file, most_events=6) as history:
            get = Operation("get", "d")
            self.assertRaises(Ended, history.call_all, [get] * 4)
            self.assertRaises(CallError, history.call_all, [get, Operation("get", "")])
            self.assertRaises(CallError, history.call_all, [Operation("get", "d", shard=it) for it in (0, 1)])
            self.assertEqual([it.number for it in history.call_all([get] * 3)], [0, 1, 2])

    def test_several_calls_whose_values_are_their_numbers(self):
        with History(self.file) as history:
            history.call("get", "d").missing()
            of = [Operation("create", "d"), Operation("get", "e"), Operation("delete", "f"), Operation("index", "e")]
            self.assertRaises(CallError, history.write_all, [*of, Operation("create", "d", condition=Pair(1, 0))])
            self.assertEqual([it.operation.value for it in history.write_all(of)], [1, None, None, 4])
        self.assertEqual([it.get("k") for it in self.lines() if it["e"] == "call"], [None, 1, None, None, 4])

    def test_a_file_that_is_there(self):
        with History(self.file) as history:
            history.call("get", "d")
            self.assertRaisesRegex(HistoryError, "File exists", History, self.file)

    def test_a_full_disk(self):
        words = ["from casbench_recording.history import *", "history = History('carts.ndjson')", "try:"]
        words += ["    while True: history.call('get', 'd').missing()", "except HistoryError as fault: print(fault)"]
        words += ["history.end()"]
        ran = subprocess.run(
            [sys.executable, "-c", "\n".join(words)],
            cwd=self.folder,
            env={**os.environ, "PYTHONPATH": str(PACKAGE)},
            preexec_fn=lambda: resource.setrlimit(resource.RLIMIT_FSIZE, (20_001, 20_001)),
            capture_output=True,
            text=True,
        )
        self.assertEqual(ran.stdout, "carts.ndjson: File too large. The lines before are whole\n", ran.stderr)
        self.assertGreater(os.path.getsize(self.file), 19_800)
        self.assertRegex(self.check(), "^yes docs=1 ")

    def test_many_threads_write_whole_lines(self):
        with History(self.file) as history:

            def work(number):
                for k in range(200):
                    with history.call("index", f"d{number}", k) as call:
                        call.indexed(Pair(1, 200 * number + k), created=k == 0)

            threads = [threading.Thread(target=work, args=(it,)) for it in range(8)]
            for it in threads:
                it.start()
            for it in threads:
                it.join()
        self.assertEqual(self.check(), "yes docs=8 calls=1600 left_out=0")


class InParts(FolderTest):
    """Histories in parts."""

    def test_a_part_for_each_shard(self):
        folder = os.path.join(self.folder, "parts")
        with Parts(folder) as parts:
            for shard in (0, 5):
                with parts.call("index", f"d{shard}", 1, shard=shard) as call:
                    call.indexed(Pair(1, 0), created=True)
        self.assertEqual(sorted(os.listdir(folder)), ["shard-0.ndjson", "shard-5.ndjson"])
        for name in os.listdir(folder):
            self.assertEqual(judged(self.program, os.path.join(folder, name)), "yes docs=1 calls=1 left_out=0")
        self.assertRaisesRegex(HistoryError, "File exists", Parts, folder)


def modules_in(folder):
    """The files of the package in a folder, by their paths, without what Python compiled of them."""
    return {it.relative_to(folder) for it in (folder / "casbench_recording").rglob("*") if it.is_file() and it.parent.name != "__pycache__"}


@unittest.skipUnless(importlib.util.find_spec("pip"), "this Python has no pip, so the package was not installed")
class Installed(FolderTest):
    """The package as pip installs it."""

    def test_it_is_installed_without_a_network(self):
        installed, before = os.path.join(self.folder, "installed"), set(os.listdir(PACKAGE))
        words = [sys.executable, "-m", "pip", "install", "--quiet", "--no-index", "--disable-pip-version-check", "--target", installed, str(PACKAGE)]
        ran = subprocess.run(words, capture_output=True, text=True, env=environment())
        self.assertEqual(ran.returncode, 0, ran.stderr)
        words = [sys.executable, "-c", "import casbench_recording.proxy, sys; print(casbench_recording.__file__)"]
        ran = subprocess.run(words, capture_output=True, text=True, env=environment(PYTHONPATH=installed), cwd=self.folder)
        self.assertEqual(ran.stdout.strip(), os.path.join(installed, "casbench_recording", "__init__.py"), ran.stderr)
        self.assertEqual(modules_in(pathlib.Path(installed)), modules_in(PACKAGE))
        self.assertLessEqual(set(os.listdir(PACKAGE)) - before, {"__pycache__"})


if __name__ == "__main__":
    sys.exit(run_tests())

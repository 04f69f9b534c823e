#!/usr/bin/env python3
"""Tests who did what in a history, and what was done to the cluster meanwhile: clients and notes on lines, and plans that disturb.

    python3 tests/recorded_disturbances.py [PROGRAM]

PROGRAM is the built casbench; if it isn't named, the one that ./casbench would run. The last line says how many tests
passed and failed.
"""

import http.client
import json
import os
import signal
import socket
import subprocess
import sys
import time
import unittest
from unittest import mock

from program_test import run_tests
from recordings import FolderTest, Started, environment

from casbench_recording.disturb import Disturbance, Disturber, PlanError, fault_of, plan_of
from casbench_recording.history import CallError, History

# A proxy that takes half a second to report an address.
LATE = """
import time
from casbench_recording.proxy import command

report = command.report
command.report = lambda *arguments, **more: time.sleep(0.5) or report(*arguments, **more)
command.main()
"""


class LinesTest(FolderTest):
    """A test of what lines carry beside what counts."""

    def started(self, *words, **more):
        """A command that runs until the test ends."""
        command = Started(*words, **more)
        self.addCleanup(command.__exit__)
        return command

    def proxy(self, *words, **more):
        """A proxy that records the index carts of a stand-in."""
        other = self.started("stand_in", "--port", "0")
        other.make("carts")
        words = ["--listen", "127.0.0.1:0", "--cluster", other.url, "--index", "carts", *words, self.file]
        return self.started("proxy", *words, **more)

    def plan(self, text):
        """A file with a plan."""
        path = os.path.join(self.folder, "plan")
        with open(path, "w", encoding="utf-8") as file:
            file.write(text)
        return path

    def path(self, name):
        """A file that a plan makes and removes."""
        return os.path.join(self.folder, name)

    def wait_for(self, path, least=0):
        """Waits until a file is there, and has at least so many bytes."""
        for _ in range(3000):
            if os.path.exists(path) and os.path.getsize(path) >= least:
                return
            time.sleep(0.01)
        self.fail(f"{path} isn't there with {least} bytes")


class Ask:
    """A client of the proxy, on one connection."""

    def __init__(self, proxy):
        self.http = http.client.HTTPConnection("127.0.0.1", proxy.port, timeout=60)

    def __enter__(self):
        self.http.connect()
        return self

    def __exit__(self, *_):
        self.http.close()

    @property
    def address(self):
        return "{}:{}".format(*self.http.sock.getsockname())

    def ask(self, method, target, body=None, **fields):
        self.http.request(method, target, body, {"Content-Type": "application/json", **{key.replace("_", "-"): it for key, it in fields.items()}})
        answer = self.http.getresponse()
        answer.read()
        return answer.status


class Who(LinesTest):
    """The client that made a call."""

    def test_it_is_named_by_its_header_or_else_by_its_address(self):
        proxy = self.proxy()
        with Ask(proxy) as one, Ask(proxy) as other:
            one.ask("PUT", "/carts/_doc/d", "{}", X_Opaque_Id="checkout Ä".encode())
            one.ask("GET", "/carts/_doc/d")
            other.ask("POST", "/carts/_doc", "{}", x_opaque_id="made")
            other.ask("POST", "/carts/_bulk", '{"index":{"_id":"e"}}\n{}\n{"delete":{"_id":"e"}}\n')
            other.ask("POST", "/carts/_mget", '{"ids":["d","e"]}', x_opaque_id="x" * 1000)
            wanted = ["checkout Ä", one.address, "made", other.address, other.address, "x" * 80, "x" * 80]
            proxy.ended()
        self.assertEqual([it["client"] for it in self.lines() if it["e"] == "call"], wanted)
        self.assertEqual([it for it in self.lines() if it["e"] != "call" and "client" in it], [])
        self.assertEqual(self.check(), "yes docs=3 calls=7 left_out=0")

    def test_a_harness_names_it(self):
        with History(self.file) as history:
            with history.call("get", "d", client='it"s'):
                pass
            for client in ("x" * 257, "\ud800", 7):
                self.assertRaisesRegex(CallError, "a client is a text", history.call, "get", "d", client=client)
            history.write("index", "d", client="other").lost()
        self.assertEqual([it["client"] for it in self.lines() if it["e"] == "call"], ['it"s', "other"])
        self.assertEqual(self.check(), "yes docs=1 calls=2 left_out=2")


class Notes(LinesTest):
    """Notes on lines."""

    def test_a_note_stands_on_the_next_line(self):
        with History(self.file) as history:
            history.note("first")
            history.note("second \"ü\n\ud800")
            call = history.call("index", "d", 1)
            history.note("x" * 5000)
            with history.call("get", "d"):
                pass
            call.lost()
        self.assertEqual([it.get("note") for it in self.lines()], ['first; second "\\xfc\n\\ud800', "x" * 1000, None, None])
        self.assertEqual(self.check(), "yes docs=1 calls=2 left_out=2")

    def test_a_line_that_has_no_room_leaves_it_to_the_next_one(self):
        with History(self.file) as history:
            call = history.call("get", "d")
            history.note("x" * 1000)
            call.reply(500, json.dumps({"error": "y" * 65_000}))
            history.call("get", "d").lost()
        self.assertEqual([it.get("note", "")[:1] for it in self.lines()], ["", "", "x", ""])
        self.assertRegex(self.check(), "^yes ")

    def test_several_lines_that_are_written_together_carry_it_once(self):
        with History(self.file) as history:
            calls = [history.call("get", f"d{it}") for it in range(3)]
            history.note("x")
            history.lose(calls)
        self.assertEqual([it.get("note") for it in self.lines()], [None] * 3 + ["x", None, None])


class Plans(unittest.TestCase):
    """Plans, and what is none."""

    def test_what_a_plan_says(self):
        text = "# nodes\n\nafter 10 s: docker pause node-2\n  for 5 s: docker unpause node-2\n  every 60 s\nafter 0.5s:x\n"
        wanted = [Disturbance(10, "docker pause node-2", 5, "docker unpause node-2", 60), Disturbance(0.5, "x")]
        self.assertEqual(plan_of(text), wanted)

    def test_what_is_no_plan(self):
        rows = [
            ("", "it has no line such as"),
            ("# after 1 s: x", "it has no line such as"),
            ("after 1 s", "line 1 isn't one of"),
            ("after x s: y", "line 1 isn't one of"),
            ("after 1 m: y", "line 1 isn't one of"),
            ("\nfor 1 s: x", "line 2 comes before any"),
            ("after 1 s: x\nfor 1 s", "line 2 isn't one of"),
            ("after 1 s: x\nevery 9 s: y", "line 2 isn't one of"),
            ("after 1 s: x\nfor 1 s: y\nfor 1 s: y", "line 3 repeats `for` for one disturbance"),
            ("after 1 s: x\nevery 0 s", "line 2 repeats `every`"),
            ("after 1 s: x\nfor 5 s: y\nevery 5 s", "`x` begins again before it has ended"),
        ]
        for text, why in rows:
            self.assertRaisesRegex(PlanError, why, plan_of, text)

    def test_why_a_command_failed(self):
        self.assertEqual(fault_of("exit 0"), "")
        self.assertEqual(fault_of("echo so; echo that >&2; exit 3"), "status 3: that")
        with mock.patch("casbench_recording.disturb.LONGEST_COMMAND", 0.2):
            self.assertEqual(fault_of("sleep 50 & sleep 50"), "it took longer than 0 seconds")


class Disturbed(LinesTest):
    """Recordings with a plan."""

    def test_an_end_that_fails_is_tried_again_when_the_recording_ends(self):
        log, block = os.path.join(self.folder, "log"), os.path.join(self.folder, "block")
        end = f"echo end >>{log}; test ! -e {block}"
        plan = plan_of(f"after 0 s: touch {block}; echo begin >>{log}\nfor 0.1 s: {end}\nevery 0.2 s\n")
        notes, reports = [], []
        with Disturber(plan, notes.append, reports.append) as disturber:
            self.wait_for(log, len("begin\nend\n"))
            time.sleep(1)
            os.remove(block)
        with open(log, encoding="ascii") as file:
            # (it isn't begun once more before it was ended)
            self.assertEqual(file.read().split(), ["begin", "end", "end"])
        self.assertEqual(reports, [f"the disturbance failed: {end}: status 1"])
        self.assertTrue(disturber.has_failed)
        self.assertEqual(notes[1:], [f"failed: {end}", f"ended: {end}"])

    def record(self, plan, *words):
        """Records a load with a plan; the process, which runs on."""
        other = self.started("stand_in", "--port", "0", "--delay", "0.005")
        words = [sys.executable, "-m", "casbench_recording.record", other.url, "carts", self.file, "--disturb", plan, *words]
        process = subprocess.Popen(words, env=environment(), stdout=subprocess.PIPE, stderr=subprocess.PIPE, text=True)
        self.addCleanup(lambda: (process.kill(), process.communicate()))
        return process

    def notes(self):
        """The notes of the history, one by one."""
        return [note for it in self.lines() if "note" in it for note in it["note"].split("; ")]

    def test_each_beginning_and_end_is_a_note_and_comes_again(self):
        log = self.path("log")
        plan = self.plan(f"after 0.2 s: echo cut >>{log}\nfor 0.2 s: echo heal >>{log}\nevery 0.5 s\n")
        process = self.record(plan, "--seconds", "2.5", "--clients", "2")
        said = "".join(process.communicate(timeout=60))
        self.assertEqual(process.returncode, 0, said)
        with open(log, encoding="ascii") as file:
            done = file.read().split()
        self.assertGreaterEqual(len(done), 4)
        self.assertEqual(done, ["cut", "heal"] * (len(done) // 2))
        wanted = [f"{kind}: echo {it} >>{log}" for kind, it in (("begins", "cut"), ("ended", "heal"))] * len(done)
        self.assertEqual(self.notes(), wanted[: len(self.notes())])
        self.assertGreaterEqual(len(self.notes()), 4)
        self.assertRegex(self.check(), "^yes ")

    def test_what_was_begun_is_undone_when_the_recording_ends_or_is_interrupted(self):
        mark = self.path("mark")
        plan = self.plan(f"after 0 s: touch {mark}\nfor 1000 s: rm {mark}\n")
        proxy = self.proxy("--disturb", plan)
        self.wait_for(mark)
        proxy.ended()
        self.assertEqual((os.path.exists(mark), proxy.process.returncode), (False, 0))
        for sent, status in ((None, 0), (signal.SIGINT, 130), (signal.SIGTERM, 130)):
            # (by calls, and not by seconds, of which a machine with much to do may need all before the first call)
            process = self.record(plan, "--calls", "100" if sent is None else "1000000", "--seconds", "1000")
            self.wait_for(mark)
            # (an interruption before the first call leaves no file)
            self.wait_for(self.file, least=1)
            if sent is not None:
                process.send_signal(sent)
            said = "".join(process.communicate(timeout=60))
            self.assertEqual((os.path.exists(mark), process.returncode), (False, status), said)
            os.remove(self.file)

    def test_a_command_that_fails_is_reported_and_not_tried_again(self):
        plan = self.plan("after 0 s: echo no such node >&2; exit 7\nevery 0.1 s\n")
        process = self.record(plan, "--calls", "60")
        out, err = process.communicate(timeout=60)
        self.assertEqual(process.returncode, 1)
        self.assertEqual(err, "record.py: the disturbance failed: echo no such node >&2; exit 7: status 7: no such node\n")
        self.assertRegex(out, "^recorded ")
        os.remove(self.file)
        proxy = self.proxy("--disturb", plan)
        self.assertIn("the disturbance failed: ", proxy.errors.readline())
        with Ask(proxy) as client:
            client.ask("PUT", "/carts/_doc/d", "{}")
        proxy.ended()
        self.assertEqual(proxy.process.returncode, 1)
        command = "echo no such node >&2; exit 7"
        self.assertEqual(self.lines()[0]["note"], f"begins: {command}; failed: {command}; ended: {command}")

    def test_a_proxy_disturbs_nothing_before_it_has_reported_its_address(self):
        proxy = self.proxy("--disturb", self.plan("after 0 s: exit 7\n"), start=(sys.executable, "-c", LATE))
        lines = [proxy.url, proxy.errors.readline().strip()]
        self.assertRegex(lines[0], r"^http://127\.0\.0\.1:\d+$")
        self.assertEqual(lines[1], "casbench_recording.proxy: the disturbance failed: exit 7: status 7")

    def test_a_proxy_that_cannot_listen_disturbs_nothing(self):
        mark = self.path("mark")
        with socket.create_server(("127.0.0.1", 0)) as taken:
            address = "127.0.0.1:{1}".format(*taken.getsockname())
            proxy = self.proxy("--listen", address, "--disturb", self.plan(f"after 0 s: touch {mark}\n"))
            status = proxy.process.wait(60)
        self.assertIn("Address already in use", proxy.url)
        self.assertEqual((status, os.path.exists(mark)), (1, False))

    def test_a_plan_that_is_none(self):
        words = ["record", "http://127.0.0.1:9", "carts", self.file, "--disturb", self.plan("after 1 s")]
        ran = subprocess.run([sys.executable, "-m", "casbench_recording." + words[0], *words[1:]], env=environment(), capture_output=True, text=True)
        self.assertEqual(ran.returncode, 2)
        self.assertIn("plan: line 1 isn't one of `after N s: COMMAND`", ran.stderr)


if __name__ == "__main__":
    sys.exit(run_tests())

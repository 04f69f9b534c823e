#!/usr/bin/env python3
"""Tests recorders with a watch of their own: they stop at the first fault that is proved, and go on whatever else becomes of the watch.

    python3 tests/recorded_watch_beside.py [PROGRAM]

PROGRAM is the built casbench; if it isn't named, the one that ./casbench would run. The last line says how many tests passed and
failed.
"""

import os
import pathlib
import re
import signal
import subprocess
import sys

from program_test import run_tests
from recordings import Started, environment
from watching import SECONDS, WatchTest


class Beside(WatchTest):
    """A recorder with a watch of its own."""

    def recorder(self, store, *words):
        """The recorder as it runs, with a watch, in a process group of its own."""
        words = [sys.executable, "-m", "casbench_recording.record", store.url, "carts", self.file, "--watch", "--program", self.program, *words]
        how = {"stdout": subprocess.PIPE, "stderr": subprocess.PIPE, "text": True, "start_new_session": True}
        child = subprocess.Popen(words, env=environment(), **how)
        self.addCleanup(child.wait)
        self.addCleanup(child.kill)
        return child

    def group(self, child):
        """The processes of its group."""
        ran = subprocess.run(["ps", "-o", "pid=", "--no-headers", "-s", str(child.pid)], capture_output=True, text=True)
        return len(ran.stdout.split())

    def test_it_stops_the_load_at_the_first_fault(self):
        period = 3
        with Started("stand_in", "--port", "0", "--fault", "stale-get") as store:
            status, printed, fault = self.ended(self.recorder(store, "--seconds", "600", "--every", str(period)))
        self.assertEqual(status, 1, fault)
        refuted = re.match(r"refuted kind=stale-get calls=\d+,\d+ event=(\d+) ", printed)
        self.assertRegex(printed, r"\nrecorded \d+ calls in .*\n\Z")
        lines = self.lines()
        self.assertLess(lines[-1]["t"] - lines[int(refuted[1])]["t"], 2 * period * 1000)
        self.assertEqual(self.check("--rule-out").partition(" ")[0], "refuted")

    def test_the_last_check_has_the_last_line(self):
        with Started("stand_in", "--port", "0") as store:
            status, printed, fault = self.ended(self.recorder(store, "--calls", "100", "--every", "60"))
        self.assertEqual((status, fault), (0, ""))
        self.assertEqual(printed, f"yes docs=8 calls=400 left_out=0\nrecorded 400 calls in {self.file}, 0 of them without a reply\n")

    def test_an_interruption_of_the_whole_group(self):
        with Started("stand_in", "--port", "0") as store:
            child = self.recorder(store, "--seconds", "600", "--every", "0.2")
            self.wait_for(lambda: os.path.exists(self.file) and os.path.getsize(self.file) > 100_000)
            os.killpg(child.pid, signal.SIGINT)
            status, printed, fault = self.ended(child)
        self.assertEqual((status, fault), (130, ""))
        calls = re.fullmatch(r"yes docs=8 calls=(\d+) left_out=0\nrecorded (\d+) calls in .*\n", printed)
        self.assertEqual(calls[1], calls[2])
        self.assertEqual(self.check(), printed.partition("\n")[0])

    def test_a_recorder_that_is_killed_leaves_no_watch(self):
        with Started("stand_in", "--port", "0") as store:
            child = self.recorder(store, "--seconds", "600", "--every", "0.2")
            self.wait_for(lambda: os.path.exists(self.file) and self.group(child) >= 2)
            child.kill()
            child.communicate(timeout=SECONDS)
            self.wait_for(lambda: self.group(child) == 0)

    def watch_of(self, child):
        """The process of the watch of a recorder, or None."""
        ran = subprocess.run(["ps", "-o", "pid=,args=", "--ppid", str(child.pid)], capture_output=True, text=True)
        watches = [int(it.split()[0]) for it in ran.stdout.splitlines() if "casbench_recording.watch" in it]
        return watches[0] if watches else None

    def proxy(self, store, *words, program=None):
        """The proxy as it runs, with a watch."""
        words = ["--listen", "127.0.0.1:0", "--cluster", store.url, "--index", "carts", "--watch", "--every", "0.2", *words]
        return Started("proxy", *words, "--program", program or self.program, self.file)

    def load(self, proxy, name, **how):
        """Makes calls through a proxy, on an index of its own unless another name is given."""
        words = ["--clients", "2", "--calls", "100", "--patience", "0", proxy.url, how.get("index", "carts"), os.path.join(self.folder, name)]
        load = [sys.executable, "-m", "casbench_recording.record", *words]
        return subprocess.run(load, capture_output=True, text=True, env=environment(), timeout=SECONDS)

    def test_a_watch_that_can_not_check(self):
        """It is reported before anything is recorded."""
        with Started("stand_in", "--port", "0") as store:
            for program, why in (("/dev/null/casbench", "can't be run"), ("/bin/true", "gave no verdict")):
                status, printed, fault = self.ended(self.recorder(store, "--seconds", "600", "--program", program))
                self.assertEqual((status, printed), (4, ""))
                self.assertRegex(fault, rf"\Arecord\.py: {program} .*{why}")
                with self.proxy(store, program=program) as proxy:
                    self.assertRegex(proxy.url, rf"\Acasbench_recording\.proxy: {program} .*{why}")
                    self.assertEqual(proxy.process.wait(SECONDS), 4)
            self.assertEqual(os.listdir(self.folder), [])

    def test_a_watch_that_is_killed(self):
        """The application goes on, a line reports that, and another watch finds what is refuted."""
        for sent in (signal.SIGKILL, signal.SIGTERM):
            with self.subTest(sent.name), Started("stand_in", "--port", "0", "--fault", "stale-get") as store, self.proxy(store) as proxy:
                self.wait_for(lambda proxy=proxy: self.watch_of(proxy.process))
                first = self.watch_of(proxy.process)
                os.kill(first, sent)
                line = proxy.errors.readline()
                wanted = f"the watch was killed by signal {int(sent)}: the recording goes on, and the watch is restarted in 1 s"
                self.assertEqual(line, f"casbench_recording.proxy: {wanted}\n")
                self.load(proxy, f"{sent.name}.ndjson")
                printed, _ = proxy.outputs()
                self.assertEqual(proxy.process.returncode, 1)
                # (a stale get that finds nothing may be proved by the answers alone)
                self.assertRegex(printed, r"\Arefuted kind=(stale-get|ruled-out) ")
            os.remove(self.file)

    def test_a_check_that_is_killed(self):
        """The application goes on, a line reports that, and the recording is checked once the program can."""
        mark = os.path.join(self.folder, "mark")
        program = self.script(f"if [ -e {mark} ]; then kill -9 $$; else exec $casbench \"$@\"; fi")
        with Started("stand_in", "--port", "0") as store, self.proxy(store, program=program) as proxy:
            pathlib.Path(mark).touch()
            self.assertEqual(self.load(proxy, "first.ndjson").returncode, 0)
            for wanted in (r"casbench_recording\.watch: .* ended with status -9: ", r"casbench_recording\.proxy: the watch ended with status 4: the recording goes on"):
                self.assertRegex(proxy.errors.readline(), wanted)
            self.assertEqual(self.load(proxy, "second.ndjson", index="others").returncode, 0)
            os.remove(mark)
            printed = proxy.ended()
        self.assertEqual(proxy.process.returncode, 0, printed)
        self.assertIn("yes docs=8 calls=200 left_out=0\n", printed)

    def test_a_last_check_that_fails(self):
        """A recording that couldn't be checked isn't taken for explained."""
        mark = os.path.join(self.folder, "mark")
        program = self.script(f"if [ -e {mark} ]; then exit 1; else exec $casbench \"$@\"; fi")
        with Started("stand_in", "--port", "0") as store, self.proxy(store, program=program) as proxy:
            pathlib.Path(mark).touch()
            self.assertEqual(self.load(proxy, "first.ndjson").returncode, 0)
            printed = proxy.ended()
        self.assertEqual(proxy.process.returncode, 4, printed)
        self.assertIn("casbench_recording.proxy: the watch gave no last answer: it ended with status 4", printed)
        self.assertIn("recorded 200 calls in", printed)

    def test_a_proxy_that_stops_the_load(self):
        """The load can't connect any more, so it ends too."""
        parts = os.path.join(self.folder, "parts")
        with Started("stand_in", "--port", "0", "--fault", "stale-get") as store:
            words = ["--listen", "127.0.0.1:0", "--cluster", store.url, "--index", "carts", "--part", "500", "--watch", "--every", "1"]
            with Started("proxy", *words, "--program", self.program, parts) as proxy:
                words = ["--seconds", "600", "--patience", "0", proxy.url, "carts", self.file]
                load = [sys.executable, "-m", "casbench_recording.record", *words]
                ran = subprocess.run(load, capture_output=True, text=True, env=environment(), timeout=SECONDS)
                printed, fault = proxy.outputs()
        self.assertEqual((ran.returncode, proxy.process.returncode), (1, 1), ran.stderr)
        self.assertIn("Connection refused", ran.stderr)
        self.assertRegex(printed, r"\A(part-\d+\.ndjson: yes .*\n)*.*/parts/part-\d+\.ndjson(\.growing)?:\nrefuted kind=")
        self.assertRegex(printed, r"\nrecorded \d+ calls in .*\njudged: 8 documents, .*\n\Z")


if __name__ == "__main__":
    sys.exit(run_tests())

#!/usr/bin/env python3
"""Tests which check a recording proxy reports, by the copies of the index and the nodes of the cluster, and how its own watch checks.

    python3 tests/recorded_fitting.py [PROGRAM]

PROGRAM is the built casbench; if it isn't named, the one that ./casbench would run. The last line says how many tests passed and failed.
"""

import contextlib
import io
import json
import os
import pathlib
import subprocess
import sys
import unittest

from program_test import run_tests
from recorded_requests import Answers
from recorded_through_proxy import ProxyTest
from recordings import Started, environment
from watching import WatchTest

from casbench_recording import record
from casbench_recording.cluster import ClusterAnswer, ClusterError, NoAnswer
from casbench_recording.default_reading import reading_that_fits
from casbench_recording.history import MOST_EVENTS
from casbench_recording.history.readings import OPENSEARCH, STRICT
from casbench_recording.index_inspection import Inspector

FITS = "the check that fits is casbench check --profile opensearch"


class Indexes(unittest.TestCase):
    """Which reading fits an index, by the cluster's answers about it."""

    def fitting(self, settings, nodes=None, served=1):
        given = [("/_cluster/health", {"number_of_nodes": nodes})] if nodes is not None else []
        return reading_that_fits(Inspector(Answers({"settings": settings}, given)).look("carts"), served)

    def test_copies_and_nodes(self):
        for name, wanted, settings, *more in (
            ("nothing stated", STRICT, {}),
            ("one copy on one node", STRICT, {"index": {"number_of_replicas": "0"}}, 1),
            ("one copy, and no right to ask for the nodes", STRICT, {"number_of_replicas": 0}),
            ("one copy on several nodes", OPENSEARCH, {"number_of_replicas": 0}, 3),
            ("one copy, whose clients ask two nodes", OPENSEARCH, {"number_of_replicas": 0}, 1, 2),
            ("replicas", OPENSEARCH, {"number_of_replicas": 1}),
            ("replicas of segments", OPENSEARCH, {"number_of_replicas": "2", "replication": {"type": "SEGMENT"}}),
            ("replicas that come with the nodes", OPENSEARCH, {"number_of_replicas": "0", "auto_expand_replicas": "0-1"}, 1),
            ("replicas that don't", STRICT, {"number_of_replicas": "0", "auto_expand_replicas": "false"}, 1),
        ):
            with self.subTest(name):
                index = settings.get("index", settings)
                if "replication" in index:
                    index = {**index, "replication.type": index["replication"]["type"]}
                self.assertEqual(self.fitting(index, *more), wanted)


class HealthAnswer:
    """A connection as that of `Answers`, to a cluster which answers the question for its nodes in a way of its own."""

    def __init__(self, answer):
        self.others, self.answer = Answers({"settings": {"number_of_replicas": 0}}), answer

    def open(self, patience):
        pass

    def ask(self, method, path):
        if path != "/_cluster/health":
            return self.others.ask(method, path)
        if self.answer is None:
            raise NoAnswer("timed out")
        return ClusterAnswer(self.answer[0], json.dumps(self.answer[1]).encode())


class Nodes(unittest.TestCase):
    """How many nodes a cluster is taken for whose answer to that question is no plain one."""

    def test_what_may_not_be_known(self):
        for status in (403, 404):
            with self.subTest(status):
                self.assertEqual(reading_that_fits(Inspector(HealthAnswer((status, {"error": "x"}))).look("carts"), 1), STRICT)

    def test_faults(self):
        """They fail the inspection: a cluster of several nodes isn't taken for one."""
        for answer, fault in (
            (None, "didn't answer .*: timed out"),
            ((401, {"error": "x"}), "refuses the credentials"),
            ((408, {"number_of_nodes": 3}), "answered GET .* with HTTP 408"),
            ((429, {"error": "x"}), "answered GET .* with HTTP 429"),
            ((503, {"error": "x"}), "answered GET .* with HTTP 503"),
            ((200, {"status": "green"}), "isn't that of OpenSearch"),
            ((200, {"number_of_nodes": "many"}), "isn't that of OpenSearch"),
        ):
            with self.subTest(answer), self.assertRaisesRegex(ClusterError, fault):
                Inspector(HealthAnswer(answer)).look("carts")


class Proxies(ProxyTest, WatchTest):
    """What the proxy reports, and how it checks."""

    def watch_words(self, proxy):
        """The words of the watch of a proxy, or none as long as there is no watch."""
        ran = subprocess.run(["ps", "-o", "args=", "--ppid", str(proxy.process.pid)], capture_output=True, text=True)
        return [word for it in ran.stdout.splitlines() if "casbench_recording.watch" in it for word in it.split()]

    def put(self, proxy):
        """Writes a document through a proxy."""
        self.assertEqual(self.asker(proxy).ask("PUT", "/carts/_doc/d", {})[0], 201)

    def test_an_index_with_replicas(self):
        for settings, how in (({"number_of_replicas": 2}, "2 replicas, with document"), ({"number_of_replicas": 1, "replication.type": "SEGMENT"}, "1 replica, with segment")):
            with self.subTest(how):
                proxy = self.proxy(self.stand_in(settings=settings).url)
                self.assertEqual(proxy.errors.readline(), f"casbench_recording.proxy: the index carts has {how} replication: {FITS} {self.file}\n")
                self.put(proxy)
                self.assertTrue(proxy.ended().endswith(f"\nthe check that fits: {FITS.partition(' is ')[2]} {self.file}"))
                os.remove(self.file)

    def test_an_index_without(self):
        """Nothing is reported: the check without options fits."""
        proxy = self.proxy(self.stand_in(settings={"number_of_replicas": 0}).url)
        self.put(proxy)
        self.assertNotIn("fits", proxy.ended())

    def test_an_index_that_is_made_later(self):
        """The check is reported before the first call; then the watch, and the parts, take the reading, unless another one is named."""
        stand_in = self.started("stand_in", "--port", "0")
        for words, wanted in (((), OPENSEARCH), (("--gets", "last"), STRICT)):
            with self.subTest(words):
                proxy = self.proxy(stand_in.url, "--part", "100", "--watch", "--every", "0.2", "--program", self.program, *words)
                self.wait_for(lambda proxy=proxy: self.watch_words(proxy))
                self.assertNotIn("any", self.watch_words(proxy))
                with self.subTest("made"):
                    asked = self.asker(proxy).ask("PUT", "/carts", {"settings": {"number_of_replicas": "1"}})
                    self.assertEqual(asked[0], 200)
                    self.assertIn(f"{FITS} {self.file}/*.ndjson\n", proxy.errors.readline())
                self.put(proxy)
                own = wanted.options()
                self.wait_for(lambda proxy=proxy, own=own: self.watch_words(proxy)[-2 - len(own) : -2] == own if own else self.watch_words(proxy))
                printed = proxy.ended()
                self.assertEqual(proxy.process.returncode, 0, printed)
                self.assertIn("1 part: 1 yes, 0 no, 0 refused\n", printed)
                for it in pathlib.Path(self.file).iterdir():
                    it.unlink()
                os.rmdir(self.file)
                self.asker(stand_in).ask("DELETE", "/carts")


class Recorders(WatchTest):
    """What `record` reports of the index that it makes, and how its own watch checks."""

    def record(self, nodes, *words):
        """Records a stand-in of so many nodes; returns its standard error, and the arguments of the last check of its watch."""
        log = pathlib.Path(self.folder) / "log"
        program = self.script(f"echo \"$@\" >>{log}; exec $casbench \"$@\"")
        with Started("stand_in", "--port", "0", "--nodes", str(nodes)) as store:
            words = [store.url, "carts", self.file, "--clients", "1", "--calls", "20", "--mixture", "index=1", "--program", program, *words]
            ran = subprocess.run([sys.executable, "-m", "casbench_recording.record", *words], capture_output=True, text=True, env=environment())
        self.assertEqual(ran.returncode, 0, ran.stderr)
        return ran.stderr, log.read_text().splitlines()[-1].split() if log.exists() else None

    def test_the_reading(self):
        copies = f"record.py: the index carts has 2 replicas, with document replication: {FITS}"
        for name, errors, reading, nodes, words in (
            ("replicas", f"{copies} {{file}}\n", OPENSEARCH, 3, ("--watch", "--replicas", "2")),
            ("several nodes", f"record.py: the cluster has 3 nodes: {FITS} {{file}}\n", OPENSEARCH, 3, ("--watch", "--replicas", "0")),
            ("one node", "", STRICT, 1, ("--watch",)),
            ("a named one", "", STRICT, 3, ("--watch", "--replicas", "2", "--profile", "strict")),
            ("parts", f"{copies} {{file}}/*.ndjson\n", None, 3, ("--parts", "--replicas", "2")),
            ("neither a watch nor parts", "", None, 3, ("--replicas", "2")),
        ):
            with self.subTest(name):
                self.file = os.path.join(self.folder, name.replace(" ", "-"))
                printed, arguments = self.record(nodes, *words)
                self.assertEqual(printed, errors.format(file=self.file))
                if reading is not None:
                    self.assertEqual(arguments, ["check", "--rule-out", *reading.options()])
                with contextlib.suppress(FileNotFoundError):
                    os.remove(os.path.join(self.folder, "log"))

    def test_room(self):
        """A recording that may take the profile is refused if it has more calls than a check of that takes."""
        calls = MOST_EVENTS // 3
        for words, is_refused in ((("--watch",), True), (("--watch", "--profile", "strict"), False), ((), False)):
            words = ["http://127.0.0.1", "carts", "OUT", "--clients", "1", "--calls", str(calls + 1), *words]
            with self.subTest(words), contextlib.redirect_stderr(io.StringIO()) as errors:
                with contextlib.suppress(SystemExit):
                    record.parse_arguments(words)
                self.assertEqual(f"over {calls} calls, the maximum of one history" in errors.getvalue(), is_refused)


if __name__ == "__main__":
    sys.exit(run_tests())

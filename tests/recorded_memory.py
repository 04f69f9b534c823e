#!/usr/bin/env python3
"""Tests that a recording without end keeps a bounded number of documents, what becomes of those that it gives up, and that connections
which ended take no memory.

    python3 tests/recorded_memory.py [PROGRAM]

PROGRAM is the built casbench; if it isn't named, the one that ./casbench would run. The last line says how many tests passed and failed.
"""

import json
import os
import pathlib
import sys
import unittest

from attacks import Client
from measure_parts import Turns, memory
from program_test import run_tests
from recorded_requests import JudgeTest, found, missing, written
from recorded_through_proxy import CERTIFICATE, ProxyTest
from recordings import judged

from casbench_recording.history.continuing import Continuing
from casbench_recording.proxy.recording.judge import Judge
from casbench_recording.proxy.state.documents import DocumentState
from casbench_recording.proxy.state.recent_documents import DroppedIds

# How many documents come before the memory is measured first, and how many then; and by how many bytes it may have grown.
BEFORE, THEN, MOST_GROWN = 10_000, 10_000, 3_000_000

# How many documents are asked for at once.
AT_ONCE = 500

# By how many bytes the memory may grow with connections: of each the address is remembered.
MOST_GROWN_BY_CONNECTIONS = 1_500_000


class GivenUp(ProxyTest):
    """A proxy that keeps few documents."""

    def test_documents_that_are_not_asked_for(self):
        """They are judged no longer, and named; one that is asked for now and then stays, as does what was recorded."""
        proxy = self.proxy(self.stand_in().url, "--part", "30", "--most-documents", "20")
        asker = self.asker(proxy)
        for number in range(100):
            self.assertEqual(asker.ask("PUT", f"/carts/_doc/d{number}", {"a": number})[0], 201)
            self.assertEqual(asker.ask("PUT", "/carts/_doc/often", {"a": number})[0], 200 if number else 201)
            self.assertEqual(asker.ask("GET", "/carts/_doc/often")[0], 200)
        self.assertEqual(asker.ask("GET", "/carts/_doc/d0")[0], 200)
        self.assertEqual(asker.ask("PUT", "/carts/_doc/d0", {})[0], 200)
        printed = proxy.ended()
        self.assertIn("  d0: it was not used while 10 others were", printed)
        with open(f"{self.file}.not-judged", encoding="utf-8") as lines:
            named = {it.get("id") for it in map(json.loads, lines)}
        self.assertIn("d50", named)
        self.assertFalse({"often", "d99"} & named)
        texts = [pathlib.Path(self.file, it).read_text() for it in sorted(os.listdir(self.file))]
        # (each document is recorded until it is given up, and not again)
        self.assertEqual(sum(it.count('"id":"d0","op"') for it in texts), 1)
        self.assertGreaterEqual(sum(it.count('"id":"often","op":"get"') for it in texts), 100)
        for it in os.listdir(self.file):
            self.assertRegex(judged(self.program, os.path.join(self.file, it), "--rule-out"), r"\Ayes ")

    def test_a_history_has_a_bound_of_its_own(self):
        """So no document of it is given up."""
        proxy = self.proxy(self.stand_in().url, "--most-documents", "20")
        asker = self.asker(proxy)
        for number in range(60):
            asker.ask("PUT", f"/carts/_doc/d{number}", {})
        self.assertEqual(asker.ask("GET", "/carts/_doc/d0")[0], 200)
        self.assertIn("judged: 60 documents, 61 calls; not judged: 0 documents, 0 calls", proxy.ended())
        self.assertRegex(self.check(), r"\Ayes docs=60 calls=61 ")


class Missed(ProxyTest):
    """A proxy that keeps as many documents as it does by itself."""

    def test_documents_that_are_only_missed(self):
        """Its memory doesn't grow with them."""
        proxy = self.proxy(self.stand_in().url, "--part", "1000")
        asker, grown = self.asker(proxy), []
        for count in (BEFORE, THEN):
            for first in range(0, count, AT_ONCE):
                ids = [f"{len(grown)}-{first + it}" for it in range(AT_ONCE)]
                status, body = asker.ask("POST", "/carts/_mget", {"ids": ids})
                self.assertEqual((status, [it["found"] for it in body["docs"]]), (200, [False] * AT_ONCE))
            grown.append(memory(proxy.process.pid))
        self.assertLess(grown[1] - grown[0], MOST_GROWN)
        self.assertIn(f", {BEFORE + THEN} calls; not judged: 0 documents, 0 calls", proxy.ended())


class Ended(ProxyTest):
    """Connections that ended. What refers to itself would be kept until the garbage collector comes, which is seldom."""

    def check_memory(self, proxy, status, before, then):
        """Holds the memory that more connections take behind the first ones, on each of which a request gets this status."""
        grown = []
        for count in (before, then):
            for _ in range(count):
                with Client(proxy.port) as client:
                    self.assertEqual(client.ask(b"GET /carts/_doc/d HTTP/1.1\r\nHost: x\r\n\r\n")[0], status)
            grown.append(memory(proxy.process.pid))
        self.assertLess(grown[1] - grown[0], MOST_GROWN_BY_CONNECTIONS)

    def test_clients_that_come_and_go(self):
        self.check_memory(self.proxy(self.stand_in().url), 404, 1_000, 2_000)

    def test_clients_of_a_cluster_that_is_gone(self):
        other = self.stand_in()
        proxy = self.proxy(other.url)
        other.process.kill()
        other.process.wait()
        self.check_memory(proxy, 502, 1_000, 2_000)

    def test_clients_of_a_cluster_behind_tls(self):
        other = self.started("stand_in", "--port", "0", "--certificate", CERTIFICATE)
        self.check_memory(self.proxy(other.url, "--ca-file", CERTIFICATE), 404, 100, 100)


class Kept(JudgeTest):
    """What is kept of documents."""

    def judge_in_parts(self, most_kept, calls=1000):
        self.parts = os.path.join(self.folder, "parts")
        judge = self.judge(history=Continuing(self.parts, calls))
        return Judge(judge.shape, "carts", self.history, judge.unjudged, DocumentState.JUDGED, None, most_kept)

    def recorded(self):
        """The calls of all parts, each as an operation and an id."""
        texts = [pathlib.Path(self.parts, it).read_text() for it in sorted(os.listdir(self.parts))]
        events = [json.loads(line) for it in texts for line in it.splitlines()]
        return [f"{it['op']} {it['id']}" for it in events if it["e"] == "call"]

    def test_missing_ids(self):
        """Nothing is kept of a document that was only missed. It is judged when it comes again."""
        judge = self.judge_in_parts(200)
        for number in range(300):
            self.talk(judge, (f"GET /carts/_doc/d{number}", None, missing(f"d{number}")))
        ids = {"ids": [f"m{number}" for number in range(50)]}
        self.talk(judge, ("GET /carts/_mget", ids, (200, {"docs": [missing(it)[1] for it in ids["ids"]]})))
        self.assertEqual(len(judge.documents.recent), 0)
        self.talk(judge, ("PUT /carts/_doc/d0", {"a": 1}, written(0, id="d0")), ("GET /carts/_doc/d0", None, found(0, {"a": 1}, "d0")))
        judge.close()
        self.assertEqual(self.names(), {})
        self.assertEqual(self.recorded()[-2:], ["index d0", "get d0"])

    def test_a_document_with_an_open_call_stays(self):
        judge = self.judge_in_parts(4)
        open_write = self.ask(judge, "PUT", "/carts/_doc/d", {"a": 1})
        for number in range(50):
            self.talk(judge, (f"PUT /carts/_doc/d{number}", {}, written(number, id=f"d{number}")))
        self.answer(judge, open_write, written(50))
        self.talk(judge, ("GET /carts/_doc/d", None, found(50, {"a": 1})))
        judge.close()
        self.assertNotIn("d", self.names())
        self.assertEqual([it for it in self.recorded() if it.endswith(" d")], ["index d", "get d"])

    def test_memory(self):
        """It doesn't grow with the documents that are written, nor with ids that are missed."""
        for kind in ("written", "missed"):
            with self.subTest(kind):
                judge = self.judge_in_parts(2000)
                turns = Turns(judge, kind)
                turns.make(BEFORE)
                before = memory()
                turns.make(THEN)
                self.assertLess(memory() - before, MOST_GROWN)
                judge.close()
                for it in os.listdir(self.parts):
                    self.assertRegex(judged(self.program, os.path.join(self.parts, it)), r"\Ayes ")
                    os.remove(os.path.join(self.parts, it))
                os.rmdir(self.parts)
                self.tidy()


class NotJudged(unittest.TestCase):
    """The set of documents that aren't judged."""

    def test_one_without_ids(self):
        """It takes next to no memory, also when it is asked for many."""
        before = memory()
        gone = DroppedIds()
        self.assertFalse(any(f"other-{number}" in gone for number in range(20_000)))
        self.assertLess(memory() - before, MOST_GROWN)

    def test_ids(self):
        gone = DroppedIds()
        for number in range(20_000):
            gone.add(f"gone-{number}")
        self.assertTrue(all(f"gone-{number}" in gone for number in range(20_000)))
        # (by chance others are in it, one of many millions)
        self.assertLess(sum(f"other-{number}" in gone for number in range(20_000)), 3)


if __name__ == "__main__":
    sys.exit(run_tests())

#!/usr/bin/env python3
"""Tests recordings of an index that isn't empty: they begin when earlier requests are over, and aren't ended by their list.

    python3 tests/recorded_settling.py [PROGRAM]

PROGRAM is the built casbench; if it isn't named, the one that ./casbench would run. The last line says how many tests passed and failed.
"""

import json
import os
import pathlib
import sys
import threading
import time
from unittest import mock

from program_test import run_tests
from recorded_requests import JudgeTest, found, missing, written
from recorded_through_proxy import Asker, ProxyTest, Scripted, as_answer

from casbench_recording.proxy.state.documents import DocumentState
from casbench_recording.watch import command as watch

BEGINS = "casbench_recording.proxy: the recording begins\n"


def waits(seconds):
    """The line on a recording that waits."""
    how = f"the recording begins in {seconds} s, and requests are passed on meanwhile (--settle)"
    return f"casbench_recording.proxy: the index carts isn't empty: {how}\n"


class OneIndex:
    """An index of one shard: its documents, each with its last number and its source."""

    def __init__(self):
        self.documents, self.next = {}, 0

    def described(self):
        return {"aliases": {}, "mappings": {}, "settings": {"index": {"number_of_shards": "1"}}}

    def get(self, id):
        return found(*self.documents[id], id) if id in self.documents else missing(id)

    def put(self, id, source):
        result = "updated" if id in self.documents else "created"
        self.documents[id], self.next = (self.next, source), self.next + 1
        return written(self.next - 1, result, id)


class HoldingCluster(Scripted):
    """A cluster of one index, which isn't empty. A write of `late` waits there until it is released."""

    def __init__(self):
        super().__init__(self.answer_to)
        self.index = OneIndex()
        self.index.put("old", {})
        self.has_come, self.is_released, self.is_over = threading.Event(), threading.Event(), threading.Event()

    def stats(self):
        return {"indices": {"carts": {"shards": {"0": [{"seq_no": {"max_seq_no": self.index.next - 1}}]}}}}

    def answer_to(self, request, whole):
        path = request.target.partition(b"?")[0].decode()
        id = path.rpartition("/")[2]
        if request.method != "PUT":
            return as_answer(*self.index.get(id))
        if id == "late":
            self.has_come.set()
            self.is_released.wait(60)
        answer = as_answer(*self.index.put(id, json.loads(whole.partition(b"\r\n\r\n")[2])))
        self.is_over.set()
        return answer


class InFlight(ProxyTest):
    """A write that was in flight when a proxy was killed, and is performed after the next one began."""

    def recorded(self, seconds=None):
        """A recording of gets of a document that is written late, by a proxy that waits so long, or for its default."""
        words = [] if seconds is None else ["--settle", str(seconds)]
        with HoldingCluster() as cluster:
            first = self.started("proxy", "--listen", "127.0.0.1:0", "--cluster", cluster.url, "--index", "carts", "--created-only", f"{self.file}.first")
            with Asker(first.port) as asker:
                sender = threading.Thread(target=asker.ask, args=("PUT", "/carts/_doc/late", {"a": 1}))
                sender.start()
                cluster.has_come.wait(60)
                first.process.kill()
                sender.join()
            second = self.proxy(cluster.url, "--created-only", *words)
            if seconds:
                self.assertEqual(second.errors.readline(), waits(seconds))
            with Asker(second.port) as asker:
                statuses = [asker.ask("GET", "/carts/_doc/late")[0]]
                cluster.is_released.set()
                cluster.is_over.wait(60)
                if seconds:
                    self.assertEqual(second.errors.readline(), BEGINS)
                statuses += [asker.ask("GET", "/carts/_doc/late")[0], asker.ask("PUT", "/carts/_doc/new", {})[0]]
            self.assertEqual(statuses, [404, 200, 201])
            return second.ended()

    def test_it_is_waited_for(self):
        self.assertIn("  late: it existed before", self.recorded(2))
        self.assertEqual({it["id"] for it in self.lines() if it["e"] == "call"}, {"late", "new"})
        for options in ((), ("--profile", "opensearch")):
            self.assertRegex(self.check(*options), r"\Ayes docs=2 calls=2 ")

    def test_a_proxy_that_is_started_without_the_option(self):
        """It waits without the option too, for longer than this takes, so that nothing is recorded."""
        self.recorded()
        self.assertFalse(os.path.exists(self.file) and self.check())

    def test_what_would_be_recorded_without(self):
        self.recorded(0)
        self.assertRegex(self.check(), r"\Arefuted kind=no-writer ")


class Settling(ProxyTest):
    """What is done while the recording waits."""

    def test_what_is_asked_meanwhile(self):
        """It is passed on, without a line. What is written then isn't judged, and what is read may be later."""
        other = self.stand_in()
        self.asker(other).ask("PUT", "/carts/_doc/old", {})
        for words, ids in ((["--created-only"], {"read", "new", "old"}), (["--documents", "new,written,read"], {"read", "new"})):
            with self.subTest(words):
                proxy = self.proxy(other.url, *words, "--settle", "2")
                self.assertEqual(proxy.errors.readline(), waits(2))
                asker, bulk = self.asker(proxy), b'{"index":{"_id":"written"}}\n{}\n'
                self.assertEqual(asker.ask("GET", "/carts/_doc/read")[0], 404)
                self.assertEqual(asker.ask("POST", "/carts/_bulk", bulk)[0], 200)
                self.assertEqual(os.path.getsize(self.file), 0)
                self.assertEqual(proxy.errors.readline(), BEGINS)
                for id in ("read", "new", "written", "old"):
                    asker.ask("GET", f"/carts/_doc/{id}")
                    asker.ask("PUT", f"/carts/_doc/{id}", {})
                printed = proxy.ended()
                self.assertIn("  written: it was written before the recording began", printed)
                self.assertEqual({it["id"] for it in self.lines() if it["e"] == "call"}, ids)
                self.assertRegex(self.check(), r"\Ayes ")
                for it in ("", ".not-judged"):
                    os.remove(self.file + it)
                for id in ("new", "read", "written"):
                    self.asker(other).ask("DELETE", f"/carts/_doc/{id}")

    def test_an_index_that_is_empty(self):
        """It isn't waited for, nor without seconds to wait."""
        other = self.stand_in()
        proxy = self.proxy(other.url)
        self.assertEqual(self.asker(proxy).ask("PUT", "/carts/_doc/d", {})[0], 201)
        self.assertNotIn("begins", proxy.ended())
        self.assertEqual(len(self.lines()), 2)

    def test_a_plan(self):
        """Its times count from the beginning of the recording."""
        other = self.stand_in()
        self.asker(other).ask("PUT", "/carts/_doc/old", {})
        plan, mark = pathlib.Path(self.folder) / "plan", pathlib.Path(self.folder) / "mark"
        plan.write_text(f"after 0.5 s: touch {mark}\n")
        began = time.time()
        proxy = self.proxy(other.url, "--created-only", "--settle", "2", "--disturb", str(plan))
        self.assertEqual([proxy.errors.readline() for _ in range(2)], [waits(2), BEGINS])
        while not mark.exists():
            self.assertLess(time.time(), began + 60)
            time.sleep(0.05)
        self.assertGreater(mark.stat().st_mtime, began + 2)
        proxy.ended()


class Judged(JudgeTest):
    """The same, without a connection; and the list of what isn't judged."""

    def test_a_write_without_an_id(self):
        """If it is answered after the recording began it is one from before."""
        judge = self.judge(first=DocumentState.UNSURE)
        judge.settle()
        early = self.ask(judge, "POST", "/carts/_doc", {})
        self.talk(judge, ("POST /carts/_doc", {}, written(0, id="A" * 20)))
        judge.settled()
        self.answer(judge, early, written(1, id="B" * 20))
        self.talk(judge, ("GET /carts/_doc/" + "B" * 20, None, found(1, {}, "B" * 20)), ("GET /carts/_doc/d", None, missing()))
        self.assertEqual(self.ended(judge), ["0 get d", "0 404"])
        self.assertEqual(sorted(self.names()), ["A" * 20, "B" * 20])

    def test_a_list_that_is_full(self):
        """The recording goes on, and the documents that are not listed are counted."""
        with mock.patch("casbench_recording.proxy.state.unjudged_list.MOST_LISTED", 1000):
            judge = self.judge(first=DocumentState.UNSURE)
            for number in range(100):
                self.talk(judge, (f"GET /carts/_doc/d{number}", None, found(3, {}, f"d{number}")))
            self.talk(judge, ("PUT /carts/_doc/new", {}, written(9, id="new")))
        self.assertEqual(len(self.ended(judge)), 202)
        self.assertIsNone(next(iter(judge.unjudged.ended), None))
        listed = [json.loads(it) for it in pathlib.Path(self.file + ".not-judged").read_text().splitlines()]
        ids = [it["id"] for it in listed if "id" in it]
        self.assertEqual(ids, [f"d{number}" for number in range(len(ids))])
        self.assertEqual(listed[len(ids) :], [{"documents": 100 - len(ids)}])
        self.assertIn(f"100 documents are not judged, from some moment on or at all ({self.file}.not-judged):", judge.unjudged.report())
        with mock.patch("builtins.print") as printed:
            watch.report_unjudged(self.file)
        self.assertEqual(printed.call_args.args[0], f"not judged: 100 documents, listed in {self.file}.not-judged")


if __name__ == "__main__":
    sys.exit(run_tests())

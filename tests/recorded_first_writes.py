#!/usr/bin/env python3
"""Tests that an index which isn't there yet is recorded from its first document.

    python3 tests/recorded_first_writes.py [PROGRAM]

PROGRAM is the built casbench; if it isn't named, the one that ./casbench would run. The last line says how many tests
passed and failed.
"""

import http.client
import json
import sys
import threading
import time
from concurrent.futures import ThreadPoolExecutor

from attacks import AttackTest, Cluster, answer_of, request_of
from program_test import run_tests
from recordings import Started


class Made(Cluster):
    """A cluster in which the first write makes the index. It gives each write the next sequence number."""

    def __init__(self, answer):
        super().__init__(answer, is_there=False)
        self.changes, self.lock = 0, threading.Lock()

    def own(self, head):
        """The answer to what the proxy asks itself."""
        if self.is_there and head.startswith(b"GET /carts/_stats"):
            return answer_of(200, {"indices": {"carts": {"shards": {"0": [{"seq_no": {"max_seq_no": self.changes - 1}}]}}}})
        return super().own(head)

    def performed(self, id):
        """Performs a write that makes a document; the body of its answer."""
        with self.lock:
            self.is_there, seq, self.changes = True, self.changes, self.changes + 1
        return {"_index": "carts", "_id": id, "result": "created", "_seq_no": seq, "_primary_term": 1}


class FirstWrites(AttackTest):
    """An index that isn't there yet."""

    def started(self, *words):
        """A command that runs until the test ends."""
        command = Started(*words)
        self.addCleanup(command.__exit__)
        return command

    def test_eight_threads_and_five_documents(self):
        other = self.started("stand_in", "--port", "0", "--delay", "0.01")
        proxy = self.proxy(other.url)
        begin, turns = threading.Barrier(8), 12

        def run(number):
            connection, pair = http.client.HTTPConnection("127.0.0.1", proxy.port, timeout=60), None
            begin.wait(30)
            for turn in range(turns):
                condition = f"?if_seq_no={pair[0]}&if_primary_term={pair[1]}" if pair and turn % 3 == 2 else ""
                method, body = ("GET", None) if turn % 3 == 1 else ("PUT", json.dumps({"number": number, "turn": turn}))
                connection.request(method, f"/carts/_doc/d{(number + turn // 3) % 5}{condition}", body, {"Content-Type": "application/json"})
                answer = json.loads(connection.getresponse().read())
                pair = (answer["_seq_no"], answer["_primary_term"]) if "_seq_no" in answer else None
            connection.close()

        with ThreadPoolExecutor(8) as pool:
            list(pool.map(run, range(8)))
        self.assertRegex(proxy.ended(), f"^recorded {8 * turns} calls in .*\njudged: 5 documents, {8 * turns} calls; not judged: 0 documents, 0 calls$")
        self.assertRegex(self.check(), f"^yes docs=5 calls={8 * turns} ")

    def recorded(self, answer, do):
        """What the proxy says, where clients do this on a cluster that answers so."""
        with Made(answer) as cluster, self.proxy(cluster.url) as proxy:
            do(cluster, proxy)
            return proxy.ended()

    def test_others_wait_for_the_first_write_and_other_indexes_do_not(self):
        is_in, is_over = threading.Event(), threading.Event()

        def answer(head, body):
            if b"/other/" in head + body:
                return answer_of(200, {})
            if b"/first" in head:
                is_in.set()
                is_over.wait(30)
            return answer_of(201, cluster.performed(head.split(b" ")[1].decode().rpartition("/")[2]))

        with Made(answer) as cluster, self.proxy(cluster.url) as proxy, self.client(proxy) as first, self.client(proxy) as second:
            first.send(request_of("PUT", "/carts/_doc/first", b"{}"))
            self.assertTrue(is_in.wait(30))
            second.send(request_of("PUT", "/carts/_doc/second", b"{}"))
            with self.client(proxy) as third:
                self.assertEqual(third.ask(request_of("GET", "/other/_doc/d"))[0], 200)
                self.assertEqual(third.ask(request_of("POST", "/_bulk", b'{"delete":{"_index":"/other/","_id":"d"}}\n'))[0], 200)
            time.sleep(0.3)
            self.assertEqual([it.split(b" ")[1] for it in cluster.seen], [b"/carts/_doc/first", b"/other/_doc/d", b"/_bulk"])
            is_over.set()
            self.assertEqual((first.heard()[0], second.heard()[0]), (201, 201))
            said = proxy.ended()
        self.assertIn("judged: 2 documents, 2 calls; not judged: 0 documents, 0 calls", said)
        self.assertEqual(self.check(), "yes docs=2 calls=2 left_out=0")

    def test_a_bulk_request_that_makes_the_index(self):
        lines = b"".join(b'{"index":{"_id":"d%d"}}\n{"a":"%s"}\n' % (it, b"x" * 1000) for it in range(300))

        def answer(head, body):
            items = [{"index": {**cluster.performed(f"d{it}"), "status": 201}} for it in range(300)]
            return answer_of(200, {"took": 1, "errors": False, "items": items})

        with Made(answer) as cluster, self.proxy(cluster.url) as proxy, self.client(proxy) as client:
            self.assertEqual(client.ask(request_of("POST", "/carts/_bulk", lines))[0], 200)
            self.assertIn("judged: 300 documents, 300 calls; not judged: 0 documents, 0 calls", proxy.ended())
        self.assertEqual(self.check(), "yes docs=300 calls=300 left_out=0")

    def test_where_the_first_answer_is_lost_only_its_document_is_not_judged(self):
        def answer(head, body):
            given = cluster.performed(head.split(b" ")[1].decode().rpartition("/")[2])
            return None if b"/first" in head else answer_of(201, given)

        with Made(answer) as cluster, self.proxy(cluster.url) as proxy:
            statuses = []
            for id in ("first", "second", "third"):
                with self.client(proxy) as client:
                    statuses.append(client.ask(request_of("PUT", f"/carts/_doc/{id}", b"{}"))[0])
            said = proxy.ended()
        self.assertEqual(statuses, [502, 201, 201])
        self.assertIn("judged: 2 documents, 2 calls; not judged: 1 document, 1 call", said)
        self.assertIn("  first: it was written before the index was inspected", said)
        self.assertEqual(self.check(), "yes docs=2 calls=2 left_out=0")

    def test_a_first_write_that_is_not_answered_holds_up_nobody_for_good(self):
        is_over = threading.Event()

        def answer(head, body):
            id = head.split(b" ")[1].decode().rpartition("/")[2]
            if id == "first":
                is_over.wait(60)
            return answer_of(201, cluster.performed(id))

        run = "runpy.run_module('casbench_recording.proxy', run_name='__main__', alter_sys=True)"
        start = (sys.executable, "-c", f"import casbench_recording.proxy.recording.index_discovery as it, runpy; it.PATIENCE = 1.0; {run}")
        with Made(answer) as cluster, self.proxy(cluster.url, start=start) as proxy, self.client(proxy) as first, self.client(proxy) as second:
            first.send(request_of("PUT", "/carts/_doc/first", b"{}"))
            cluster.wait_for(1)
            self.assertEqual(second.ask(request_of("PUT", "/carts/_doc/second", b"{}"))[0], 201)
            is_over.set()
            self.assertEqual(first.heard()[0], 201)
            said = proxy.ended()
        self.assertIn("judged: 1 document, 1 call; not judged: 1 document, 1 call", said)
        self.assertIn("  first: it was written before the index was inspected", said)
        self.assertEqual(self.check(), "yes docs=1 calls=1 left_out=0")

    def test_a_first_write_that_is_refused_is_no_fault_of_its_document(self):
        refused = []

        def answer(head, body):
            if not refused:
                refused.append(head)
                return answer_of(400, {"error": {"type": "mapper_parsing_exception"}, "status": 400})
            return answer_of(201, cluster.performed("d"))

        with Made(answer) as cluster, self.proxy(cluster.url) as proxy, self.client(proxy) as client:
            statuses = [client.ask(request_of("PUT", "/carts/_doc/d", b"{}"))[0] for _ in range(2)]
            self.assertIn("judged: 1 document, 1 call; not judged: 0 documents, 0 calls", proxy.ended())
        self.assertEqual(statuses, [400, 201])

    def test_an_index_that_somebody_else_filled(self):
        def answer(head, body):
            cluster.performed("old")
            return answer_of(201, cluster.performed("d"))

        with Made(answer) as cluster, self.proxy(cluster.url, "--settle", "0") as proxy, self.client(proxy) as client:
            self.assertEqual(client.ask(request_of("PUT", "/carts/_doc/d", b"{}"))[0], 201)
            shown = answer_of(200, {"_index": "carts", "_id": "old", "_seq_no": 0, "_primary_term": 1, "found": True, "_source": {}})
            cluster.answer = lambda head, body: shown
            self.assertEqual(client.ask(request_of("GET", "/carts/_doc/old"))[0], 200)
            said = proxy.ended()
        self.assertIn("  old: it existed before", said)
        self.assertRegex(self.check(), "^yes ")


if __name__ == "__main__":
    sys.exit(run_tests())

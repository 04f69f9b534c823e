#!/usr/bin/env python3
"""Tests that what the proxy records is never false, whatever clients and clusters send: with raw sockets, from the outside.

    python3 tests/recorded_attacks_on_records.py [PROGRAM]

PROGRAM is the built casbench; if it isn't named, the one that ./casbench would run. The last line says how many tests
passed and failed.
"""

import json
import os
import socket
import ssl
import struct
import sys
import threading
import time

from attacks import CERTIFICATE, AttackTest, Cluster, answer_of, deep, found, request_of
from program_test import run_tests

CREATED = {"_index": "carts", "_id": "d", "result": "created", "_seq_no": 0, "_primary_term": 1}


class Lines(AttackTest):
    """Every line that is written can be read back."""

    def test_answers_that_casbench_would_not_read_are_lost(self):
        odd = [b'"_seq_no":NaN', b'"_seq_no":1e999', b'"_seq_no":' + b"9" * 400, b'"result":' + deep(130), b'"result":"\\ud800"']
        odd += [b'"error":{"type":NaN}', b'"error":{"type":' + deep(130) + b"}", b'"found":Infinity', b'"_source":{"k":' + deep(200) + b"}"]
        bodies = [b'{"_id":"d","_primary_term":1,"found":true,%s}' % it for it in odd]
        waiting = iter(bodies)
        with Cluster(lambda *_: answer_of(200, next(waiting))) as cluster, self.proxy(cluster.url) as proxy:
            with self.client(proxy) as client:
                for body in bodies:
                    self.assertEqual(client.ask(request_of("GET", "/carts/_doc/d")), (200, body))
            proxy.ended()
        self.assertRegex(self.check(), f"^yes docs=1 calls={len(bodies)} left_out={len(bodies)}$")

    def test_an_honest_answer_of_a_part_of_a_source(self):
        body = b'{"found":true,"_source":{"k":%s}}' % deep(200)
        with Cluster(lambda *_: answer_of(200, body)) as cluster, self.proxy(cluster.url) as proxy:
            with self.client(proxy) as client:
                client.ask(request_of("GET", "/carts/_doc/d?filter_path=found,_source.k"))
            proxy.ended()
        self.assertEqual(self.check(), "yes docs=1 calls=1 left_out=1")


# Writes of which the proxy can't know what they write: a request, the answer, and the document that it wrote.
UNSEEN = [
    (request_of("POST", "/carts/_doc?id=5", b"{}"), {"_index": "carts", "_id": "5", "result": "updated"}, "5"),
    (request_of("POST", "/other/_bulk//", b'{"index":{"_index":"carts","_id":"d"}}\n{"a":1}\n'), {}, "d"),
    (request_of("POST", "/_snapshot/r/s/_restore//"), {}, "d"),
    (request_of("POST", "/_snapshot/r/s/_restore///"), {}, "d"),
    (request_of("POST", "/other/_bulk/stream", b'{"index":{"_index":"carts","_id":"d"}}\n{"a":1}\n'), {}, "d"),
    (request_of("POST", "/carts/_doc/_delete_by_query", b"{}"), {}, "d"),
    (request_of("POST", "/carts/kind/_update_by_query", b"{}"), {}, "d"),
    (request_of("POST", "/carts/_doc/_bulk", b'{"index":{"_id":"d"}}\n{"a":1}\n'), {}, "d"),
    (request_of("POST", "/carts/_bulk", b'{"index":{"_id":-0}}\n{"a":1}\n'), {"items": [{"index": {"_id": "-0", "status": 201}}]}, "-0"),
    (request_of("POST", "/carts/_bulk", b'{"index":{"_id":"e"}}\n{"a":1}\n'), {"items": [{"index": {"_id": "d", "status": 201}}]}, "d"),
    (request_of("PUT", b"/carts/_doc/\xc3\xa9", b"{}"), {}, "%C3%83%C2%A9"),
    (request_of("PUT", b"/carts/_doc/%ed%a0%80", b"{}"), {}, "%EF%BF%BD"),
]


class Unseen(AttackTest):
    """No write goes past the proxy unseen: a get that shows it accuses nobody."""

    def run_of(self, request, given, id):
        """What is made of a write and of a get that shows it."""
        shown = found(7, {"a": 1}, _id=id if id[0] != "%" else {"%C3%83%C2%A9": "\xc3\xa9", "%EF%BF%BD": "\ufffd"}[id])

        def answer(head, body):
            return answer_of(200, shown if head.startswith(b"GET") else given)

        with Cluster(answer) as cluster, self.proxy(cluster.url) as proxy:
            with self.client(proxy) as client:
                self.assertEqual(client.ask(request)[0], 200)
                self.assertEqual(client.ask(request_of("GET", f"/carts/_doc/{id}"))[0], 200)
            return proxy.ended()

    def test_writes_that_can_not_be_known(self):
        for request, given, id in UNSEEN:
            with self.subTest(request=request[:60]):
                self.tidy()
                said = self.run_of(request, given, id)
                answer = self.check() if os.path.exists(self.file) else "no call was made"
                self.assertRegex(answer + said, "^yes |the recording ended early|not judged, from")
                self.assertNotIn("refuted", answer)

    def test_bodies_are_judged_by_what_they_say(self):
        aliases = b'{"actions":[{"add":{"index":"c\\u0061rts","alias":"x"}}]}'
        bodies = [
            ("PUT", "/carts/_settings", b'{"index.default_\\u0070ipeline":"p"}'),
            ("PUT", "/carts/_mapping", b'{"\\u005fsource":{"enabled":false}}'),
            ("POST", "/_reindex", json.dumps({"source": {"index": "x"}, "dest": {"index": "carts"}}).encode("utf-16-le")),
            ("POST", "/_aliases", b'actions:\n - add: {index: "\\x63arts", alias: "x"}\n'),
            ("POST", "/_aliases", aliases),
            ("POST", "/_reindex", b'{"dest":{"index":"c\\u0061rts"},"dest":{"index":"x"}}'),
        ]
        for method, target, body in bodies:
            with self.subTest(target=target, body=body):
                self.tidy()
                self.assertIn("the recording ended early", self.run_of(request_of(method, target, body), {}, "d"))

    def test_bodies_that_say_nothing_of_it_go_by(self):
        with Cluster(lambda *_: answer_of(200, found(0, {}))) as cluster, self.proxy(cluster.url) as proxy:
            with self.client(proxy) as client:
                client.ask(request_of("PUT", "/carts/_settings", b'{"index":{"number_of_replicas":2}}'))
                client.ask(request_of("POST", "/_reindex", b'{"source":{"index":"x"},"dest":{"index":"y"}}'))
                client.ask(request_of("GET", "/carts/_doc/d"))
            self.assertIn("recorded 1 call ", proxy.ended())


class Heads(AttackTest):
    """What one server takes for a field and another doesn't gets status 400."""

    def test_heads_that_can_be_read_in_two_ways(self):
        length, chunked = b"Content-Length: 5\r\n", b"5\r\n{}\r\n\r\n0\r\n\r\n"
        fields = [length + b"\x0bTransfer-Encoding: chunked", length + b"\x0cTransfer-Encoding: chunked", length + b"\x1fTransfer-Encoding: chunked"]
        fields += [length + b"Transfer-Encoding\x0b: chunked", b"Content-Length : 5", b"Content-Length: \x0b5", b"Transfer-Encoding: \x0bchunked"]
        fields += [length + b"no colon", length + b": no name", b"X: a\x00b\r\nContent-Length: 5", b"Content-Length: 5\x0c"]
        requests = [b"PUT /carts/_doc/d HTTP/1.1\r\n" + it + b"\r\n\r\n" + chunked for it in fields]
        requests.append(b"PUT /carts/_doc/d HTTP/1.0\r\nTransfer-Encoding: chunked\r\n\r\n" + chunked)
        with Cluster(lambda *_: answer_of(200, {})) as cluster, self.proxy(cluster.url) as proxy:
            for request in requests:
                with self.subTest(request=request), self.client(proxy) as client:
                    self.assertEqual(client.ask(request)[0], 400)
            self.assertEqual(cluster.seen, [])
            proxy.ended()
        self.assertFalse(os.path.exists(self.file))

    def test_chunks_that_can_be_read_in_two_ways(self):
        for chunk in (b"2\x0b\r\n{}\r\n0\r\n\r\n", b"2;\x00\r\n{}\r\n0\r\n\r\n", b"2\r\n{}\r\n0\r\nX y\r\n\r\n"):
            with Cluster(lambda *_: answer_of(200, {})) as cluster, self.proxy(cluster.url) as proxy:
                with self.client(proxy) as client:
                    client.send(b"PUT /carts/_doc/d HTTP/1.1\r\nTransfer-Encoding: chunked\r\n\r\n" + chunk)
                    self.assertEqual(client.all(), b"")
                self.assertEqual(cluster.seen, [])
                proxy.ended()


class Late(AttackTest):
    """Writes that are performed late, and answers that aren't whole."""

    def test_a_write_by_an_alias_whose_client_has_left_an_index_that_was_not_there(self):
        gone = threading.Event()

        def answer(head, body):
            if head.startswith(b"PUT /shop"):
                gone.wait(30)
                return None
            return answer_of(200, found(0, {"a": 1}) if head.startswith(b"GET") else {"acknowledged": True})

        with Cluster(answer, is_there=False, aliases={"shop": {}}) as cluster, self.proxy(cluster.url) as proxy:
            with self.client(proxy) as client:
                client.send(request_of("PUT", "/shop/_doc/d", b'{"a":1}'))
                cluster.wait_for(1)
                client.reset()
            with self.client(proxy) as client:
                client.ask(request_of("GET", "/other/_search"))
                cluster.is_there = True
                client.ask(request_of("PUT", "/carts", b"{}"))
                client.ask(request_of("GET", "/carts/_doc/d"))
            gone.set()
            said = proxy.ended()
        self.assertIn("the recording ended early", said)
        self.assertFalse(os.path.exists(self.file))

    def test_an_answer_to_its_end_that_ends_with_a_reset(self):
        head = b"HTTP/1.1 200 OK\r\n\r\n" + json.dumps(found(0, {})).encode()

        def answer(connection):
            connection.recv(65_536)
            connection.sendall(head)
            time.sleep(0.3)
            connection.setsockopt(socket.SOL_SOCKET, socket.SO_LINGER, struct.pack("ii", 1, 0))
            connection.close()

        with Cluster(answer, is_raw=True) as cluster, self.proxy(cluster.url) as proxy:
            with self.client(proxy) as client:
                client.send(request_of("GET", "/carts/_doc/d"))
                client.all()
            self.assertIn("1 of them without a reply", proxy.ended())
        self.assertEqual([it["e"] for it in self.lines()], ["call", "lost"])

    def test_an_answer_over_tls_that_ends_without_word(self):
        there = ssl.SSLContext(ssl.PROTOCOL_TLS_SERVER)
        there.load_cert_chain(CERTIFICATE)
        body = json.dumps(found(0, {})).encode()
        for is_known in (False, True):

            def answer(connection):
                with there.wrap_socket(connection, server_side=True) as server:
                    server.recv(65_536)
                    server.sendall(b"HTTP/1.1 200 OK\r\n\r\n" + body)
                    if is_known:
                        server.unwrap()

            with Cluster(answer, is_raw=True, trust=there) as cluster, self.proxy(cluster.url, "--ca-file", CERTIFICATE) as proxy:
                with self.client(proxy) as client:
                    client.send(request_of("GET", "/carts/_doc/d"))
                    client.all()
                proxy.ended()
            self.assertEqual([it["e"] for it in self.lines()], ["call", "reply" if is_known else "lost"])
            self.tidy()

    def test_more_than_an_answer_is_none_to_the_next_request(self):
        first, second = answer_of(200, found(0, {})), answer_of(200, found(9, {"x": 1}))

        def answer(head, body):
            return first + second

        with Cluster(answer) as cluster, self.proxy(cluster.url) as proxy:
            with self.client(proxy) as client:
                client.send(request_of("GET", "/carts/_doc/d") * 2)
                client.all()
            proxy.ended()
        self.assertNotIn(9, [it["body"]["_seq_no"] for it in self.lines() if it["e"] == "reply"])


if __name__ == "__main__":
    sys.exit(run_tests())

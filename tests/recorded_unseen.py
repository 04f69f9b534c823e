#!/usr/bin/env python3
"""Tests that no write goes past the proxy unseen, by a path that a server on the way normalises, in another protocol, or under an id that
has no bytes; and that nobody is held up by an index that can't be looked at, or by a number that takes long to read.

    python3 tests/recorded_unseen.py [PROGRAM]

PROGRAM is the built casbench; if it isn't named, the one that ./casbench would run. The last line says how many tests
passed and failed.
"""

import json
import os
import posixpath
import sys
import threading
import urllib.parse

from attacks import AttackTest, Cluster, Watched, answer_of, found, request_of
from program_test import run_tests

# How long others wait at most, on a machine that is busy with other things too. The proxy gives a question of its own 12 seconds.
MOST_SECONDS = 6.0

OTHER = request_of("PUT", "/other/_doc/1", b"{}")


class Normalising(Cluster):
    """A cluster behind a server that normalises paths. It keeps documents by their paths, and shows and counts what they are."""

    def __init__(self, **how):
        super().__init__(self.performed, **how)
        self.documents, self.seq = {}, -1

    def path_of(self, target):
        """The path that the cluster gets."""
        path = urllib.parse.unquote(target.partition("?")[0]).replace("\\", "/")
        return posixpath.normpath(path.replace("http://h/", "/").replace("//", "/"))

    def performed(self, head, body):
        """The answer to a request."""
        method, target, _ = head.split(b"\r\n")[0].decode().split(" ")
        path = self.path_of(target)
        _, index, room, id = (path.split("/") + [""] * 3)[:4]
        if index != "carts" or room not in ("_doc", "_create") or not id:
            return answer_of(400, {"error": {"type": "illegal_argument_exception"}})
        if method == "GET":
            shown = self.documents.get(id)
            return answer_of(200, shown) if shown else answer_of(404, {"_index": "carts", "_id": id, "found": False})
        self.seq += 1
        result = "updated" if id in self.documents else "created"
        self.documents[id] = found(self.seq, json.loads(body), _id=id)
        told = {"_index": "carts", "_id": id, "result": result, "_seq_no": self.seq, "_primary_term": 1}
        return answer_of(200 if result == "updated" else 201, told)


class Sent(Normalising):
    """The same without such a server."""

    def path_of(self, target):
        return target.partition("?")[0]


class Paths(AttackTest):
    """Paths of which a server on the way makes others."""

    HIDDEN = ["/x/../carts/_doc/a", "/./carts/_doc/a", "/%2e/carts/_doc/a", "/x/%2E%2e/carts/_doc/a", "/x/.%2e/carts/_doc/a", "/carts%2F_doc%2Fa"]
    HIDDEN += ["/carts%2f_doc/a", "/x%2F../carts/_doc/a", "/other/_doc/b%2F..%2F..%2F..%2Fcarts%2F_doc%2Fa", "/x/_doc/../../carts/_create/a"]
    HIDDEN += ["/carts%5C_doc%5Ca", "/x/..\\carts/_doc/a", "/carts/_doc/./a", "/carts/_doc/b/../a", "/carts%2F/_doc/a", "http://h/x/../carts/_doc/a"]

    def said_of(self, cluster, targets, *words):
        """What the proxy says of writes of the document a by these targets, and a get that shows the last of them."""
        with self.proxy(cluster.url, *words) as proxy:
            with self.client(proxy) as client:
                for target in targets:
                    self.assertIn(client.ask(request_of("PUT", target, b'{"by":1}'))[0], (200, 201, 400), target)
                self.assertIn(client.ask(request_of("GET", "/carts/_doc/a"))[0], (200, 404))
            return proxy.ended()

    def test_a_write_by_each_of_them_ends_the_recording(self):
        for target in self.HIDDEN:
            with self.subTest(target=target), Normalising() as cluster:
                self.tidy()
                said = self.said_of(cluster, [target])
                self.assertEqual(list(cluster.documents), ["a"], "the write wasn't performed")
                self.assertRegex(said, "(?s)the recording ended early: PUT .*--paths-unchanged")
                self.assertFalse(os.path.exists(self.file))

    def test_a_get_by_such_a_path_is_not_recorded(self):
        absent = answer_of(404, {"found": False})
        created = {"items": [{"index": {"_index": "carts", "_id": "x/../a", "status": 201, "result": "created", "_seq_no": 0, "_primary_term": 1}}]}
        with Cluster(lambda head, _: absent if head.startswith(b"GET") else answer_of(200, created)) as cluster, self.proxy(cluster.url) as proxy:
            with self.client(proxy) as client:
                client.ask(request_of("POST", "/carts/_bulk", b'{"index":{"_id":"x/../a"}}\n{}\n'))
                for target in ("/carts/_doc/x%2F..%2Fa?filter_path=found", "/carts/_doc/x/../a"):
                    self.assertEqual(client.ask(request_of("GET", target))[0], 404)
            self.assertNotIn("ended early", proxy.ended())
        self.assertEqual(self.check(), "yes docs=1 calls=1 left_out=0")

    def test_where_nothing_normalises_they_are_no_writes(self):
        with Sent() as cluster:
            said = self.said_of(cluster, [it for it in self.HIDDEN if not it.startswith("/carts/")], "--paths-unchanged")
        self.assertNotIn("ended early", said)
        self.assertEqual(self.check(), "yes docs=1 calls=1 left_out=0")

    def test_ids_and_names_that_look_like_it_are_recorded_or_passed(self):
        ids = ["a%2Fb", "a%5Cb", "a..b", "a%2F..b", "%2E.a", "...", "what%3F"]
        others = ["/.kibana/_doc/1", "/%3Clogs-%7Bnow%2Fd%7D%3E/_doc/1", "/other/_doc/a%2Fb", "/_scripts/a%2Fb", "/logs-1/_doc/a%20b"]
        with Cluster(lambda *_: answer_of(400, {})) as cluster, self.proxy(cluster.url) as proxy:
            with self.client(proxy) as client:
                for target in [*others, *[f"/carts/_doc/{it}" for it in ids]]:
                    self.assertEqual(client.ask(request_of("PUT", target, b"{}"))[0], 400)
            self.assertNotIn("ended early", proxy.ended())
        self.assertEqual([it["id"] for it in self.lines() if it["e"] == "call"], [urllib.parse.unquote(it) for it in ids])


class Ids(AttackTest):
    """Ids with half of a surrogate pair, for which a cluster writes another character."""

    def recorded(self, action, id):
        """What the proxy reports of a bulk request with this action, which writes the document of an id; a get shows it then."""
        item = json.loads(action)["index"]
        told = {"items": [{"index": {"_index": item.get("_index", "carts"), "_id": id, "status": 201, "result": "created", "_seq_no": 0, "_primary_term": 1}}]}

        def answer(head, body):
            shown = found(0, {"a": 1}, _id=urllib.parse.unquote(head.split(b" ")[1].decode().rpartition("/")[2]))
            return answer_of(200, shown if head.startswith(b"GET") else told)

        with Cluster(answer) as cluster, self.proxy(cluster.url) as proxy:
            with self.client(proxy) as client:
                self.assertEqual(client.ask(request_of("POST", "/carts/_bulk", action.encode() + b'\n{"a":1}\n'))[0], 200)
                self.assertEqual(client.ask(request_of("GET", "/carts/_doc/" + urllib.parse.quote(id)))[0], 200)
                self.assertEqual(client.ask(request_of("GET", "/carts/_doc/other"))[0], 200)
            return proxy.ended()

    def test_their_documents_are_not_judged(self):
        for id in ("x\ufffd", "x?"):
            said = self.recorded('{"index":{"_id":"x\\ud800"}}', id)
            self.assertNotIn("ended early", said)
            self.assertIn(f"  {id}: it was written by a bulk request", said)
            self.assertEqual({it["id"] for it in self.lines() if it["e"] == "call"}, {"other"})
            self.tidy()

    def test_items_for_other_indexes_are_no_matter(self):
        for more in ('"_id":"x\\ud800"', '"_id":null', '"_id":1.5', '"_id":true'):
            said = self.recorded('{"index":{"_index":"other",%s}}' % more, "d")
            self.assertNotIn("ended early", said)
            self.assertNotIn("not judged, from", said)
            self.tidy()


class Upgrades(AttackTest):
    """Requests that offer to go on in another protocol."""

    FIELDS = [b"Connection: Upgrade, HTTP2-Settings", b"Upgrade: h2c", b"HTTP2-Settings: AAMAAABkAAQCAAAAAAIAAAAA"]

    def test_the_offer_is_not_passed_on(self):
        with Normalising() as cluster, self.proxy(cluster.url) as proxy:
            with self.client(proxy) as client:
                for fields in (self.FIELDS, [b"connection:keep-alive , uPGRADE", b"UPGRADE: websocket", b"X: y"], [b"Connection: close"]):
                    self.assertIn(client.ask(request_of("PUT", "/carts/_doc/a", b"{}", *fields))[0], (200, 201))
            self.assertNotIn("ended early", proxy.ended())
        sent = [it.split(b"\r\n")[1:] for it in cluster.seen]
        length = b"Content-Length: 2"
        wanted = [[b"Host: x", length], [b"Host: x", b"connection: keep-alive", b"X: y", length], [b"Host: x", b"Connection: close", length]]
        self.assertEqual(sent, wanted)
        self.assertEqual(self.check(), "yes docs=1 calls=3 left_out=0")

    def test_a_request_in_pieces_and_one_that_is_streamed(self):
        large = b"x" * 3_000_000
        with Normalising() as cluster, self.proxy(cluster.url) as proxy, self.client(proxy) as client:
            whole = request_of("PUT", "/carts/_doc/a", b'{"a":1}', *self.FIELDS)
            for at in range(0, len(whole), 7):
                client.send(whole[at : at + 7])
            self.assertEqual(client.heard()[0], 201)
            self.assertEqual(client.ask(request_of("PUT", "/other/_doc/a", large, *self.FIELDS))[0], 400)
            self.assertNotIn("ended early", proxy.ended())
        self.assertFalse(any(b"pgrade" in it or b"ettings" in it for it in cluster.seen))

    def test_a_cluster_that_goes_on_in_another_protocol_gave_no_answer(self):
        switched = b"HTTP/1.1 101 Switching Protocols\r\nUpgrade: h2c\r\n\r\n"
        with Cluster(lambda head, _: switched if b"/a " in head else answer_of(200, found(0, {}))) as cluster, self.proxy(cluster.url) as proxy:
            for id, status in (("a", 502), ("d", 200)):
                with self.client(proxy) as client:
                    self.assertEqual(client.ask(request_of("GET", f"/carts/_doc/{id}", None, *self.FIELDS))[0], status)
            self.assertNotIn("ended early", proxy.ended())
        self.assertEqual([it["e"] for it in self.lines()], ["call", "lost", "call", "reply"])


class Hanging(Cluster):
    """A cluster that hangs when it is asked for an index that isn't there, after the first time."""

    def __init__(self, *arguments, **how):
        super().__init__(*arguments, is_there=False, **how)
        self.looks, self.is_over = 0, threading.Event()

    def own(self, head):
        if head.startswith(b"GET /carts "):
            self.looks += 1
            if self.looks > 1:
                self.is_over.wait(60)
        return super().own(head)


class HeldUp(AttackTest):
    """Nobody is held up who has nothing to do with it."""

    def test_an_index_that_can_not_be_looked_at(self):
        with Hanging(lambda *_: answer_of(200, {})) as cluster, self.proxy(cluster.url) as proxy:
            bulk = request_of("POST", "/_bulk", b'{"index":{"_index":"other"}}\n{}\n')
            with Watched(proxy.port, OTHER) as first, Watched(proxy.port, bulk) as second, self.client(proxy) as client:
                self.assertEqual(client.ask(request_of("PUT", "/other", b"{}"))[0], 200)
                for _ in range(20):
                    self.assertEqual(client.ask(OTHER)[0], 200)
            self.assertGreater(cluster.looks, 1)
            cluster.is_over.set()
            proxy.ended()
        self.assertLess(max(first.longest, second.longest), MOST_SECONDS)
        self.assertGreater(min(first.count, second.count), 0)

    def test_a_write_by_another_name_while_the_index_is_made(self):
        is_asked, may_be_performed = threading.Event(), threading.Event()

        class Slow(Cluster):
            """A cluster that takes a second to say what the index is, of which others have an alias before the proxy knows it."""

            changes = 0

            def own(self, head):
                if self.is_there and head.startswith(b"GET /carts/_stats"):
                    changes = self.changes
                    is_asked.set()
                    may_be_performed.wait(1)
                    return answer_of(200, {"indices": {"carts": {"shards": {"0": [{"seq_no": {"max_seq_no": changes - 1}}]}}}})
                return super().own(head)

        def answer(head, body):
            if head.startswith(b"GET"):
                return answer_of(200, found(0, {"by": "shop"}, _id="first"))
            if head.startswith(b"PUT /shop/"):
                cluster.is_there, cluster.changes = True, 1
                return answer_of(201, {"_index": "carts", "_id": "first", "result": "created", "_seq_no": 0, "_primary_term": 1})
            may_be_performed.wait(30)
            return answer_of(201, {"_index": "carts", "_id": "d", "result": "created", "_seq_no": 1, "_primary_term": 1})

        with Slow(answer, is_there=False, aliases={"shop": {}}) as cluster, self.proxy(cluster.url, "--settle", "0") as proxy:
            with self.client(proxy) as first, self.client(proxy) as second:
                first.send(request_of("PUT", "/shop/_doc/first", b'{"by":"shop"}'))
                self.assertTrue(is_asked.wait(30))
                second.send(request_of("PUT", "/carts/_doc/d", b"{}"))
                self.assertEqual(first.heard()[0], 201)
                cluster.wait_for(2)
                may_be_performed.set()
                self.assertEqual(second.heard()[0], 201)
                self.assertEqual(first.ask(request_of("GET", "/carts/_doc/first"))[0], 200)
            proxy.ended()
        self.assertRegex(self.check(), "^yes docs=[12] calls=[12] ")

    def test_numbers_of_two_million_digits(self):
        digits = b"9" * 2_000_000
        source, seq = b'{"k":%s}' % digits, b'{"_id":"d","_seq_no":%s,"_primary_term":1,"found":true,"_source":{"k":1}}' % digits
        item = b'{"items":[{"index":{"_index":"carts","_id":"d","status":%s}}]}' % digits

        def answer(head, body):
            return answer_of(200, item if b"_bulk" in head else seq if head.startswith(b"GET") else {})

        with Cluster(answer) as cluster, self.proxy(cluster.url, PYTHONINTMAXSTRDIGITS="0") as proxy:
            with Watched(proxy.port, OTHER) as watched, self.client(proxy) as client:
                requests = [("PUT", "/carts/_doc/d", source), ("POST", "/carts/_update/d", b'{"doc":%s}' % source), ("GET", "/carts/_doc/d", None)]
                requests += [("POST", "/carts/_bulk", b'{"index":{"_id":"d"}}\n%s\n' % source), ("POST", "/_mget", b'{"docs":[%s]}' % digits)]
                requests += [("POST", "/carts/_bulk", b'{"index":{"_id":"d","if_seq_no":%s}}\n{}\n' % digits[:60_000])]
                for it in requests:
                    self.assertEqual(client.ask(request_of(*it))[0], 200, it[:2])
            self.assertNotIn("ended early", proxy.ended())
        self.assertLess(watched.longest, MOST_SECONDS)
        self.assertRegex(self.check(), "^yes docs=1 ")


if __name__ == "__main__":
    sys.exit(run_tests())

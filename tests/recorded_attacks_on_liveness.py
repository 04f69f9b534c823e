#!/usr/bin/env python3
"""Tests that no client and no cluster crashes, hangs or bloats the proxy: with raw sockets, from the outside.

    python3 tests/recorded_attacks_on_liveness.py [PROGRAM]

PROGRAM is the built casbench; if it isn't named, the one that ./casbench would run. The last line says how many tests
passed and failed.
"""

import contextlib
import json
import os
import select
import socket
import sys
import threading
import time

from attacks import AttackTest, Cluster, Watched, answer_of, descriptors, end_of, found, megabytes, packed, request_of, threads
from program_test import run_tests

GET = request_of("GET", "/carts/_doc/d")
OTHER = request_of("GET", "/other/_doc/d")
CONTINUE = b"HTTP/1.1 100 Continue\r\n\r\n"

# How much memory the proxy may take under an attack, and how long others may wait on a machine where much else goes on.
MOST_MEGABYTES = 300
MOST_SECONDS = 3.0


def performed(id="d", seq=0):
    """The body of the answer to a write that made a document."""
    return {"_index": "carts", "_id": id, "result": "created", "_seq_no": seq, "_primary_term": 1}


class Told(AttackTest):
    """What the proxy reports, and who doesn't read it."""

    def test_a_thousand_interim_answers_in_one_packet(self):
        with Cluster(lambda *_: CONTINUE * 1000 + answer_of(200, found(0, {}))) as cluster, self.proxy(cluster.url) as proxy:
            with self.client(proxy) as client:
                client.send(GET)
                head = b""
                while b"HTTP/1.1 200" not in head:
                    more = client.more()
                    self.assertNotEqual(more, b"", "the answer never came")
                    head += more
            self.assertRegex(proxy.ended(), "^recorded 1 call in .*, 0 of them without a reply\n")

    def test_standard_error_that_nobody_reads(self):
        reads, writes = os.pipe()
        os.set_blocking(writes, False)
        with Cluster(lambda *_: CONTINUE * 1000 + answer_of(201, performed())) as cluster:
            proxy = self.proxy_on_port(cluster.url, writes)
            with contextlib.suppress(BlockingIOError):
                while True:
                    os.write(writes, b"x" * 1000)
            os.set_blocking(writes, True)
            self.answers_after_interim(proxy, cluster)
        os.close(reads)
        os.close(writes)

    def test_standard_error_that_is_closed(self):
        reads, writes = os.pipe()
        with Cluster(lambda *_: CONTINUE * 1000 + answer_of(201, performed())) as cluster:
            proxy = self.proxy_on_port(cluster.url, writes)
            os.close(reads)
            self.answers_after_interim(proxy, cluster)
        os.close(writes)

    def proxy_on_port(self, url, stderr):
        """A proxy whose standard error is this descriptor, on a port that is free."""
        with socket.create_server(("127.0.0.1", 0)) as free:
            port = free.getsockname()[1]
        proxy = self.proxy(url, "--listen", f"127.0.0.1:{port}", stderr=stderr)
        proxy.port = port
        for _ in range(300):
            with contextlib.suppress(OSError), socket.create_connection(("127.0.0.1", port)):
                return proxy
            time.sleep(0.05)
        raise AssertionError("the proxy doesn't listen")

    def answers_after_interim(self, proxy, cluster):
        """Whether the proxy goes on and ends soon, after interim answers and after something that it reports."""
        with self.client(proxy, timeout=20) as client:
            client.send(request_of("PUT", "/carts/_doc/d", b"{}"))
            while b"HTTP/1.1 201" not in client.data:
                more = client.more()
                self.assertNotEqual(more, b"", "the answer never came")
                client.data += more
        os.remove(self.file)  # (which the proxy reports)
        time.sleep(1.5)
        with self.client(proxy, timeout=20) as client:
            client.send(OTHER)
            self.assertEqual(client.more()[:12], CONTINUE[:12])
        began = time.monotonic()
        proxy.process.terminate()
        proxy.process.wait(10)
        self.assertLess(time.monotonic() - began, MOST_SECONDS)

    def test_ids_and_reasons_are_escaped(self):
        with Cluster(lambda *_: answer_of(200, {})) as cluster, self.proxy(cluster.url) as proxy:
            with self.client(proxy) as client:
                client.ask(request_of("POST", "/carts/_update/%1b%5B2J%0a%E2%80%AE", b'{"script":"x"}'))
                client.ask(request_of("DELETE", "/carts%2C%1b%5B2J"))
            said = proxy.ended()
        self.assertIn("\\x1b[2J\\n\\u202e", said)
        self.assertNotRegex(said, "[\x1b\u202e]")


class Large(AttackTest):
    """Bodies that are large, or become so."""

    def test_a_small_body_that_becomes_large(self):
        body = packed([b'{"a":[', *[b"0," * 500_000] * 60, b"0]}"])
        self.assertLess(len(body), 200_000)
        with Cluster(lambda head, _: answer_of(201 if b"PUT" in head else 200, performed())) as cluster, self.proxy(cluster.url) as proxy:
            with Watched(proxy.port, OTHER) as watched, self.client(proxy) as client:
                for id in ("d", "e"):
                    client.ask(request_of("PUT", f"/carts/_doc/{id}", body, b"Content-Encoding: gzip"))
            self.assertLess(watched.longest, MOST_SECONDS)
            self.assertLess(megabytes(proxy), MOST_MEGABYTES)
            proxy.ended()
        self.assertRegex(self.check(), "^yes docs=2 calls=2 ")

    def test_an_answer_that_becomes_large(self):
        body = packed([b'{"_index":"carts","_id":"d","_seq_no":0,"_primary_term":1,"found":true,"_source":{"a":[', *[b"0," * 500_000] * 60, b"0]}}"])
        with Cluster(lambda *_: answer_of(200, body, b"Content-Encoding: gzip")) as cluster, self.proxy(cluster.url) as proxy:
            with self.client(proxy) as client:
                self.assertEqual(client.ask(GET), (200, body))
            self.assertLess(megabytes(proxy), MOST_MEGABYTES)
            proxy.ended()
        self.assertEqual(self.check(), "yes docs=1 calls=1 left_out=1")

    def test_bodies_of_many_clients(self):
        size, count = 8_000_000, 60
        with Cluster(lambda *_: answer_of(201, performed())) as cluster, self.proxy(cluster.url) as proxy:
            with contextlib.ExitStack() as opened:
                for at in range(count):
                    client = opened.enter_context(self.client(proxy))
                    client.send(b"PUT /carts/_doc/d%d HTTP/1.1\r\nContent-Length: %d\r\n\r\n" % (at, 100 * size))
                    threading.Thread(target=client.send, args=(b"x" * size,), daemon=True).start()
                with Watched(proxy.port, OTHER) as watched:
                    time.sleep(4)
                self.assertGreater(watched.count, 0)
                self.assertLess(megabytes(proxy), MOST_MEGABYTES)
            proxy.ended()

    def test_chunks_of_two_bytes(self):
        chunks = b"2\r\n[]\r\n" * 10_000
        with Cluster(lambda *_: answer_of(201, performed())) as cluster, self.proxy(cluster.url) as proxy:
            with Watched(proxy.port, OTHER) as watched, contextlib.ExitStack() as opened:
                for _ in range(4):
                    client = opened.enter_context(self.client(proxy))
                    client.send(b"PUT /carts/_doc/d HTTP/1.1\r\nTransfer-Encoding: chunked\r\n\r\n")
                    for _ in range(100):
                        client.send(chunks)
            self.assertLess(watched.longest, MOST_SECONDS)
            self.assertLess(megabytes(proxy), 150)
            proxy.ended()

    def test_answers_that_nobody_reads(self):
        body = json.dumps(found(0, {"a": "x" * 20_000_000})).encode()
        with Cluster(lambda *_: answer_of(200, body)) as cluster, self.proxy(cluster.url) as proxy:
            with contextlib.ExitStack() as opened:
                for _ in range(30):
                    opened.enter_context(self.client(proxy)).send(GET)
                cluster.wait_for(30)
                time.sleep(3)
                self.assertLess(megabytes(proxy), MOST_MEGABYTES)
            proxy.ended()

    def test_a_bulk_request_of_many_items(self):
        count = 100_000
        lines = b"".join(b'{"index":{"_id":"d%d"}}\n{"a":%d}\n' % (it % 1000, it) for it in range(count))

        def answer(head, body):
            if not head.startswith(b"POST"):
                return answer_of(200, {})
            item = b'{"index":{"_index":"carts","_id":"d%d","_version":1,"result":"%s","_seq_no":%d,"_primary_term":1,"status":%d}}'
            results = ((it, (b"created", 201) if it < 1000 else (b"updated", 200)) for it in range(count))
            items = b",".join(item % (it % 1000, result, it, status) for it, (result, status) in results)
            return answer_of(200, b'{"took":5,"errors":false,"items":[%s]}' % items)

        with Cluster(answer) as cluster, self.proxy(cluster.url) as proxy:
            with Watched(proxy.port, OTHER) as watched, self.client(proxy, timeout=120) as client:
                self.assertEqual(client.ask(request_of("POST", "/carts/_bulk", lines))[0], 200)
            self.assertLess(watched.longest, MOST_SECONDS)
            self.assertIn(f"recorded {count} calls", proxy.ended())
        self.assertEqual(self.check(), f"yes docs=1000 calls={count} left_out=0")

    def test_a_long_answer_of_one_item(self):
        item = b'{"took":5,"errors":false,"items":[{"index":{"a":[%s[]]}}]}' % (b"[]," * 9_000_000)
        with Cluster(lambda head, _: answer_of(200, item if head[:4] == b"POST" else {})) as cluster, self.proxy(cluster.url) as proxy:
            with Watched(proxy.port, OTHER) as watched, self.client(proxy) as client:
                client.ask(request_of("POST", "/carts/_bulk", b'{"delete":{"_id":"d"}}\n'))
            self.assertLess(watched.longest, MOST_SECONDS)
            self.assertLess(megabytes(proxy), MOST_MEGABYTES)
            proxy.ended()
        self.assertEqual(self.check(), "yes docs=1 calls=1 left_out=1")

    def test_many_open_calls_on_one_document(self):
        body, is_in, is_over = b'{"delete":{"_id":"d"}}\n' * 150_000, threading.Event(), threading.Event()

        def answer(head, body):
            if head[:4] == b"POST":
                is_in.set()
                is_over.wait(60)
                return None
            return answer_of(200, {})

        with Cluster(answer) as cluster, self.proxy(cluster.url) as proxy:
            with Watched(proxy.port, OTHER) as watched, self.client(proxy) as client:
                client.send(request_of("POST", "/carts/_bulk", body))
                self.assertTrue(is_in.wait(60))
                client.reset()
                time.sleep(2)
            is_over.set()
            self.assertLess(watched.longest, 1.5)
            self.assertIn("150000 of them without a reply", proxy.ended())

    def test_an_end_with_half_a_million_open_calls(self):
        count, is_in, is_over = 524_288, threading.Event(), threading.Event()

        def answer(head, body):
            if head[:4] == b"POST":
                is_in.set()
                is_over.wait(300)
                return None
            return answer_of(200, {})

        with Cluster(answer) as cluster, self.proxy(cluster.url) as proxy, self.client(proxy, timeout=300) as client:
            client.send(request_of("POST", "/carts/_bulk", b'{"delete":{"_id":"d"}}\n' * count))
            self.assertTrue(is_in.wait(300))
            seconds, taken, status = end_of(proxy)
            is_over.set()
        self.assertEqual(status, 0)
        self.assertLess(taken, 1.0)
        self.assertLess(seconds, MOST_SECONDS)
        with open(self.file, encoding="utf-8") as lines:
            self.assertEqual(sum(it.startswith('{"e":"lost"') for it in lines), count)

    def test_items_whose_ids_nobody_knows(self):
        body = packed([b'{"index":{}}\n{}\n' * 50_000] * 8)
        with Cluster(lambda *_: answer_of(200, {})) as cluster, self.proxy(cluster.url) as proxy:
            with Watched(proxy.port, OTHER) as watched, self.client(proxy) as client:
                self.assertEqual(client.ask(request_of("POST", "/carts/_bulk", body, b"Content-Encoding: gzip"))[0], 200)
            self.assertLess(watched.longest, MOST_SECONDS)
            self.assertLess(megabytes(proxy), 170)
            proxy.ended()

    def test_a_get_of_more_documents_than_a_history_holds(self):
        body = json.dumps({"ids": [str(it) for it in range(530_000)]}).encode()
        with Cluster(lambda head, _: answer_of(201 if head[:3] == b"PUT" else 200, performed())) as cluster, self.proxy(cluster.url) as proxy:
            with self.client(proxy) as client:
                client.ask(request_of("PUT", "/carts/_doc/d", b"{}"))
                client.ask(request_of("POST", "/carts/_mget", body))
                client.ask(request_of("PUT", "/carts/_doc/e", b"{}"))
            said = proxy.ended()
        self.assertRegex(said, "^recorded 2 calls ")
        self.assertNotIn("ended early", said)
        self.assertRegex(self.check(), "^yes ")


class Kept(AttackTest):
    """What is kept of requests that were."""

    def test_long_targets(self):
        with Cluster(lambda *_: answer_of(200, {})) as cluster, self.proxy(cluster.url) as proxy:
            with self.client(proxy) as client:
                for at in range(1200):
                    client.ask(request_of("GET", b"/carts/_doc/%d?x=%s" % (at, b"y" * 60_000)))
            self.assertLess(megabytes(proxy), 150)
            proxy.ended()

    def test_long_targets_of_requests_that_are_open(self):
        is_over, line = threading.Event(), b"/carts/_doc/%d?version=" + b"y" * 60_000

        def answer(head, body):
            is_over.wait(60)

        with Cluster(answer) as cluster, self.proxy(cluster.url) as proxy, contextlib.ExitStack() as opened:
            clients = [opened.enter_context(self.client(proxy, timeout=5)) for _ in range(700)]
            for at, client in enumerate(clients):
                client.send(request_of("GET", line % at))
            is_closed = bool(select.select([it.socket for it in clients], [], [], 10)[0])
            is_over.set()
            # (those for which most waits lose their connections)
            self.assertTrue(is_closed)
            proxy.ended()

    def test_reasons(self):
        with Cluster(lambda *_: answer_of(200, {})) as cluster, self.proxy(cluster.url) as proxy:
            with self.client(proxy) as client:
                for at in range(1500):
                    client.ask(request_of("PUT", b"/carts/_doc/d%d?%s=1" % (at, b"y" * 60_000), b"{}"))
            self.assertLess(megabytes(proxy), 150)
            proxy.ended()
        self.assertLess(os.path.getsize(self.file + ".not-judged"), 2_000_000)

    def test_wildcards(self):
        with Cluster(lambda *_: answer_of(200, {})) as cluster, self.proxy(cluster.url) as proxy:
            began = time.monotonic()
            with self.client(proxy) as client:
                for at in range(60):
                    client.ask(request_of("DELETE", b"/b%d" % at + b"*b" * 25_000))
            self.assertLess(time.monotonic() - began, 15)
            self.assertLess(megabytes(proxy), 120)
            proxy.ended()


class Stuck(AttackTest):
    """Clusters that don't answer, or don't even listen."""

    def test_a_cluster_that_drips_while_the_index_is_not_there(self):
        is_dripping = threading.Event()

        def answer(head, body):
            return answer_of(200, {})

        class Dripping(Cluster):
            """Drips if the request is for the index."""

            def own(self, head):
                if not is_dripping.is_set() or not head.startswith(b"GET /carts "):
                    return super().own(head)
                for connection in self.own_connections:
                    with contextlib.suppress(OSError):
                        for _ in range(600):
                            connection.sendall(b"HTTP/1.1 200 OK\r\nX: y\r\n" if _ == 0 else b"X")
                            time.sleep(0.1)
                return None

            def converse(self, connection):
                self.own_connections = [connection]
                super().converse(connection)

        with Dripping(answer, is_there=False) as cluster, self.proxy(cluster.url) as proxy:
            connections, cluster.own_connections = cluster.own_connections, []
            with self.client(proxy) as client, Watched(proxy.port, OTHER) as watched:
                cluster.wait_for(1)
                cluster.own_connections = connections
                is_dripping.set()
                client.send(request_of("PUT", "/carts", b"{}"))
                time.sleep(3)
                self.assertGreater(watched.count, 5)
            began = time.monotonic()
            proxy.process.terminate()
            self.assertEqual(proxy.process.wait(10), 0)
            self.assertLess(time.monotonic() - began, MOST_SECONDS)
        self.assertLess(watched.longest, MOST_SECONDS)

    def test_a_cluster_that_takes_no_connections(self):
        with Cluster(lambda *_: answer_of(200, {})) as cluster, self.proxy(cluster.url) as proxy:
            before = threads(proxy), descriptors(proxy)
            # (a full backlog: the system answers no more attempts to connect)
            cluster.close()
            with socket.socket() as deaf:
                deaf.setsockopt(socket.SOL_SOCKET, socket.SO_REUSEADDR, 1)
                deaf.bind(("127.0.0.1", int(cluster.url.rpartition(":")[2])))
                deaf.listen(0)
                with contextlib.ExitStack() as opened:
                    fillers = [socket.socket() for _ in range(4)]
                    for it in fillers:
                        opened.callback(it.close)
                        it.setblocking(False)
                        it.connect_ex(deaf.getsockname())
                    for _ in range(200):
                        with self.client(proxy) as client:
                            client.send(GET)
                    time.sleep(1)
                    self.assertLessEqual(threads(proxy), before[0] + 2)
                    with self.client(proxy) as client:
                        self.assertEqual(client.ask(GET)[0], 502)
            time.sleep(3)
            self.assertLessEqual(descriptors(proxy), before[1] + 4)
            proxy.ended()


class Connections(AttackTest):
    """Connections that are idle, half-closed, or too many."""

    def test_idle_connections_are_closed(self):
        with Cluster(lambda *_: answer_of(200, {})) as cluster, self.proxy(cluster.url, "--idle", "1") as proxy:
            with self.client(proxy, timeout=30) as client, self.client(proxy, timeout=30) as silent:
                self.assertEqual(client.ask(OTHER)[0], 200)
                self.assertEqual((client.more(), silent.more()), (b"", b""))
            proxy.ended()

    def test_more_clients_than_descriptors(self):
        is_going = threading.Event()

        def answer(head, body):
            is_going.wait(60)
            return answer_of(200, {})

        words = [sys.executable, "-c", "import resource, runpy; resource.setrlimit(resource.RLIMIT_NOFILE, (80, 80)); "]
        words[2] += "runpy.run_module('casbench_recording.proxy', run_name='__main__', alter_sys=True)"
        with Cluster(answer) as cluster, self.proxy(cluster.url, start=words) as proxy, contextlib.ExitStack() as opened:
            idle = [opened.enter_context(self.client(proxy, timeout=20)) for _ in range(20)]
            time.sleep(1.5)
            idle += [opened.enter_context(self.client(proxy, timeout=20)) for _ in range(10)]
            self.assertEqual(idle[0].more(), b"", "the oldest idle connection is closed first")
            busy, statuses = [], []
            for _ in range(60):
                busy.append(opened.enter_context(self.client(proxy, timeout=20)))
                busy[-1].send(OTHER)
            for it in busy:
                if select.select([it.socket], [], [], 0.3)[0]:
                    statuses.append(it.heard()[0])
            self.assertIn(503, statuses)
            is_going.set()
            said = proxy.ended()
        self.assertEqual(said.count("more are answered with status 503"), 1)
        self.assertNotIn("Traceback", said)

    def test_a_client_that_half_closes(self):
        def answer(head, body):
            time.sleep(0.5)
            return answer_of(200, found(0, {}))

        with Cluster(answer) as cluster, self.proxy(cluster.url) as proxy:
            with self.client(proxy) as client:
                client.send(GET)
                client.socket.shutdown(socket.SHUT_WR)
                self.assertEqual(client.heard()[0], 200)
                self.assertEqual(client.more(), b"")
            self.assertIn("0 of them without a reply", proxy.ended())

    def test_empty_lines_before_a_request(self):
        with Cluster(lambda *_: answer_of(200, found(0, {}))) as cluster, self.proxy(cluster.url) as proxy:
            with self.client(proxy) as client:
                for before in (b"\r\n", b"\r\n\r\n", b""):
                    self.assertEqual(client.ask(before + GET)[0], 200)
            proxy.ended()
        self.assertEqual(len(self.lines()), 6)


class Files(AttackTest):
    """A history that somebody else writes to, cuts off or removes."""

    def recorded(self, do):
        """Does this to the file between two calls; returns the proxy's output, its status, and whether it reported an error at once."""
        with Cluster(lambda head, _: answer_of(201, performed())) as cluster, self.proxy(cluster.url) as proxy:
            with self.client(proxy) as client:
                client.ask(request_of("PUT", "/carts/_doc/d", b"{}"))
                do()
                at_once = proxy.errors.has_line(5)
                self.assertEqual(client.ask(request_of("PUT", "/carts/_doc/e", b"{}"))[0], 201)
            said = proxy.ended()
            return said, proxy.process.returncode, at_once

    def test_a_file_that_is_removed_or_cut_off(self):
        for do in (lambda: os.remove(self.file), lambda: os.truncate(self.file, 0), lambda: os.truncate(self.file, 60)):
            said, status, at_once = self.recorded(do)
            self.assertTrue(at_once)
            self.assertNotEqual(status, 0)
            self.assertRegex(said, "was (removed|changed) while it was recorded")
            self.tidy()

    def test_a_file_that_is_opened_for_appending(self):
        with Cluster(lambda head, _: answer_of(201, performed())) as cluster, self.proxy(cluster.url) as proxy:
            files = [f"/proc/{proxy.process.pid}/fd/{it}" for it in os.listdir(f"/proc/{proxy.process.pid}/fd")]
            (own,) = [it for it in files if os.path.realpath(it) == os.path.realpath(self.file)]
            with open(own.replace("/fd/", "/fdinfo/"), encoding="ascii") as file:
                flags = int(file.read().split("flags:")[1].split()[0], 8)
            self.assertTrue(flags & os.O_APPEND)
            proxy.ended()


if __name__ == "__main__":
    sys.exit(run_tests())

#!/usr/bin/env python3
"""Tests the proxy on drawn attacks: eight clients at once, whose requests are changed at random, and a cluster whose answers are.

    python3 tests/recorded_attacks_drawn.py [PROGRAM]

PROGRAM is the built casbench; if it isn't named, the one that ./casbench would run. Each history can be read; that of a cluster
which answers right gets `yes`; behind the clients no descriptor, no thread and no memory is left; and SIGTERM ends the proxy soon, at
any moment. The last line says how many tests passed and failed.
"""

import json
import os
import random
import re
import sys
import threading
import time
from concurrent.futures import ThreadPoolExecutor

from attacks import AttackTest, Client, Cluster, answer_of, descriptors, end_of, megabytes, request_of, threads
from program_test import run_tests

from casbench_recording.http1 import BadMessage
from casbench_recording.http1 import request_of as head_of
from casbench_recording.stand_in.api import answer_to
from casbench_recording.stand_in.cluster import Cluster as StandIn
from casbench_recording.stand_in.parsed_request import read_request

CLIENTS = 8
DOCUMENTS = 6

# What is put into requests and answers.
ODD = [b"\r\n", b"\r", b"\n", b"\x00", b"\x0b", b"%00", b"%ff", b"%2F", b"//", b"/_bulk", b"/_doc", b"_update", b"*", b",", b"?", b"&id=5", b"-0"]
ODD += [b"NaN", b"1e999", b"\xff", b"\xc3\xa9", b"\\u0061", b"\\ud800", b'"', b"{", b"}", b"[" * 150, b":", b"9" * 300, b"Content-Length: 3\r\n", b" "]
ODD += [b"Transfer-Encoding: chunked\r\n", b"Expect: 100-continue\r\n", b"Content-Encoding: gzip\r\n", b"pipeline=p"]
ODD += [b"&routing=x", b"\xed\xa0\x80", b"null"]

# What replaces a member that counts.
VALUES = [b"NaN", b"1e999", b"9" * 400, b"-0", b'"\\ud800"', b"[" * 130 + b"]" * 130, b"null", b"true"]
MEMBER = re.compile(rb'("(?:_seq_no|_primary_term|result|found|type)": )[^,}]+')


def mutated(draw, data):
    """The bytes, changed in one place or some."""
    for _ in range(draw.choice([1, 1, 2, 4])):
        at, kind = draw.randrange(len(data) + 1), draw.randrange(5)
        if kind == 0:
            data = data[:at] + bytes([draw.randrange(256)]) + data[at + 1 :]
        elif kind == 1:
            data = data[:at] + draw.choice(ODD) + data[at:]
        elif kind == 2:
            data = data[:at] + data[at + draw.randrange(1, 9) :]
        elif kind == 3:
            data = data[:at] + data[draw.randrange(at + 1) : at] + data[at:]
        else:
            data = re.sub(rb"\d+", lambda it: draw.choice([it[0], draw.choice(ODD)]), data, count=draw.randrange(1, 4))
    return data


def at_once(work):
    """What work returns that waits for nothing, as that of a cluster of one node."""
    try:
        work.send(None)
    except StopIteration as end:
        return end.value
    raise AssertionError("it waits for something")


class Honest(Cluster):
    """A cluster that does each request in one step, and answers right."""

    def __init__(self):
        super().__init__(self.act)
        self.stand_in, self.lock = StandIn(), threading.Lock()
        at_once(self.stand_in.manager.create("carts", {}))

    def act(self, head, body):
        """The answer to a request."""
        try:
            request = head_of(head + b"\r\n\r\n")
        except BadMessage:
            return None
        with self.lock:
            status, given = at_once(answer_to(self.stand_in.nodes[0].coordinator, read_request(request, body)))
        answer = answer_of(status, json.dumps(given).encode())
        return answer.partition(b"\r\n\r\n")[0] + b"\r\n\r\n" if request.method == "HEAD" else answer


class Hostile(Honest):
    """One whose answers are changed at random."""

    def __init__(self, seed):
        super().__init__()
        self.draw = random.Random(seed)

    def act(self, head, body):
        answer, kind = super().act(head, body), self.draw.random()
        if answer is None or kind < 0.5:
            return answer
        if kind < 0.6:
            return b"HTTP/1.1 100 Continue\r\n\r\n" * self.draw.choice([1, 700]) + answer
        head, _, body = answer.partition(b"\r\n\r\n")
        if kind < 0.75:
            return answer_of(int(head.split()[1]), MEMBER.sub(lambda it: it[1] + self.draw.choice(VALUES), body, count=1))
        return mutated(self.draw, answer) if kind < 0.66 else answer_of(int(head.split()[1]), mutated(self.draw, body))


class Drawn:
    """A client whose requests are drawn."""

    def __init__(self, seed, port, odds, timeout):
        self.draw, self.port, self.odds, self.timeout = random.Random(seed), port, odds, timeout
        self.count, self.pairs, self.client = 0, {}, None

    def request(self):
        """A request that is drawn."""
        draw, id = self.draw, f"d{self.draw.randrange(DOCUMENTS)}"
        self.count += 1
        source = json.dumps({"n": self.count, "by": id, "tags": ["x", None]}).encode()
        target, kind = f"/carts/_doc/{id}", draw.randrange(12)
        if kind < 4:
            return request_of(draw.choice(["GET", "GET", "HEAD"]), target)
        if kind < 6:
            return request_of("PUT", target, source)
        if kind < 8 and id in self.pairs:
            term, seq = self.pairs[id]
            return request_of(draw.choice(["PUT", "DELETE"]), f"{target}?if_seq_no={seq}&if_primary_term={term}", source)
        if kind == 8:
            return request_of("PUT", f"/carts/_create/{id}", source)
        if kind == 9:
            return request_of("DELETE", target)
        if kind == 10:
            lines = [b'{"index":{"_id":"%s"}}\n%s\n{"delete":{"_id":"d0"}}\n' % (id.encode(), source)] * draw.randrange(1, 4)
            return request_of("POST", "/carts/_bulk", b"".join(lines))
        return request_of("POST", "/carts/_mget", json.dumps({"ids": [id, "d1"]}).encode())

    def turn(self):
        """Makes one exchange, in one of several ways."""
        draw, request = self.draw, self.request()
        is_odd = draw.random() < self.odds
        request = mutated(draw, request) if is_odd else request
        if self.client is None:
            self.client = Client(self.port, timeout=self.timeout)
        cut = draw.randrange(len(request)) if draw.random() < 0.2 else len(request)
        self.client.send(request[:cut])
        if is_odd and draw.random() < 0.1:
            self.client.reset()
            self.client = None
            return
        self.client.send(request[cut:])
        self.hear(request)

    def hear(self, request):
        """Takes the answer; after one that doesn't come, or that can't be read, another connection is made."""
        try:
            status, body = self.client.heard() if not request.startswith(b"HEAD") else (None, b"")
        except (OSError, ValueError, IndexError):
            status, body = None, b""
        if status is None or status in (400, 502):
            self.client.socket.close()
            self.client = None
            return
        found = re.search(rb'"_id": "(d\d)".*"_seq_no": (\d+), "_primary_term": (\d+)', body)
        if found:
            self.pairs[found[1].decode()] = (int(found[3]), int(found[2]))

    def run(self, count):
        """Makes so many exchanges, as long as there is a proxy; returns how many it made."""
        try:
            for done in range(count):
                self.turn()
            return count
        except ConnectionRefusedError:
            return done
        finally:
            if self.client is not None:
                self.client.socket.close()


class Attacked(AttackTest):
    """Runs of the proxy under drawn attacks."""

    # how many exchanges were made in runs that weren't cut short
    made = 0

    def run_of(self, name, cluster, odds, count, is_cut_short):
        """Makes a run; returns the answer for its history, what was left behind the clients, and how long the end took."""
        self.file = os.path.join(self.folder, f"{name}.ndjson")
        # (if a cluster never ends its answer, that ends the wait for it)
        with cluster, self.proxy(cluster.url, "--idle", "4") as proxy, ThreadPoolExecutor(CLIENTS) as pool:
            before = self.before(proxy)
            timeout = 0.4 if odds or isinstance(cluster, Hostile) else 30
            runs = [pool.submit(Drawn(f"{name}/{it}", proxy.port, odds, timeout).run, count) for it in range(CLIENTS)]
            left = None
            if is_cut_short:
                time.sleep(random.Random(name).uniform(0.05, 1.5))
            else:
                self.made += sum(it.result() for it in runs)
                left = self.left(proxy, before)
            seconds, taken, status = end_of(proxy)
            errors = proxy.errors.read()
        # (what isn't known of a request that is made up may end the recording, which is reported)
        self.assertEqual(status, 3 if "the recording ended early: " in errors else 0)
        self.assertLess(taken, 1.0)
        return self.check() if os.path.exists(self.file) else "no call was made", left, seconds

    def before(self, proxy):
        """What the proxy has before there are clients, once the thread is there that wakes its loop."""
        for _ in range(3000):
            if threads(proxy) > 1:
                break
            time.sleep(0.01)
        return descriptors(proxy), threads(proxy), megabytes(proxy, "VmRSS")

    def left(self, proxy, before):
        """What is left behind the clients, once it is little, or after some seconds."""
        for _ in range(200):
            left = descriptors(proxy) - before[0], threads(proxy) - before[1], megabytes(proxy, "VmRSS") - before[2]
            if left[0] <= 1 and left[1] <= 0:
                break
            time.sleep(0.1)
        return left

    def hold(self, answers, wanted):
        """Holds what runs came to."""
        for answer, left, seconds in answers:
            self.assertRegex(answer, wanted)
            self.assertLess(seconds, 3.0)
            if left is not None:
                # (the list of what isn't judged is a descriptor)
                self.assertLessEqual(left[0], 1)
                self.assertLessEqual(left[1], 0)
                self.assertLess(left[2], 40)
        self.assertLess(sorted(seconds for _, _, seconds in answers)[len(answers) // 2], 1.0)

    def test_clients_that_attack_an_honest_cluster(self):
        plans = [(f"honest-{it}", Honest(), [0, 0.02, 0.3][it % 3], 175, it % 4 == 3) for it in range(12)]
        self.hold([self.run_of(*it) for it in plans], "^(yes .*|no call was made)$")
        self.assertEqual(self.made, 12_600)

    def test_clients_and_clusters_that_attack(self):
        plans = [(f"hostile-{it}", Hostile(it), [0, 0.02, 0.3][it % 3], 160, it % 4 == 3) for it in range(8)]
        self.hold([self.run_of(*it) for it in plans], "^(yes|no|refuted) |^no call was made$")
        self.assertEqual(self.made, 7_680)


if __name__ == "__main__":
    sys.exit(run_tests())

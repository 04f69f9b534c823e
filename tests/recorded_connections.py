#!/usr/bin/env python3
"""Tests the proxy's loop and its connections, plain and encrypted; that messages in one piece and in many are recorded alike; and that
replies read in short say what their JSON says.

    python3 tests/recorded_connections.py [PROGRAM]

PROGRAM isn't run. The last line says how many tests passed and failed.
"""

import contextlib
import json
import os
import random
import resource
import signal
import socket
import ssl
import threading
import time
import unittest
from types import SimpleNamespace
from unittest import mock

from program import TOP
from program_test import run_tests
from recordings import FolderTest

from casbench_recording.history import History
from casbench_recording.history.format import counting_members
from casbench_recording.index_inspection import IndexShape
from casbench_recording.index_names import Names
from casbench_recording.proxy.http.client_side import ClientSide
from casbench_recording.proxy.http.connecting import Addresses, Connecting
from casbench_recording.proxy.http.exchange import ExchangeState
from casbench_recording.proxy.http.loop import Loop, Stream
from casbench_recording.proxy.http.tls import TlsStream
from casbench_recording.proxy.recording.fast_replies import read_reply
from casbench_recording.proxy.recording.judge import Judge
from casbench_recording.proxy.routing.paths import AS_SENT
from casbench_recording.proxy.state.documents import digest_of, digest_of_object, digest_of_text, object_of
from casbench_recording.proxy.state.unjudged_list import UnjudgedList

CERTIFICATE = str(TOP / "examples" / "record" / "loopback.pem")


class Taker:
    """Who uses a connection, and notes what it hears."""

    def __init__(self):
        self.data, self.heard, self.stream = b"", [], None

    def received(self, data):
        self.data += data

    def pause_writing(self):
        self.heard.append("pause")

    def resume_writing(self):
        self.heard.append("resume")

    def ended(self):
        self.stream.close()

    def connection_lost(self):
        self.heard.append("lost")


class LoopTest(unittest.TestCase):
    """A test with a loop that runs on a thread of its own."""

    def setUp(self):
        self.loop = Loop()
        self.thread = threading.Thread(target=self.loop.run)
        self.thread.start()
        self.addCleanup(self.end)

    def end(self):
        self.loop.stop()
        self.thread.join()
        self.loop.close()

    def make(self, what):
        """Does something on the loop's thread; gives what comes of it."""
        returned, is_done = [], threading.Event()
        self.loop.call(lambda: (returned.append(what()), is_done.set()))
        self.assertTrue(is_done.wait(30))
        return returned[0]

    def until(self, holds):
        """Waits until something holds, half a minute at most."""
        for _ in range(30_000):
            if holds():
                return
            time.sleep(0.001)
        self.fail("it never held")

    def pair(self):
        """A connection of the loop with who uses it, and the other end of it."""
        ours, other = socket.socketpair()
        self.addCleanup(other.close)
        other.settimeout(30)
        taker = Taker()
        taker.stream = self.make(lambda: Stream(self.loop, ours, taker))
        return taker, other


def read_all(connection, count):
    """So many bytes that come."""
    data = bytearray()
    while len(data) < count:
        more = connection.recv(1 << 20)
        if not more:
            break
        data += more
    return bytes(data)


class Streams(LoopTest):
    """Connections."""

    def test_what_is_not_taken_yet_waits_and_is_sent_in_its_order(self):
        taker, other = self.pair()
        pieces = [bytes([it]) * 300_000 for it in range(40)]
        self.make(lambda: [taker.stream.write(it) for it in pieces])
        self.assertEqual(taker.heard, ["pause"])
        self.assertEqual(read_all(other, 12_000_000), b"".join(pieces))
        self.until(lambda: taker.heard == ["pause", "resume"])

    def test_what_comes_is_handed_on_unless_it_is_paused(self):
        taker, other = self.pair()
        other.sendall(b"a" * 200_000)
        self.until(lambda: len(taker.data) == 200_000)
        self.make(taker.stream.pause_reading)
        other.sendall(b"b")
        time.sleep(0.05)
        self.assertEqual(len(taker.data), 200_000)
        self.make(taker.stream.resume_reading)
        self.until(lambda: taker.data.endswith(b"ab"))

    def test_a_connection_that_is_closed_sends_all_that_waits(self):
        taker, other = self.pair()
        self.make(lambda: (taker.stream.write(b"x" * 5_000_000), taker.stream.close(), taker.stream.write(b"")))
        self.assertTrue(taker.stream.is_closing)
        self.assertEqual(taker.heard, ["pause"])
        self.assertEqual(len(read_all(other, 6_000_000)), 5_000_000)
        self.until(lambda: taker.heard == ["pause", "lost"])

    def test_a_connection_that_is_ended_sends_no_more(self):
        taker, other = self.pair()
        self.make(lambda: (taker.stream.write(b"x" * 50_000_000), taker.stream.abort(), taker.stream.write(b"y")))
        with contextlib.suppress(ConnectionResetError):
            self.assertLess(len(read_all(other, 50_000_000)), 50_000_000)
        self.until(lambda: taker.heard == ["pause", "lost"])

    def test_a_connection_that_the_other_side_closes(self):
        taker, other = self.pair()
        other.sendall(b"last")
        other.close()
        self.until(lambda: taker.heard == ["lost"])
        self.assertEqual(taker.data, b"last")

    def test_a_connection_that_breaks_while_it_is_written_to(self):
        taker, other = self.pair()
        self.make(taker.stream.pause_reading)
        other.close()
        self.make(lambda: taker.stream.write(b"x"))
        self.until(lambda: taker.heard == ["lost"])

    def test_a_fault_of_a_user_ends_its_connection_alone(self):
        (taker, other), (second, another) = self.pair(), self.pair()
        taker.received = mock.Mock(side_effect=ValueError("a fault of the test"))
        with mock.patch("casbench_recording.console.report") as tell:
            other.sendall(b"x")
            self.until(lambda: taker.heard == ["lost"])
            self.loop.call(lambda: 1 // 0)
            another.sendall(b"y")
            self.until(lambda: second.data == b"y")
        printed = [call.args[0] for call in tell.call_args_list]
        self.assertRegex("".join(printed), "^[^\n]*a fault of the test\n[^\n]*ZeroDivisionError[^\n]*\n$")


class Listening(LoopTest):
    """Connections that are made, here and there."""

    def test_connections_are_accepted_and_made(self):
        accepted, made = [], []
        listeners = self.make(lambda: self.loop.listen("127.0.0.1", 0, accepted.append))
        port = listeners[0].port
        addresses = Addresses("127.0.0.1", port)
        self.make(lambda: Connecting(self.loop, addresses, made.append))
        self.until(lambda: accepted and made)
        self.assertEqual(made[0].getsockname(), accepted[0].getpeername())
        self.make(lambda: [it.close() for it in listeners])
        self.make(lambda: Connecting(self.loop, addresses, made.append))
        self.until(lambda: len(made) == 2)
        self.assertIsInstance(made[1], ConnectionRefusedError)
        for it in (accepted[0], made[0]):
            it.close()

    def test_an_address_that_is_taken(self):
        (listener,) = self.make(lambda: self.loop.listen("127.0.0.1", 0, print))
        self.assertRaises(OSError, self.loop.listen, "127.0.0.1", listener.port, print)
        self.make(listener.close)

    def test_where_there_is_room_for_no_more_connections_they_wait(self):
        takers = []

        def accepted(connection):
            takers.append(Taker())
            takers[-1].stream = Stream(self.loop, connection, takers[-1])

        (listener,) = self.make(lambda: self.loop.listen("127.0.0.1", 0, accepted))
        self.addCleanup(listener.socket.close)
        first = socket.create_connection(("127.0.0.1", listener.port))
        self.until(lambda: takers)
        with socket.socket() as second:
            least, most = resource.getrlimit(resource.RLIMIT_NOFILE)
            resource.setrlimit(resource.RLIMIT_NOFILE, (second.fileno() + 1, most))
            try:
                second.connect(("127.0.0.1", listener.port))
                used = self.make(time.thread_time)
                time.sleep(0.2)
                self.assertLess(self.make(time.thread_time) - used, 0.1)
                self.assertEqual(len(takers), 1)
                first.close()
                self.until(lambda: len(takers) == 2)
            finally:
                resource.setrlimit(resource.RLIMIT_NOFILE, (least, most))
        self.until(lambda: takers[1].heard == ["lost"])
        self.make(listener.close)

    def test_a_connection_that_nobody_can_use_is_closed(self):
        (listener,) = self.make(lambda: self.loop.listen("127.0.0.1", 0, mock.Mock(side_effect=ValueError("a fault of the test"))))
        with mock.patch("casbench_recording.console.report") as tell:
            for _ in range(2):
                with socket.create_connection(("127.0.0.1", listener.port), timeout=30) as connection:
                    self.assertEqual(connection.recv(1), b"")
        self.assertEqual(["ValueError: a fault of the test\n" in call.args[0] for call in tell.call_args_list], [True] * 2)
        self.make(listener.close)

    def test_a_signal_ends_it(self):
        self.end()
        self.loop = Loop()
        self.addCleanup(signal.signal, signal.SIGUSR1, signal.getsignal(signal.SIGUSR1))
        self.loop.stop_at(signal.SIGUSR1)
        # (a thread of its own gets it, so that it ends no waiting of the loop's)
        threading.Timer(0.1, signal.raise_signal, [signal.SIGUSR1]).start()
        self.loop.run()
        self.assertTrue(self.loop.is_over)


class Encrypted(LoopTest):
    """Connections over TLS."""

    def connection(self, host="127.0.0.1"):
        """An encrypted connection of the loop with who uses it, what it reported of its beginning, and the other end of it."""
        here, there = ssl.create_default_context(cafile=CERTIFICATE), ssl.SSLContext(ssl.PROTOCOL_TLS_SERVER)
        there.load_cert_chain(CERTIFICATE)
        ours, other = socket.socketpair()
        other.settimeout(30)
        taker, ready = Taker(), []
        taker.stream = self.make(lambda: TlsStream(self.loop, ours, taker, here, host, ready.append))
        self.addCleanup(other.close)
        return taker, ready, there, other

    def test_what_is_written_and_what_comes(self):
        taker, ready, there, other = self.connection()
        with there.wrap_socket(other, server_side=True) as server:
            self.until(lambda: ready == [None])
            self.make(lambda: taker.stream.write(b"x" * 5_000_000))
            self.assertEqual(taker.heard, ["pause"])
            self.assertEqual(read_all(server, 5_000_000), b"x" * 5_000_000)
            self.until(lambda: taker.heard == ["pause", "resume"])
            server.sendall(b"y" * 500_000)
            self.until(lambda: taker.data == b"y" * 500_000)
            self.make(taker.stream.close)
            self.assertEqual(server.recv(1), b"")
        self.until(lambda: taker.heard == ["pause", "resume", "lost"])

    def test_an_end_by_the_server(self):
        taker, ready, there, other = self.connection()
        with there.wrap_socket(other, server_side=True) as server:
            self.until(lambda: ready == [None])
            server.sendall(b"last")
        self.until(lambda: taker.heard == ["lost"])
        self.assertEqual(taker.data, b"last")

    def test_bytes_that_are_none(self):
        taker, ready, there, other = self.connection()
        with there.wrap_socket(other, server_side=True) as server:
            self.until(lambda: ready == [None])
            socket.socket.sendall(server, b"these are not encrypted, as they have to be")
            self.until(lambda: taker.heard == ["lost"])
        self.assertEqual(taker.data, b"")

    def test_a_server_of_another_name(self):
        taker, ready, there, other = self.connection("elsewhere.example")
        with contextlib.suppress(OSError), there.wrap_socket(other, server_side=True) as server:
            server.recv(1)
        self.until(lambda: len(ready) == 1)
        self.assertIsInstance(ready[0], ssl.SSLCertVerificationError)
        self.assertEqual(taker.heard, [])

    def test_a_server_that_goes_away(self):
        taker, ready, _, other = self.connection()
        other.close()
        self.until(lambda: len(ready) == 1)
        self.assertIsInstance(ready[0], OSError)
        self.assertEqual(taker.heard, [])


class Noted:
    """A connection that notes what is written to it."""

    is_closing = is_at_end = is_paused = False
    waiting = 0

    def __init__(self, *_):
        self.data = b""

    def write(self, data):
        self.data += data


class Pieces(FolderTest):
    """What comes in one piece, and in many."""

    def setUp(self):
        super().setUp()
        self.draw = random.Random(2)
        for module in ("client_connection", "cluster_side"):
            patch = mock.patch(f"casbench_recording.proxy.http.{module}.Stream", Noted)
            patch.start()
            self.addCleanup(patch.stop)

    def sides(self, path):
        """The two sides of a proxy that writes a history, and its judge."""
        shape = IndexShape("carts", Names(["carts"], []), 1, 512, True)
        judge = Judge(shape, "carts", History(path, clock=lambda: 0.0), UnjudgedList(path))
        soon = []
        proxy = SimpleNamespace(loop=SimpleNamespace(soon=soon.append, now=0.0), judge=judge, clients=set())
        proxy.discovery, proxy.has_room, proxy.hold = None, lambda: True, lambda count: None
        proxy.connect = lambda node, made: SimpleNamespace(cancel=lambda: None)
        node = SimpleNamespace(name="", cluster=SimpleNamespace(trust=None), paths=AS_SENT, sent_host=b"")
        client = ClientSide(proxy, node, SimpleNamespace(getpeername=lambda: ("127.0.0.1", 40000)))
        client.received(b"")
        client.connection_made(None)
        soon.pop()()
        return client, client.cluster, judge

    def body(self, text):
        """The fields that give the length of a body, and the body, in one of the ways to give it."""
        if self.draw.random() < 0.6:
            return b"Content-Length: %d\r\n" % len(text), text
        cuts = sorted(self.draw.randrange(len(text) + 1) for _ in range(3))
        chunks = [it for it in (text[a:b] for a, b in zip([0, *cuts], [*cuts, len(text)])) if it]
        return b"transfer-encoding: chunked\r\n", b"".join(b"%x\r\n%s\r\n" % (len(it), it) for it in chunks) + b"0\r\n\r\n"

    def request(self):
        """A request that is drawn."""
        method = self.draw.choice(["GET", "GET", "HEAD", "PUT", "PUT", "PUT", "DELETE"])
        index = self.draw.choice(["carts", "carts", "carts", "other"])
        fields, body = b"", b""
        if method == "PUT":
            fields, body = self.body(b'{"a": %d}' % self.draw.randrange(5))
        odd = self.draw.choice([b"", b"X: y\r\n", b"X-Opaque-Id: %d\r\n" % self.draw.randrange(10**6)])
        target = f"{method} /{index}/_doc/d{self.draw.randrange(3)} HTTP/1.1\r\n".encode()
        return method, target + odd + fields + b"\r\n" + body

    def answer(self, method):
        """An answer to such a request that is drawn."""
        start = b"HTTP/1.1 102 Wait\r\n\r\n" if self.draw.random() < 0.1 else b""
        status = self.draw.choice([200, 200, 201, 204, 404, 409, 503])
        seq, id = self.draw.randrange(9), self.draw.randrange(3)
        text = b'{"_index":"carts","_id":"d%d","_version":1,"_seq_no":%d,"_primary_term":1,"found":true,"_source":{"a":1}}' % (id, seq)
        if method != "GET":
            shards = b'"_shards":{"total":1,"successful":1,"failed":0}'
            text = b'{"_index":"carts","_id":"d%d","_version":1,"result":"created",%s,"_seq_no":%d,"_primary_term":1}' % (id, shards, seq)
        fields, body = self.body(self.draw.choice([text, text, text, b"", b"what?", b'{"error":{"type":"x"}}']))
        head = start + b"HTTP/1.1 %d It\r\n" % status
        if method == "HEAD":
            return head + fields + b"\r\n"
        return head + (b"\r\n" if status == 204 else fields + b"\r\n" + body)

    def cut(self, data, is_cut):
        """The bytes as a whole, or cut into pieces."""
        cuts = sorted({self.draw.randrange(1, len(data)) for _ in range(self.draw.randrange(4))}) if is_cut else []
        return [data[a:b] for a, b in zip([0, *cuts], [*cuts, len(data)])]

    def run_of(self, turns, is_cut):
        """The history of requests, each with its answer, of which some come behind one another before any is answered."""
        path = os.path.join(self.folder, f"{len(os.listdir(self.folder))}.ndjson")
        client, cluster, judge = self.sides(path)
        for group in turns:
            for piece in self.cut(b"".join(request for request, _ in group), is_cut):
                client.received(piece)
            for request, answer in group:
                self.assertEqual(cluster.stream.data, request)
                cluster.stream.data = b""
                for piece in self.cut(answer, is_cut):
                    cluster.received(piece)
                self.assertEqual(client.stream.data, answer)
                client.stream.data = b""
        judge.close()
        self.assertEqual(judge.unjudged.ended, [])
        with open(path, encoding="utf-8") as lines:
            return lines.read()

    def test_drawn_messages_in_one_piece_and_in_many(self):
        lines = 0
        for _ in range(150):
            turns = [[(b"GET /carts/_doc/d1 HTTP/1.1\r\n\r\n", b"HTTP/1.1 204 It\r\n\r\n")]]
            for _ in range(6):
                asked = [self.request() for _ in range(self.draw.choice([1, 1, 1, 3]))]
                turns.append([(request, self.answer(method)) for method, request in asked])
            whole = self.run_of(turns, False)
            self.assertEqual(self.run_of(turns, True), whole)
            lines += whole.count("\"reply\"")
        self.assertGreater(lines, 100)

    def test_a_slow_client_whose_request_is_held(self):
        """The cluster is read again when the client has taken what waited, even while items of the request are
        written; but not if the whole answer is there, which is passed on first."""
        client, cluster, _ = self.sides(os.path.join(self.folder, "held.ndjson"))
        client.proxy.work = lambda steps, done: None
        noted = []
        cluster.stream.pause_reading = lambda: noted.append("pause")
        cluster.stream.resume_reading = lambda: noted.append("resume")
        client.received(b"POST /carts/_bulk HTTP/1.1\r\nContent-Length: 90\r\n\r\n{")
        self.assertEqual(client.exchange.state, ExchangeState.HELD)
        client.pause_writing()
        client.resume_writing()
        self.assertEqual(noted, ["pause", "resume"])
        client.exchange.end_answer()
        client.pause_writing()
        client.resume_writing()
        self.assertEqual(noted, ["pause", "resume", "pause"])


class Short(unittest.TestCase):
    """Replies that are read in short."""

    def setUp(self):
        self.draw = random.Random(1)
        # how many replies of each kind were read in short
        self.read = {"found": 0, "missing": 0, "written": 0}

    def one_of(self, usual, odd):
        """One of the usual texts, or, seldom, an odd one."""
        return self.draw.choice(odd if self.draw.random() < 0.04 else usual)

    def number(self):
        """The text of a number."""
        return self.one_of(["0", "1", "7", "12", "999999999999999999"], ["9223372036854775808", "01", "-1", "1.0", "1e3", "true", ""])

    def text(self):
        """The text of a text."""
        odd = ['"\\u0064"', '"a\\"b"', '"\u00e9"', '"\x01"', '"\\\\"', "5", '"', '"\ud800"']
        return self.one_of(['"carts"', '"d"', '"d 1"', '"-_~!#"', '""', '"a,b"'], odd)

    def source(self, depth=0):
        """The text of a source, or, seldom, of something that is none."""
        odd = ["{", "[]", "{}}", '{"a":1},"_seq_no":5,"b":{}', '{"a":1,"a":2}', "null", "{'a':1}", '{"a":NaN}', " {}\n", "{}\x00", '"}"']
        inner = [self.source(depth + 1) if depth < 2 and self.draw.random() < 0.3 else self.number() for _ in range(self.draw.randrange(3))]
        members = self.draw.choice([",", ", ", " ,\n"]).join(f"{self.text()}:{it}" for it in inner)
        return self.one_of(["{" + members + "}"], odd)

    def reply(self):
        """The text of a reply, which is mostly one as clusters give it."""
        start = [f'"_index":{self.text()}', f'"_id":{self.text()}', f'"_version":{self.number()}']
        if self.draw.random() < 0.2:
            start.insert(1, '"_type":"_doc"')
        pair = [f'"_seq_no":{self.number()}', f'"_primary_term":{self.number()}']
        shards = f'"_shards":{{"total":{self.number()},"successful":1,"failed":0}}'
        result = self.one_of(["created", "updated", "deleted", "not_found"], ["noop", "odd", "Created"])
        members = self.draw.choice([
            [*start, *pair, '"found":true', f'"_source":{self.source()}'],
            [*start, f'"result":"{result}"', *self.draw.choice([[], ['"forced_refresh":true']]), shards, *pair],
            [*start[:-1], '"found":false'],
        ])
        text = "{" + ",".join(self.disturbed(members)) + "}"
        return text + self.one_of([""], ["\n", " ", "}", "x"])

    def disturbed(self, members):
        """The members, seldom with one that is taken away, doubled, put in, or in another place."""
        kind, at, members = self.draw.random(), self.draw.randrange(len(members)), list(members)
        if kind < 0.04:
            members.pop(at)
        elif kind < 0.08:
            members.insert(at, self.draw.choice(members))
        elif kind < 0.12:
            members.insert(at, self.draw.choice(['"_routing":"x"', '"error":{"type":"x"}', '"_seq_no":3', '"fields":{}', '"get":{}']))
        elif kind < 0.16:
            self.draw.shuffle(members)
        return members

    def hold(self, op, status, content):
        """Holds what is read in short against what the JSON says."""
        read, wanted = read_reply(op, status, content), object_of(content)
        if read is None:
            return
        self.read["written" if op == "index" else "found" if read["found"] else "missing"] += 1
        self.assertIsNotNone(wanted, content)
        members = ("_index", "_id", "result", "found", "_seq_no", "_primary_term", "error")
        self.assertEqual({it: read.get(it) for it in members}, {it: wanted.get(it) for it in members}, content)
        self.assertEqual([type(read[it]) for it in members if it in read], [type(wanted[it]) for it in members if it in read], content)
        if "_source" in read or "_source" in wanted:
            self.assertEqual((read.get("_source"), status, read.get("found")), (digest_of(wanted["_source"]), 200, True), content)
        else:
            self.assertEqual(json.dumps(counting_members(read)), json.dumps(counting_members(wanted)), content)

    def test_drawn_replies_say_what_their_json_says(self):
        for _ in range(20_000):
            content = self.reply().encode("utf-8", "surrogatepass")
            for op, status in (("get", 200), ("get", 404), ("index", 201)):
                self.hold(op, status, content)
        self.assertGreater(min(self.read.values()), 1000)

    def test_replies_with_a_byte_changed(self):
        replies = [
            b'{"_index":"c","_id":"d","_version":1,"_seq_no":0,"_primary_term":1,"found":true,"_source":{"a":"b"}}',
            b'{"_index":"c","_id":"d","_version":1,"result":"created",'
            b'"_shards":{"total":2,"successful":1,"failed":0},"_seq_no":0,"_primary_term":1}',
            b'{"_index":"c","_id":"d","found":false}',
        ]
        for reply in replies:
            for at in range(len(reply)):
                for byte in (b"", b'"', b"\\", b"{", b"}", b",", b"0", b"x", b" ", b"\xff", b"\x00", b"\n"):
                    for content in (reply[:at] + byte + reply[at + 1 :], reply[:at] + byte + reply[at:]):
                        for op, status in (("get", 200), ("get", 404), ("index", 201)):
                            self.hold(op, status, content)

    def test_digests_that_are_remembered(self):
        for _ in range(3000):
            text = self.source().encode("utf-8", "surrogatepass")
            self.assertEqual(digest_of_text(text), digest_of_object(text))
        deep = b'{"a":' * 100_000 + b"1" + b"}" * 100_000
        for text in (None, b"", b"[]", b"\xff", deep):
            self.assertIsNone(digest_of_text(text))


if __name__ == "__main__":
    raise SystemExit(run_tests())

"""What the tests of attacks on the proxy share: a cluster that answers what a test says, and a client, both of raw sockets.

It is no test itself.
"""

import contextlib
import json
import os
import re
import socket
import struct
import threading
import time
import zlib

from program import TOP
from recordings import FolderTest, Started

CERTIFICATE = str(TOP / "examples" / "record" / "loopback.pem")
LENGTH = re.compile(rb"\r\ncontent-length: *(\d+)", re.IGNORECASE)
INDEX = {"settings": {"index": {"number_of_shards": "1"}}, "mappings": {}}
STATS = {"indices": {"carts": {"shards": {"0": [{"seq_no": {"max_seq_no": -1}}]}}}}


def request_of(method, target, body=None, *fields):
    """The bytes of a request."""
    target = target if isinstance(target, bytes) else target.encode()
    length = [] if body is None else [b"Content-Length: %d" % len(body)]
    return b"\r\n".join([method.encode() + b" " + target + b" HTTP/1.1", b"Host: x", *fields, *length, b"", b""]) + (body or b"")


def answer_of(status, body, *fields):
    """The bytes of an answer."""
    body = body if isinstance(body, bytes) else json.dumps(body).encode()
    return b"\r\n".join([b"HTTP/1.1 %d It" % status, *fields, b"Content-Length: %d" % len(body), b"", b""]) + body


def found(seq, source, **more):
    """The body of a get that found a version."""
    return {"_index": "carts", "_id": "d", "_seq_no": seq, "_primary_term": 1, "found": True, "_source": source, **more}


def deep(levels):
    """Arrays, one in the other."""
    return b"[" * levels + b"]" * levels


def packed(pieces):
    """These pieces, packed as one."""
    packer = zlib.compressobj(9, wbits=31)
    return b"".join(packer.compress(it) for it in pieces) + packer.flush()


class Cluster:
    """A cluster on the loopback, a thread for each connection. It answers what the proxy asks itself as with an empty index, and all else
    with the bytes that the test gives for a head and a body; None ends the connection. A raw one hands on the connection instead."""

    def __init__(self, answer, is_there=True, aliases={}, is_raw=False, trust=None):
        self.answer, self.is_there, self.aliases, self.is_raw, self.trust = answer, is_there, aliases, is_raw, trust
        self.seen, self.listener = [], socket.create_server(("127.0.0.1", 0), backlog=512)
        self.url = f"http{'s' if trust else ''}://127.0.0.1:{self.listener.getsockname()[1]}"
        # the first connection is the one on which the proxy looks at the index
        self.is_first = True

    def __enter__(self):
        threading.Thread(target=self.accept, daemon=True).start()
        return self

    def __exit__(self, *_):
        self.close()

    def close(self):
        """Takes no more connections."""
        with contextlib.suppress(OSError):
            self.listener.shutdown(socket.SHUT_RDWR)
        self.listener.close()

    def accept(self):
        """Takes connections until the block ends."""
        with contextlib.suppress(OSError):
            while True:
                connection, _ = self.listener.accept()
                connection.setsockopt(socket.IPPROTO_TCP, socket.TCP_NODELAY, 1)
                is_own, self.is_first = self.is_first, False
                threading.Thread(target=self.serve, args=(connection, is_own), daemon=True).start()

    def serve(self, connection, is_own):
        """Serves a connection."""
        with contextlib.suppress(OSError), connection:
            if self.is_raw and not is_own:
                self.answer(connection)
            elif self.trust is not None and is_own:
                with self.trust.wrap_socket(connection, server_side=True) as encrypted:
                    self.converse(encrypted)
            else:
                self.converse(connection)

    def converse(self, connection):
        """Answers the requests of a connection."""
        data = b""
        while True:
            while b"\r\n\r\n" not in data:
                more = connection.recv(1 << 18)
                if not more:
                    return
                data += more
            head, _, data = data.partition(b"\r\n\r\n")
            length = LENGTH.search(b"\r\n" + head)
            pieces, count = [data], len(data)
            while count < int(length[1] if length else 0):
                more = connection.recv(1 << 18)
                if not more:
                    return
                pieces.append(more)
                count += len(more)
            data = b"".join(pieces)
            body, data = data[: int(length[1])] if length else b"", data[int(length[1]) if length else 0 :]
            answer = self.own(head) or self.passed_on(head, body)
            if answer is None:
                return
            connection.sendall(answer)

    def own(self, head):
        """The answer to what the proxy asks itself, if it is that."""
        target = head.split(b" ")[1]
        if not self.is_there and head.startswith((b"GET /_cluster/state/metadata/", b"GET /carts/_search_shards?")):
            return answer_of(404, {})
        if head.startswith(b"GET ") and target in (b"/carts", b"/carts/_stats?level=shards"):
            if not self.is_there:
                return answer_of(404, {"error": {"type": "index_not_found_exception"}})
            return answer_of(200, {"carts": {**INDEX, "aliases": self.aliases}} if target == b"/carts" else STATS)
        return None

    def passed_on(self, head, body):
        """The answer to a request that was passed on."""
        self.seen.append(head)
        return self.answer(head, body)

    def wait_for(self, count):
        """Waits until so many requests were passed on."""
        for _ in range(3000):
            if len(self.seen) >= count:
                return
            time.sleep(0.01)
        raise AssertionError(f"{len(self.seen)} requests came, and not {count}")


class Client:
    """A client's connection."""

    def __init__(self, port, timeout=60):
        self.socket = socket.create_connection(("127.0.0.1", port), timeout=timeout)
        self.socket.setsockopt(socket.IPPROTO_TCP, socket.TCP_NODELAY, 1)
        self.data = b""

    def __enter__(self):
        return self

    def __exit__(self, *_):
        self.socket.close()

    def send(self, data):
        """Sends bytes; the other side may have closed the connection meanwhile."""
        with contextlib.suppress(ConnectionError):
            self.socket.sendall(data)

    def more(self):
        """Takes what comes next; empty at the end."""
        try:
            return self.socket.recv(1 << 18)
        except ConnectionError:
            return b""

    def all(self):
        """All that comes to the end."""
        while more := self.more():
            self.data += more
        return self.data

    def heard(self):
        """The next answer: its status and its body, or None and nothing where none comes."""
        while b"\r\n\r\n" not in self.data:
            more = self.more()
            if not more:
                return None, b""
            self.data += more
        head, _, rest = self.data.partition(b"\r\n\r\n")
        length = LENGTH.search(b"\r\n" + head)
        body = bytearray(rest)
        while len(body) < int(length[1] if length else 0):
            more = self.more()
            if not more:
                return None, b""
            body += more
        count = int(length[1] if length else 0)
        self.data = bytes(body[count:])
        return int(head.split(b" ")[1]), bytes(body[:count])

    def ask(self, request):
        """Sends a request; the status and the body of its answer."""
        self.send(request)
        return self.heard()

    def reset(self):
        """Ends the connection by a reset."""
        self.socket.setsockopt(socket.SOL_SOCKET, socket.SO_LINGER, struct.pack("ii", 1, 0))
        self.socket.close()


class Watched:
    """A client that asks again and again while a block runs, and how long it waited at most."""

    def __init__(self, port, request, pause=0.02):
        self.port, self.request, self.pause = port, request, pause
        self.longest, self.count, self.is_over = 0.0, 0, threading.Event()
        self.thread = threading.Thread(target=self.run, daemon=True)

    def run(self):
        with Client(self.port, timeout=120) as client:
            while not self.is_over.wait(self.pause):
                began = time.monotonic()
                status, _ = client.ask(self.request)
                self.longest = max(self.longest, time.monotonic() - began)
                if status is None:
                    self.longest = float("inf")
                    return
                self.count += 1

    def __enter__(self):
        self.thread.start()
        return self

    def __exit__(self, *_):
        self.is_over.set()
        self.thread.join(120)


class AttackTest(FolderTest):
    """A test of a proxy that is attacked."""

    def proxy(self, url, *words, **more):
        """A proxy that records the index carts of the cluster, and runs until the test ends."""
        return self.recorder(url, self.file, *words, **more)

    def recorder(self, url, file, *words, **more):
        """The same, into this file."""
        words = ["--listen", "127.0.0.1:0", "--cluster", url, "--index", "carts", *words, file]
        proxy = Started("proxy", *words, **more)
        self.addCleanup(proxy.__exit__)
        return proxy

    def client(self, proxy, **how):
        """A client of the proxy."""
        return Client(proxy.port, **how)

    def tidy(self):
        """Removes what a recording left, for the next one."""
        for path in (self.file, self.file + ".not-judged"):
            if os.path.exists(path):
                os.remove(path)


def megabytes(proxy, key="VmHWM"):
    """How much memory the proxy takes, at most so far."""
    with open(f"/proc/{proxy.process.pid}/status", encoding="ascii") as file:
        return int(re.search(rf"{key}:\s+(\d+)", file.read())[1]) / 1024


def end_of(proxy, patience=30):
    """Ends the proxy by SIGTERM; how many seconds that took by the clock and of a processor, and its status."""
    before, began = proxy.processor_time(), time.monotonic()
    proxy.process.terminate()
    while time.monotonic() < began + patience:
        pid, status, usage = os.wait4(proxy.process.pid, os.WNOHANG)
        if pid:
            proxy.process.returncode = os.waitstatus_to_exitcode(status)
            return time.monotonic() - began, usage.ru_utime + usage.ru_stime - before, proxy.process.returncode
        time.sleep(0.005)
    raise AssertionError(f"the proxy didn't end in {patience} seconds")


def threads(proxy):
    """How many threads the proxy has."""
    return len(os.listdir(f"/proc/{proxy.process.pid}/task"))


def descriptors(proxy):
    """How many descriptors the proxy has."""
    return len(os.listdir(f"/proc/{proxy.process.pid}/fd"))

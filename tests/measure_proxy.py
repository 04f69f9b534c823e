#!/usr/bin/env python3
"""Measures what the recording proxy takes: how many requests a second pass, and how long each takes, with it and without.

    python3 tests/measure_proxy.py [--clients 100] [--seconds 10] [--times 1] [--part N] [--rate N] [--apart] [PROGRAM]
    python3 tests/measure_proxy.py --bytecodes [--part N] [--package FOLDER]

Starts the stand-in, and has so many clients ask it, each on a connection of its own and its next request after each answer:
three gets, an index and an index under the condition of the last pair that it was shown, in turn, each client on a document of its own
and on one that all share. Then the same through the proxy, and what the program says of the history. With a rate the clients
together ask so many times a second and no more, evenly, so that the times show what the proxy adds to each request. What each takes of a
processor is reported too, since the times of the clock say little where other work is done beside; and how much memory the proxy takes, after
each of several times. With a part the recording has no end: each part has so many calls.

With --bytecodes it prints how many bytecodes of Python the proxy takes for a request of one client, which other work doesn't change: of a long
run less those of a short one. FOLDER is the recording package of another checkout, to compare two states of the proxy.
"""

import argparse
import contextlib
import json
import os
import pathlib
import re
import selectors
import socket
import sys
import tempfile
import time

from attacks import megabytes
from recordings import PACKAGE, Started, judged

NUMBERS = re.compile(rb'"_seq_no":(\d+),"_primary_term":(\d+)')
LENGTH = re.compile(rb"content-length: (\d+)", re.IGNORECASE)

# How many requests a run has whose bytecodes are counted, and the one with whose it is compared.
FEW, MANY = 500, 2_500

# A proxy that counts the bytecodes of its main thread, without those of its ticks, and writes the number to a file.
COUNTED = """
import os, pathlib, sys
from casbench_recording.proxy import command
from casbench_recording.proxy.http import loop

count, loop.TICK = 0, 3600

def trace(frame, event, _):
    global count
    frame.f_trace_opcodes, frame.f_trace_lines = True, False
    count += event == "opcode"
    return trace

sys.settrace(trace)
status = command.run(sys.argv[1:])
sys.settrace(None)
pathlib.Path(os.environ["COUNT"]).write_text(str(count))
os._exit(status)
"""


class Client:
    """One client with its connection."""

    def __init__(self, number, port):
        self.number, self.count, self.pair = number, 0, None
        self.socket = socket.create_connection(("127.0.0.1", port))
        self.socket.setsockopt(socket.IPPROTO_TCP, socket.TCP_NODELAY, 1)
        self.data, self.began = b"", 0.0

    def ask(self):
        """Sends the next request."""
        turn, self.count = self.count % 5, self.count + 1
        name = "shared" if turn == 2 else f"own-{self.number}"
        if turn < 3:
            request = f"GET /carts/_doc/{name} HTTP/1.1\r\nHost: x\r\n\r\n"
        else:
            condition = f"?if_seq_no={self.pair[0]}&if_primary_term={self.pair[1]}" if turn == 4 and self.pair else ""
            body = json.dumps({"client": self.number, "items": [self.count]})
            kind = f"Content-Type: application/json\r\nContent-Length: {len(body)}"
            request = f"PUT /carts/_doc/{name}{condition} HTTP/1.1\r\nHost: x\r\n{kind}\r\n\r\n{body}"
        self.began = time.perf_counter()
        self.socket.sendall(request.encode())

    def hears(self):
        """Takes what came; returns whether the answer is whole."""
        more = self.socket.recv(1 << 16)
        if not more:
            raise ConnectionResetError
        self.data += more
        end = self.data.find(b"\r\n\r\n")
        found = LENGTH.search(self.data, 0, end) if end >= 0 else None
        if found is None or len(self.data) < end + 4 + int(found[1]):
            return False
        pair = NUMBERS.search(self.data)
        if pair and b'"result"' in self.data:
            self.pair = (int(pair[1]), int(pair[2]))
        self.data = b""
        return True


def run_clients(port, setting):
    """Runs the clients; returns how many answers a second came, and the times, in milliseconds, that they took, in order."""
    with contextlib.ExitStack() as opened, selectors.DefaultSelector() as selector:
        clients = [Client(it, port) for it in range(setting.clients)]
        for it in clients:
            selector.register(opened.enter_context(it.socket), selectors.EVENT_READ, it)
        times, idle, began = [], list(clients), time.perf_counter()
        sent, end = 0, began + setting.seconds
        while time.perf_counter() < end or len(idle) < len(clients):
            now = time.perf_counter()
            due = sent + len(idle) if setting.rate is None else int((now - began) * setting.rate)
            while idle and sent < due and now < end:
                idle.pop(0).ask()
                sent += 1
            for key, _ in selector.select(0.0002 if setting.rate else 0.01):
                if key.data.hears():
                    times.append((time.perf_counter() - key.data.began) * 1000)
                    idle.append(key.data)
        return len(times) / (time.perf_counter() - began), sorted(times)


class Taken:
    """How many seconds of a processor the load and some commands take while a block runs."""

    def __init__(self, **commands):
        self.commands = commands

    def now(self):
        own = os.times()
        return {**{name: it.processor_time() for name, it in self.commands.items()}, "load": own.user + own.system}

    def __enter__(self):
        self.before = self.now()
        return self

    def __exit__(self, *_):
        after = self.now()
        self.seconds = {name: after[name] - self.before[name] for name in after}


def measure(name, port, setting, **commands):
    """Runs the clients and prints what was measured; returns how many requests there were."""
    with Taken(**commands) as taken:
        rate, times = run_clients(port, setting)
    middle, most = times[len(times) // 2], times[len(times) * 99 // 100]
    print(f"{name}: {rate:.0f} requests a second; each {middle:.2f} ms (the middle), {most:.2f} ms (99 of 100 at most)")
    shares = [f"{it} {seconds / len(times) * 1000:.3f}" for it, seconds in taken.seconds.items()]
    print(f"  ms of a processor for a request: {', '.join(shares)}", flush=True)
    return len(times)


def measure_times(proxy, other, setting):
    """Measures the proxy as many times as the setting says, and prints how much memory it takes after each."""
    count = 0
    for _ in range(setting.times):
        count += measure("with the proxy", proxy.port, setting, proxy=proxy, stand_in=other)
        print(f"  {count} requests so far, {megabytes(proxy, 'VmRSS'):.1f} MiB", flush=True)


def bytecodes(requests, parts, package):
    """How many bytecodes a proxy of a package takes from its start to its end, if one client asks so often."""
    with tempfile.TemporaryDirectory() as folder, Started("stand_in", "--port", "0") as other:
        other.make("carts")
        count = pathlib.Path(folder) / "count"
        words = ["--listen", "127.0.0.1:0", "--cluster", other.url, "--index", "carts", *parts, os.path.join(folder, "carts.ndjson")]
        with Started("proxy", *words, start=(sys.executable, "-c", COUNTED), COUNT=str(count), PYTHONPATH=package) as proxy:
            client = Client(0, proxy.port)
            with client.socket:
                for _ in range(requests):
                    client.ask()
                    while not client.hears():
                        pass
            proxy.ended()
        return int(count.read_text())


def keep_apart(proxy):
    """Gives the proxy a processor of its own, and all else the others."""
    first, *others = sorted(os.sched_getaffinity(0))
    os.sched_setaffinity(proxy.process.pid, {first})
    for process in (os.getpid(), *children_but(proxy.process.pid)):
        os.sched_setaffinity(process, others)


def children_but(one):
    """The processes that this one started, but one."""
    with open(f"/proc/self/task/{os.getpid()}/children", encoding="ascii") as file:
        return [int(it) for it in file.read().split() if int(it) != one]


def main():
    parser = argparse.ArgumentParser()
    parser.add_argument("--clients", type=int, default=100)
    parser.add_argument("--seconds", type=float, default=10)
    parser.add_argument("--times", type=int, default=1, help="measures the proxy so many times, one after the other")
    parser.add_argument("--part", type=int, help="records in parts of so many calls")
    parser.add_argument("--rate", type=int)
    parser.add_argument("--apart", action="store_true", help="gives the proxy a processor of its own")
    parser.add_argument("--bytecodes", action="store_true", help="counts the bytecodes that a request takes, and measures nothing else")
    parser.add_argument("--package", metavar="FOLDER", default=str(PACKAGE), help="of the proxy of this recording package")
    parser.add_argument("program", nargs="?", default=None)
    setting = parser.parse_args()
    parts = ["--part", str(setting.part)] if setting.part else []
    if setting.bytecodes:
        few, many = (bytecodes(it, parts, os.path.realpath(setting.package)) for it in (FEW, MANY))
        print(f"{(many - few) / (MANY - FEW):.0f} bytecodes for a request")
        return
    with tempfile.TemporaryDirectory() as folder:
        with Started("stand_in", "--port", "0") as other:
            measure("without the proxy", other.port, setting, stand_in=other)
        with Started("stand_in", "--port", "0") as other:
            other.make("carts")
            file = pathlib.Path(folder) / "carts.ndjson"
            words = ["--listen", "127.0.0.1:0", "--cluster", other.url, "--index", "carts", *parts, str(file)]
            with Started("proxy", *words) as proxy:
                if setting.apart:
                    keep_apart(proxy)
                measure_times(proxy, other, setting)
                print(proxy.ended())
        for history in (sorted(file.iterdir()) if setting.part else [file]) if setting.program else []:
            print(judged(os.path.realpath(setting.program), history))


if __name__ == "__main__":
    sys.exit(main())

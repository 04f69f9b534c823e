#!/usr/bin/env python3
"""Measures a long recording: an application that works behind nginx and the proxy, on a stand-in of three nodes that is disturbed, and now and then
goes wrong.

    python3 tests/measure_soak.py PROGRAM [--minutes 30] [--every 5] [--keep FOLDER]

PROGRAM is the built casbench. Each phase has a stand-in of its own, and is recorded in parts, with a watch every so many seconds. nginx packs
answers, and sends a request again to the next address of the proxy after an error or a second without an answer. In one phase the proxy is killed,
and another one records the index anew. A table at the end has of each recording what the watch and a check of each part under the profile say, how
many seconds lie between the first answer by which a fault is proved and the line of the watch, and the memory of the proxy. The first such answer is
the last line of the shortest beginning of a part that is refuted. The memory is judged behind so many requests that the proxy remembers as many texts
as it ever does; recordings with fewer have theirs in brackets.

The exit status is 1 if a healthy cluster is accused or isn't explained, if a fault isn't reported within two rounds of the watch, or if the memory
grows or no recording was long enough to judge it. With --keep the recordings are kept in a folder that is made.
"""

import argparse
import contextlib
import itertools
import json
import os
import pathlib
import shutil
import signal
import socket
import statistics
import subprocess
import sys
import tempfile
import threading
import time
from typing import NamedTuple, Sequence

from attacks import megabytes
from cluster_application import Application, Load
from recorded_cluster import FAULTS, NODES, READS, WRITES
from recordings import Started

# How many calls a part has; how long what was asked of a proxy that is killed may last, in seconds; how long nginx waits for an answer; how many
# seconds a recording lasts at least; and after how many one of a fault ends that isn't reported.
PART, SETTLE, PATIENCE, LEAST, LONGEST_FAULT = 20_000, 10, "1s", 30, 90

# How many requests a recording warms up: the proxy remembers 8,192 lines of requests, and one in ten has a condition, which is always another one.
# Then by how many MiB its memory may grow, and how many samples of it there are at least.
WARM_UP, MOST_GROWN, LEAST_SAMPLES = 90_000, 2.0, 40

KILL = "--kill-every 4 --lasting 2"
PAUSE = "--pause-every 4 --lasting 3 --detection 0.8 --spare 1"
BOTH = "--kill-every 5 --pause-every 7 --lasting 2 --detection 0.8 --spare 1"

# What the application does on a healthy cluster: it goes on to new documents now and then, and takes packed answers.
LONG = WRITES._replace(documents=12, renewed=10.0, coding="gzip", least=0, seconds=1e9)
READS_MORE = LONG._replace(documents=3, turns=READS.turns)


class Phase(NamedTuple):
    """A phase: its name, the options of the stand-in, which part of the time it takes, what the application does, whether all is read from the
    first node, whether the proxy is killed in its middle, and whether the cluster goes wrong."""

    name: str
    words: str
    share: float = 0.0
    load: Load = LONG
    reads_the_first: bool = False
    is_killed: bool = False
    is_faulty: bool = False


def faulty(row, words):
    """A phase with a fault, in which the application does what it does in a row of the matrix."""
    return Phase(row, words, load=FAULTS[row].load._replace(least=0, seconds=1e9, coding="gzip"), is_faulty=True)


PHASES = [
    Phase("kill, pause", f"--lag 0.05 {BOTH}", 0.15, READS_MORE, reads_the_first=True),
    faulty("lost-writes, kill", "--fault lost-writes --every 40 --kill-every 7 --lasting 2"),
    Phase("pause", f"--lag 0.05 {PAUSE}", 0.1, READS_MORE, reads_the_first=True),
    faulty("lost-update, kill", f"--fault lost-update --every 50 {KILL}"),
    Phase("kill, pause, proxy killed", BOTH, 0.2, reads_the_first=True, is_killed=True),
    faulty("pair-twice, kill", f"--fault pair-twice --every 1000 {KILL}"),
    Phase("kill, proxy killed", f"--shards 2 {KILL}", 0.15, is_killed=True),
    faulty("lagging-copy, kill", "--fault lagging-copy --every 300 --kill-every 15 --lasting 2"),
    Phase("kill", f"--lag 0.05 {KILL}", 0.3),
]


def free_ports(count):
    """Ports that are free."""
    with contextlib.ExitStack() as stack:
        sockets = [stack.enter_context(socket.create_server(("127.0.0.1", 0))) for _ in range(count)]
        return [it.getsockname()[1] for it in sockets]


SERVER = """server {{
    listen 127.0.0.1:{port};
    location / {{
      proxy_pass http://{name}; proxy_http_version 1.1; proxy_set_header Connection ""; {more}
      proxy_connect_timeout {patience}; proxy_read_timeout {patience}; proxy_next_upstream error timeout non_idempotent;
    }}
  }}
"""

NGINX = """daemon off; pid {folder}/pid; error_log {folder}/error.log; {user} worker_processes 1;
events {{ worker_connections 512; }}
http {{
  client_body_temp_path {folder}/body; proxy_temp_path {folder}/proxy; fastcgi_temp_path {folder}/fastcgi;
  uwsgi_temp_path {folder}/uwsgi; scgi_temp_path {folder}/scgi;
  log_format short '$status $gzip_ratio $sent_http_content_encoding $upstream_addr'; access_log {folder}/access.log short;
  gzip on; gzip_types application/json; gzip_min_length 20; gzip_proxied any;
  upstream all {{ {all} keepalive 16; }}
  upstream first {{ {first} keepalive 16; }}
  {servers}
}}
"""


class Nginx:
    """nginx before the addresses of the proxy: a port that leads to all of them, and one that leads to the first."""

    def __init__(self, folder, proxies):
        self.folder = pathlib.Path(folder)
        self.all, self.first = free_ports(2)
        rows = [f"server 127.0.0.1:{it} max_fails=0;" for it in proxies]
        # (the cluster packs the answers of the one itself, and those of the other one are packed by nginx)
        servers = SERVER.format(port=self.all, name="all", more="", patience=PATIENCE)
        servers += SERVER.format(port=self.first, name="first", more='proxy_set_header Accept-Encoding "";', patience=PATIENCE)
        user = "user root;" if os.getuid() == 0 else ""
        text = NGINX.format(folder=folder, user=user, all=" ".join(rows), first=rows[0], servers=servers)
        (self.folder / "nginx.conf").write_text(text)
        (self.folder / "access.log").touch()
        self.log, self.seen = open(self.folder / "access.log", encoding="utf-8"), 0

    def __enter__(self):
        self.process = subprocess.Popen([shutil.which("nginx") or "/usr/sbin/nginx", "-p", self.folder, "-c", self.folder / "nginx.conf"])
        return self

    def __exit__(self, *_):
        self.process.terminate()
        self.process.wait()
        self.log.close()

    def answered(self):
        """How many answers it gave so far."""
        self.seen += self.log.read().count("\n")
        return self.seen

    def counts(self):
        """How many answers it gave, how many were packed by it, how many came packed, and how many requests it sent again."""
        rows = [it.split(" ", 3) for it in (self.folder / "access.log").read_text().splitlines()]
        packed = sum(it[1] != "-" for it in rows)
        return len(rows), packed, sum(it[2] == "gzip" for it in rows) - packed, sum("," in it[3] for it in rows)


class Recording:
    """A proxy that records a cluster in parts, with its watch."""

    def __init__(self, setting, out, ports, nodes, *words):
        self.out = out
        first, *others = [f"127.0.0.1:{it}" for it in ports]
        more = [it for at, url in zip(others, nodes[1:]) for it in ("--node", f"{at}={url}")]
        watch = ["--watch", "--every", str(setting.every), "--program", setting.program, "--part", str(PART)]
        self.proxy = Started("proxy", "--listen", first, "--cluster", nodes[0], *more, "--index", "carts", *watch, *words, str(out))
        if self.proxy.port is None:
            raise AssertionError(f"the proxy doesn't start: {self.proxy.url}")
        self.proxy.addresses(len(others))
        self.printed, self.errors = self.proxy.printed, self.proxy.errors
        # how much memory the proxy takes behind so many requests, in MiB
        self.began, self.ended, self.memory = time.monotonic(), None, []
        self.is_killed = False

    @property
    def refuted(self):
        """The line by which the watch refuted it, with its moment, or None."""
        return self.printed.first("refuted ")

    def sample(self, requests):
        """Takes the memory of the proxy now, after so many requests, unless it ended."""
        if self.proxy.process.poll() is None:
            with contextlib.suppress(OSError, TypeError):
                self.memory.append((requests, megabytes(self.proxy, "VmRSS")))

    def end(self):
        """Ends it, unless it ended; returns the last lines that it wrote."""
        self.ended = self.ended or time.monotonic()
        if self.proxy.process.poll() is None:
            self.proxy.process.terminate()
        self.proxy.process.wait(timeout=120)
        for it in (self.printed, self.errors):
            it.thread.join(60)
        return [line.rstrip("\n") for _, line in [*self.errors.lines, *self.printed.lines] if not line.startswith("part-")][-12:]

    def kill(self):
        """Kills the proxy at once."""
        self.ended, self.is_killed = time.monotonic(), True
        self.proxy.process.kill()
        self.proxy.process.wait()

    def grown(self):
        """The memory behind the warm-up and at the end, the middle of several samples each, in MiB; None if it was too short."""
        warm = [mebibytes for requests, mebibytes in self.memory if requests >= WARM_UP]
        if len(warm) < LEAST_SAMPLES:
            return None
        count = len(warm) // 4
        return statistics.median(warm[:count]), statistics.median(warm[-count:])


def checked(program, text):
    """The output of a check of a text under the profile."""
    return subprocess.run([program, "check", "--profile", "opensearch"], input=text, stdout=subprocess.PIPE).stdout.decode().strip()


def parts_of(out):
    """The lines of the parts of a recording, by their names."""
    files = sorted(it for it in pathlib.Path(out).glob("part-*")) if os.path.isdir(out) else []
    return {it.name: it.read_bytes().splitlines(keepends=True) for it in files}


def first_shown(program, lines):
    """The moment of the last line of the shortest beginning of a part that is refuted, in seconds, or None if none is."""
    is_refuted = lambda count: checked(program, b"".join(lines[:count])).startswith("refuted")
    if not is_refuted(len(lines)):
        return None
    least, most = 0, len(lines)
    while most - least > 1:
        middle = (least + most) // 2
        least, most = (least, middle) if is_refuted(middle) else (middle, most)
    return json.loads(lines[most - 1])["t"] / 1000


class Row(NamedTuple):
    """The results of a recording: its name, how many seconds it took, how many requests and calls it has, the answers for its parts, the
    verdict of the watch, how many seconds that took, the memory, and whether that is judged; and what is wrong."""

    name: str
    seconds: int
    requests: int
    calls: int
    answers: str
    watch: str
    delay: str
    memory: str
    is_memory_judged: bool
    faults: Sequence[str]


class Soak:
    """The phases, one after the other."""

    def __init__(self, setting, folder):
        self.setting, self.folder = setting, pathlib.Path(folder)
        self.ports = free_ports(NODES)
        self.numbers = itertools.count(1)
        self.rows = []

    def run(self):
        with Nginx(self.folder, self.ports) as self.nginx:
            for phase in PHASES:
                self.run_phase(phase)
            answers, packed, came_packed, again = self.nginx.counts()
        print(f"nginx: {answers} answers, {packed} packed by it, {came_packed} by the cluster, {again} sent again")

    def run_phase(self, phase):
        """Runs a phase, whose recordings become rows."""
        with Started("stand_in", "--port", "0", "--nodes", str(NODES), "--replicas", str(NODES - 1), *phase.words.split()) as store:
            nodes = [store.url, *store.addresses(NODES - 1)]
            store.make("carts")
            load = phase.load._replace(readers=(int(phase.reads_the_first),), writers=(0,))
            application = Application([self.nginx.all, self.nginx.first], load, phase.name)
            recordings = [self.begin(nodes)]
            at_work = threading.Thread(target=application.run)
            at_work.start()
            try:
                self.wait(phase, recordings[0])
                if phase.is_killed:
                    recordings[0].kill()
                    recordings.append(self.begin(nodes, "--created-only", "--settle", str(SETTLE)))
                    self.wait(phase, recordings[1])
            finally:
                application.stop()
                at_work.join()
                said = [it.end() for it in recordings]
        for number, it in enumerate(recordings):
            self.rows.append(self.row(phase, it, f"{phase.name}{' (2)' if number else ''}"))
            print_row(self.rows[-1])
            print("".join(f"  {line}\n" for line in said[number]), end="", flush=True)

    def begin(self, nodes, *words):
        """A recording that begins."""
        return Recording(self.setting, self.folder / f"recording-{next(self.numbers)}", self.ports, nodes, *words)

    def wait(self, phase, recording):
        """Waits until a recording has lasted as long as it is to, or is refuted."""
        seconds = max(LEAST, phase.share * self.setting.minutes * 60 / (1 + phase.is_killed))
        seconds = LONGEST_FAULT if phase.is_faulty else seconds
        before = self.nginx.answered()
        while time.monotonic() < recording.began + seconds and recording.refuted is None and recording.proxy.process.poll() is None:
            recording.sample(self.nginx.answered() - before)
            time.sleep(0.5)

    def row(self, phase, recording, name):
        """What is found of a recording."""
        parts = parts_of(recording.out)
        answers = [checked(self.setting.program, b"".join(it)) for it in parts.values()]
        words = [it.split(" ")[0] for it in answers]
        calls = sum(it.count(b'"e":"call"') for lines in parts.values() for it in lines)
        if phase.is_faulty:
            delay, faults = self.delay(recording.refuted, parts, answers)
        else:
            delay, faults = "-", self.accusations(recording, answers)
        grown = recording.grown()
        if grown is not None and grown[1] - grown[0] > MOST_GROWN:
            faults.append(f"the memory grew from {grown[0]:.1f} to {grown[1]:.1f} MiB")
        requests, last = recording.memory[-1] if recording.memory else (0, 0.0)
        memory = f"{grown[0]:.1f} to {grown[1]:.1f}" if grown else f"({last:.1f})"
        counts = ", ".join(f"{words.count(it)} {it}" for it in sorted(set(words)))
        watch = recording.refuted[1].split(" calls=")[0] if recording.refuted else "-"
        seconds = recording.ended - recording.began
        return Row(name, round(seconds), requests, calls, counts, watch, delay, memory, grown is not None, [f"{name}: {it}" for it in faults])

    def accusations(self, recording, answers):
        """What is wrong with the recording of a healthy cluster."""
        faults, wrong = [], [it for it in answers if not it.startswith("yes ")]
        if recording.refuted or wrong or not answers:
            faults.append(f"a healthy cluster isn't explained: {recording.refuted and recording.refuted[1]}; {wrong}")
        status = recording.proxy.process.returncode
        if status != (-signal.SIGKILL if recording.is_killed else 0):
            faults.append(f"the proxy ended with status {status}")
        return faults

    def delay(self, refuted, parts, answers):
        """How long it took until a fault was reported, and what is wrong with that."""
        if refuted is None:
            return "-", [f"nothing was reported; the parts get {answers}"]
        shown = min(filter(None, (first_shown(self.setting.program, it) for it in parts.values())))
        seconds = refuted[0] - shown
        return f"{seconds:.1f}", [f"reported after {seconds:.1f} s"] if seconds > 2 * self.setting.every else []


HEADING = ("recording", "seconds", "requests", "calls", "its parts", "the watch", "after s", "MiB of the proxy")


def print_row(row):
    """Prints a line of the table."""
    name, seconds, requests, calls, *others = row
    answers, watch, delay, memory, *_ = others
    print(f"{name:29}{seconds:>8}{requests:>9}{calls:>8}  {answers:13}{watch:27}{delay:>7}  {memory}", flush=True)


def main():
    parser = argparse.ArgumentParser()
    parser.add_argument("program", type=os.path.realpath)
    parser.add_argument("--minutes", type=float, default=30.0)
    parser.add_argument("--every", type=float, default=5.0)
    parser.add_argument("--keep", metavar="FOLDER")
    setting = parser.parse_args()
    # (so that nothing is left that was started)
    signal.signal(signal.SIGTERM, lambda *_: sys.exit(143))
    with contextlib.ExitStack() as stack:
        if setting.keep:
            os.mkdir(setting.keep)
        soak = Soak(setting, os.path.realpath(setting.keep or stack.enter_context(tempfile.TemporaryDirectory(prefix="casbench-soak-"))))
        soak.run()
    print()
    print_row(HEADING)
    for it in soak.rows:
        print_row(it)
    faults = [fault for it in soak.rows for fault in it.faults]
    if not any(it.is_memory_judged for it in soak.rows):
        faults.append(f"no recording had enough requests to judge the memory, more than {WARM_UP}")
    for it in faults:
        print(f"wrong: {it}")
    return 1 if faults else 0


if __name__ == "__main__":
    sys.exit(main())

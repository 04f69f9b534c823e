#!/usr/bin/env python3
"""Tests what the operator of a recording is shown: an early end at once, clients that go around the proxy, wrong arguments, counts.

    python3 tests/recorded_reports.py [PROGRAM]

PROGRAM is the built casbench; if it isn't named, the one that ./casbench would run. The last line says how many tests
passed and failed.
"""

import contextlib
import http.client
import json
import os
import pty
import re
import signal
import socket
import subprocess
import sys

from program_test import run_tests
from recordings import FolderTest, Started, environment

ENDED = "casbench_recording.proxy: the recording ended early: "

# A command that prints its address and then, on both streams, more than a pipe holds.
MUCH = """
import sys
print("http://127.0.0.1:9", file=sys.stderr)
for stream in (sys.stderr, sys.stdout):
    print("x" * 99, file=stream, flush=True)
    stream.write(("y" * 99 + "\\n") * 10_000)
"""


def limited(module, events):
    """The words that start a command whose histories have so many events at most."""
    run = f"runpy.run_module('casbench_recording.{module}', run_name='__main__', alter_sys=True)"
    return sys.executable, "-c", f"import casbench_recording.history.writing as it, runpy; it.MOST_EVENTS = {events}; {run}"


class ReportTest(FolderTest):
    """A test of a proxy whose reports are read."""

    def started(self, *words, **more):
        """A command that runs until the test ends."""
        command = Started(*words, **more)
        self.addCleanup(command.__exit__)
        return command

    def stand_in(self):
        """A stand-in with an empty index, carts."""
        other = self.started("stand_in", "--port", "0")
        other.make("carts")
        return other

    def proxy(self, *words, **more):
        """A proxy that records the index carts of a stand-in."""
        words = ["--listen", "127.0.0.1:0", "--cluster", self.stand_in().url, "--index", "carts", *words, self.file]
        return self.started("proxy", *words, **more)

    def ask(self, proxy, method, target, body=None):
        """The status of the answer to a request, on a connection of its own."""
        connection = http.client.HTTPConnection("127.0.0.1", proxy.port, timeout=30)
        self.addCleanup(connection.close)
        connection.request(method, target, body, {"Content-Type": "application/json"})
        answer = connection.getresponse()
        answer.read()
        return answer.status

    def reported(self, proxy):
        """The next line on standard error; empty if none comes within ten seconds."""
        return proxy.errors.readline(10).strip()


class Much(ReportTest):
    """What these tests start."""

    def test_a_command_with_much_output(self):
        """It doesn't wait until its output is taken."""
        command = self.started("much", start=(sys.executable, "-c", MUCH))
        self.assertEqual(command.process.wait(60), 0)
        self.assertEqual((command.port, command.errors.readline()), (9, "x" * 99 + "\n"))
        self.assertEqual(command.outputs(), ("x" * 99 + "\n" + ("y" * 99 + "\n") * 10_000, ("y" * 99 + "\n") * 10_000))
        self.assertEqual((command.errors.readline(), command.errors.readline(0.1)), ("", ""))


class EarlyEnds(ReportTest):
    """A recording that ends early."""

    def test_it_is_reported_at_once_and_at_the_end(self):
        proxy = self.proxy()
        self.assertEqual(self.ask(proxy, "PUT", "/carts/_doc/d", "{}"), 201)
        self.ask(proxy, "DELETE", "/carts")
        self.assertRegex(self.reported(proxy), f"^{ENDED}DELETE /carts; requests are still passed on, and no longer recorded: end the proxy")
        self.assertEqual(self.ask(proxy, "PUT", "/other/_doc/d", "{}"), 201)
        self.assertIn("\nthe recording ended early: DELETE /carts", proxy.ended())
        self.assertEqual(proxy.process.returncode, 3)

    def test_a_history_that_is_full(self):
        proxy = self.proxy(start=limited("proxy", 6))
        statuses = [self.ask(proxy, "PUT", f"/carts/_doc/d{it}", "{}") for it in range(4)]
        self.assertEqual(statuses, [201] * 4)
        self.assertRegex(self.reported(proxy), f"^{ENDED}.*carts.ndjson is full; ")
        proxy.ended()
        self.assertEqual(proxy.process.returncode, 3)
        self.assertEqual(self.check(), "yes docs=3 calls=3 left_out=0")

    def test_the_proxy_ends_too_where_that_is_asked_for(self):
        proxy = self.proxy("--stop-when-ended")
        self.assertEqual(self.ask(proxy, "PUT", "/carts/_doc/d", "{}"), 201)
        with contextlib.suppress(http.client.HTTPException, OSError):
            self.ask(proxy, "DELETE", "/carts")
        self.assertEqual(proxy.process.wait(30), 3)
        self.assertEqual(self.reported(proxy), f"{ENDED}DELETE /carts; the proxy ends")

    def test_a_recording_at_its_time_has_status_0(self):
        proxy = self.proxy("--stop-when-ended")
        self.ask(proxy, "PUT", "/carts/_doc/d", "{}")
        self.assertNotIn("ended early", proxy.ended())
        self.assertEqual(proxy.process.returncode, 0)

    def test_the_line_of_progress_says_so_too(self):
        ours, its = pty.openpty()
        with open(ours, "rb", 0) as terminal:
            proxy = self.proxy(stderr=its)
            os.close(its)
            shown = b""
            while b"\n" not in shown:
                shown += terminal.read(1000)
            proxy.port = int(re.search(rb":(\d+)\r\n", shown)[1])
            self.ask(proxy, "PUT", "/carts/_doc/d", "{}")
            self.ask(proxy, "POST", f"/carts/_{'long' * 20}")
            while not re.search(rb"\r\x1b\[K1 call, 0 lost, 0 calls a second, the recording ended early: POST [^\r]*\r", shown):
                shown += terminal.read(1000)
            self.assertIn(f"\r\x1b[K{ENDED}POST /carts/_long".encode(), shown)
            # (a terminal that doesn't report its width has 80 columns)
            self.assertEqual(max(len(it) for it in shown.split(b"\r\x1b[K") if b"a second" in it), 79)
            proxy.process.send_signal(signal.SIGTERM)
            self.assertEqual(proxy.process.wait(30), 3)

    def test_a_load_whose_history_is_full_before_its_time(self):
        other = self.started("stand_in", "--port", "0")
        words = [*limited("record", 200), other.url, "carts", self.file, "--seconds", "60"]
        ran = subprocess.run(words, env=environment(), capture_output=True, text=True, timeout=60)
        self.assertEqual(ran.returncode, 3, ran.stderr)
        self.assertEqual(ran.stderr, f"record.py: the recording ended early: {self.file} is full; --parts records more, in parts\n")
        self.assertRegex(self.check(), "^yes docs=[0-9]+ calls=100 ")


class Nodes(ReportTest):
    """Clients that request the addresses of the nodes."""

    def test_they_are_warned_of_once(self):
        proxy = self.proxy()
        for target in ("/_nodes/stats", "/_nodes/_all/http", "/_cat/nodes", "/_cluster/state"):
            self.ask(proxy, "GET", target)
        self.assertEqual(self.ask(proxy, "PUT", "/carts/_doc/d", "{}"), 201)
        said = proxy.ended()
        self.assertEqual(said.count("turn sniffing off"), 1)
        self.assertIn("a client asks where the nodes are (GET /_nodes/_all/http): ", said)
        self.assertEqual(self.check(), "yes docs=1 calls=1 left_out=0")

    def test_each_way_to_ask(self):
        for target, warns in (("/_nodes", 1), ("/_cat/nodes?v", 1), ("/_cluster/state/nodes", 1), ("/_cat/indices", 0), ("/_nodes/usage", 0), ("/_cluster/health", 0)):
            proxy = self.proxy()
            self.ask(proxy, "GET", target)
            self.assertEqual(proxy.ended().count("turn sniffing off"), warns, target)


class Arguments(FolderTest):
    """Commands with wrong arguments."""

    def run_of(self, module, *words):
        """The exit status of a command, and the last line of its standard error."""
        words = [sys.executable, "-m", f"casbench_recording.{module}", *words]
        ran = subprocess.run(words, env=environment(), cwd=self.folder, capture_output=True, text=True, timeout=60)
        self.assertNotIn("Traceback", ran.stderr)
        return ran.returncode, ran.stderr.strip().splitlines()[-1]

    def test_each_gets_a_sentence(self):
        several = "it has several URLs, and one is expected"
        url, index = "http://127.0.0.1:9200", ["--index", "carts", "out"]
        rows = [
            ("split", [], 2, "split.py: error: the following arguments are required: HISTORY, FOLDER"),
            ("split", ["a", "b", "c"], 2, "split.py: error: unrecognized arguments: c"),
            ("split", ["nowhere", "parts"], 1, "split_by_shard.py: nowhere: No such file or directory"),
            ("split", [self.folder, "parts"], 1, f"split_by_shard.py: {self.folder}: Is a directory"),
            ("proxy", ["--cluster", f"{url},http://127.0.0.1:9201", *index], 2, f"proxy.py: error: argument --cluster: {several}"),
            ("proxy", ["--cluster", "http://127.0.0.1:99999", *index], 2, "proxy.py: error: argument --cluster: a port is a number from 1 to 65535"),
            ("proxy", ["--cluster", "127.0.0.1:9200", *index], 2, "proxy.py: error: argument --cluster: it isn't a URL such as https://host:9200"),
            ("proxy", ["--cluster", "ftp://127.0.0.1:9200", *index], 2, "proxy.py: error: argument --cluster: it isn't a URL such as https://host:9200"),
            ("proxy", ["--cluster", url, "--node", url, *index], 2, "proxy.py: error: argument --node: it isn't like 127.0.0.1:9202=http://node-2:9200"),
            ("proxy", ["--cluster", url, "--node", f"9202={url}", *index], 2, "proxy.py: error: argument --node: it isn't an address such as 127.0.0.1:9201"),
            ("record", ["http://127.0.0.1:http", "carts", "out"], 2, "record.py: error: argument URL[,URL..]: a port is a number from 1 to 65535"),
            ("record", [f"{url} {url}", "carts", "out"], 2, f"record.py: error: argument URL[,URL..]: {several}"),
        ]
        for module, words, status, said in rows:
            self.assertEqual(self.run_of(module, *words), (status, said))

    def test_an_interruption_before_the_cluster_answers(self):
        with socket.create_server(("127.0.0.1", 0)) as silent:
            url = f"http://127.0.0.1:{silent.getsockname()[1]}"
            for module, words in (("proxy", ["--listen", "127.0.0.1:0", "--cluster", url, "--index", "carts"]), ("record", [url, "carts"])):
                words = [sys.executable, "-m", f"casbench_recording.{module}", *words, self.file]
                with subprocess.Popen(words, env=environment(), stderr=subprocess.PIPE, text=True) as command:
                    connection, _ = silent.accept()
                    command.send_signal(signal.SIGINT)
                    said = command.communicate(timeout=60)[1]
                    connection.close()
                self.assertEqual((command.returncode, said), (130, ""), module)


class Counts(ReportTest):
    """What is counted at the end."""

    def test_one_is_no_plural_and_what_is_not_judged_is_counted(self):
        proxy = self.proxy()
        self.ask(proxy, "PUT", "/carts/_doc/d", "{}")
        said = proxy.ended()
        self.assertEqual(said, f"recorded 1 call in {self.file}, 0 of them without a reply\njudged: 1 document, 1 call; not judged: 0 documents, 0 calls")

    def test_calls_that_have_no_lines_are_counted(self):
        proxy = self.proxy()
        self.ask(proxy, "PUT", "/carts/_doc/d", "{}")
        self.ask(proxy, "PUT", "/carts/_doc/e", "{}")
        self.ask(proxy, "POST", "/carts/_update/e", '{"script":"x"}')
        self.ask(proxy, "GET", "/carts/_doc/e")
        said = proxy.ended().splitlines()
        self.assertEqual(said[1], "judged: 1 document, 2 calls; not judged: 1 document, 2 calls")
        self.assertRegex(said[2], "^1 document is not judged, from some moment on or at all ")
        with open(f"{self.file}.not-judged", encoding="utf-8") as lines:
            self.assertEqual([json.loads(it).get("calls") for it in lines], [None, 2])


if __name__ == "__main__":
    sys.exit(run_tests())

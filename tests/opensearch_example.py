#!/usr/bin/env python3
"""Tests examples/opensearch: its compose file, its plans, move_primary.py, and ./try on the stand-in instead of OpenSearch.

    python3 tests/opensearch_example.py [PROGRAM]

PROGRAM is the built casbench; if it isn't named, the one that ./casbench would run. Without Debian's docker-compose the compose file isn't
read; a line says so. No docker engine is used, and no image is fetched. The last line says how many tests passed and failed.
"""

import contextlib
import http.server
import json
import os
import pathlib
import re
import shutil
import socket
import subprocess
import sys
import tempfile
import threading
import unittest

from attacks import CERTIFICATE
from program import TOP
from program_test import ProgramTest, run_tests
from recordings import environment
from running import free_ports

from casbench_recording.disturb import plan_of

EXAMPLE = TOP / "examples" / "opensearch"
COMPOSE = EXAMPLE / "compose.yml"
PLANS = sorted((EXAMPLE / "plans").iterdir())
SECONDS, DETECTION = 180, 30
"""How long ./try records, and how long it takes nodes of OpenSearch to remove one that hangs."""


def dry_run(program, out, *words):
    """The exit status of a dry run, and its output."""
    command = [sys.executable, EXAMPLE / "try", "--dry-run", "--program", program, "--seconds", "3", "--divide", "40", *words, out]
    ran = subprocess.run(command, env=environment(), stdin=subprocess.DEVNULL, stdout=subprocess.PIPE, stderr=subprocess.STDOUT, text=True, timeout=120)
    return ran.returncode, ran.stdout


class Compose(ProgramTest):
    """The compose file."""

    def config(self, *words, **more):
        """The configuration that docker's compose reads."""
        command = ["docker-compose", "-f", COMPOSE, "config", *words]
        ran = subprocess.run(command, env=environment(**more), stdin=subprocess.DEVNULL, capture_output=True, text=True, timeout=60)
        self.assertEqual(ran.returncode, 0, ran.stderr)
        return ran.stdout

    def test_config(self):
        """Compose reads it, without security, and with it and another version."""
        if shutil.which("docker-compose") is None:
            self.skipTest("Debian's package docker-compose isn't here, so the compose file was not read")
        self.assertEqual(self.config("--services").split(), ["node-1", "node-2", "node-3"])
        self.assertEqual(len(re.findall(r"DISABLE_SECURITY_PLUGIN: ['\"]?true['\"]?\n", self.config())), 3)
        read = self.config(SECURITY_OFF="false", OPENSEARCH_VERSION="2.4.0", OPENSEARCH_PASSWORD="not-for-others")
        for line in (r"DISABLE_SECURITY_PLUGIN: ['\"]?false['\"]?", "image: opensearchproject/opensearch:2.4.0", "OPENSEARCH_INITIAL_ADMIN_PASSWORD: not-for-others"):
            self.assertEqual(len(re.findall(f"{line}\n", read)), 3)

    def test_nodes(self):
        """Each node publishes an address of its own to the others, and its clients reach it by a network without them."""
        text = COMPOSE.read_text(encoding="utf-8")
        nodes = re.findall(r"container_name: casbench-(node-\d)\n(.*?)\n\n", text, re.DOTALL)
        self.assertEqual([name for name, _ in nodes], ["node-1", "node-2", "node-3"])
        for at, (name, body) in enumerate(nodes, start=1):
            address = f"172.28.57.{10 + at}"
            for it in (f"node.name: {name}", f"transport.publish_host: {address}", f"clients-{at}:", f"nodes: {{ipv4_address: {address}}}"):
                self.assertIn(it, body)
            self.assertIn(f'"127.0.0.1:${{PORT_{at}:-{9210 + at}}}:9200"', body)


class Plans(ProgramTest):
    """The plans, which disturb the nodes."""

    def test_each_plan(self):
        self.assertEqual([it.name for it in PLANS], ["cut", "kill", "move", "pause", "restart"])
        for path in PLANS:
            for it in plan_of(path.read_text(encoding="utf-8")):
                with self.subTest(f"{path.name}: {it.begin}"):
                    self.assertLess(it.after + it.lasts, SECONDS)
                    for command in filter(None, (it.begin, it.undo)):
                        self.assertEqual(subprocess.run(["/bin/sh", "-n", "-c", command]).returncode, 0)
                        self.assertLessEqual(set(re.findall(r"casbench-\S+", command)), {"casbench-nodes", *(f"casbench-node-{it}" for it in (1, 2, 3))})

    def test_what_hangs_is_removed(self):
        """Nodes hang, or are cut off, for longer than their removal takes, one at a time and never node-1."""
        for name in ("pause", "cut"):
            plan = sorted(plan_of((EXAMPLE / "plans" / name).read_text(encoding="utf-8")), key=lambda it: it.after)
            with self.subTest(name):
                self.assertTrue(all(it.lasts > 1.5 * DETECTION and "node-1" not in it.begin for it in plan))
                self.assertTrue(all(first.after + first.lasts + DETECTION < second.after for first, second in zip(plan, plan[1:])))

    def test_addresses(self):
        """A node that is connected again has the same address as before."""
        again = re.findall(r"connect --ip (\S+) casbench-nodes casbench-(\S+)", (EXAMPLE / "plans" / "cut").read_text(encoding="utf-8"))
        self.assertEqual(again, [("172.28.57.12", "node-2"), ("172.28.57.13", "node-3")])


MEMBERS = ("shard", "prirep", "state", "node")
"""The members of each copy in an answer of `_cat/shards`."""


class Moving(unittest.TestCase):
    """move_primary.py, on a server that answers as OpenSearch's documentation describes."""

    def served(self, shards):
        """Starts a server, which runs until the test ends; returns its address, and the list of its requests."""
        asked = []

        class Node(http.server.BaseHTTPRequestHandler):
            def answer(self, value):
                body = json.dumps(value).encode()
                self.send_response(200)
                self.send_header("Content-Length", str(len(body)))
                self.end_headers()
                self.wfile.write(body)

            def do_GET(self):
                asked.append((self.path, self.headers["Authorization"]))
                self.answer(shards)

            def do_POST(self):
                asked.append((self.path, json.loads(self.rfile.read(int(self.headers["Content-Length"])))))
                self.answer({"acknowledged": True})

            def log_message(self, *_):
                pass

        server = http.server.ThreadingHTTPServer(("127.0.0.1", 0), Node)
        threading.Thread(target=server.serve_forever, daemon=True).start()
        self.addCleanup(server.server_close)
        self.addCleanup(server.shutdown)
        return f"http://127.0.0.1:{server.server_address[1]}", asked

    def moved(self, urls):
        """The exit status with these nodes."""
        more = {"CASBENCH_NODES": ",".join(urls), "CASBENCH_INDEX": "carts", "OPENSEARCH_USER": "admin", "OPENSEARCH_PASSWORD": "secret"}
        command = [sys.executable, EXAMPLE / "move_primary.py", "0"]
        ran = subprocess.run(command, env=environment(**more), capture_output=True, text=True, timeout=60)
        return ran.returncode

    def test_the_node_that_has_it(self):
        """The requests go to the first node that answers."""
        rows = [("0", "r", "STARTED", "node-1"), ("1", "p", "STARTED", "node-1"), ("0", "p", "STARTED", "node-3")]
        url, asked = self.served([dict(zip(MEMBERS, it)) for it in rows])
        self.assertEqual(self.moved(["http://127.0.0.1:9", url]), 0)
        (path, basic), (target, body) = asked
        self.assertEqual((path.partition("?")[0], basic), ("/_cat/shards/carts", "Basic YWRtaW46c2VjcmV0"))
        cancel = {"index": "carts", "shard": 0, "node": "node-3", "allow_primary": True}
        self.assertEqual((target, body), ("/_cluster/reroute", {"commands": [{"cancel": cancel}]}))

    def test_no_other_copy(self):
        """A primary isn't given up if no other copy has started."""
        for rows in ([], [("0", "p", "STARTED", "node-3"), ("0", "r", "INITIALIZING", "node-1")]):
            url, asked = self.served([dict(zip(MEMBERS, it)) for it in rows])
            self.assertEqual(self.moved([url]), 1)
            self.assertEqual({it[0].partition("?")[0] for it in asked}, {"/_cat/shards/carts"})


# Stands in for docker: compose starts the stand-in as the cluster, with TLS if security is on; nodes aren't disturbed.
DOCKER = """#!/bin/sh
echo "$*" >>"$FAKE/asked"
case "$*" in
*" up -d")
    if [ "$SECURITY_OFF" = true ]; then set --; else set -- --certificate "$CERTIFICATE"; fi
    "$PYTHON" -m casbench_recording.stand_in --port "$PORT_1" --nodes 3 --replicas 2 "$@" >/dev/null 2>&1 &
    echo $! >"$FAKE/pid" ;;
*" down --volumes") kill "$(cat "$FAKE/pid")" ;;
cp*) cp "$CERTIFICATE" "$3" ;;
esac
"""


class OnDocker(ProgramTest):
    """./try with a script that stands in for docker."""

    def tried(self, *words, **more):
        """The exit status, the output, and the arguments of each docker command."""
        with tempfile.TemporaryDirectory(prefix="casbench-try-") as folder:
            fake = pathlib.Path(folder)
            (fake / "docker").write_text(DOCKER)
            (fake / "docker").chmod(0o755)
            more = {"PATH": f"{fake}{os.pathsep}{os.environ['PATH']}", "FAKE": folder, "CERTIFICATE": CERTIFICATE, "PYTHON": sys.executable, **more}
            command = [sys.executable, EXAMPLE / "try", "--program", self.program, "--seconds", "3", "--divide", "40"]
            command += [*words, "--port", str(free_row(3)), fake / "out"]
            how = {"stdin": subprocess.DEVNULL, "stdout": subprocess.PIPE, "stderr": subprocess.STDOUT, "text": True, "timeout": 120}
            ran = subprocess.run(command, env=environment(**more), **how)
            asked = fake / "asked"
            return ran.returncode, ran.stdout, asked.read_text().splitlines() if asked.exists() else []

    def check_plan(self, words, more):
        status, said, asked = self.tried("--plan", "restart", *words, **more)
        self.assertEqual(status, 0, said)
        self.assertRegex(said, "restart, gets of any copy, check --profile opensearch: yes ")
        self.assertNotIn("went wrong", said)
        self.assertEqual([sum(it.endswith(word) for it in asked) for word in (" up -d", " down --volumes")], [2, 2])
        nodes = " ".join(f"casbench-node-{it}" for it in (1, 2, 3))
        self.assertLessEqual({f"kill {nodes}", f"start {nodes}"}, set(asked))

    def test_a_plan(self):
        """The nodes are started and removed for each recording, and the plan's commands are run; with security, as admin, over TLS."""
        rows = [("without", self.check_plan, [], {}), ("with", self.check_plan, ["--security"], {"OPENSEARCH_PASSWORD": "not-for-others"})]
        self.run_subtests(lambda check, *words: check(*words), rows, workers=2)

    def test_security_without_a_password(self):
        status, said, asked = self.tried("--security")
        self.assertEqual((status, said, asked), (4, "try: --security needs the password of admin in OPENSEARCH_PASSWORD\n", []))


def free_row(count):
    """The first of this many consecutive free ports."""
    while True:
        first = int(free_ports(1)[0])
        try:
            with contextlib.ExitStack() as stack:
                for at in range(count):
                    stack.enter_context(socket.socket()).bind(("127.0.0.1", first + at))
            return first
        except (OSError, OverflowError):
            continue


class DryRun(ProgramTest):
    """./try on the stand-in."""

    def setUp(self):
        folder = tempfile.TemporaryDirectory(prefix="casbench-try-")
        self.addCleanup(folder.cleanup)
        self.folder = pathlib.Path(folder.name)

    def check(self, out, words, wanted, status, commands):
        """Checks the exit status, the verdicts on both recordings, and that the plan has run these docker commands."""
        got, said = dry_run(self.program, self.folder / out, *words)
        profile = re.search("^[a-z]+, gets of any copy, check --profile opensearch: (.*)$", said, re.MULTILINE)
        strict = re.search("^[a-z]+, gets of the primary, check --rule-out: (.*)$", said, re.MULTILINE)
        self.assertTrue(profile and strict, said)
        self.assertRegex(f"{profile[1]}; {strict[1]}", wanted)
        self.assertEqual(got, status, said)
        self.assertNotIn("went wrong", said)
        log = self.folder / out / f"{out}.commands"
        self.assertLessEqual(set(commands), set(log.read_text().splitlines() if log.exists() else ()))
        if out == "move":
            for it in ("any", "primary"):
                self.assertIn('"_primary_term":2', (self.folder / out / f"move-{it}.ndjson").read_text())

    def test_verdicts(self):
        """A healthy cluster is explained under the profile, whatever is done to it, and by a strict check if nothing is done. One that
        performs a write under a condition that isn't met is refuted by both."""
        fault = ["--plan", "none", "--stand-in", "--fault lost-update --every 3"]
        of_one = "docker {} casbench-node-2"
        rows = [
            ("nothing", self.check, "none", ["--plan", "none"], "^yes .*; yes ", 0, ()),
            ("kill", self.check, "kill", ["--plan", "kill"], "^yes ", 0, [of_one.format(it) for it in ("kill", "start")]),
            ("pause", self.check, "pause", ["--plan", "pause"], "^yes ", 0, [of_one.format("pause")]),
            ("move", self.check, "move", ["--plan", "move"], "^yes ", 0, ()),
            ("a fault", self.check, "fault", fault, "^refuted kind=stale-swap .*; refuted kind=", 1, ()),
        ]
        self.run_subtests(lambda check, *words: check(*words), rows, workers=3)

    def test_matrix(self):
        """The table has a row for each plan, and the folder has all recordings."""
        got, said = dry_run(self.program, self.folder / "matrix", "--matrix", "--plans", "none,restart")
        self.assertEqual(got, 0, said)
        rows = re.findall(r"^\| (\w+) \| `(\w+) docs=8 calls=\d+ left_out=\d+ gets=\d+` \| `(\w+) .*` \|$", said, re.MULTILINE)
        self.assertEqual([it[:2] for it in rows], [("none", "yes"), ("restart", "yes")])
        names = {it.name for it in (self.folder / "matrix").glob("*.ndjson")}
        self.assertEqual(names, {f"{plan}-{gets}{it}.ndjson" for plan in ("none", "restart") for gets in ("any", "primary") for it in ("", "-load")})

    def test_faults_of_the_command(self):
        """Wrong arguments, and a folder that exists."""
        self.assertEqual(dry_run(self.program, self.folder / "x", "--plan", "nonesuch")[0], 2)
        self.assertEqual(dry_run(self.program, self.folder / "x", "--matrix", "--plans", "nonesuch")[0], 2)
        self.assertEqual(dry_run(self.program, self.folder)[0], 4)
        self.assertEqual(os.listdir(self.folder), [])


if __name__ == "__main__":
    sys.exit(run_tests())

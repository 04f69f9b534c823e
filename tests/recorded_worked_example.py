#!/usr/bin/env python3
"""Tests what docs/RECORDING.md says of a real cluster: its worked example, on a stand-in with TLS and basic authentication, the rights that
the proxy asks for, certificates, hosts, addresses with a path, and the plans that disturb.

    python3 tests/recorded_worked_example.py [PROGRAM]

PROGRAM is the built casbench; if it isn't named, the one that ./casbench would run. The last line says how many tests
passed and failed.
"""

import base64
import http.client
import json
import os
import re
import shlex
import socket
import ssl
import stat
import subprocess
import sys
import threading
import time

from attacks import CERTIFICATE, INDEX, AttackTest, Cluster, answer_of, found, request_of
from program import TOP
from program_test import run_tests
from recordings import FolderTest, Started, environment

from casbench_recording.disturb import plan_of

PAGE = (TOP / "docs" / "RECORDING.md").read_text(encoding="utf-8")
USER, PASSWORD = "auditor", "not-for-others"
KNOWN = {"OPENSEARCH_USER": USER, "OPENSEARCH_PASSWORD": PASSWORD}
BASIC = base64.b64encode(f"{USER}:{PASSWORD}".encode()).decode()


def section(name):
    """A section of the page."""
    return PAGE.partition(f"\n## {name}\n")[2].partition("\n## ")[0]


def blocks(text):
    """The blocks of a text, without what is around them."""
    return re.findall(r"^```\n(.*?)^```$", text, re.MULTILINE | re.DOTALL)


class Example(FolderTest):
    """The worked example."""

    def command(self, url):
        """The words of its command, for a cluster at this address."""
        (block,) = [it for it in blocks(section("A real cluster, step by step")) if "casbench_recording.proxy" in it]
        words = shlex.split(block.partition("casbench_recording.proxy ")[2].replace("\\\n", ""))
        words = [re.sub(r"https://[a-z0-9.-]+\.example:9200", url, it) for it in words]
        words = [re.sub(r"^127\.0\.0\.1:920[0-9]", "127.0.0.1:0", it) for it in words]
        return [{"root-ca.pem": CERTIFICATE, "OUT": self.file}.get(it, it) for it in words]

    def ask(self, address, method, target, body=None):
        """Asks with the application's credentials; the status."""
        connection = http.client.HTTPConnection("127.0.0.1", int(address.rpartition(":")[2]), timeout=60)
        connection.request(method, target, body, {"Authorization": f"Basic {BASIC}", "Content-Type": "application/json"})
        status = connection.getresponse().status
        connection.close()
        return status

    def test_it_runs_and_no_file_has_the_credentials(self):
        with Started("stand_in", "--port", "0", "--certificate", CERTIFICATE, **KNOWN) as other:
            words = self.command(other.url)
            self.assertEqual(words.count("--node"), 3)
            with Started("proxy", *words, **KNOWN) as proxy:
                addresses = [proxy.url, *proxy.addresses(3)]
                for at, address in enumerate(addresses):
                    self.assertIn(self.ask(address, "PUT", "/carts/_doc/d", json.dumps({"at": at})), (200, 201))
                    self.assertEqual(self.ask(address, "GET", "/carts/_doc/d"), 200)
                    self.assertEqual(self.ask(address, "PUT", f"/carts/_doc/e?urltoken={PASSWORD}", "{}"), 201 if not at else 200)
                with open(f"/proc/{proxy.process.pid}/cmdline", "rb") as file:
                    written = [file.read().decode()]
                written.append(proxy.ended())
        self.assertEqual(self.check("--profile", "opensearch"), "yes docs=1 calls=8 left_out=0 gets=4")
        for name in os.listdir(self.folder):
            with open(os.path.join(self.folder, name), encoding="utf-8") as file:
                written.append(file.read())
        self.assertEqual(len(written), 4)
        for secret in (PASSWORD, BASIC):
            self.assertFalse(any(secret in it for it in written), secret)

    def test_the_options_that_the_page_names_are_those_of_the_command(self):
        ran = subprocess.run([sys.executable, "-m", "casbench_recording.proxy", "--help"], env=environment(), capture_output=True, text=True, timeout=60)
        has = set(re.findall(r"^ +(--[a-z-]+)", ran.stdout, re.MULTILINE))
        table = section("Record an application").partition("| argument |")[2].partition("\n\n")[0]
        rows = "".join(re.findall(r"^\| (.*?) \|", table, re.MULTILINE))
        self.assertEqual(set(re.findall(r"--[a-z-]+", rows)), has)
        used = {it for it in self.command("https://x") if it.startswith("--")} | set(re.findall(r"`(--[a-z-]+)", section("A real cluster, step by step")))
        self.assertLessEqual(used - {"--profile"}, has)


class Refusing(Cluster):
    """A cluster that refuses a question, with an index of so many shards that is empty or not."""

    def __init__(self, refused, status, shards="1", changes=0, **how):
        super().__init__(lambda *_: answer_of(200, found(0, {})), **how)
        self.refused, self.status, self.shards, self.changes = refused, status, shards, changes

    def own(self, head):
        target = head.split(b" ")[1].decode()
        if re.fullmatch(self.refused, target):
            return answer_of(self.status, {"error": {"type": "security_exception"}})
        if target == "/carts" and self.is_there:
            settings = {"index": {"number_of_shards": self.shards}}
            return answer_of(200, {"carts": {**INDEX, "settings": settings, "aliases": {}}})
        if target.startswith("/carts/_stats") and self.is_there:
            return answer_of(200, {"indices": {"carts": {"shards": {"0": [{"seq_no": {"max_seq_no": self.changes - 1}}]}}}})
        return super().own(head)


class Rights(AttackTest):
    """What the proxy asks itself is asked at the start, and a right that is missing is named."""

    def refused(self, question, wanted, *words, status=403, **how):
        """Checks what the proxy says, and that it ends."""
        with Refusing(question, status, **how) as cluster:
            command = ["--listen", "127.0.0.1:0", "--cluster", cluster.url, "--index", "carts", *words, self.file]
            ran = subprocess.run([sys.executable, "-m", "casbench_recording.proxy", *command], env=environment(), capture_output=True, text=True, timeout=60)
        self.assertEqual(ran.returncode, 1, ran.stderr)
        self.assertRegex(ran.stderr, rf"^casbench_recording\.proxy: {wanted}.*OPENSEARCH_USER")
        self.assertFalse(os.path.exists(self.file))

    def test_each_right_of_the_page(self):
        rows = re.findall(r"^\| `([a-z:/_]+)`[^|]*\| `GET (/[^`]+)` \|", section("A real cluster, step by step"), re.MULTILINE)
        self.assertEqual(len(rows), 5)
        for right, path in rows:
            path = re.escape(path).replace("ID", "d") + r"(\?.*)?"
            lacks = f"the user lacks the right {right}, which GET {path} needs"
            with self.subTest(right=right):
                if right == "indices:data/read/get":
                    self.refused(path, lacks, "--documents", "d", changes=1)
                else:
                    self.refused(path, lacks, is_there=False)
                if right in ("indices:admin/get", "indices:monitor/stats"):
                    self.refused(path, lacks)
                if right == "cluster:monitor/state":
                    self.refused(path, lacks, shards="2")

    def test_who_is_not_known(self):
        self.refused("/carts", r"the cluster refuses the credentials \(HTTP 401\)", status=401)


class Encrypted(Cluster):
    """A cluster behind TLS that knows users by certificates."""

    def __init__(self, **how):
        super().__init__(lambda *_: answer_of(200, found(0, {})), **how)
        self.url = self.url.replace("http:", "https:")
        self.server = ssl.SSLContext(ssl.PROTOCOL_TLS_SERVER)
        self.server.load_cert_chain(CERTIFICATE)
        self.server.load_verify_locations(CERTIFICATE)
        self.server.verify_mode = ssl.CERT_REQUIRED

    def serve(self, connection, is_own):
        try:
            with self.server.wrap_socket(connection, server_side=True) as encrypted:
                self.converse(encrypted)
        except OSError:
            pass


class Late(Cluster):
    """A cluster that has its port, and listens on it later."""

    def __init__(self):
        super().__init__(lambda *_: answer_of(200, {}))
        self.listener.close()
        self.listener = socket.socket()
        self.listener.bind(("127.0.0.1", 0))
        self.url = f"http://127.0.0.1:{self.listener.getsockname()[1]}"

    def __enter__(self):
        return self

    def begin(self):
        """Listens from now on."""
        self.listener.listen(16)
        self.accept()


class Addresses(AttackTest):
    """What differs from cluster to cluster."""

    def test_certificates_of_who_asks(self):
        with Encrypted() as cluster:
            with self.proxy(cluster.url, "--ca-file", CERTIFICATE, "--client-cert", CERTIFICATE) as proxy:
                with self.client(proxy) as client:
                    self.assertEqual(client.ask(request_of("GET", "/carts/_doc/d"))[0], 200)
                self.assertIn("recorded 1 call ", proxy.ended())
            self.tidy()
            with self.proxy(cluster.url, "--ca-file", CERTIFICATE) as proxy:
                self.assertRegex(proxy.url, "didn't answer|can't connect")
            with self.proxy(cluster.url, "--client-cert", __file__) as proxy:
                self.assertIn("has no certificate with its key", proxy.url)
            self.tidy()
            with self.proxy(cluster.url, "--ca-file", CERTIFICATE, *self.separate_files()) as proxy, self.client(proxy) as client:
                self.assertEqual(client.ask(request_of("GET", "/carts/_doc/d"))[0], 200)

    def separate_files(self):
        """The options that name the certificate and the key, each in a file of its own."""
        with open(CERTIFICATE, encoding="ascii") as file:
            text = file.read()
        words = []
        for option, kind in (("--client-cert", "CERTIFICATE"), ("--client-key", "PRIVATE KEY")):
            path = os.path.join(self.folder, kind)
            with open(path, "w", encoding="ascii") as file:
                file.write(re.search(rf"-----BEGIN {kind}-----.*?-----END {kind}-----\n", text, re.DOTALL)[0])
            words += [option, path]
        return words

    def test_the_host_of_requests(self):
        with Cluster(lambda *_: answer_of(200, found(0, {}))) as cluster:
            for words, host in (((), b"Host: x"), (("--set-host",), b"Host: " + cluster.url[7:].encode())):
                with self.proxy(cluster.url, *words) as proxy, self.client(proxy) as client:
                    client.ask(request_of("GET", "/carts/_doc/d", None, b"X: y"))
                    proxy.ended()
                self.assertEqual(cluster.seen.pop().split(b"\r\n")[1:], [host, b"X: y"])
                self.tidy()

    def test_an_address_with_a_path(self):
        class Behind(Cluster):
            """A cluster behind a path."""

            def own(self, head):
                method, target, rest = head.split(b" ", 2)
                return super().own(b" ".join([method, target[len("/prod") :], rest])) if target.startswith(b"/prod/carts") else None

        targets = ["/prod/carts/_doc/a", "/carts/_doc/b", "/%70rod/carts/_doc/c", "/prod/other/_doc/x", "/prod/carts/_search", "/product/carts/_doc/y"]
        with Behind(lambda *_: answer_of(400, {})) as cluster, self.proxy(cluster.url + "/prod/") as proxy:
            with self.client(proxy) as client:
                for it in targets:
                    self.assertEqual(client.ask(request_of("POST", it, b"{}"))[0], 400)
            self.assertNotIn("ended early", proxy.ended())
            self.assertEqual([it.split(b" ")[1].decode() for it in cluster.seen], targets)
        self.assertEqual([it["id"] for it in self.lines() if it["e"] == "call"], ["a", "b", "c"])

    def test_patience(self):
        began = time.monotonic()
        with Late() as cluster:
            with self.proxy(cluster.url, "--patience", "0") as proxy:
                self.assertIn("can't connect", proxy.url)
            self.assertLess(time.monotonic() - began, 5)
            # (after the five seconds for which it is waited for without the option)
            threading.Timer(6, cluster.begin).start()
            with self.proxy(cluster.url, "--patience", "60") as proxy:
                self.assertIn("http://", proxy.url)


class Plans(FolderTest):
    """The plans of the page."""

    def plans(self):
        """The disturbances of each plan."""
        return [plan_of(it) for it in blocks(section("Disturb it")) if "after " in it]

    def commands(self):
        """The commands of all plans."""
        return [command for plan in self.plans() for it in plan for command in (it.begin, it.undo) if command]

    def test_the_shell_reads_them(self):
        self.assertGreater(len(self.commands()), 8)
        for it in self.commands():
            self.assertEqual(subprocess.run(["/bin/sh", "-n", "-c", it], capture_output=True).returncode, 0, it)

    def test_what_hangs_does_so_until_it_is_removed(self):
        slow = [it for plan in self.plans() for it in plan if re.search("pause|STOP|iptables", it.begin)]
        self.assertEqual([it.lasts >= 45 and it.every >= 2 * it.lasts for it in slow], [True] * 3)

    def test_the_primary_is_taken_from_the_node_that_has_it(self):
        (cancel,) = [it for it in self.commands() if "allow_primary" in it]
        shards = "0 r node-1\n1 p node-1\n0 p node-3\n"
        script = '#!/bin/sh\nfor it; do case "$it" in *_cat/shards*) cat "$FOLDER/shards"; exit;; {*) printf %s "$it" >"$FOLDER/sent";; esac; done\n'
        for name, text in (("curl", script), ("shards", shards)):
            with open(os.path.join(self.folder, name), "w", encoding="utf-8") as file:
                file.write(text)
        os.chmod(os.path.join(self.folder, "curl"), 0o755)
        more = {"FOLDER": self.folder, "PATH": f"{self.folder}:{os.environ['PATH']}"}
        self.assertEqual(subprocess.run(["/bin/sh", "-c", cancel], env=environment(**more)).returncode, 0)
        with open(os.path.join(self.folder, "sent"), encoding="utf-8") as file:
            wanted = {"index": "carts", "shard": 0, "node": "node-3", "allow_primary": True}
            self.assertEqual(json.load(file), {"commands": [{"cancel": wanted}]})

    def test_the_file_with_the_credentials(self):
        (block,) = [it for it in blocks(section("Disturb it")) if ">curl.conf" in it]
        subprocess.run(["/bin/sh", "-c", block], cwd=self.folder, env=environment(**KNOWN), check=True)
        path = os.path.join(self.folder, "curl.conf")
        self.assertEqual(stat.S_IMODE(os.stat(path).st_mode), 0o600)
        with open(path, encoding="utf-8") as file:
            self.assertEqual(file.read(), f'cacert = "root-ca.pem"\nuser = "{USER}:{PASSWORD}"\n')
        self.assertFalse(any("-u " in it for it in self.commands()))


if __name__ == "__main__":
    sys.exit(run_tests())

#!/usr/bin/env python3
"""Tests the recording proxy with clients that nobody here wrote: those of Debian's packages python3-elasticsearch, ruby-elasticsearch and
libsearch-elasticsearch-perl.

    python3 tests/recorded_real_client.py [PROGRAM]

PROGRAM is the built casbench; if it isn't named, the one that ./casbench would run. If a client isn't installed, that for Python
neither for the Python that runs this nor for /usr/bin/python3, a line says so and it isn't tried. The last line says how many tests passed
and failed.
"""

import json
import subprocess
import sys
import unittest

from program import TOP
from program_test import run_tests
from recordings import FolderTest, Started


def python_with_client():
    """The Python that has the client, or None."""
    for python in (sys.executable, "/usr/bin/python3"):
        try:
            ran = subprocess.run([python, "-c", "import elasticsearch; print(elasticsearch.__version__[0])"], capture_output=True, text=True)
        except OSError:
            continue
        if ran.stdout.strip() == "7":
            return python
    return None


PYTHON = python_with_client()


def is_there(*words):
    """Whether these words run."""
    try:
        return subprocess.run(words, capture_output=True).returncode == 0
    except OSError:
        return False


RUBY = is_there("/usr/bin/ruby", "-e", 'require "elasticsearch"')
PERL = is_there("/usr/bin/perl", "-MSearch::Elasticsearch", "-e", "1")


def needs_client(is_there, name):
    """Skips tests if their client isn't there."""
    return unittest.skipUnless(is_there, f"the client of {name} isn't installed here, so the proxy was not tried with it")


class ClientTest(FolderTest):
    """A test of a client that asks through the proxy."""

    def talked_by(self, words, *fault):
        """Has a client make its turns through the proxy, whose address stands in the place of URL; gives what it saw."""
        with Started("stand_in", "--port", "0", "--product", "Elasticsearch", *fault) as other:
            other.make("carts")
            with Started("proxy", "--listen", "127.0.0.1:0", "--cluster", other.url, "--index", "carts", self.file) as proxy:
                words = [proxy.url if it == "URL" else it for it in words]
                ran = subprocess.run(words, capture_output=True, text=True, timeout=120)
                self.assertEqual(ran.returncode, 0, ran.stderr)
                self.said = proxy.ended()
        return json.loads(ran.stdout)


class OthersTest(ClientTest):
    """What a client for another language saw, and what was recorded of it: index, get, create, conflict, bulk and delete, and retries."""

    def hold(self, words, missing):
        """Holds what a client saw to what it has to see."""
        seen = self.talked_by(words)
        bulk = ["created", "created", "created", "deleted"]
        self.assertEqual(seen, ["created", 1, "Conflict", "Conflict", bulk, [True, True, False], "deleted", missing])
        self.assertEqual(self.check(), "yes docs=4 calls=15 left_out=0")
        for fault in ("drop-after", "drop-before"):
            self.setUp()
            seen = self.talked_by(words, "--fault", fault, "--every", "3")
            self.assertEqual(len(seen), 8)
            self.assertRegex(self.check(), "^yes docs=4 ")
            # (what was tried again is a call of its own, and the first try has no reply)
            self.assertIn("lost", [it["e"] for it in self.lines()])


@needs_client(RUBY, "ruby-elasticsearch")
class RubyClient(OthersTest):
    """The client of ruby-elasticsearch."""

    def test_turns_and_retries(self):
        self.hold(["/usr/bin/ruby", TOP / "tests" / "real_client.rb", "URL"], "NotFound")


@needs_client(PERL, "libsearch-elasticsearch-perl")
class PerlClient(OthersTest):
    """The client of libsearch-elasticsearch-perl."""

    def test_turns_and_retries(self):
        self.hold(["/usr/bin/perl", TOP / "tests" / "real_client.pl", "URL"], "Missing")


@needs_client(PYTHON, "python3-elasticsearch 7.17")
class RealClient(ClientTest):
    """The client of python3-elasticsearch."""

    def talked(self, letters, *fault, seconds="30"):
        """Has the client make its turns; gives what it saw."""
        return self.talked_by([PYTHON, TOP / "tests" / "real_client.py", "URL", seconds, letters], *fault)

    def calls(self):
        """The calls in short, each with its ending."""
        lines = self.lines()
        endings = {it["n"]: str(it.get("status", "lost")) for it in lines if it["e"] != "call"}
        return [f"{it['op']} {it['id'][:3]} {endings[it['n']]}" for it in lines if it["e"] == "call"]

    def test_each_kind_of_request(self):
        seen = self.talked("gigccwshubmndgi")
        wanted = ["NotFoundError", "created", 1, "created", "ConflictError", "ConflictError", {"count": 4}, [True, False], "updated"]
        self.assertEqual(seen, [*wanted, 5, [True, True, False], True, "deleted", "NotFoundError", "created"])
        calls = ["get d 404", "index d 201", "get d 200", "create e 201", "create e 409", "get d 200", "index d 200", "index d 409"]
        calls += ["get d 200", "get d 200", "get now 404", "index d 200", "index b0 201", "index b1 201", "index b2 201", "delete b0 200"]
        calls += ["index AAA 201", "get d 200", "get b1 200", "get now 404", "index AAA 201", "get AAA 200", "delete d 200", "get d 404"]
        self.assertEqual(self.calls(), [*calls, "index d 201"])
        # (a HEAD that found the document shows no version)
        self.assertEqual(self.check(), "yes docs=8 calls=25 left_out=1")
        self.assertIn("0 of them without a reply", self.said)

    def test_a_retry_after_a_timeout_is_a_second_call(self):
        seen = self.talked("icgwgcg", "--fault", "late", "--every", "4", "--late", "60", seconds="0.5")
        # the first try of a create was performed, and the second meets it
        self.assertEqual(seen, ["created", "created", 1, "ConflictError", 3, "ConflictError", 3])
        calls = ["index d 201", "create e 201", "get d 200", "get d lost", "get d 200", "index d 200", "index d 409", "get d lost"]
        self.assertEqual(self.calls(), [*calls, "get d 200", "create e 409", "get d 200"])
        self.assertRegex(self.check(), "^yes docs=2 calls=11 ")

    def test_a_retry_after_a_connection_that_broke(self):
        for fault in ("drop-after", "garbled"):
            seen = self.talked("cciidg", "--fault", fault, "--every", "3")
            # the third request was performed, and is made again by the client itself
            self.assertEqual(seen, ["created", "ConflictError", "updated", "updated", "NotFoundError", "NotFoundError"])
            calls = ["create e 201", "create e 409", "index d lost", "index d 200", "index d 200", "delete d lost"]
            self.assertEqual(self.calls(), [*calls, "delete d 404", "get d 404"])
            self.assertEqual(self.check(), "yes docs=2 calls=8 left_out=0")
            self.setUp()


if __name__ == "__main__":
    sys.exit(run_tests())

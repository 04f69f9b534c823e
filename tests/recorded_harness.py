#!/usr/bin/env python3
"""Tests what docs/RECORDING.md says to whoever writes a harness: which reply a call gets in which state, by the program; the example of a
dictionary; and the connection that asks each thing once.

    python3 tests/recorded_harness.py [PROGRAM]

PROGRAM is the built casbench; if it isn't named, the one that ./casbench would run. The last line says how many tests
passed and failed.
"""

import contextlib
import itertools
import os
import re
import socket
import subprocess
import sys
import threading

from program import TOP
from program_test import run_tests
from recordings import FolderTest, environment, judged

from casbench_recording.cluster import ClusterError, NoAnswer, connection_to
from casbench_recording.history import CallError, History, Pair

# The pairs of the last change and of the next one, another one, and the number that a document has.
P, Q, OTHER, K = Pair(1, 5), Pair(1, 7), Pair(1, 4), 9

REPLIES = {
    "missing()": lambda call: call.missing(),
    "found(p, k)": lambda call: call.found(P, K),
    "indexed(q, created=True)": lambda call: call.indexed(Q, created=True),
    "indexed(q, created=False)": lambda call: call.indexed(Q, created=False),
    "deleted(q, found=True)": lambda call: call.deleted(Q, found=True),
    "deleted(q, found=False)": lambda call: call.deleted(Q, found=False),
    "conflict()": lambda call: call.conflict(),
}


def rows_of_table():
    """The rows of the table of replies: a call, the reply where the document isn't there, and the one or two where it is."""
    page = (TOP / "docs" / "RECORDING.md").read_text(encoding="utf-8")
    section = page[page.index("## Record another store") :].partition("| any of them")[0]
    for name, absent, there in re.findall(r"^\| (\w+(?: under the pair `c`)?) \| (`.*`) \| (.*) \|$", section, re.MULTILINE):
        yield name, absent.strip("`"), [it for it in re.findall(r"`([^`]+)`", there) if it in REPLIES]


class Replies(FolderTest):
    """Each reply to each call in each state: just those of the table are explained."""

    def is_explained(self, op, state, condition, reply):
        """Whether a history is explained in which a document of this state gets this reply."""
        self.count += 1
        file = os.path.join(self.folder, f"{self.count}.ndjson")
        with History(file) as history:
            if state != "never":
                history.call("index", "d", K).indexed(P if state == "here" else OTHER, created=True)
            if state == "gone":
                history.call("delete", "d").deleted(P, found=True)
            call = history.call(op, "d", K + 1 if op in ("index", "create") else None, condition)
            try:
                REPLIES[reply](call)
            except CallError:
                return False
        return judged(self.program, file, "--rule-out").startswith("yes ")

    def test_the_table(self):
        self.count = 0
        rows = list(rows_of_table())
        under = "under the pair `c`"
        self.assertEqual([it[0] for it in rows], ["get", "index", f"index {under}", "create", "delete", f"delete {under}"])
        for (name, absent, there), state, condition, reply in itertools.product(rows, ("never", "gone", "here"), (P, OTHER), REPLIES):
            is_swap = "under" in name
            wanted = absent if state != "here" else there[0] if condition == P else there[-1]
            with self.subTest(call=name, state=state, condition=condition, reply=reply):
                is_explained = self.is_explained(name.split()[0], state, condition if is_swap else None, reply)
                self.assertEqual(is_explained, reply == wanted)


class Dictionary(FolderTest):
    """The example of a store that is a dictionary."""

    def recorded(self, *fault):
        """What the program says of a recording of it."""
        file = os.path.join(self.folder, "-".join(("dictionary", *fault)))
        words = [sys.executable, TOP / "examples" / "harness" / "dictionary.py", file, *fault]
        subprocess.run(words, check=True, env=environment(), timeout=60)
        with open(file, encoding="utf-8") as lines:
            self.text = lines.read()
        return judged(self.program, file)

    def test_it_keeps_its_promise(self):
        self.assertEqual(self.recorded(), "yes docs=3 calls=800 left_out=0")
        # each kind of reply is there, and threads met
        for it in ('"found":true', '"found":false', '"result":"created"', '"result":"updated"', '"result":"deleted"', '"status":409'):
            self.assertIn(it, self.text)

    def test_its_faults_are_found(self):
        self.assertRegex(self.recorded("stale-get"), "^refuted kind=stale-get ")
        self.assertRegex(self.recorded("lost-update"), "^refuted kind=stale-swap ")


class Silent:
    """A store that takes each request and gives no whole answer: it hangs up or, where it is late, says nothing. It counts requests."""

    def __init__(self, is_late):
        self.is_late, self.count, self.connections = is_late, 0, []
        self.listener = socket.create_server(("127.0.0.1", 0))
        self.url = f"http://127.0.0.1:{self.listener.getsockname()[1]}"
        self.thread = threading.Thread(target=self.serve, daemon=True)

    def __enter__(self):
        self.thread.start()
        return self

    def __exit__(self, *_):
        self.listener.shutdown(socket.SHUT_RDWR)
        self.thread.join()
        for it in (self.listener, *self.connections):
            it.close()

    def serve(self):
        with contextlib.suppress(OSError):
            while True:
                connection = self.listener.accept()[0]
                self.connections.append(connection)
                self.count += connection.recv(65_536).count(b"PUT ")
                if not self.is_late:
                    connection.sendall(b"HTTP/1.1 200 OK\r\nContent-Length: 10\r\n\r\n{")
                    connection.close()


class Connections(FolderTest):
    """The connection of the package."""

    def test_a_request_is_sent_once(self):
        for is_late in (False, True):
            with Silent(is_late) as store, History(os.path.join(self.folder, str(is_late))) as history:
                connection = connection_to(store.url, timeout=0.3)
                for number in (1, 2):
                    connection.open(0)
                    with history.write("index", "d") as call, contextlib.suppress(NoAnswer):
                        connection.ask("PUT", "/d", "1")
                        call.indexed(Pair(1, 0), created=True)
                    # the connection on which an answer is owed is gone
                    self.assertIsNone(connection.http.sock)
                    self.assertEqual((store.count, history.lost), (number, number))

    def test_who_is_not_there_is_not_asked(self):
        with socket.create_server(("127.0.0.1", 0)) as listener:
            url = f"http://127.0.0.1:{listener.getsockname()[1]}"
        self.assertRaisesRegex(ClusterError, "can't connect to 127.0.0.1", connection_to(url).open, 0)


if __name__ == "__main__":
    sys.exit(run_tests())

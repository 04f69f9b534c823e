#!/usr/bin/env python3
"""Tests the stand-in as a cluster of three nodes: what it answers while nodes are killed, stopped and cut off.

    python3 tests/recorded_stand_in.py [PROGRAM]

PROGRAM isn't used. The last node has the primary at first, and is the only one that is disturbed here. The last line
says how many tests passed and failed.
"""

import asyncio
import socket
import sys
import threading
import time

from program_test import ProgramTest, run_tests
from recorded_through_proxy import Asker
from recordings import Started
from running import free_ports

from casbench_recording.stand_in import cluster
from casbench_recording.stand_in.server import Server, ServerSetting
from casbench_recording.stand_in.shard_copy import Entry, ShardCopy

# How many nodes there are, and how many seconds something may take to come about.
NODES, PATIENCE = 3, 60

# Has the node with the primary disturbed.
OF_THE_PRIMARY = ("--spare", str(NODES - 1))


class StandInTest(ProgramTest):
    """A test of the stand-in."""

    def started(self, *words, port="0", replicas=NODES - 1):
        """A stand-in with the index carts, which runs until the test ends; a client for each node."""
        command = Started("stand_in", "--port", port, "--nodes", str(NODES), "--replicas", str(replicas), *words)
        self.addCleanup(command.__exit__)
        self.urls = [command.url, *command.addresses(NODES - 1)]
        command.make("carts")
        return [self.asker(it) for it in range(NODES)]

    def asker(self, node):
        asker = Asker(int(self.urls[node].rpartition(":")[2]), timeout=PATIENCE)
        self.addCleanup(asker.__exit__)
        return asker

    def repeated(self, act, holds):
        """What an act returns as soon as that holds; it is repeated for a minute at most."""
        end = time.monotonic() + PATIENCE
        while time.monotonic() < end:
            returned = act()
            if holds(returned):
                return returned
        self.fail(f"it didn't come about: {returned}")


def pair_of(body):
    return body["_primary_term"], body["_seq_no"]


class Stopped(ProgramTest):
    """The server of a node that is killed. It is stopped while a connection is being accepted."""

    async def answer_after(self, turns):
        """What a client gets that connects so many turns of the loop before the server is stopped, and asks behind that."""
        server = Server(cluster.Cluster(), 0, ServerSetting(), 0)
        await server.listen()
        with socket.create_connection(("127.0.0.1", server._port), timeout=PATIENCE) as connection:
            for _ in range(turns):
                await asyncio.sleep(0)
            server.stop()
            try:
                connection.sendall(b"GET / HTTP/1.1\r\n\r\n")
                return await asyncio.to_thread(connection.recv, 1000)
            except ConnectionError:
                return b""

    def test_a_connection_that_was_just_accepted(self):
        """A node that was killed answers nothing, and so no get from the copy that it had."""
        for turns in range(10):
            with self.subTest(turns):
                self.assertEqual(asyncio.run(self.answer_after(turns)), b"")


class Copies(ProgramTest):
    """What a copy of a shard has."""

    def test_a_copy_that_rolls_a_document_back_to_nothing_shows_what_is_left(self):
        kept, copy = Entry(0, 1, "a", 1, {"n": 1}), ShardCopy()
        for entry in (kept, Entry(1, 1, "b", 1, {"n": 2}), Entry(2, 1, "b", 2, {"n": 3})):
            copy.put(entry)
        copy.roll_back(0)
        copy.note_beginning()
        self.assertEqual((copy.last("a"), copy.last("b"), copy.beginning), (kept, None, {"a": kept}))


class Cluster(StandInTest):
    """What a cluster answers that nobody disturbs."""

    def test_each_node_has_an_address_and_says_what_opensearch_says(self):
        for port in free_ports(10):
            try:
                askers = self.started(port=port)
                break
            except (OSError, ValueError):
                # (the next port is taken)
                continue
        self.assertEqual([it.rpartition(":")[2] for it in self.urls], [str(int(port) + it) for it in range(NODES)])
        for number, asker in enumerate(askers, 1):
            status, body = asker.ask("GET", "/")
            self.assertEqual((status, body["name"], body["version"]["distribution"]), (200, f"node-{number}", "opensearch"))
            self.assertRegex(body["version"]["number"], r"^2\.\d+\.\d+$")
            settings = asker.ask("GET", "/carts")[1]["carts"]["settings"]["index"]
            self.assertEqual((settings["number_of_shards"], settings["number_of_replicas"]), ("1", "2"))

    def test_an_acknowledged_write_is_in_each_copy(self):
        askers = self.started("--lag", "0.05")
        for count in range(1, 21):
            status, written = askers[count % NODES].ask("PUT", "/carts/_doc/a", {"n": count})
            self.assertEqual((status, written["_version"]), (201 if count == 1 else 200, count))
            self.assertEqual(written["_shards"], {"total": 3, "successful": 3, "failed": 0})
            for asker in askers:
                for preference in ("", "?preference=_primary", "?preference=_replica", "?preference=_local"):
                    status, found = asker.ask("GET", f"/carts/_doc/a{preference}")
                    self.assertEqual((status, found["_source"], pair_of(found)), (200, {"n": count}, pair_of(written)))
        self.assertEqual(askers[0].ask("GET", "/carts/_doc/a?preference=_nowhere")[0], 400)

    def test_a_copy_shows_what_another_one_does_not_have_yet(self):
        askers = self.started("--lag", "0.5")
        askers[0].ask("PUT", "/carts/_doc/a", {"n": 0})
        writes = threading.Thread(target=lambda: [askers[1].ask("PUT", "/carts/_doc/a", {"n": it}) for it in range(1, 100)], daemon=True)
        writes.start()

        def shown():
            bodies = [askers[2].ask("GET", f"/carts/_doc/a?preference=_{it}")[1] for it in ("primary", "replica")]
            return [it["_seq_no"] for it in bodies]

        self.repeated(shown, lambda it: it[0] > it[1])

    def test_a_conflict_names_the_pair_that_the_primary_has(self):
        askers = self.started()
        askers[0].ask("PUT", "/carts/_doc/a", {"n": 1})
        status, body = askers[1].ask("PUT", "/carts/_doc/a?if_seq_no=7&if_primary_term=1", {"n": 2})
        self.assertEqual((status, body["error"]["type"]), (409, "version_conflict_engine_exception"))
        self.assertIn("current document has seqNo [0] and primary term [1]", body["error"]["reason"])

    def test_what_is_refused_under_overload(self):
        askers = self.started("--overload", "60")
        kinds = {}
        for count in range(400):
            status, body = askers[count % NODES].ask("PUT", f"/carts/_doc/a{count}", {"n": count})
            kind = "performed" if status == 201 else body["error"]["reason"].partition("operation")[0]
            kinds.setdefault((status, kind), []).append(self.is_there(askers, f"a{count}"))
        self.assertEqual({it[0] for it in kinds}, {201, 429, 503})
        self.assertEqual(set(kinds[429, "rejected execution of coordinating "]), {False})
        self.assertEqual(set(kinds[429, "rejected execution of primary "]), {False})
        self.assertEqual(set(kinds[201, "performed"]), {True})
        # (503 says nothing of what was performed)
        self.assertEqual({there for (status, _), its in kinds.items() if status == 503 for there in its}, {True, False})

    def is_there(self, askers, id):
        """Whether a document is there, asked as often as gets are refused."""
        return self.repeated(lambda: askers[0].ask("GET", f"/carts/_doc/{id}")[0], lambda it: it in (200, 404)) == 200


class Disturbed(StandInTest):
    """What it answers while the node with the primary is disturbed."""

    def test_what_was_acknowledged_outlives_a_kill_and_the_term_rises(self):
        askers, written = self.started("--kill-every", "4", "--lasting", "1", *OF_THE_PRIMARY), {}

        def write():
            id = f"a{len(written)}"
            status, body = askers[0].ask("PUT", f"/carts/_doc/{id}", {"n": len(written)})
            self.assertIn(status, (200, 201), body)
            written[id] = pair_of(body)
            return written[id][0]

        self.repeated(write, lambda term: term > 1)
        first = max(number for term, number in written.values() if term == 1)
        # (a write whose primary was killed may have been performed once before: then it has two numbers)
        self.assertIn(min(number for term, number in written.values() if term > 1) - first, (1, 2))
        self.assertEqual(len(set(written.values())), len(written))
        for id, pair in written.items():
            self.assertEqual(pair_of(askers[1].ask("GET", f"/carts/_doc/{id}?preference=_primary")[1]), pair)

    def test_a_write_waits_for_the_next_primary(self):
        askers = self.started("--pause-every", "0.5", "--lasting", "5", "--detection", "0.3", *OF_THE_PRIMARY)

        def write():
            status, body = askers[0].ask("PUT", "/carts/_doc/a", {"n": 1})
            self.assertIn(status, (200, 201), body)
            return body["_primary_term"]

        self.assertEqual(self.repeated(write, lambda term: term > 1), 2)

    def test_a_write_without_a_primary_ends_with_its_timeout(self):
        askers = self.started("--kill-every", "0.1", "--lasting", "60", *OF_THE_PRIMARY, replicas=0)
        kinds = {(500, "node_disconnected_exception"), (503, "unavailable_shards_exception")}

        def write():
            status, body = askers[0].ask("PUT", "/carts/_doc/a?timeout=100ms", {"n": 1})
            if status not in (200, 201):
                self.assertIn((status, body["error"]["type"]), kinds)
            return status

        self.repeated(write, lambda status: status == 503)
        status, body = askers[1].ask("GET", "/carts/_doc/a")
        self.assertEqual((status, body["error"]["type"]), (503, "no_shard_available_action_exception"))
        self.assertEqual(askers[0].ask("GET", "/_cluster/health")[1]["status"], "red")

    def test_what_a_primary_performed_that_is_cut_off_is_rolled_back(self):
        """The node that is cut off shows a write that nobody acknowledged. When it is back the write is sent again, and has another
        pair."""
        askers, writer = self.started("--cut-every", "4", "--lasting", "3", "--detection", "1", *OF_THE_PRIMARY), self.asker(2)
        shown, answered = {}, {}

        def write():
            for count in range(10_000):
                status, body = writer.ask("PUT", "/carts/_doc/a", {"n": count})
                if status is None or self.is_over:
                    break
                answered[count] = pair_of(body)

        self.is_over = False
        writes = threading.Thread(target=write, daemon=True)
        writes.start()

        def look():
            status, body = askers[2].ask("GET", "/carts/_doc/a")
            if status == 200:
                shown.setdefault(body["_source"]["n"], set()).add(pair_of(body))
            return [it for it, pairs in shown.items() if it in answered and len(pairs | {answered[it]}) > 1]

        count = self.repeated(look, bool)[0]
        self.is_over = True
        old, new = min(shown[count] | {answered[count]}), answered[count]
        self.assertEqual((old[0] < new[0], old[1] <= new[1]), (True, True), (old, new))
        found = self.repeated(lambda: askers[0].ask("GET", "/carts/_doc/a?preference=_primary")[1], lambda it: it["_source"]["n"] > count)
        self.assertGreaterEqual(found["_primary_term"], new[0])


if __name__ == "__main__":
    sys.exit(run_tests(needs_program=False))

#!/usr/bin/env python3
"""Tests what recorders write of writes that were refused: void losses where the reply proves that nothing was performed, and nothing of the
kind where it doesn't.

    python3 tests/recorded_refusals.py [PROGRAM]

PROGRAM is the built casbench; if it isn't named, the one that ./casbench would run. The last line says how many tests passed and failed.
"""

import itertools
import json
import os
import subprocess
import sys

from program_test import run_tests
from recorded_requests import CONFLICT, LOST, JudgeTest, found, missing, short, written
from recorded_through_proxy import Asker, ProxyTest, Scripted, as_answer
from recordings import FolderTest, environment

from casbench_recording.history.continuing import Continuing
from casbench_recording.history.readings import OPENSEARCH, STRICT

PROFILE = ("--profile", "opensearch")


def error(status, kind, reason="x", **more):
    """A reply as OpenSearch writes errors."""
    cause = {"type": kind, "reason": reason}
    return status, {"error": {"root_cause": [cause], **cause}, "status": status, **more}


COORDINATING = "rejected execution of coordinating operation [coordinating_and_primary_bytes=1, replica_bytes=0, all_bytes=1]"

# Replies of OpenSearch that prove that nothing was performed.
REFUSALS = {
    "a value that doesn't fit its field": error(400, "mapper_parsing_exception", "failed to parse field [k] of type [long]"),
    "a field that a strict mapping lacks": error(400, "strict_dynamic_mapping_exception"),
    "too many fields": error(400, "illegal_argument_exception", "Limit of total fields [1000] has been exceeded"),
    "a body that is no JSON": error(400, "parse_exception"),
    "a request that isn't valid": error(400, "action_request_validation_exception"),
    "credentials that are wrong": error(401, "security_exception"),
    "a right that lacks": error(403, "security_exception", "no permissions for [indices:data/write/index]"),
    "a method": (405, {"error": "Incorrect HTTP method for uri [/carts] and method [PUT], allowed: [GET]", "status": 405}),
    "a kind of content that isn't accepted": (406, {"error": "Content-Type header [text/xml] is not supported", "status": 406}),
    "a kind of content": error(415, "media_type_header_exception"),
    "a length": error(413, "content_too_long_exception"),
    "a coordinating node that has too much to do": error(429, "rejected_execution_exception", COORDINATING),
}

# Replies that don't: of OpenSearch after an attempt that may have been performed, and of whoever is on the way.
NO_REFUSALS = {
    "a page of nginx": (400, b"<html><head><title>400 Bad Request</title></head></html>"),
    "an empty body": (413, b""),
    "a word": (401, b"Unauthorized"),
    "an error of a gateway": (400, {"timestamp": "2024-05-01", "path": "/carts", "status": 400, "error": "Bad Request"}),
    "a message of a gateway": (403, {"message": "Forbidden"}),
    "a gateway that says its status too": (405, {"error": "no", "status": 405, "requestId": "1"}),
    "a type and no status": (400, {"error": {"type": "mapper_parsing_exception"}}),
    "the status of another reply": (400, {**error(403, "security_exception")[1]}),
    "a status that is a text": (400, {"error": {"type": "mapper_parsing_exception"}, "status": "400"}),
    "a type that isn't known": error(400, "index_closed_exception"),
    "a text of an error": (400, {"error": "MapperParsingException[x]", "status": 400}),
    "a block of the index": error(403, "cluster_block_exception", "index [carts] blocked by: [FORBIDDEN/8/index write (api)];"),
    "a primary that has too much to do": error(429, "rejected_execution_exception", "rejected execution of primary operation [x]"),
    "a queue that is full": error(429, "rejected_execution_exception", "rejected execution of org.opensearch.TimedRunnable"),
    "a disk that is full": error(429, "cluster_block_exception"),
    "a circuit breaker": error(429, "circuit_breaking_exception"),
    "no primary in time": error(503, "unavailable_shards_exception"),
    "a node that is overloaded": error(503, "rejected_execution_exception", COORDINATING),
    "a timeout": error(504, "timeout_exception"),
    "a fault": error(500, "illegal_state_exception"),
    "an index that isn't there": error(404, "index_not_found_exception"),
}

NOT_THERE = error(404, "document_missing_exception", "[d]: document missing")
UPDATE = "POST /carts/_update/d"


def noop(seq):
    """The reply to an update that changed nothing, which shows the pair of the document."""
    return 200, {**written(seq)[1], "result": "noop"}


class Refused(JudgeTest):
    """Replies to writes on one document."""

    def answer(self, judge, asked, answer, length=None):
        if answer is not LOST and isinstance(answer[1], bytes):
            judge.answers.record(asked, *answer, length)
        else:
            super().answer(judge, asked, answer, length)

    def endings(self, *turns):
        """Which calls end as void ones, by what is said of each turn."""
        judge = self.judge()
        self.talk(judge, *turns)
        judge.close()
        return [it["n"] for it in self.lines() if it.get("void")]

    def test_refusals(self):
        """Of a write it is a void loss, and of a get nothing."""
        for name, reply in REFUSALS.items():
            with self.subTest(name):
                turns = [(it, {} if it.startswith("PUT") else None, reply) for it in ("PUT /carts/_doc/d", "DELETE /carts/_doc/d", "GET /carts/_doc/d")]
                voids = self.endings(*turns, ("PUT /carts/_create/d?version=3&version_type=external", {}, reply))
                line = self.lines()[1]
                self.tidy()
                self.assertEqual((voids, line.keys()), ([0, 1, 3], {"e", "n", "t", "void"}))

    def test_replies_that_prove_nothing(self):
        for name, reply in NO_REFUSALS.items():
            with self.subTest(name):
                turns = (("PUT /carts/_doc/d", {}, reply), ("DELETE /carts/_doc/d", None, reply), (UPDATE, {"doc": {}}, reply))
                voids = self.endings(*turns)
                self.tidy()
                self.assertEqual(voids, [])

    def test_items_of_bulk_requests(self):
        """An item is refused by itself, and all of them by a reply to the whole request, other than a rejection: a part of
        them may have been handed on."""
        for name, (status, body) in {**REFUSALS, **NO_REFUSALS}.items():
            with self.subTest(name):
                judge = self.judge()
                lines = [{"index": {"_id": "d"}}, {}, {"delete": {"_id": "e"}}, {"update": {"_id": "f"}}, {"doc": {}}]
                is_error = isinstance(body, dict) and body.keys() == {"error", "status"} and body["status"] == status
                item = {"_index": "carts", **(body if is_error else {})}
                items = [{"index": {"_id": "d", **item}}, {"delete": written(0, "not_found", "e")[1]}, {"update": {"_id": "f", **item}}]
                items[1]["delete"]["status"] = 404
                self.talk(judge, ("POST /carts/_bulk", lines, (200, {"errors": True, "items": items})), ("POST /carts/_bulk", lines, (status, body)))
                judge.close()
                voids = [it["n"] for it in self.lines() if it.get("void")]
                self.tidy()
                whole = [] if status == 429 else [3, 4, 5]
                self.assertEqual(voids, [0, 2, *whole] if name in REFUSALS else [])

    def test_a_bulk_request_of_one_document_that_is_rejected(self):
        """Nothing of it was handed on."""
        lines = [{"index": {"_id": "d"}}, {}]
        self.assertEqual(self.endings(("POST /carts/_bulk", lines, REFUSALS["a coordinating node that has too much to do"])), [0])

    def test_an_update_that_is_rejected_by_the_node_that_it_was_handed_to(self):
        """An earlier attempt may have been performed by another one."""
        rejected = REFUSALS["a coordinating node that has too much to do"]
        self.assertEqual(self.endings(("PUT /carts/_doc/d", {}, rejected), (UPDATE, {"doc": {}}, rejected)), [0])

    def test_a_write_without_an_id(self):
        """A document that is made by nobody keeps none from being judged."""
        made = "A" * 20
        for reply, judged in ((REFUSALS["a right that lacks"], True), (NO_REFUSALS["a disk that is full"], False)):
            judge = self.judge()
            self.talk(judge, ("POST /carts/_doc", {}, reply), (f"PUT /carts/_doc/{made}", {}, written(0, id=made)))
            judge.close()
            self.assertEqual(os.path.exists(self.file) and len(self.lines()) == 2, judged)
            self.tidy()

    def test_what_a_void_write_hides(self):
        """A version that shows a write which was refused is of nobody, if void losses are trusted."""
        self.endings(("PUT /carts/_doc/d", {"a": 1}, REFUSALS["a right that lacks"]), ("GET /carts/_doc/d", None, found(0, {"a": 1})))
        self.assertEqual(self.check(), "yes docs=1 calls=2 left_out=0")
        self.assertRegex(self.check(*PROFILE), r"\Arefuted kind=no-writer calls=1 ")


class Updates(JudgeTest):
    """Updates whose last attempt changed nothing, or found no document: is it known that no earlier one did?"""

    def endings(self, *turns):
        """The lines of the endings of a recording, in short. A turn of one word has the update that it names begun, or ended by a reply."""
        judge, begun = self.judge(), {}
        for turn in turns:
            if turn[0] == "begin":
                begun[turn[1]] = self.ask(judge, *turn[1].split(), turn[2])
            elif turn[0] == "end":
                self.answer(judge, begun.pop(turn[1]), turn[2])
            else:
                self.talk(judge, turn)
        judge.close()
        return [short(it).partition(" ")[2] for it in self.lines() if it["e"] != "call"]

    WRITTEN = ("PUT /carts/_doc/d", {"a": 1}, written(0))
    DELETED = ("DELETE /carts/_doc/d", None, written(1, "deleted"))
    CHANGE = {"doc": {"a": 1}}

    def test_updates_alone(self):
        self.assertEqual(self.endings((UPDATE, self.CHANGE, NOT_THERE)), ["void"])
        self.tidy()
        self.assertEqual(self.endings(self.WRITTEN, (UPDATE, self.CHANGE, noop(0)))[-1], "void")
        self.tidy()
        rows = (self.WRITTEN, self.DELETED, ("GET /carts/_doc/d", None, missing()), (UPDATE, self.CHANGE, NOT_THERE), (UPDATE, self.CHANGE, NOT_THERE))
        self.assertEqual(self.endings(*rows)[-2:], ["void", "void"])

    def test_a_version_of_its_own(self):
        """If it shows a pair that nobody was acknowledged with, an earlier attempt of it may have taken that, as other gets may show."""
        gone = ("GET /carts/_doc/d", None, found(1, {"a": 1, "b": 2}))
        self.assertEqual(self.endings(self.WRITTEN, (UPDATE, {"doc": {"b": 2}}, noop(1)), gone)[1:], ["200 noop 1/1", "lost"])
        self.assertRegex(self.check(*PROFILE), r"\Ayes ")
        self.assertRegex(self.check(), r"\Ayes ")

    def test_updates_beside_other_writes(self):
        """Nobody can distinguish what another write may have done meanwhile from an earlier attempt."""
        put, delete = "PUT /carts/_doc/d", "DELETE /carts/_doc/d"
        cases = {
            "a delete that is open": [self.WRITTEN, ("begin", delete, None), (UPDATE, self.CHANGE, NOT_THERE), ("end", delete, written(1, "deleted"))],
            "a delete that begins": [self.WRITTEN, ("begin", UPDATE, self.CHANGE), self.DELETED, ("end", UPDATE, NOT_THERE)],
            "a delete that was lost": [self.WRITTEN, (delete, None, LOST), (UPDATE, self.CHANGE, NOT_THERE)],
            "a write that was lost": [self.WRITTEN, (put, {}, LOST), (UPDATE, self.CHANGE, noop(0))],
            "a write that failed": [self.WRITTEN, (put, {}, NO_REFUSALS["no primary in time"]), (UPDATE, self.CHANGE, noop(0))],
            "a conflict": [self.WRITTEN, (f"{put}?if_seq_no=7&if_primary_term=1", {}, CONFLICT), (UPDATE, self.CHANGE, noop(0))],
            "an update that found a conflict": [self.WRITTEN, (UPDATE, self.CHANGE, CONFLICT), (UPDATE, self.CHANGE, noop(0))],
            "an update that is open": [self.WRITTEN, ("begin", f"{UPDATE}?pretty", self.CHANGE), (UPDATE, self.CHANGE, noop(0))],
        }
        for name, rows in cases.items():
            with self.subTest(name):
                self.assertNotIn("void", self.endings(*rows))
                self.tidy()

    def test_what_is_over(self):
        """A write that is acknowledged later settles what was answered before, and what was lost under a lesser condition."""
        put = "PUT /carts/_doc/d"
        settled = (put, {"a": 1}, written(5, "updated"))
        for name, before in {
            "a conflict": (f"{put}?if_seq_no=7&if_primary_term=1", {}, CONFLICT),
            "an update": (UPDATE, {"doc": {"a": 1}}, CONFLICT),
            "a loss under a condition": (f"{put}?if_seq_no=0&if_primary_term=1", {}, LOST),
            "a refusal": (put, {}, REFUSALS["a right that lacks"]),
        }.items():
            with self.subTest(name):
                self.assertEqual(self.endings(self.WRITTEN, before, settled, (UPDATE, self.CHANGE, noop(5)))[-1], "void")
                self.tidy()
        with self.subTest("a write that was under way"):
            other = f"{put}?pretty"
            rows = (self.WRITTEN, ("begin", other, {"a": 1}), (f"{put}?if_seq_no=7&if_primary_term=1", {}, CONFLICT), ("end", other, written(5, "updated")))
            self.assertNotIn("void", self.endings(*rows, (UPDATE, self.CHANGE, noop(5))))


class InParts(JudgeTest):
    """What the next part begins with."""

    def carried(self, reading, *turns):
        """The lines of the calls with which the document begins a part, behind these turns."""
        parts = os.path.join(self.folder, f"parts-{len(os.listdir(self.folder))}")
        judge = self.judge(history=Continuing(parts, len(turns), reading))
        self.talk(judge, *turns, ("GET /carts/_doc/d", None, LOST))
        judge.close()
        os.remove(self.file + ".not-judged") if os.path.exists(self.file + ".not-judged") else None
        with open(os.path.join(parts, "part-000002.ndjson"), encoding="utf-8") as lines:
            return [short(it)[2:] for it in map(json.loads, lines) if it["e"] == "call"][:-1]

    def test_void_calls_are_not_carried(self):
        refused = REFUSALS["a right that lacks"]
        turns = [("PUT /carts/_doc/d", {"a": 1}, written(0)), ("PUT /carts/_doc/d", {"a": 2}, refused), ("DELETE /carts/_doc/d", None, refused)]
        for reading in (STRICT, OPENSEARCH):
            stated = self.carried(reading, *turns)
            self.assertEqual([it.partition(" k=")[0] for it in stated], ["index d"], reading)

    def test_updates_that_changed_nothing(self):
        """They don't pile up: a write that is acknowledged later settles them, and if nothing is tried again none was performed."""
        lost = ("DELETE /carts/_doc/d", None, LOST)
        unsettled = [(UPDATE, {"doc": {"a": 1}}, it) for it in (NOT_THERE, noop(7), CONFLICT)] * 3
        made = ("PUT /carts/_doc/d", {"a": 1}, written(9))
        for reading, count in ((STRICT, 0), (OPENSEARCH, 9)):
            with self.subTest(str(reading)):
                self.assertEqual(self.carried(reading, lost, *unsettled), ["delete d", *["index d k=1"] * count])
                stated = self.carried(reading, lost, *unsettled, made)
                self.assertEqual([it.partition(" k=")[0] for it in stated], ["index d", "delete d"])


class Recorders(FolderTest):
    """What `record` and the proxy write of a cluster that refuses writes, or whose proxy does."""

    def recorded(self, reply, *words):
        """A recording of a load on a cluster that answers each write so, and finds nothing; and what was asked."""
        made = as_answer(200, {"acknowledged": True, "shards_acknowledged": True})

        def answer(request, whole):
            path = request.target.partition(b"?")[0]
            if request.method == "PUT" and path.count(b"/") == 1:
                return made
            return as_answer(404, {"_index": "carts", "_id": path.decode().rpartition("/")[2], "found": False}) if request.method == "GET" else reply

        with Scripted(answer) as other:
            ran = subprocess.run(
                [sys.executable, "-m", "casbench_recording.record", other.url, "shop", self.file, "--clients", "1", "--calls", "30", *words],
                env=environment(), capture_output=True, text=True, timeout=60,
            )
            asked = [it.partition(b"\r\n")[0].decode() for it in other.seen]
        return ran, asked

    def test_a_load(self):
        for (name, (status, body)), is_void in itertools.chain(
            ((it, True) for it in list(REFUSALS.items())[::4]), ((it, False) for it in list(NO_REFUSALS.items())[::5])
        ):
            with self.subTest(name):
                ran, _ = self.recorded(as_answer(status, body))
                self.assertEqual(ran.returncode, 0, ran.stderr)
                writes = {it["n"] for it in self.lines() if it["e"] == "call" and it["op"] != "get"}
                voids = {it["n"] for it in self.lines() if it.get("void")}
                self.assertEqual(voids, writes if is_void else set())
                self.assertGreater(len(writes), 10)
                self.assertRegex(self.check(*PROFILE), r"\Ayes ")
                os.remove(self.file)

    def test_gets_of_the_primary(self):
        """They are asked for by the preference, and judged as the profile says."""
        refused = as_answer(*REFUSALS["a right that lacks"])
        for words, wanted in (((), "/shop/_doc/d"), (("--gets", "primary"), "?preference=_primary")):
            ran, asked = self.recorded(refused, *words)
            self.assertEqual(ran.returncode, 0, ran.stderr)
            gets = [it.split()[1] for it in asked if it.startswith("GET ")]
            self.assertTrue(gets and all(wanted in it for it in gets), gets)
            self.assertEqual(any("preference" in it for it in asked if not it.startswith("GET ")), False)
            os.remove(self.file)

    def test_a_cluster_that_takes_no_gets_of_the_primary(self):
        with Scripted(lambda request, whole: as_answer(*(error(400, "illegal_argument_exception", "no Preference for [_primary]")
                                                         if b"_primary" in whole else (200, {"acknowledged": True})))) as other:
            words = [sys.executable, "-m", "casbench_recording.record", other.url, "shop", self.file, "--gets", "primary"]
            ran = subprocess.run(words, env=environment(), capture_output=True, text=True, timeout=60)
        self.assertEqual((ran.returncode, os.path.exists(self.file)), (1, False))
        self.assertIn("doesn't accept gets with preference=_primary (HTTP 400)", ran.stderr)


class Primary(JudgeTest):
    """Gets of the primary are recorded, of another copy not."""

    def test_preferences(self):
        for preference, count in (("_primary", 3), ("_local", 0), ("_replica", 0), ("_primary_first", 0), ("x", 0), ("", 0)):
            judge = self.judge()
            docs = {"docs": [missing()[1]]}
            self.talk(
                judge,
                (f"GET /carts/_doc/d?preference={preference}&pretty", None, missing()),
                (f"GET /carts/_mget?preference={preference}", {"ids": ["d"]}, (200, docs)),
                (f"HEAD /carts/_doc/d?preference={preference}", None, missing()),
            )
            self.assertEqual(len([it for it in self.ended(judge) if "get d" in it]), count, preference)
            self.tidy()


class Nodes(ProxyTest):
    """The line of a call names the node that it went through."""

    def names(self, file):
        with open(file, encoding="utf-8") as lines:
            return {it.get("node") for it in map(json.loads, lines) if it["e"] == "call"}

    def test_nodes(self):
        with self.started("stand_in", "--port", "0", "--lagging-node", "0") as first:
            nodes = [first.url, *first.addresses(1)]
            proxy = self.proxy(nodes[0], "--node", f"127.0.0.1:0={nodes[1]}")
            addresses = [proxy.url, *proxy.addresses(1)]
            for at, asked in enumerate(addresses):
                bulk = b'{"index":{"_id":"b"}}\n{}\n'
                with Asker(int(asked.rpartition(":")[2])) as asker:
                    self.assertEqual(asker.ask("PUT", "/carts/_doc/d", {})[0], 201 if not at else 200)
                    asker.ask("POST", "/carts/_bulk", bulk)
                self.assertEqual(self.names(self.file), {it.partition("//")[2] for it in nodes[: at + 1]})
            self.assertRegex(self.check(), r"\Ayes docs=2 calls=4 ")
            load = os.path.join(self.folder, "load.ndjson")
            for urls, wanted in ((addresses, {it.partition("//")[2] for it in addresses}), (addresses[:1], {None})):
                words = [sys.executable, "-m", "casbench_recording.record", ",".join(urls), f"shop{len(urls)}", load, "--calls", "5"]
                subprocess.run(words, env=environment(), check=True, capture_output=True, timeout=60)
                self.assertEqual(self.names(load), wanted)
                os.remove(load)


if __name__ == "__main__":
    sys.exit(run_tests())

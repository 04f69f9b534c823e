#!/usr/bin/env python3
"""Tests what a recorder that watches makes of requests and their answers, without any connection.

    python3 tests/recorded_requests.py [PROGRAM]

PROGRAM is the built casbench; if it isn't named, the one that ./casbench would run. The last line says how many tests
passed and failed.
"""

import hashlib
import json
import os
import sys
from unittest import mock

from program_test import run_tests
from recordings import FolderTest, empty_stats

from casbench_recording.cluster import ClusterAnswer, ClusterError
from casbench_recording.history import History, HistoryError
from casbench_recording.history.by_shard import Parts
from casbench_recording.history.continuing import MOST_LOST, Continuing
from casbench_recording.index_inspection import Inspector, IndexShape
from casbench_recording.index_names import Names
from casbench_recording.proxy.recording.answer_recorder import AnswerRecorder
from casbench_recording.proxy.recording.judge import Judge, Passed
from casbench_recording.proxy.recording.request_recorder import RequestRecorder
from casbench_recording.proxy.routing.paths import AS_SENT
from casbench_recording.proxy.routing.routes import RouteKind
from casbench_recording.proxy.state.documents import DocumentState
from casbench_recording.proxy.state.unjudged_list import UnjudgedList
from casbench_recording.shard_routing import hash_of, shard_of
from casbench_recording.stand_in.indexes import Index

MADE = "AAAAAAAAAAAAAAAAAAA"  # (with one letter more it is an id as a cluster makes one)


def written(seq, result="created", id="d", term=1, **more):
    """The answer to a write that was performed."""
    status = {"created": 201, "not_found": 404}.get(result, 200)
    return status, {"_index": "carts", "_id": id, "result": result, "_seq_no": seq, "_primary_term": term, **more}


def found(seq, source, id="d", **more):
    """The answer to a get that found a version; where the source is None it isn't shown."""
    body = {"_index": "carts", "_id": id, "_seq_no": seq, "_primary_term": 1, "found": True, **more}
    return 200, body if source is None else {**body, "_source": source}


def missing(id="d"):
    """The answer to a get that found nothing."""
    return 404, {"_index": "carts", "_id": id, "found": False}


CONFLICT = 409, {"error": {"type": "version_conflict_engine_exception", "reason": "x"}, "status": 409}
NOT_THERE = 404, {"error": {"type": "index_not_found_exception"}, "status": 404}
LOST = None


class JudgeTest(FolderTest):
    """A test of a judge."""

    def judge(self, shape="empty", first=DocumentState.JUDGED, only=None, shards=1, history=None, **names):
        """A judge that writes the history of the test."""
        if shape is not None:
            names = Names(names.get("names", ["carts", "shop"]), names.get("routed", []))
            shape = IndexShape("carts", names, shards, shards * 512, True)
        self.history, self.numbers = history or History(self.file), Numbers()
        self.addCleanup(self.history.end)
        unjudged = UnjudgedList(self.file)
        self.addCleanup(unjudged.close)
        return Judge(shape, "carts", self.history, unjudged, first, only)

    def ask(self, judge, method, target, source=None):
        """Hands in a request; gives what is asked. A source that is a list is the lines of a bulk request."""
        content = source
        if not isinstance(source, bytes):
            lines = source if isinstance(source, list) else [source] if source is not None else []
            content = b"".join(json.dumps(it).encode() + b"\n" for it in lines)
        return judge.requests.record(judge.route(method, target.encode()), method, content)

    def answer(self, judge, asked, answer, length=None):
        """Hands in the answer to it, or that there is none."""
        if asked is None:
            return
        if answer is LOST:
            judge.lost(asked)
        else:
            judge.answers.record(asked, answer[0], json.dumps(answer[1]).encode(), length)

    def talk(self, judge, *turns):
        """Hands in requests, each with its answer behind it: a method with a target, a source or not, the answer."""
        for request, source, answer in turns:
            self.answer(judge, self.ask(judge, *request.split(), source), answer)

    def ended(self, judge):
        """Ends the recording; its lines in short, as `index 2 if 1/0` and `201 created 1/0` with the numbers of their calls."""
        judge.close()
        return self.short_lines() if os.path.exists(self.file) else []

    def short_lines(self):
        """The lines of the history in short."""
        return [short(it, self.numbers) for it in self.lines()]

    def tidy(self):
        """Removes what a recording left, for the next one."""
        self.history.end()
        for path in (self.file, self.file + ".not-judged"):
            if os.path.exists(path):
                os.remove(path)

    def names(self):
        """The documents that the list names, with the reasons, and why the recording ended early."""
        path = self.file + ".not-judged"
        if not os.path.exists(path):
            return {}
        with open(path, encoding="utf-8") as lines:
            rows = [json.loads(it) for it in lines]
        # (the last line may have how many calls were left out)
        if rows and rows[-1].keys() == {"calls"}:
            rows.pop()
        return {it.get("id", "ended"): it["why"] for it in rows}


class Numbers:
    """Numbers in the place of the digests of sources: 2 of the first one that a document has, 3 of the next one."""

    def __init__(self):
        self.documents, self.known = {}, {}

    def of(self, line, k):
        """That of a digest in a line."""
        document = self.documents.setdefault(line["n"], line.get("id"))
        known = self.known.setdefault(document, {})
        return k if k <= 1 else known.setdefault(k, len(known) + 2)


def short(line, numbers=None):
    """A line in short, with numbers in the place of digests, if they are named."""
    n, body = line["n"], line.get("body") or {}
    if numbers is not None and line["e"] == "call":
        numbers.documents[n] = line["id"]
    number = (lambda k: numbers.of(line, k)) if numbers is not None else int
    if line["e"] == "lost":
        return f"{n} void" if line.get("void") else f"{n} lost"
    if line["e"] == "call":
        words = [line["op"], line["id"]] + ([f"k={number(line['k'])}"] if "k" in line else [])
        words += [f"if {line['if_primary_term']}/{line['if_seq_no']}"] if "if_seq_no" in line else []
        words += [f"shard {line['shard']}"] if "shard" in line else []
        return f"{n} {' '.join(words)}"
    words = [str(line["status"]), body.get("result", ""), body.get("error", {}).get("type", "")[:16]]
    words += [f"{body['_primary_term']}/{body['_seq_no']}"] if "_primary_term" in body else []
    words += [f"k={number(body['_source']['k'])}"] if "_source" in body else ["found"] if body.get("found") else []
    return f"{n} " + " ".join(filter(None, words))


class WithoutEnd(JudgeTest):
    """Recordings in parts, of so many calls each."""

    def judge_in_parts(self, calls):
        """A judge that writes parts."""
        self.parts = os.path.join(self.folder, "parts")
        return self.judge(history=Continuing(self.parts, calls))

    def part(self, number):
        """The lines of a finished part in short."""
        with open(os.path.join(self.parts, f"part-{number:06}.ndjson"), encoding="utf-8") as lines:
            return [short(json.loads(it), self.numbers) for it in lines]

    def test_a_source_keeps_its_number(self):
        """Also when it comes again in a later part."""
        judge = self.judge_in_parts(4)
        self.talk(
            judge,
            ("PUT /carts/_doc/d", {"a": 1}, written(0)),
            ("PUT /carts/_doc/d", {"a": 2}, LOST),
            ("PUT /carts/_doc/d", {"a": 3}, written(1, "updated")),
            ("PUT /carts/_doc/d", {"a": 4}, written(2, "updated")),
            ("GET /carts/_doc/d", None, found(2, {"a": 4})),
            ("PUT /carts/_doc/d", {"a": 1}, written(3, "updated")),
            ("GET /carts/_doc/d", None, found(3, {"a": 1})),
            ("GET /carts/_doc/d", None, found(4, {"a": 2})),
        )
        judge.close()
        self.assertEqual([it for it in self.part(1) if "index" in it], ["0 index d k=2", "1 index d k=3", "2 index d k=4", "3 index d k=5"])
        stated = ["0 index d k=5", "0 201 created 1/2", "1 index d k=3", "1 lost"]
        later = ["2 get d", "2 200 1/2 k=5", "3 index d k=2", "3 200 updated 1/3", "4 get d", "4 200 1/3 k=2", "5 get d", "5 200 1/4 k=3"]
        self.assertEqual(self.part(2), stated + later)

    def test_a_source_that_is_written_as_the_document_moves(self):
        judge = self.judge_in_parts(2)
        bulk = [{"index": {"_id": "d"}}, {"a": 2}, {"index": {"_id": "d"}}, {"a": 1}]
        items = [{"index": {**written(2 + at, "updated")[1], "status": 200}} for at in (0, 1)]
        self.talk(
            judge,
            ("PUT /carts/_doc/d", {"a": 1}, written(0)),
            ("PUT /carts/_doc/d", {"a": 2}, written(1, "updated")),
            ("POST /carts/_bulk", bulk, (200, {"items": items})),
            ("GET /carts/_doc/d", None, found(3, {"a": 1})),
        )
        judge.close()
        self.assertEqual([it for it in self.part(1) if "index" in it], ["0 index d k=2", "1 index d k=3"])
        moved = ["0 index d k=3", "0 201 created 1/1", "1 index d k=3", "2 index d k=2", "1 200 updated 1/2", "2 200 updated 1/3"]
        self.assertEqual(self.part(2), moved)
        self.assertEqual(self.part(3), ["0 index d k=2", "0 201 created 1/3", "1 get d", "1 200 1/3 k=2"])

    def test_sources_that_nobody_knows(self):
        judge = self.judge_in_parts(2)
        self.talk(
            judge,
            ("POST /carts/_update/d", {"doc": {"a": 1}, "doc_as_upsert": True}, written(0)),
            ("POST /carts/_update/d", {"doc": {"a": 2}}, LOST),
            # (the update that is lost may be what the get shows, or not)
            ("GET /carts/_doc/d", None, found(0, {"a": 1})),
            ("GET /carts/_doc/d", None, found(1, {"a": 2})),
        )
        judge.close()
        self.assertEqual(self.part(2), ["0 index d k=1", "0 201 created 1/0", "1 index d k=1", "1 lost", "2 get d", "2 200 1/0 k=1", "3 get d", "3 lost"])

    def test_a_document_with_too_many_lost_writes(self):
        judge = self.judge_in_parts(MOST_LOST + 1)
        for number in range(MOST_LOST + 1):
            self.talk(judge, ("PUT /carts/_doc/d", {"a": number}, LOST))
        bulk = [{"index": {"_id": "e"}}, {"a": 1}, {"index": {"_id": "d"}}, {"a": 2}]
        items = [{"index": {**written(at, id=id)[1], "status": 201}} for at, id in enumerate("ed")]
        self.talk(judge, ("POST /carts/_bulk", bulk, (200, {"items": items})), ("GET /carts/_doc/d", None, found(1, {"a": 2})))
        judge.close()
        self.assertEqual(self.part(2), ["0 index e k=2", "0 201 created 1/0"])
        self.assertEqual(list(self.names()), ["d"])
        self.assertIn("more lost writes", self.names()["d"])


class Calls(JudgeTest):
    """Requests on one document."""

    def test_each_kind_of_request(self):
        judge = self.judge()
        self.talk(
            judge,
            ("GET /carts/_doc/d", None, missing()),
            ("PUT /carts/_doc/d", {"a": 1}, written(0)),
            ("POST /shop/_doc/d?refresh=true", {"a": 2}, written(1, "updated")),
            ("PUT /carts/_doc/d?if_seq_no=1&if_primary_term=1", {"a": 1}, written(2, "updated")),
            ("PUT /carts/_create/d", {"a": 3}, CONFLICT),
            ("PUT /carts/_doc/d?op_type=create", {"a": 4}, CONFLICT),
            ("GET /carts/_doc/d", None, found(2, {"a": 1})),
            ("DELETE /carts/_doc/d?if_seq_no=1&if_primary_term=1", None, CONFLICT),
            ("DELETE /carts/_doc/d", None, written(3, "deleted")),
            ("DELETE /carts/_doc/d", None, written(4, "not_found")),
            ("POST /carts/_create/d", {"a": 4}, written(5)),
        )
        lines = self.ended(judge)
        wanted = ["0 get d", "0 404", "1 index d k=2", "1 201 created 1/0", "2 index d k=3", "2 200 updated 1/1"]
        wanted += ["3 index d k=2 if 1/1", "3 200 updated 1/2", "4 create d k=4", "4 409 version_conflict"]
        wanted += ["5 create d k=5", "5 409 version_conflict", "6 get d", "6 200 1/2 k=2", "7 delete d if 1/1"]
        wanted += ["7 409 version_conflict", "8 delete d", "8 200 deleted 1/3", "9 delete d", "9 404 not_found 1/4"]
        self.assertEqual(lines, [*wanted, "10 create d k=5", "10 201 created 1/5"])
        self.assertEqual(self.check(), "yes docs=1 calls=11 left_out=0")
        self.assertEqual(self.names(), {})

    def test_the_call_is_written_before_the_request_is_passed_on(self):
        judge = self.judge()
        self.ask(judge, "PUT", "/carts/_doc/d", {})
        self.assertEqual(self.short_lines(), ["0 index d k=2"])

    def test_equal_sources_have_one_number(self):
        judge = self.judge()
        sources = [b'{"a":1,"b":[1.5,"\xc3\xa9"]}', b'{ "b" : [1.50, "\\u00e9"],\n"a":1}', b'{"a":1.0,"b":[1.5,"\xc3\xa9"]}', b'{"a":1}']
        for seq, source in enumerate(sources):
            self.answer(judge, self.ask(judge, "PUT", "/carts/_doc/d", source), written(seq, "updated" if seq else "created"))
        self.talk(judge, ("PUT /carts/_doc/e", {"a": 1}, written(4, id="e")))
        calls = [it for it in self.ended(judge) if "index" in it]
        self.assertEqual(calls, ["0 index d k=2", "1 index d k=2", "2 index d k=3", "3 index d k=4", "4 index e k=2"])

    def test_the_number_is_a_digest(self):
        """It is BLAKE2b of the source, with its keys in order and without spaces."""
        judge = self.judge()
        for seq, source in enumerate((b'{"b":[1.50,"\xc3\xa9"], "a":1}', b"{}")):
            self.answer(judge, self.ask(judge, "PUT", "/carts/_doc/d", source), written(seq, "updated" if seq else "created"))
        self.talk(judge, ("GET /carts/_doc/d", None, found(1, {})))
        judge.close()
        first, second = (hashlib.blake2b(it, digest_size=8).digest() for it in (b'{"a":1,"b":[1.5,"\\u00e9"]}', b"{}"))
        self.assertEqual([it["k"] for it in self.lines() if "k" in it], [int.from_bytes(it, "big") for it in (first, second)])
        self.assertEqual(self.lines()[-1]["body"]["_source"]["k"], int.from_bytes(second, "big"))
        self.assertEqual(self.check(), "yes docs=1 calls=3 left_out=0")

    def test_versions_that_are_forgotten(self):
        """Of a document at rest the last versions are known by their pairs. An older one of a source that nobody knows isn't guessed."""
        judge = self.judge()
        self.talk(judge, ("PUT /carts/_doc/d", {"a": 0}, written(0)), ("POST /carts/_update/d", {"doc": {"b": 1}}, written(1, "updated")))
        for seq in range(2, 9):
            self.talk(judge, ("PUT /carts/_doc/d", {"a": seq}, written(seq, "updated")))
        for way, seq, wanted in (("", 1, "lost"), ("", 0, "lost"), ("", 8, "200 1/8 k=9"), ("?_source=false", 8, "200 1/8 k=9"), ("?_source=false", 2, "lost")):
            self.talk(judge, (f"GET /carts/_doc/d{way}", None, found(seq, None if way else {"a": seq})))
            self.assertEqual(self.short_lines()[-1].partition(" ")[2], wanted)
        # an open call may have been made before they were superseded, so they are known as long as there is one
        open_get = self.ask(judge, "GET", "/carts/_doc/e")
        self.talk(judge, *[("POST /carts/_update/e", {"doc": {"b": 1}}, written(seq, "updated" if seq > 9 else "created", "e")) for seq in range(9, 40)])
        self.answer(judge, open_get, found(9, {"b": 0}, "e"))
        self.assertEqual(self.short_lines()[-1].partition(" ")[2], "200 1/9 k=1")

    def test_a_source_that_nobody_wrote_is_seen(self):
        judge = self.judge()
        self.talk(judge, ("PUT /carts/_doc/d", {"a": 1}, written(0)), ("GET /carts/_doc/d", None, found(0, {"a": 2})))
        self.ended(judge)
        self.assertRegex(self.check(), "^refuted kind=no-writer calls=1 ")

    def test_what_is_not_known_exactly_is_lost(self):
        half, wrong = {"result": "created", "_seq_no": 0}, {"result": "created", "_seq_no": 0, "_primary_term": 1}
        answers = [LOST, (502, "no upstream"), (200, "what"), (200, {}), (503, {"error": "x"}), NOT_THERE, (404, {}), (201, half)]
        answers += [written(0, _index="other"), (200, wrong), (429, {}), (400, {"error": {"type": "x"}})]
        judge = self.judge()
        for at, answer in enumerate(answers):
            self.talk(judge, (f"PUT /carts/_doc/{at}", {}, answer), (f"GET /carts/_doc/{at}", None, (answer or LOST) and answer))
        self.ended(judge)
        count = 2 * len(answers)
        self.assertEqual(self.check(), f"yes docs={len(answers)} calls={count} left_out={count}")

    def test_an_answer_that_is_no_text_is_lost(self):
        judge = self.judge()
        asked = self.ask(judge, "GET", "/carts/_doc/d")
        judge.answers.record(asked, 200, None, None)
        self.assertEqual(self.ended(judge), ["0 get d", "0 lost"])

    def test_an_answer_of_another_document(self):
        judge = self.judge()
        self.talk(judge, ("PUT /carts/_doc/d", {}, written(0, id="e")), ("GET /carts/_doc/e", None, found(0, {}, "e")))
        self.assertEqual(self.ended(judge), ["0 index d k=2", "0 lost"])
        self.assertEqual(sorted(self.names()), ["d", "e"])

    def test_gets_that_show_a_part_of_the_source(self):
        ways = ["_source=false", "_source=a", "_source_includes=a", "_source_excludes=b", "stored_fields=a", "filter_path=_id,found"]
        judge = self.judge()
        self.talk(judge, ("PUT /carts/_doc/d", {"a": 1, "b": 2}, written(0)))
        self.talk(judge, ("PUT /carts/_doc/d", {"a": 1, "b": 3}, written(1, "updated")))
        for way in ways:
            self.talk(judge, (f"GET /carts/_doc/d?{way}", None, found(0, {"a": 1})))
        self.talk(judge, ("GET /carts/_doc/d?_source=false", None, missing()))
        self.talk(judge, ("GET /carts/_doc/d?_source=false", None, found(7, None)))
        lines = self.ended(judge)
        # the pair shows which version it is; one that no answer shows stays unknown
        self.assertEqual([it[2:] for it in lines if " 200 1/" in it], ["200 1/0 k=2"] * len(ways))
        self.assertEqual(lines[-4:], ["8 get d", "8 404", "9 get d", "9 lost"])

    def test_a_get_that_shows_no_source(self):
        judge = self.judge()
        self.talk(judge, ("PUT /carts/_doc/d", {"a": 1}, written(0)))
        self.talk(judge, ("GET /carts/_doc/d", None, found(0, None)), ("GET /carts/_doc/d", None, found(1, None)))
        self.assertEqual(self.ended(judge)[2:], ["1 get d", "1 200 1/0 k=2", "2 get d", "2 lost"])

    def test_heads_tell_a_document_that_is_missing_by_its_length(self):
        judge, length = self.judge(), len('{"_index":"carts","_id":"é","found":false}'.encode())
        for status, length_of_head in ((404, length), (404, length + len(',"_type":"_doc"')), (404, length + 1), (404, None), (200, length)):
            judge.answers.record(self.ask(judge, "HEAD", "/carts/_doc/%C3%A9"), status, b"", length_of_head)
        self.ended(judge)
        bodies = [it.get("body") for it in self.lines() if it["e"] == "reply"]
        self.assertEqual(bodies, [{"found": False}] * 2 + [{}] * 3)
        self.assertEqual(self.check(), "yes docs=1 calls=5 left_out=3")

    def test_gets_that_may_rightly_lag_are_not_recorded(self):
        judge = self.judge()
        self.talk(judge, ("PUT /carts/_doc/d", {}, written(0)), ("PUT /carts/_doc/d", {"a": 1}, written(1, "updated")))
        for way in ("realtime=false", "preference=_local", "preference=x", "unheard=of"):
            self.talk(judge, (f"GET /carts/_doc/d?{way}", None, found(0, {})))
        self.talk(judge, ("GET /carts/_source/d", None, (200, {})), ("GET /carts/_search", None, (200, {})))
        self.assertEqual(len(self.ended(judge)), 4)
        self.assertEqual(self.names(), {})

    def test_conditions_that_can_not_be_known(self):
        ways = ["version=3&version_type=external", "version_type=external_gte&version=1", "if_seq_no=3", "if_seq_no=-1&if_primary_term=1"]
        ways += ["if_seq_no=1&if_primary_term=0", "if_seq_no=1&if_primary_term=99999999999999999999", "version=3"]
        judge = self.judge()
        for at, way in enumerate(ways):
            self.talk(
                judge,
                (f"PUT /carts/_doc/{at}?{way}", {}, CONFLICT),
                (f"PUT /carts/_doc/{at}?{way}", {}, written(at, id=str(at))),
                (f"DELETE /carts/_doc/{at}?{way}", None, CONFLICT),
                (f"GET /carts/_doc/{at}", None, found(at, {}, str(at))),
            )
        self.ended(judge)
        self.assertFalse([it for it in self.lines() if "if_seq_no" in it])
        self.assertEqual(self.check(), f"yes docs={len(ways)} calls={4 * len(ways)} left_out={2 * len(ways)}")

    def test_a_create_under_a_condition(self):
        judge = self.judge()
        self.talk(judge, ("PUT /carts/_create/d?if_seq_no=1&if_primary_term=1", {}, CONFLICT))
        self.assertEqual(self.ended(judge), ["0 create d k=2", "0 lost"])

    def test_names_that_are_encoded(self):
        judge = self.judge()
        self.talk(judge, ("PUT /c%61rts/_doc/a%2Fb%20%C3%A9+/", {}, written(0, id="a/b é+")))
        self.assertEqual(self.ended(judge), ["0 index a/b é+ k=2", "0 201 created 1/0"])

    def test_ids_that_no_cluster_takes_are_passed_by(self):
        judge = self.judge()
        self.talk(judge, ("PUT /carts/_doc/" + "x" * 513, {}, (400, {})), ("PUT /carts/_doc/" + "x" * 512, {}, LOST))
        self.assertEqual(len(self.ended(judge)), 2)

    def test_other_indexes_are_passed_by(self):
        judge = self.judge()
        for target in ("/other/_doc/d", "/cartsy/_doc/d", "/other/_doc", "/other/_update/d", "/other/_delete_by_query", "/other"):
            self.assertIs(judge.route("POST", target.encode()).kind, RouteKind.PASS)


class UnknownSources(JudgeTest):
    """Writes of sources that nobody can know."""

    def test_an_update_is_a_write_of_unknown_source(self):
        judge = self.judge()
        self.talk(
            judge,
            ("PUT /carts/_doc/d", {"a": 1}, written(0)),
            ("POST /carts/_update/d", {"doc": {"b": 1}}, written(1, "updated")),
            ("GET /carts/_doc/d", None, found(1, {"a": 1, "b": 1})),
            ("POST /carts/_update/d?if_seq_no=1&if_primary_term=1", {"doc": {"b": 2}}, written(2, "updated")),
            ("POST /carts/_update/d?if_seq_no=1&if_primary_term=1", {"doc": {"b": 2}}, CONFLICT),
            ("POST /carts/_update/d", {"doc": {"b": 2}}, (200, {**written(2)[1], "result": "noop"})),
            ("POST /carts/_update/d", {"doc": {"b": 3}}, CONFLICT),
            ("GET /carts/_doc/d", None, found(2, {"a": 1})),
            ("POST /carts/_update/e", {"doc": {}, "doc_as_upsert": True}, written(3, id="e")),
        )
        lines = self.ended(judge)
        wanted = ["1 index d k=1", "1 200 updated 1/1", "2 get d", "2 200 1/1 k=1", "3 index d k=1 if 1/1", "3 200 updated 1/2"]
        wanted += ["4 index d k=1 if 1/1", "4 409 version_conflict", "5 index d k=1", "5 200 noop 1/2", "6 index d k=1", "6 lost"]
        self.assertEqual(lines[2:], [*wanted, "7 get d", "7 200 1/2 k=1", "8 index e k=1", "8 201 created 1/3"])
        self.assertEqual(self.check(), "yes docs=2 calls=9 left_out=2")

    def test_what_a_lost_update_may_have_written_is_not_known(self):
        judge = self.judge()
        self.talk(
            judge,
            ("PUT /carts/_doc/d", {"a": 1}, written(0)),
            ("POST /carts/_update/d", {"doc": {"a": 1, "b": 0}}, LOST),
            ("GET /carts/_doc/d", None, found(0, {"a": 1})),
            ("GET /carts/_doc/d", None, found(1, {"a": 1})),
            ("GET /carts/_doc/d", None, found(1, {"a": 7})),
            ("PUT /carts/_doc/d", {"a": 7}, written(2, "updated")),
            ("GET /carts/_doc/d", None, found(2, {"a": 7})),
        )
        lines = self.ended(judge)
        endings = [it for it in lines if "get" not in it and "index" not in it]
        self.assertEqual(endings[1:], ["1 lost", "2 200 1/0 k=2", "3 lost", "4 lost", "5 200 updated 1/2", "6 200 1/2 k=3"])
        self.assertRegex(self.check(), "^yes ")

    def check_update_sent_again(self, reply, other):
        """Checks an update that is answered so, and a get that finds the other version that it may have written."""
        judge = self.judge()
        self.talk(judge, ("PUT /carts/_doc/d", {"a": 1}, written(0)), ("POST /carts/_update/d", {"doc": {"a": 2}}, reply))
        self.talk(judge, ("GET /carts/_doc/d", None, found(other, {"a": 2})))
        self.assertEqual(self.ended(judge)[-1], "2 lost")
        self.assertRegex(self.check(), "^yes ")

    def test_an_update_that_is_sent_again_finds_what_it_wrote(self):
        self.check_update_sent_again((200, {**written(2)[1], "result": "noop"}), 1)

    def test_an_update_that_is_sent_again_is_performed_twice(self):
        self.check_update_sent_again(written(2, "updated"), 1)

    def test_an_update_that_changed_nothing_hides_nothing(self):
        judge = self.judge()
        noop = (200, {**written(0)[1], "result": "noop"})
        self.talk(judge, ("PUT /carts/_doc/d", {"a": 1}, written(0)), ("POST /carts/_update/d", {"doc": {"a": 1}}, noop))
        self.talk(judge, ("GET /carts/_doc/d", None, found(1, {"a": 9})))
        self.ended(judge)
        self.assertRegex(self.check(), "^refuted kind=no-writer calls=2 ")

    def test_an_update_that_is_open_is_not_known_either(self):
        judge = self.judge()
        self.talk(judge, ("PUT /carts/_doc/d", {"a": 1}, written(0)))
        update = self.ask(judge, "POST", "/carts/_update/d", {"doc": {"a": 2}})
        self.talk(judge, ("GET /carts/_doc/d", None, found(1, {"a": 2})))
        self.answer(judge, update, written(1, "updated"))
        self.talk(judge, ("GET /carts/_doc/d", None, found(1, {"a": 2})))
        self.assertEqual(self.ended(judge)[4:], ["2 lost", "1 200 updated 1/1", "3 get d", "3 200 1/1 k=1"])
        self.assertRegex(self.check(), "^yes docs=1 calls=4 left_out=1")

    def test_a_source_that_is_no_json(self):
        judge = self.judge()
        for seq, source in enumerate((b"---\na: 1", b"\xff", b"[1]", b"", b'{"a":' * 5000)):
            id = f"d{seq}"
            self.answer(judge, self.ask(judge, "PUT", f"/carts/_doc/{id}", source), written(seq, id=id))
            self.talk(judge, (f"GET /carts/_doc/{id}", None, found(seq, {"a": seq}, id)))
        self.ended(judge)
        self.assertEqual(self.check(), "yes docs=5 calls=10 left_out=0")

    def test_an_update_by_a_script_ends_the_judgement(self):
        judge = self.judge()
        self.talk(judge, ("PUT /carts/_doc/d", {"a": 1}, written(0)))
        get = self.ask(judge, "GET", "/carts/_doc/d")
        self.talk(judge, ("POST /carts/_update/d", {"script": "ctx.op = 'delete'"}, written(1, "deleted")))
        self.answer(judge, get, missing())
        self.talk(judge, ("GET /carts/_doc/d", None, missing()), ("PUT /carts/_doc/d", {}, written(2)))
        self.assertEqual(self.ended(judge), ["0 index d k=2", "0 201 created 1/0", "1 get d", "1 lost"])
        self.assertEqual(self.names(), {"d": "it was updated, perhaps by a script"})
        self.assertEqual(self.check(), "yes docs=1 calls=2 left_out=1")


class Several(JudgeTest):
    """Requests on several documents."""

    def test_a_bulk_request(self):
        lines = [{"index": {"_id": "d"}}, {"a": 1}, {"create": {"_id": "e", "_index": "shop"}}, {"a": 2}, {"delete": {"_id": "f"}}]
        lines += [{"index": {"_id": "d", "if_seq_no": 0, "if_primary_term": 1}}, {"a": 3}, {"update": {"_id": "d"}}, {"doc": {"a": 4}}]
        lines += [{"index": {"_id": "d", "_index": "other"}}, {"a": 5}, {"index": {}}, {"a": 6}]
        results = [{"index": written(0)}, {"create": CONFLICT}, {"delete": written(1, "not_found", "f")}, {"index": written(2, "updated")}]
        results += [{"update": written(3, "updated")}, {"index": written(0)}, {"index": written(4, id=MADE + "x")}]
        items = [{op: {**body, "_id": body.get("_id", "e"), "status": status}} for it in results for op, (status, body) in it.items()]
        for target in ("/_bulk", "/carts/_bulk?refresh=true", "/other/_bulk"):
            judge = self.judge()
            named = [it if {"a", "doc"} & set(it) else {op: {"_index": "carts", **it[op]} for op in it} for it in lines]
            own = lines if target.startswith("/carts") else named
            asked = self.ask(judge, "POST", target, own)
            self.assertEqual(len(self.lines()), 5)
            self.answer(judge, asked, (200, {"items": items, "errors": True}))
            wanted = ["0 index d k=2", "1 create e k=2", "2 delete f", "3 index d k=3 if 1/0", "4 index d k=1", f"5 index {MADE}x k=2"]
            wanted += ["0 201 created 1/0", "1 409 version_conflict", "2 404 not_found 1/1", "3 200 updated 1/2", "4 200 updated 1/3"]
            self.assertEqual(self.ended(judge), [*wanted, "5 201 created 1/4"])
            self.assertEqual(self.names(), {})
            self.tidy()

    def test_a_bulk_answer_that_does_not_fit(self):
        item = {"index": {**written(0)[1], "status": 201}}
        other = {"index": {**written(0, id="e")[1], "status": 201}}
        odd = [{"index": {**written(0)[1], "status": it}} for it in (-1, "201", None)]
        for answer in [LOST, (500, {}), (200, {}), (200, {"items": []}), (200, {"items": [item, item]}), (200, {"items": [5]})] + [
            (200, {"items": [it]}) for it in (other, *odd, {"index": {"status": 201}}, {})
        ]:
            judge = self.judge()
            self.talk(judge, ("POST /carts/_bulk", [{"index": {"_id": "d"}}, {"a": 1}], answer))
            self.ended(judge)
            self.assertEqual(self.check(), "yes docs=1 calls=1 left_out=1")
            self.tidy()

    def test_a_bulk_request_that_can_not_be_read_ends_the_recording(self):
        bodies = [b"what\n", b'{"index":{"_id":"d"},"x":{}}\n{}\n', b'{"index":null}\n{}\n', b'{"upsert":{"_id":"d"}}\n{}\n', b'{"index":{"_id":1.5}}\n{}\n']
        bodies += [None, b'{"index":{"_id":"d","pipeline":"p"}}\n{}\n', b'{"index":{"_id":"d","_index":5.5}}\n{}\n', b'{"index":{"_id":"d","_id":"e"}}\n{}\n']
        for body in bodies:
            judge = self.judge()
            get = self.ask(judge, "GET", "/carts/_doc/d")
            self.assertIsNone(judge.requests.record(judge.route("POST", b"/carts/_bulk"), "POST", body))
            self.assertIn("bulk request", self.names()["ended"])
            self.answer(judge, get, missing())
            self.assertIs(judge.route("GET", b"/carts/_doc/d").kind, RouteKind.PASS)
            self.assertEqual(self.ended(judge), ["0 get d", "0 lost"])
            self.tidy()

    def test_items_that_can_not_be_known(self):
        judge = self.judge()
        self.talk(judge, ("PUT /carts/_doc/d", {"a": 1}, written(0)))
        lines = [{"index": {"_id": "e"}}, {}, {"update": {"_id": "d"}}, {"script": "x"}, {"index": {"_id": "f", "unheard": 1}}, {}]
        lines += [{"index": {"_id": "g", "_index": "ca*"}}, {}]
        items = [{"index": {**written(1, id="e")[1], "status": 201}}] + [{"index": {}}] * 3
        self.talk(judge, ("POST /carts/_bulk", lines, (200, {"items": items})), ("GET /carts/_doc/d", None, missing()))
        self.assertEqual(self.ended(judge)[2:], ["1 index e k=2", "1 201 created 1/1"])
        self.assertEqual(sorted(self.names()), ["d", "f", "g"])

    def test_a_get_of_several(self):
        judge = self.judge()
        self.talk(judge, ("PUT /carts/_doc/d", {"a": 1}, written(0)))
        docs = [{"_id": "d"}, {"_id": "e"}, {"_id": "d", "_index": "other"}, {"_id": "d", "_source": False}, {"_id": "d", "preference": "x"}]
        bodies = [found(0, {"a": 1})[1], missing("e")[1], found(9, {})[1], found(0, None)[1], found(9, {})[1]]
        self.talk(judge, ("POST /carts/_mget", {"docs": docs}, (200, {"docs": bodies})))
        self.talk(judge, ("GET /_mget", {"docs": [{"_id": "d", "_index": "carts"}]}, (200, {"docs": [{"_id": "d", "error": {}}]})))
        self.talk(judge, ("GET /carts/_mget", {"ids": ["d", "e"]}, (200, {"docs": [bodies[1], bodies[0]]})))
        self.talk(judge, ("GET /carts/_mget?realtime=false", {"ids": ["d"]}, (200, {"docs": [found(9, {})[1]]})))
        wanted = ["1 get d", "2 get e", "3 get d", "1 200 1/0 k=2", "2 404", "3 200 1/0 k=2", "4 get d", "4 lost"]
        self.assertEqual(self.ended(judge)[2:], [*wanted, "5 get d", "6 get e", "5 lost", "6 lost"])

    def test_requests_on_documents_that_nobody_names(self):
        for target in ("/carts/_update_by_query", "/carts/_delete_by_query?conflicts=proceed", "/shop/_delete_by_query"):
            judge = self.judge()
            self.talk(judge, ("PUT /carts/_doc/d", {}, written(0)))
            get, sweep = self.ask(judge, "GET", "/carts/_doc/d"), self.ask(judge, "POST", target, {})
            self.talk(judge, ("PUT /carts/_doc/e", {}, written(2, id="e")), ("GET /carts/_doc/d", None, missing()))
            self.answer(judge, sweep, (200, {"took": 1, "timed_out": False}))
            self.answer(judge, get, missing())
            self.talk(judge, ("PUT /carts/_doc/f", {}, written(3, id="f")), ("GET /carts/_doc/d", None, missing()))
            wanted = ["0 index d k=2", "0 201 created 1/0", "1 get d", "1 lost", "2 index f k=2", "2 201 created 1/3"]
            self.assertEqual(self.ended(judge), wanted)
            self.assertEqual(sorted(self.names()), ["d", "e"])
            self.tidy()

    def test_such_a_request_that_may_go_on(self):
        answers = (200, {"task": "x:1"}), (200, {"timed_out": True}), (504, {}), LOST
        turns = [("/carts/_delete_by_query", it) for it in answers]
        turns += [("/carts/_delete_by_query?wait_for_completion=false", (200, {})), ("/ca*/_delete_by_query", (200, {}))]
        for target, answer in turns:
            judge = self.judge()
            self.talk(judge, (f"POST {target}", {}, answer), ("PUT /carts/_doc/f", {}, written(3, id="f")))
            self.assertEqual(self.ended(judge), [])
            self.assertEqual(list(self.names()), ["f"])
            self.tidy()


class NewIds(JudgeTest):
    """Writes of documents whose ids the answer shows."""

    def test_the_answer_tells_the_document(self):
        judge, id = self.judge(), MADE + "x"
        self.talk(judge, ("POST /carts/_doc", {"a": 1}, written(0, id=id)), (f"GET /carts/_doc/{id}", None, found(0, {"a": 1}, id)))
        self.assertEqual(self.ended(judge), [f"0 index {id} k=2", "0 201 created 1/0", f"1 get {id}", "1 200 1/0 k=2"])
        self.assertEqual(self.check(), "yes docs=1 calls=2 left_out=0")

    def test_a_document_that_was_asked_for_before_its_answer_came(self):
        judge, id = self.judge(), MADE + "x"
        asked = self.ask(judge, "POST", "/carts/_doc", {"a": 1})
        self.talk(judge, (f"GET /carts/_doc/{id}", None, found(0, {"a": 1}, id)), ("GET /carts/_doc/d", None, missing()))
        self.answer(judge, asked, written(0, id=id))
        self.assertEqual(self.ended(judge), ["0 get d", "0 404"])
        self.assertEqual(list(self.names()), [id])

    def test_an_answer_that_is_lost(self):
        for answer in (LOST, (503, {}), (201, {"_id": MADE + "x"}), CONFLICT):
            judge = self.judge()
            self.talk(judge, ("POST /carts/_doc", {"a": 1}, answer))
            self.talk(judge, (f"GET /carts/_doc/{MADE}x", None, found(0, {"a": 1}, MADE + "x")))
            self.talk(judge, ("PUT /carts/_doc/d", {}, written(1)), ("POST /carts/_doc", {}, written(2, id=MADE + "y")))
            self.assertEqual([it for it in self.ended(judge) if "index" in it], ["0 index d k=2", f"1 index {MADE}y k=2"])
            self.assertEqual(list(self.names()), [MADE + "x"])
            self.tidy()

    def test_one_that_a_sweep_may_have_changed(self):
        judge = self.judge()
        asked = self.ask(judge, "POST", "/carts/_doc", {"a": 1})
        self.talk(judge, ("POST /carts/_delete_by_query", {}, (200, {})))
        self.answer(judge, asked, written(0, id=MADE + "x"))
        self.assertEqual(self.ended(judge), [])
        self.assertEqual(list(self.names()), [MADE + "x"])


class NotJudged(JudgeTest):
    """What ends the judgement of a document, or the recording."""

    def test_writes_that_can_not_be_known(self):
        writes = ["PUT /carts/_doc/d?op_type=x", "PUT /carts/_doc/d?unheard=of", "POST /carts/kind/d", "DELETE /carts/kind/d"]
        writes += ["PATCH /carts/_doc/d", "PUT /%3Ccart%7Bnow%7D%3E/_doc/d", "PUT /carts,other/_doc/d", "POST /carts/kind/d/_update"]
        for write in writes:
            judge = self.judge()
            self.talk(judge, ("PUT /carts/_doc/d", {"a": 1}, written(0)))
            get = self.ask(judge, "GET", "/carts/_doc/d")
            self.talk(judge, (write, {}, written(1, "updated")), ("GET /carts/_doc/d", None, found(1, {})))
            self.answer(judge, get, found(1, {}))
            self.assertEqual(self.ended(judge), ["0 index d k=2", "0 201 created 1/0", "1 get d", "1 lost"], write)
            self.assertEqual(list(self.names()), ["d"])
            self.tidy()

    def test_requests_that_end_the_recording(self):
        ends = ["DELETE /carts", "DELETE /*", "DELETE /_all", "POST /carts/_rollover", "PUT /carts/_alias/x", "POST /_unheard", "POST /"]
        ends += ["PUT /carts/_doc/d?pipeline=p", "POST /carts/_doc?pipeline=p", "POST /_bulk?pipeline=p", "POST /_snapshot/a/b/_restore"]
        ends += ["POST /_plugins/_x", "POST /carts/_clone/shop", "PUT /carts/_unheard", "POST /*/_unheard"]
        bodies = [("POST /_aliases", {"a": "carts"}), ("POST /_reindex", {"dest": "shop"}), ("POST /_reindex", {"dest": "c*"})]
        bodies += [("PUT /carts/_settings", {"index.default_pipeline": "p"}), ("PUT /carts/_mapping", {"_source": {}})]
        for request, body in [(it, {}) for it in ends] + bodies:
            judge = self.judge()
            get = self.ask(judge, "GET", "/carts/_doc/d")
            self.talk(judge, (request, body, (200, {})), ("GET /carts/_doc/d", None, missing()))
            self.answer(judge, get, missing())
            self.assertEqual(self.ended(judge), ["0 get d", "0 lost"], request)
            self.assertEqual(list(self.names()), ["ended"])
            self.tidy()

    def test_requests_that_change_nothing(self):
        harmless = ["GET /", "GET /carts", "HEAD /carts", "PUT /carts", "POST /carts/_search", "POST /_search", "POST /_msearch", "POST /carts/_refresh"]
        harmless += ["POST /*/_search", "PUT /_template/x", "PUT /_cluster/settings", "PUT /_snapshot/a/b", "GET /_aliases", "DELETE /other"]
        harmless += ["PUT /_plugins/_security/api/x", "OPTIONS *", "GET /carts/_update/d", "GET http://x/carts", "POST /carts/_count"]
        bodies = [("POST /_aliases", {"a": "b"}), ("POST /_reindex", {"dest": "x"}), ("PUT /carts/_settings", {"number_of_replicas": 0})]
        bodies += [("PUT /carts/_mapping", {"properties": {"data_source": {}}})]
        for request, body in [(it, {}) for it in harmless] + bodies:
            judge = self.judge()
            get = self.ask(judge, "GET", "/carts/_doc/d")
            self.talk(judge, (request, body, (200, {})))
            self.answer(judge, get, missing())
            self.assertEqual(self.ended(judge), ["0 get d", "0 404"], request)
            self.assertEqual(self.names(), {})
            self.tidy()

    def test_a_fault_of_the_recorder_ends_the_recording(self):
        for at, (where, name) in enumerate(((RequestRecorder, "set_operation"), (AnswerRecorder, "_reply"))):
            judge = self.judge()
            get = self.ask(judge, "GET", "/carts/_doc/d")
            with mock.patch.object(where, name, side_effect=KeyError("x")):
                self.talk(judge, ("GET /carts/_doc/e", None, missing("e")))
            self.answer(judge, get, missing())
            self.assertEqual([it for it in self.ended(judge) if it[2:5] != "get"], ["0 lost", "1 lost"][: at + 1])
            self.assertEqual(self.names(), {"ended": "an internal error of the recorder: KeyError('x')"})
            self.tidy()

    def test_what_comes_after_the_end(self):
        judge = self.judge()
        get = self.ask(judge, "GET", "/carts/_doc/d")
        route, new = judge.route("PUT", b"/carts/_doc/d"), self.ask(judge, "POST", "/carts/_doc", {})
        self.talk(judge, ("DELETE /carts", None, (200, {})))
        self.assertIsNone(judge.requests.record(route, "PUT", b"{}"))
        self.answer(judge, get, missing())
        self.answer(judge, new, written(0, id=MADE + "x"))
        self.assertEqual(self.ended(judge), ["0 get d", "0 lost"])
        self.assertEqual(self.names(), {"ended": "DELETE /carts"})

    def test_a_list_that_is_there_is_not_gone_on_with(self):
        open(self.file + ".not-judged", "x").close()
        self.assertRaisesRegex(HistoryError, "not-judged: File exists", UnjudgedList, self.file)

    def test_gets_of_several_documents_for_which_there_is_no_room_keep_nothing(self):
        judge = self.judge(history=History(self.file, most_events=6))
        self.ask(judge, "GET", "/carts/_doc/d")
        for at in range(20):
            self.assertIsNone(self.ask(judge, "POST", "/carts/_mget", {"ids": [f"{at}-{it}" for it in range(3)]}))
        self.assertEqual(list(judge.documents.recent), ["d"])
        self.assertEqual(len(self.ask(judge, "POST", "/carts/_mget", {"ids": ["d", "e"]}).parts), 2)
        self.assertFalse(judge.has_ended)

    def test_of_parts_that_are_no_calls_nothing_is_kept(self):
        judge = self.judge()
        self.ask(judge, "POST", "/carts/_update/d", {"script": "x"})
        lines = [{"delete": {"_id": "d"}}, {"delete": {"_id": "e"}}, {"index": {}}, {"a": 1}]
        ids = [it and it.id for it in self.ask(judge, "POST", "/carts/_bulk", lines).parts]
        self.assertEqual(ids, [None, "e", ""])
        bulk = judge.requests.begin_bulk(judge.route("POST", b"/carts/_bulk"))
        judge.requests.record_items(bulk, b'{"index":{}}\n{"a":1}\n{"delete":{"_id":"e"}}\n', True, has_room=False)
        self.assertEqual([it and it.id for it in bulk.parts], [None, "e"])

    def test_a_history_that_is_full(self):
        judge = self.judge(history=History(self.file, most_events=4))
        get = self.ask(judge, "GET", "/carts/_doc/d")
        self.talk(judge, ("PUT /carts/_doc/d", {}, written(0)), ("PUT /carts/_doc/d", {}, written(1, "updated")))
        self.answer(judge, get, found(1, {}))
        self.assertEqual(self.ended(judge), ["0 get d", "1 index d k=2", "1 201 created 1/0", "0 lost"])
        self.assertIn("is full", self.names()["ended"])


class Shards(JudgeTest):
    """Indexes of several shards."""

    def test_the_hash_is_the_one_of_opensearch(self):
        known = {"hell": 0x5A0CB7C3, "hello": 0xD7C31989, "hello w": 0x22AB2984, "hello wo": 0xDF0CA123, "hello wor": 0xE7744D61}
        known["The quick brown fox jumps over the lazy dog"] = 0xE07DB09C
        self.assertEqual({text: hash_of(text) & 0xFFFFFFFF for text in known}, known)
        self.assertEqual({shard_of(f"d{it}", 3, 768) for it in range(50)}, {0, 1, 2})

    def test_calls_name_the_shards(self):
        judge = self.judge(shards=2)
        ids = [next(f"d{it}" for it in range(99) if shard_of(f"d{it}", 2, 1024) == shard) for shard in (0, 1)]
        self.talk(judge, *[(f"PUT /carts/_doc/{id}", {}, written(0, id=id)) for id in ids])
        self.assertEqual([it for it in self.ended(judge) if "index" in it], [f"0 index {ids[0]} k=2", f"1 index {ids[1]} k=2 shard 1"])
        self.assertEqual(self.check(), "yes docs=2 calls=2 left_out=0")

    def test_a_routing_is_distinguished_if_there_are_several(self):
        for shards, routed in ((1, False), (2, True)):
            judge = self.judge(shards=shards)
            self.talk(
                judge,
                ("PUT /carts/_doc/d?routing=x", {}, written(0)),
                ("GET /carts/_doc/d?routing=x", None, found(0, {})),
                ("GET /carts/_doc/e?routing=x", None, missing("e")),
            )
            self.assertEqual(len(self.ended(judge)), 0 if routed else 6)
            self.assertEqual(list(self.names()), ["d"] if routed else [])
            self.tidy()

    def test_an_item_whose_document_another_one_leaves_untold(self):
        judge = self.judge(shards=2)
        lines = [{"index": {"_id": "d"}}, {}, {"index": {"_id": "d", "routing": "x"}}, {}]
        self.talk(judge, ("POST /carts/_bulk", lines, (200, {"items": [{"index": {**written(0)[1], "status": 201}}] * 2})))
        self.assertEqual(self.ended(judge), [])
        self.assertEqual(list(self.names()), ["d"])

    def test_an_alias_with_a_routing(self):
        judge = self.judge(shards=2, routed=["shop"])
        lines = [{"index": {"_id": "e", "_index": "shop"}}, {}]
        self.talk(judge, ("PUT /shop/_doc/d", {}, written(0)), ("POST /_bulk", lines, (200, {})), ("POST /shop/_doc", {}, written(1, id="f")))
        self.assertEqual(self.ended(judge), [])
        self.assertEqual(sorted(self.names()), ["d", "e", "f"])

    def test_a_file_for_each_shard_and_one_that_is_full(self):
        folder = os.path.join(self.folder, "parts")
        judge = self.judge(shards=2, history=Parts(folder, most_events=4))
        ids = [[f"d{it}" for it in range(99) if shard_of(f"d{it}", 2, 1024) == shard][:3] for shard in (0, 1)]
        for seq, id in enumerate(ids[0]):
            self.talk(judge, (f"PUT /carts/_doc/{id}", {}, written(seq, id=id)))
        lines = [line for id in (ids[0][0], ids[1][0]) for line in ({"index": {"_id": id}}, {})]
        items = [{"index": {**written(7, id=id)[1], "status": 201}} for id in (ids[0][0], ids[1][0])]
        self.talk(judge, ("POST /carts/_bulk", lines, (200, {"items": items})))
        judge.close()
        counts = {os.path.basename(it.path): (it.calls, it.replies) for it in judge.history.histories}
        self.assertEqual(counts, {"shard-0.ndjson": (2, 2), "shard-1.ndjson": (1, 1)})


class NotEmpty(JudgeTest):
    """Indexes that are not empty at first, or not there."""

    def test_what_is_seen_created_is_judged(self):
        settled = [("PUT /carts/_doc/d", {}, written(5)), ("PUT /carts/_create/d", {}, written(5)), ("GET /carts/_doc/d", None, missing())]
        settled += [("DELETE /carts/_doc/d", None, written(5, "not_found"))]
        for turn in settled:
            judge = self.judge(first=DocumentState.UNSURE)
            self.talk(judge, turn, ("PUT /carts/_doc/d", {"a": 1}, written(6, "updated")))
            self.assertEqual(len([it for it in self.ended(judge) if "lost" in it]), 0)
            self.assertEqual(self.names(), {})
            self.tidy()

    def test_what_was_there_is_not(self):
        shown = [("PUT /carts/_doc/d", {}, written(5, "updated")), ("PUT /carts/_create/d", {}, CONFLICT), ("GET /carts/_doc/d", None, found(3, {}))]
        shown += [("DELETE /carts/_doc/d", None, written(5, "deleted"))]
        for turn in shown:
            judge = self.judge(first=DocumentState.UNSURE)
            self.talk(judge, turn, ("GET /carts/_doc/d", None, found(6, {})))
            self.assertEqual(self.ended(judge)[1:], ["0 lost"])
            self.assertEqual(self.names(), {"d": "it existed before"})
            self.tidy()

    def test_two_that_race_to_create(self):
        judge = self.judge(first=DocumentState.UNSURE)
        first, second = (self.ask(judge, "PUT", "/carts/_create/d", {"a": it}) for it in (1, 2))
        self.answer(judge, first, CONFLICT)
        self.answer(judge, second, written(5))
        self.talk(judge, ("GET /carts/_doc/d", None, found(5, {"a": 2})))
        self.assertEqual(self.ended(judge)[2:], ["0 lost", "1 201 created 1/5", "2 get d", "2 200 1/5 k=3"])
        self.assertEqual(self.check(), "yes docs=1 calls=3 left_out=1")

    def test_a_delete_settles_nothing_for_others(self):
        judge = self.judge(first=DocumentState.UNSURE)
        delete = self.ask(judge, "DELETE", "/carts/_doc/d")
        self.talk(judge, ("GET /carts/_doc/d", None, missing()))
        self.answer(judge, delete, (503, {}))
        self.talk(judge, ("PUT /carts/_doc/d", {}, written(5)))
        self.ended(judge)
        self.assertEqual(self.check(), "yes docs=1 calls=3 left_out=3")
        self.assertEqual(self.names(), {"d": "it was never seen created"})

    def test_documents_that_are_named(self):
        judge = self.judge(only=frozenset(["d"]))
        self.talk(judge, ("PUT /carts/_doc/e", {}, written(5, "updated", "e")), ("PUT /carts/_doc/d", {}, written(6)))
        self.talk(judge, ("POST /carts/_update/e", {"script": "x"}, written(7, "updated", "e")), ("POST /carts/_doc", {}, written(8, id="f")))
        self.assertEqual(self.ended(judge), ["0 index d k=2", "0 201 created 1/6"])
        self.assertEqual(self.names(), {})

    def test_an_index_that_is_not_there_yet(self):
        judge = self.judge(shape=None)
        self.talk(judge, ("GET /carts/_doc/d", None, NOT_THERE), ("PUT /carts/_doc/d", {}, written(0)))
        for is_empty in (True, False):
            judge.found(IndexShape("carts-1", Names(["carts", "carts-1"], []), 1, 1, is_empty), [])
        self.talk(judge, ("GET /carts/_doc/d", None, found(0, {})), ("PUT /carts-1/_doc/e", {}, written(1, id="e", _index="carts-1")))
        self.assertEqual(self.ended(judge), ["0 index e k=2", "0 201 created 1/1"])
        self.assertEqual(self.names(), {"d": "it was written before the index was inspected"})


    def test_an_index_that_is_found_while_others_write(self):
        shape = IndexShape("carts-1", Names(["carts", "carts-1", "shop"], []), 1, 1, True)
        judge = self.judge(shape=None)
        others = [("PUT", b"/shop/_doc/d", True), ("POST", b"/_bulk", True), ("PUT", b"/x/_doc/d", False), ("GET", b"/shop", False)]
        for method, target, waits in others:
            judge.found(shape, [Passed(method, target, AS_SENT, judge.route(method, target))])
            self.assertEqual(judge.shape is None, waits)


class Answers:
    """A connection that gives the answers of an index of the stand-in, and some that are given."""

    def __init__(self, asked, given=()):
        self.index, self.given = Index("carts", asked), dict(given)

    def open(self, patience):
        pass

    def ask(self, method, path):
        name = path.partition("?")[0]
        index = self.index
        given = {
            "/carts": {"carts": index.described()},
            "/shop": {"carts": index.described()},
            "/carts/_stats": empty_stats(index),
            "/_cluster/state/metadata/carts": {"metadata": {"indices": {"carts": {"routing_num_shards": index.routing_shards}}}},
            **self.given,
        }
        if name == "/carts/_search_shards" and name not in given:
            given[name] = {"shards": [[{"shard": index.shard_number(path.partition("routing=")[2])}]]}
        return ClusterAnswer(200, json.dumps(given[name]).encode()) if name in given else ClusterAnswer(404, b"{}")


class Inspections(JudgeTest):
    """What is asked of an index before it is recorded."""

    def inspect(self, asked, given=(), name="carts"):
        return Inspector(Answers(asked, given)).look(name)

    def test_the_names_and_shards_of_an_index(self):
        shape = self.inspect({"settings": {"number_of_shards": 3}, "aliases": {"shop": {"index_routing": "x"}, "old": {}}})
        self.assertEqual((shape.names.all, shape.names.routed, shape.shards, shape.is_empty), ({"carts", "shop", "old"}, {"shop"}, 3, True))
        # (the name of a stream of data is none of the aliases)
        shape = self.inspect({}, name="shop")
        self.assertEqual((shape.name, shape.names.all), ("carts", {"carts", "shop"}))
        self.assertIsNone(self.inspect({}, name="other"))

    def test_indexes_that_can_not_be_judged(self):
        refused = [({"settings": {"index": {"default_pipeline": "p"}}}, (), "default_pipeline")]
        refused += [({"settings": {"final_pipeline": "p"}}, (), "final_pipeline")]
        refused += [({"mappings": {"_source": {"enabled": False}}}, (), "complete sources"), ({"settings": {"knn": "true"}}, (), "complete sources")]
        refused += [({"aliases": {"shop": {"filter": {"x": 1}}}}, (), "filter"), ({}, [("/carts", {"a": {}, "b": {}})], "names 2 indexes")]
        wrong = [("/carts/_search_shards", {"shards": [[{"shard": 7}]]})]
        refused += [({"settings": {"number_of_shards": 2}}, wrong, "aren't computed"), ({}, [("/carts", {"carts": {}})], "isn't that of OpenSearch")]
        for asked, given, why in refused:
            self.assertRaisesRegex(ClusterError, why, self.inspect, asked, given)

    def test_an_index_that_was_written_to(self):
        stats = {"indices": {"carts": {"shards": {"0": [{"seq_no": {"max_seq_no": 0}}]}}}}
        self.assertFalse(self.inspect({}, [("/carts/_stats", stats)]).is_empty)


if __name__ == "__main__":
    sys.exit(run_tests())

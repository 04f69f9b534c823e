#!/usr/bin/env python3
"""Tests which requests of others end a recording: none that can't change documents of the index, and each that may, unseen.

    python3 tests/recorded_strangers.py [PROGRAM]

PROGRAM is the built casbench; if it isn't named, the one that ./casbench would run. The last line says how many tests
passed and failed.
"""

import json
import os
import re
import sys
import threading

from attacks import AttackTest, Cluster, Watched, answer_of, found, request_of
from program import TOP
from program_test import run_tests
from recorded_first_writes import Made
from recorded_requests import JudgeTest
from recordings import judged

# One of how many requests that end a recording is sent to a proxy.
SHARE = 6

# The names of the recorded index: carts, and its alias shop.
ALIASES = {"shop": {}}

SQL, PPL = "/_plugins/_sql", "/_plugins/_ppl"
ALIAS = {"add": {"index": "carts2", "alias": "new", "filter": {"term": {"at": "carts"}}}}
TRANSFORM = {"transform": {"enabled": True, "source_index": "carts", "target_index": "by-day", "page_size": 10}}
ROLLUP = {"rollup": {"source_index": "carts", "target_index": "by-hour"}}
WEBHOOK = {"destination": {"type": "custom_webhook", "custom_webhook": {"path": "/carts/_doc", "host": "node-1"}}}
EMPTY_PRIMARY = {"allocate_empty_primary": {"index": "carts", "shard": "0", "node": "n", "accept_data_loss": True}}

# Requests that can't change documents of the index. Those without a body have none.
PASSED = [
    ("POST", SQL, {"query": "SELECT * FROM carts WHERE a = 'delete'"}),
    ("POST", SQL, {"query": "/* all */ (select 1)"}),
    ("POST", SQL, {"query": "SHOW TABLES LIKE %"}),
    ("POST", SQL, {"query": "-- /*\nselect/**/1 # ; delete from carts"}),
    ("POST", SQL, {"query": "DELETE\n\tFROM `other` "}),
    ("POST", SQL, {"query": "DELETE FROM other WHERE a = 1;"}),
    ("POST", SQL, {"cursor": "d:eyJhIjp7fX0="}),
    ("POST", SQL + "/_explain", {"query": "DELETE FROM carts"}),
    ("POST", SQL + "/close", {"cursor": "x"}),
    ("POST", "/_opendistro/_sql?format=csv", {"query": "SELECT 1"}),
    ("POST", PPL, {"query": "source=carts | fields a"}),
    ("POST", "/_opendistro/_ppl", {"query": "source=carts"}),
    ("PUT", "/_plugins/_query/settings", {"transient": {"plugins.sql.delete.enabled": "false"}}),
    ("POST", "/_plugins/_asynchronous_search?index=carts&wait_for_completion_timeout=1ms", {"query": {"match_all": {}}}),
    ("DELETE", "/_plugins/_asynchronous_search/FjFyeU", None),
    ("POST", "/_opendistro/_asynchronous_search", {}),
    ("POST", "/_plugins/_alerting/monitors/_search", {"query": {"term": {"monitor.inputs.search.indices": "carts"}}}),
    ("POST", "/_plugins/_alerting/monitors/x/_execute?dryrun=true", {"monitor": {"inputs": [{"search": {"indices": ["carts"]}}]}}),
    ("POST", "/_plugins/_alerting/monitors/x/_acknowledge/alerts", {"alerts": ["y"]}),
    ("POST", "/_plugins/_alerting/monitors", {"name": "errors", "inputs": [{"search": {"indices": ["logs"]}}]}),
    ("POST", "/_plugins/_alerting/monitors", {"name": "workshop", "inputs": [{"search": {"indices": ["carts2", "my-carts"]}}], "cron": "0 * * * *"}),
    ("DELETE", "/_plugins/_alerting/monitors/x", None),
    ("POST", "/_opendistro/_alerting/destinations/email_accounts/_search", {}),
    ("POST", "/_plugins/_ism/explain/carts", {"query": {}}),
    ("POST", "/_plugins/_ism/add/logs*", {"policy_id": "p"}),
    ("PUT", "/_plugins/_ism/policies/p", {"policy": {"ism_template": [{"index_patterns": ["logs*"]}]}}),
    ("POST", "/_opendistro/_ism/retry/logs-1", None),
    ("PUT", "/_plugins/_transform/t", TRANSFORM),
    ("POST", "/_plugins/_transform/_preview", TRANSFORM),
    ("POST", "/_plugins/_transform/t/_stop", None),
    ("PUT", "/_plugins/_rollup/jobs/r", ROLLUP),
    ("POST", "/_plugins/_knn/models/m/_train", {"training_index": "carts"}),
    ("POST", "/_plugins/_ml/models/_search", {}),
    ("POST", "/_plugins/_anomaly_detection/detectors", {"indices": ["carts"], "result_index": "opensearch-ad-plugin-result-x"}),
    ("POST", "/_plugins/_security/api/x", {}),
    ("POST", "/_bulk?batch_size=10&unheard=of", [{"index": {"_index": "logs"}}, {"a": 1}]),
    ("POST", "/logs/_bulk?batch_size=10&pipeline=p", [{"create": {"_id": None}}, {"a": 1}]),
    ("POST", "/_aliases", {"actions": [ALIAS, {"remove": {"index": "logs", "alias": "*"}}, {"remove_index": {"index": "carts2"}}]}),
    ("POST", "/_aliases", {"actions": [{"add": {"indices": ["logs-1", "cart"], "aliases": ["carts-read"]}}]}),
    ("PUT", "/carts2/_alias/shops", {"filter": {"term": {"shop": "carts"}}}),
    ("POST", "/_search_shards", None),
    ("DELETE", "/carts2/_alias/shop", None),
    ("PUT", "/_alias/new", {"index": "carts2"}),
    ("POST", "/_reindex?wait_for_completion=false", {"source": {"index": "carts"}, "dest": {"index": "carts-copy", "op_type": "create"}}),
    ("POST", "/_reindex/x:1/_rethrottle?requests_per_second=1", None),
    ("POST", "/_snapshot/r/s/_restore", {"indices": "logs-*,other", "include_aliases": False}),
    ("POST", "/_snapshot/r/s/_restore", {"rename_pattern": "(.+)", "rename_replacement": "restored-$1", "include_aliases": False}),
    ("PUT", "/_snapshot/r/s", {"indices": "carts"}),
    ("POST", "/carts/_clone/copy", {"settings": {"index.number_of_replicas": 0}}),
    ("POST", "/logs/_rollover", {"conditions": {"max_docs": 1}}),
    ("PUT", "/_settings", {"index.refresh_interval": "1s"}),
    ("PUT", "/carts/_settings", {"index.search.default_pipeline": "p"}),
    ("PUT", "/c*/_settings", {"index": {"search": {"default_pipeline": "p"}}}),
    ("POST", "/_cluster/reroute", {"commands": [{"cancel": {"index": "carts", "shard": 0, "node": "n", "allow_primary": True}}]}),
    ("PUT", "/_cluster/settings", {"transient": {"cluster.routing.allocation.enable": "all"}}),
    ("POST", "/%3Clogs-%7Bnow%2Fd%7D%3E/_doc", {"a": 1}),
    ("POST", "/%3Ccarts-%7Bnow%2Fd%7Byyyy.MM%7D%7D%3E/_update_by_query", None),
    ("PUT", "/_data_stream/logs", None),
    ("PUT", "/_ingest/pipeline/p", {"processors": []}),
    ("PUT", "/_search/pipeline/p", {}),
    *[("POST", f"/{it}", {"query": {}}) for it in ("_msearch", "carts/_count", "_validate/query", "_field_caps", "carts/_analyze", "_rank_eval")],
    *[("DELETE", f"/_search/{it}", {}) for it in ("scroll/_all", "point_in_time/_all")],
    *[("POST", f"/carts/{it}", None) for it in ("_refresh", "_flush", "_forcemerge", "_cache/clear", "_open", "_close", "_block/write")],
    *[("POST", f"/{it}/x", {}) for it in ("_index_template", "_scripts", "_cluster/voting_config_exclusions", "_nodes", "_tasks", "_wlm/workload_group")],
    *[(method, "/other/_doc/d", {"a": "carts"}) for method in ("PUT", "DELETE")],
    ("PUT", "/carts/_mapping", {"properties": {"a": {"type": "long"}}}),
    *[("POST", f"/logs/{it}/logs-2", None) for it in ("_split", "_shrink", "_rollover")],
    *[("POST", f"/_plugins/{it}/x", {"query": "carts"}) for it in ("_neural", "_observability/object", "_reports", "_security_analytics/detectors")],
    *[("POST", f"/_plugins/{it}/x", {}) for it in ("_performanceanalyzer", "_job_scheduler", "_sm/policies", "_im/lron", "geospatial/ip2geo/datasource")],
    ("POST", "/_plugins/_refresh_search_analyzers/carts", None),
    ("POST", "/_plugins/_ml/_batch_ingestion", {"index_name": "logs", "field_map": {}}),
    ("PUT", "/_plugins/geospatial/geojson/_upload", {"index": "places", "data": []}),
    ("POST", "/_plugins/_notifications/configs", {"config": {"name": "mail"}}),
    *[("POST", f"/_plugins/_ml/{it}", {"a": "carts"}) for it in ("_predict/a/b", "_train/a", "_execute/a", "connectors/_create", "agents/x", "memory/", "tasks/x")],
    ("PUT", "/_plugins/_replication/logs/_start", {"leader_index": "carts"}),
    ("POST", "/_plugins/_flow_framework/workflow/_search", {}),
]

# Requests that may change documents of the index, or to what its names lead, without a line that says so.
ENDING = [
    ("POST", SQL, {"query": "DELETE FROM carts WHERE a = 1"}),
    ("POST", SQL, {"query": "-- all\n delete from `shop`"}),
    ("POST", SQL, {"query": "DELETE FROM c*"}),
    ("POST", SQL, {"query": "delete/**/from carts"}),
    ("POST", SQL, {"query": "DELETE FROM other, carts"}),
    ("POST", SQL, {"query": "SELECT 1; DELETE FROM other"}),
    ("POST", SQL, {"query": "MERGE INTO other"}),
    ("POST", "/_opendistro/_sql", b"{'query': 'DELETE FROM carts'}"),
    ("POST", "/_plugins/_alerting/destinations", WEBHOOK),
    ("POST", "/_plugins/_alerting/destinations", {"custom_webhook": {"url": "http://node-1:9200/ca*/_delete_by_query"}}),
    ("PUT", "/_plugins/_notifications/configs/x", {"config": {"webhook": {"url": "http://node-1:9200/carts/_doc"}}}),
    ("POST", "/_plugins/_ism/add/carts", {"policy_id": "p"}),
    ("POST", "/_plugins/_ism/change_policy/c*", {"policy_id": "p"}),
    ("POST", "/_opendistro/_ism/retry/shop", None),
    ("PUT", "/_plugins/_ism/policies/p", {"policy": {"states": [{"actions": [{"alias": {"actions": [{"add": {"aliases": ["shop"]}}]}}]}]}}),
    ("PUT", "/_plugins/_transform/t", {"transform": {"source_index": "logs", "target_index": "carts"}}),
    ("POST", "/_plugins/_transform/t/_start", None),
    ("PUT", "/_plugins/_rollup/jobs/r", {"rollup": {"source_index": "logs", "target_index": "shop"}}),
    ("POST", "/_plugins/_rollup/jobs/r/_start", None),
    ("POST", "/_plugins/geospatial/geojson/_upload", {"index": "carts", "data": []}),
    ("POST", "/_plugins/_ml/_batch_ingestion", {"index_name": "carts"}),
    ("PUT", "/_plugins/_replication/carts/_start", {"leader_alias": "x", "leader_index": "y"}),
    ("POST", "/_plugins/_replication/_autofollow", {"pattern": "c*"}),
    ("POST", "/_plugins/_flow_framework/workflow/w/_provision", None),
    ("POST", "/_plugins/_unheard", {}),
    ("POST", "/_opendistro/_unheard", {}),
    ("POST", "/_bulk?batch_size=10&pipeline=p", [{"index": {"_index": "carts", "_id": "d"}}, {"a": 1}]),
    ("POST", "/_aliases", {"actions": [{"add": {"index": "ca*s", "alias": "x"}}]}),
    ("POST", "/_aliases", {"actions": [{"add": {"index": "logs", "alias": "shop"}}]}),
    ("POST", "/_aliases", {"actions": [{"remove": {"indices": ["logs", "carts"], "alias": "shop"}}]}),
    ("POST", "/_aliases", {"actions": [{"remove": {"alias": "shop"}}]}),
    ("POST", "/_aliases", {"actions": [{"remove_index": {"index": "_all"}}]}),
    ("PUT", "/carts2/_alias/shop", None),
    ("PUT", "/carts2/_alias", {"alias": "shop"}),
    ("PUT", "/_alias/shop", {"index": "carts2"}),
    ("POST", "/_reindex", {"source": {"index": "logs"}, "dest": {"index": "shop"}}),
    ("POST", "/_reindex", {"source": {"index": "logs"}, "dest": {"index": "<cart{now/d}>"}}),
    ("POST", "/_reindex", {"source": {"index": "carts"}, "dest": {"index": "x"}, "script": {"source": "ctx._index = 'carts'"}}),
    ("POST", "/_snapshot/r/s/_restore", None),
    ("POST", "/_snapshot/r/s/_restore", {"indices": "logs,carts", "include_aliases": False}),
    ("POST", "/_snapshot/r/s/_restore", {"indices": "logs"}),
    ("POST", "/_snapshot/r/s/_restore", {"indices": "logs", "rename_pattern": "lo(.+)", "rename_replacement": "car$1", "include_aliases": False}),
    ("POST", "/logs/_clone/carts", None),
    ("POST", "/carts/_split/copy", {"aliases": {"shop": {}}}),
    ("POST", "/logs/_rollover", {"aliases": {"shop": {}}}),
    ("POST", "/logs/_rollover/carts", None),
    ("POST", "/carts/_rollover", None),
    ("PUT", "/_settings", {"index": {"default_pipeline": "p"}}),
    ("PUT", "/c*/_settings", {"index.final_pipeline": "p"}),
    ("POST", "/_cluster/reroute", {"commands": [EMPTY_PRIMARY]}),
    ("DELETE", "/_data_stream/c*", None),
    ("POST", "/_dangling/xyz?accept_data_loss=true", None),
    ("POST", "/%3Ccart%7Bnow%2Fd%7D%3E/_doc", {"a": 1}),
]


def body_of(body):
    """The bytes of a body; a list is the lines of a bulk request."""
    if isinstance(body, list):
        return b"".join(json.dumps(it).encode() + b"\n" for it in body)
    return body if body is None or isinstance(body, bytes) else json.dumps(body).encode()


class Judged(JudgeTest):
    """The same without any connection, for each request."""

    def is_ended_by(self, method, target, body):
        """Whether a request ends the recording."""
        judge = self.judge(names=["carts", *ALIASES])
        get = self.ask(judge, "GET", "/carts/_doc/d")
        judge.requests.record(judge.route(method, target.encode()), method, body_of(body) or b"")
        has_ended = judge.has_ended
        self.answer(judge, get, (404, {"_index": "carts", "_id": "d", "found": False}))
        self.assertEqual(self.ended(judge)[1:], ["0 lost" if has_ended else "0 404"])
        self.tidy()
        return has_ended

    def test_the_table_of_the_page(self):
        page = (TOP / "docs" / "RECORDING.md").read_text(encoding="utf-8")
        section = page.partition("### What passes, and what ends the recording\n")[2].partition("\n### ")[0]
        rows = [[cell.strip() for cell in it.split("|")] for it in re.findall(r"^\|(.*)\|$", section, re.MULTILINE)[2:]]
        self.assertGreater(len(rows), 15)
        for request, passes, ends in rows:
            words = [it.replace("_plugins/", "/") for it in re.findall(r"`([a-z_/]+)`", request)]
            # each is among the examples, and some are among those of each kind
            for word in words if passes else ():
                self.assertTrue(any(word in target for _, target, _ in PASSED), word)
            if ends and words:
                self.assertTrue(any(word in target for word in words for _, target, _ in ENDING), words)

    def test_each_request(self):
        for rows, wanted in ((PASSED, False), (ENDING, True)):
            for row in rows:
                with self.subTest(row=row):
                    self.assertIs(self.is_ended_by(*row), wanted)


class Strangers(AttackTest):
    """Requests beside those of the application that is recorded."""

    def test_what_can_not_change_the_index_passes(self):
        with Cluster(lambda *_: answer_of(200, found(0, {})), aliases=ALIASES) as cluster, self.proxy(cluster.url) as proxy:
            with self.client(proxy) as client:
                for method, target, body in PASSED:
                    with self.subTest(f"{method} {target} {body}"):
                        client.ask(request_of(method, target, body_of(body)))
                        client.ask(request_of("GET", "/carts/_doc/d"))
                        self.assertEqual(len(self.lines()), 2)
                    self.begin_again()
            self.assertIn("not judged: 0 documents, 0 calls", proxy.ended())

    def begin_again(self):
        """Counts lines from here on."""
        self.before = self.count()

    before = 0

    def count(self):
        """How many lines the history has."""
        return len(super().lines())

    def lines(self):
        """The lines since the last request."""
        return super().lines()[self.before :]

    def ended_by(self, method, target, body):
        """Checks that a request which may change the index ends the recording before it is passed on, and accuses nobody."""
        file = os.path.join(self.folder, f"{abs(hash((method, target, str(body))))}.ndjson")
        is_changed = []

        def answer(head, _):
            if head.startswith(b"GET"):
                return answer_of(404, {"_index": "carts", "_id": "d", "found": False}) if is_changed else answer_of(200, found(0, {"a": 1}))
            if head.startswith(b"PUT /carts/_doc/d "):
                return answer_of(201, {"_index": "carts", "_id": "d", "result": "created", "_seq_no": 0, "_primary_term": 1})
            is_changed.append(True)
            return answer_of(200, {})

        with Cluster(answer, aliases=ALIASES) as cluster, self.recorder(cluster.url, file) as proxy:
            with self.client(proxy) as client:
                client.ask(request_of("PUT", "/carts/_doc/d", b'{"a":1}'))
                self.assertEqual(client.ask(request_of(method, target, body_of(body)))[0], 200)
                self.assertEqual(client.ask(request_of("GET", "/carts/_doc/d"))[0], 404)
            said = proxy.ended()
        self.assertIn("the recording ended early", said)
        self.assertEqual(judged(self.program, file), "yes docs=1 calls=1 left_out=0")

    def test_what_may_change_it_ends_the_recording(self):
        rows = [(f"{method} {target} {body}", method, target, body) for method, target, body in ENDING[::SHARE]]
        self.run_subtests(self.ended_by, rows, workers=3)

    def test_a_bulk_request_with_a_parameter_that_is_not_known(self):
        lines = [{"index": {"_index": "carts", "_id": "d"}}, {"a": 1}, {"index": {"_index": "logs", "_id": "e"}}, {"a": 1}]
        with Cluster(lambda *_: answer_of(404, {"_index": "carts", "_id": "e", "found": False})) as cluster, self.proxy(cluster.url) as proxy:
            with self.client(proxy) as client:
                client.ask(request_of("POST", "/_bulk?unheard=of", body_of(lines)))
                client.ask(request_of("GET", "/carts/_doc/e"))
            said = proxy.ended()
        self.assertIn("  d: it was written by a bulk request, with unheard", said)
        self.assertNotIn("ended early", said)
        self.assertEqual(self.check(), "yes docs=1 calls=1 left_out=0")

    def test_a_bulk_request_for_others_that_is_open_while_the_index_is_made(self):
        is_over = threading.Event()

        def answer(head, _):
            if b"/_bulk" in head:
                is_over.wait(30)
                return answer_of(200, {"items": []})
            if head.startswith(b"GET"):
                return answer_of(200, found(0, {"a": 1}))
            return answer_of(201, cluster.performed("d"))

        with Made(answer) as cluster, self.proxy(cluster.url) as proxy:
            with self.client(proxy) as other, self.client(proxy) as client:
                other.send(request_of("POST", "/_bulk", body_of([{"index": {"_index": "logs"}}, {"a": 1}])))
                cluster.wait_for(1)
                for method, body in (("PUT", b'{"a":1}'), ("GET", None)):
                    self.assertIn(client.ask(request_of(method, "/carts/_doc/d", body))[0], (200, 201))
                is_over.set()
                self.assertEqual(other.heard()[0], 200)
            proxy.ended()
        self.assertEqual(self.check(), "yes docs=1 calls=2 left_out=0")

    def test_statements_that_take_long_to_read_hold_up_nobody(self):
        with Cluster(lambda *_: answer_of(200, {})) as cluster, self.proxy(cluster.url) as proxy, self.client(proxy) as client:
            with Watched(proxy.port, request_of("PUT", "/other/_doc/1", b"{}")) as watched:
                harmless = ["/* " * 130_000, " " * 400_000, "#\n" * 100_000]
                others = ["(" * 400_000, ";" * 400_000, "; " * 200_000, "`" * 400_000]
                statements = [f"select 1 {it}" for it in harmless + others] + [f"delete from other {it}" for it in harmless]
                for it in statements:
                    client.ask(request_of("POST", SQL, body_of({"query": it})))
                client.ask(request_of("GET", "/carts/_doc/d"))
                self.assertEqual(len(self.lines()), 2)
                client.ask(request_of("POST", SQL, body_of({"query": "delete from x" + " " * 400_000 + "y"})))
            self.assertIn("ended early", proxy.ended())
        self.assertLess(watched.longest, 10)

    def test_a_bulk_request_in_batches_is_recorded(self):
        told = {"_index": "carts", "_id": "d", "status": 201, "result": "created", "_seq_no": 0, "_primary_term": 1}
        with Cluster(lambda *_: answer_of(200, {"items": [{"index": told}]})) as cluster, self.proxy(cluster.url) as proxy:
            with self.client(proxy) as client:
                client.ask(request_of("POST", "/carts/_bulk?batch_size=100", body_of([{"index": {"_id": "d"}}, {"a": 1}])))
            proxy.ended()
        self.assertEqual(self.check(), "yes docs=1 calls=1 left_out=0")


if __name__ == "__main__":
    sys.exit(run_tests())

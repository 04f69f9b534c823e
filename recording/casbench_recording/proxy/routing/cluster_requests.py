"""Tables of the writing requests that don't begin with the name of an index: those of the cluster, and those
of plugins.

Each known request has a row with the check of its body. Reads of plugins have rows too, since many of them
use POST. A request without a row may write anything.
"""

from typing import TYPE_CHECKING, List, NamedTuple, Optional, Sequence, Tuple

from .body_checks import BodyCheck

if TYPE_CHECKING:
    from casbench_recording.index_names import Names

PLUGIN_ROOTS = ("_plugins", "_opendistro")
"""The first parts of plugin paths: OpenSearch's, and Open Distro's, which it accepts too."""

INDEX = "<index>"
"""In a row, a part that names indexes: the request changes only those."""

REST = "**"
"""At the end of a row, any number of parts."""


class Row(NamedTuple):
    """A path pattern by its parts, in which `*` is any part, and how the body is checked."""

    parts: Tuple[str, ...]
    check: BodyCheck


def rows_of(check: BodyCheck, *paths: str) -> List[Row]:
    """Returns a row for each of the paths."""
    return [Row(tuple(it.split("/")), check) for it in paths]


CLUSTER_ROWS = [
    *rows_of(BodyCheck.REROUTE, "_cluster/reroute"),
    *rows_of(BodyCheck.SETTINGS, "_settings"),
    *rows_of(BodyCheck.ALIASES, "_aliases"),
    *rows_of(BodyCheck.NAME, "_alias", f"_alias/{INDEX}", f"_aliases/{INDEX}"),
    *rows_of(
        BodyCheck.NOTHING,
        "_reindex/*/_rethrottle",
        "_update_by_query/*/_rethrottle",
        "_delete_by_query/*/_rethrottle",
    ),
    *rows_of(BodyCheck.REINDEX, "_reindex"),
    *rows_of(BodyCheck.RESTORE, "_snapshot/*/*/_restore", "_remotestore/_restore"),
    *rows_of(
        BodyCheck.NOTHING,
        "_snapshot/*",
        "_snapshot/*/*",
        "_snapshot/*/_cleanup",
        "_snapshot/*/_verify",
        "_snapshot/*/*/_clone/*",
    ),
    *rows_of(BodyCheck.NOTHING, f"_data_stream/{INDEX}"),
    *rows_of(
        BodyCheck.NOTHING,
        "_search/**",
        "_msearch/**",
        "_count",
        "_refresh",
        "_flush/**",
        "_forcemerge",
        "_cache/**",
        "_validate/**",
    ),
    *rows_of(
        BodyCheck.NOTHING,
        "_field_caps",
        "_analyze",
        "_mtermvectors",
        "_rank_eval",
        "_search_shards",
        "_render/**",
        "_pit/**",
        "_filecache/**",
    ),
    *rows_of(
        BodyCheck.NOTHING,
        "_scripts/**",
        "_ingest/**",
        "_template/**",
        "_index_template/**",
        "_component_template/**",
    ),
    *rows_of(
        BodyCheck.NOTHING, "_cluster/**", "_nodes/**", "_tasks/**", "_cat/**", "_security/**", "_wlm/**"
    ),
]
"""Requests of the cluster."""

PLUGIN_ROWS = [
    *rows_of(BodyCheck.STATEMENT, "_sql"),
    *rows_of(
        BodyCheck.NOTHING,
        "_sql/_explain",
        "_sql/close",
        "_sql/stats",
        "_sql/settings",
        "_ppl/**",
        "_query/**",
        "_asynchronous_search/**",
    ),
    *rows_of(
        BodyCheck.NOTHING, "_alerting/*/_search", "_alerting/*/*/_search", "_alerting/*/*/_acknowledge/alerts"
    ),
    *rows_of(BodyCheck.MENTION, "_alerting/**", "_notifications/**"),
    *rows_of(
        BodyCheck.NOTHING,
        "_ism/explain/**",
        f"_ism/add/{INDEX}",
        f"_ism/remove/{INDEX}",
        f"_ism/change_policy/{INDEX}",
        f"_ism/retry/{INDEX}",
    ),
    *rows_of(BodyCheck.NAME, "_ism/policies/*"),
    *rows_of(BodyCheck.NOTHING, "_rollup/jobs/*/_stop", "_transform/*/_stop", "_transform/_preview"),
    *rows_of(
        BodyCheck.TARGET,
        "_rollup/jobs/*",
        "_transform/*",
        "_anomaly_detection/**",
        "geospatial/geojson/_upload",
        "_ml/_batch_ingestion",
    ),
    *rows_of(BodyCheck.NAME, "_replication/_autofollow"),
    *rows_of(BodyCheck.NOTHING, f"_replication/{INDEX}/*"),
    *rows_of(
        BodyCheck.NOTHING,
        "_ml/_predict/**",
        "_ml/_train/**",
        "_ml/_train_predict/**",
        "_ml/_execute/**",
        "_ml/models/**",
        "_ml/model_groups/**",
    ),
    *rows_of(
        BodyCheck.NOTHING,
        "_ml/connectors/**",
        "_ml/agents/**",
        "_ml/memory/**",
        "_ml/tasks/**",
        "_ml/controllers/**",
        "_ml/profile/**",
    ),
    *rows_of(
        BodyCheck.NOTHING,
        "_knn/**",
        "_neural/**",
        "_security/**",
        "_security_analytics/**",
        "_observability/**",
        "_reports/**",
    ),
    *rows_of(
        BodyCheck.NOTHING,
        "_performanceanalyzer/**",
        "_job_scheduler/**",
        "_sm/**",
        "_im/**",
        "_refresh_search_analyzers/**",
    ),
    *rows_of(
        BodyCheck.NOTHING,
        "geospatial/ip2geo/**",
        "_flow_framework/workflow/_search",
        "_flow_framework/workflow/state/_search",
    ),
]
"""Requests of the plugins of OpenSearch 2.x, after the root of their paths. A rollup or a transform that is
started writes unseen, so it has no row."""


def body_check_of(parts: Sequence[str], names: "Names") -> Optional[BodyCheck]:
    """Returns how a body is checked; None if the request may write anything, or names indexes that may
    include ours."""
    rows, parts = (PLUGIN_ROWS, parts[1:]) if parts[0] in PLUGIN_ROOTS else (CLUSTER_ROWS, parts)
    row = next((it for it in rows if fits(it.parts, parts)), None)
    return None if row is None or is_ours(row.parts, parts, names) else row.check


def fits(row: Sequence[str], parts: Sequence[str]) -> bool:
    """Returns whether a path matches a row."""
    if row[-1] == REST:
        row = row[:-1]
        parts = parts[: len(row)]
    return len(row) == len(parts) and all(it in ("*", INDEX, part) for it, part in zip(row, parts))


def is_ours(row: Sequence[str], parts: Sequence[str], names: "Names") -> bool:
    """Returns whether the part of a path that names indexes may name our index."""
    return any(it == INDEX and names.may_be_among(part) for it, part in zip(row, parts))

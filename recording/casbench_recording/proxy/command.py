"""A proxy that records the requests of an application's clients in a history text for casbench.

    python3 -m casbench_recording.proxy --cluster http://127.0.0.1:9200 --index carts carts.ndjson
    casbench check carts.ndjson

Clients connect to it without encryption, and have to have sniffing turned off. It passes on each request and
each answer unchanged, except for an offer of another protocol (`Upgrade`, `HTTP2-Settings`) and, with
--set-host, the host. It records the calls on documents of the index that it can interpret exactly, and never
guesses: docs/RECORDING.md describes what happens to the others. Ctrl-C ends it.

Clients send their own credentials. Those for the proxy's own requests, before it listens, come from the
environment: see `casbench_recording.record`.
"""

import argparse
import contextlib
import gc
import os
import resource
import signal
import sys
from typing import NoReturn, Optional, Sequence, Tuple

from casbench_recording.cluster import (
    START_PATIENCE,
    ClusterAccess,
    ClusterError,
    Connection,
    Url,
    add_certificate_options,
    certificates_of,
    credentials_of,
    name_of,
    number_from,
    port_of,
    trust_of,
    url_of,
)
from casbench_recording.console import (
    ENDED_EARLY,
    counted,
    open_standard_files,
    report,
    report_last,
    report_line,
    usage_name,
)
from casbench_recording.disturb import Disturber, add_disturb_option
from casbench_recording.history.by_shard import Parts
from casbench_recording.history.continuing import Continuing, add_part_options
from casbench_recording.history.readings import add_reading_options, reading_of
from casbench_recording.history.writing import Histories, History, HistoryError
from casbench_recording.index_inspection import IndexShape, Inspector
from casbench_recording.progress import Progress
from casbench_recording.watch.process import (
    CAN_NOT_CHECK,
    WatchProcess,
    add_watch_options,
    try_watch,
    watch_options,
)
from casbench_recording.watch.snapshots import CheckError

from .http.connecting import Addresses
from .http.tls import NO_RENEGOTIATION
from .recording.judge import Judge
from .routing.paths import Paths
from .server import MOST_CLIENTS, SPARE, ProxiedNode, Proxy
from .state.documents import DocumentState
from .state.recent_documents import MOST_KEPT
from .state.unjudged_list import UnjudgedList

SECONDS_TO_ASK = 30.0
"""The timeout in seconds of a read of the answers to the proxy's own requests."""


# The command line


def listened(text: str) -> Tuple[str, int]:
    """Parses --listen."""
    host, _, port = text.rpartition(":")
    if not host or not port.isdecimal() or int(port) > 65_535:
        raise argparse.ArgumentTypeError("it isn't an address such as 127.0.0.1:9201")
    return host.strip("[]"), int(port)


def node_of(text: str) -> Tuple[Tuple[str, int], Url]:
    """Parses --node."""
    address, is_one, url = text.partition("=")
    if not is_one:
        raise argparse.ArgumentTypeError("it isn't like 127.0.0.1:9202=http://node-2:9200")
    return listened(address), url_of(url)


def parse_arguments(arguments: Sequence[str]) -> argparse.Namespace:
    """Parses the arguments."""
    parser = argparse.ArgumentParser(
        prog=usage_name("proxy"),
        description="A proxy that records the requests of clients in a history for casbench.",
    )
    add = parser.add_argument
    add(
        "--listen",
        type=listened,
        default=("127.0.0.1", 9201),
        help="the address to listen on for clients (127.0.0.1:9201); port 0 chooses a free port",
    )
    add("--cluster", type=url_of, required=True, help="the URL of the cluster, such as https://host:9200")
    node = "another node, and the address to listen on for its clients: 127.0.0.1:9202=http://node-2:9200"
    add("--node", type=node_of, action="append", default=[], metavar="HOST:PORT=URL", help=node)
    add("--index", required=True, help="the index to record, by its name or an alias")
    add(
        "--documents",
        type=lambda text: frozenset(text.split(",")),
        help="record only these documents, which must not exist yet (a comma-separated list of ids)",
    )
    add(
        "--created-only",
        action="store_true",
        help="for an index that isn't empty: judge only documents that are created during the recording",
    )
    settle = "for an index that isn't empty: seconds to wait before recording starts (60)"
    add("--settle", type=number_from(0, float), metavar="S", default=60.0, help=settle)
    add(
        "--by-shard",
        action="store_true",
        help="write one file for each shard; OUT is a directory, which is created",
    )
    add_part_options(add)
    most = f"with --parts: number of most recently used documents to keep ({MOST_KEPT})"
    add("--most-documents", type=number_from(2), metavar="N", default=MOST_KEPT, help=most)
    add_reading_options(add)
    add_watch_options(add)
    add_disturb_option(add)
    add(
        "--stop-when-ended",
        action="store_true",
        help="exit if the recording ends early, instead of passing on requests without recording",
    )
    add_certificate_options(add)
    add(
        "--set-host",
        action="store_true",
        help="set the Host header of forwarded requests to the host of the node's URL",
    )
    add(
        "--patience",
        type=number_from(0, float),
        default=START_PATIENCE,
        help="seconds to wait for the cluster at the start (5)",
    )
    add(
        "--paths-unchanged",
        action="store_true",
        help="no server between the proxy and the cluster normalises paths",
    )
    add(
        "--idle",
        type=number_from(1, float),
        default=300.0,
        help="seconds after which an idle connection is closed (300)",
    )
    add("file", metavar="OUT", help="the file to write the history to; must not exist")
    setting = parser.parse_args(arguments)
    setting.certificates = certificates_of(
        parser, setting, (setting.cluster, *(url for _, url in setting.node))
    )
    if setting.by_shard and setting.part is not None:
        parser.error("--by-shard and --parts exclude each other: a part has the calls of all shards")
    setting.reading = reading_of(setting)
    return setting


def begin(setting: argparse.Namespace, inspector: Inspector) -> Tuple[Optional[IndexShape], DocumentState]:
    """Inspects the index; returns its description, and the state of documents that are seen for the first
    time. Refuses an index that isn't empty, unless an option allows it."""
    inspector.connection.open(setting.patience)
    shape = inspector.inspect(setting.index)
    if shape is None:
        inspector.check_rights(setting.index)
    if shape is None or shape.is_empty:
        return shape, DocumentState.JUDGED
    for document in sorted(setting.documents or ()):
        if inspector.has(shape, document):
            raise ClusterError(f"the document {document} exists already: a history starts without it")
    if setting.documents is None and not setting.created_only:
        ways = (
            "--documents judges new documents that you name, --created-only those that are created meanwhile"
        )
        raise ClusterError(f"the index {setting.index} isn't empty, and its documents are unknown: {ways}")
    return shape, DocumentState.UNSURE if setting.created_only or setting.settle else DocumentState.JUDGED


def served_node(setting: argparse.Namespace, listen: Tuple[str, int], url: Url) -> ProxiedNode:
    """Returns a node of the cluster, with the address to listen on for its clients."""
    cluster = ClusterAccess(
        url, SECONDS_TO_ASK, credentials_of(os.environ), trust_of(url, setting.certificates)
    )
    if cluster.trust is not None:
        cluster.trust.options |= NO_RENEGOTIATION
    sent_host = url.netloc.encode("idna") if setting.set_host else b""
    addresses = Addresses(str(url.hostname), port_of(url))
    return ProxiedNode(
        *listen, cluster, addresses, name_of(url), Paths(url.path, setting.paths_unchanged), sent_host
    )


def proxy_of(setting: argparse.Namespace) -> Proxy:
    """Inspects the cluster, creates the history, and returns the proxy for the arguments."""
    nodes = [served_node(setting, *it) for it in ((setting.listen, setting.cluster), *setting.node)]
    inspector = Inspector(Connection(nodes[0].cluster))
    shape, first = begin(setting, inspector)
    unjudged = UnjudgedList(setting.file)
    raise_limit()
    judge = Judge(
        shape, setting.index, history_of(setting), unjudged, first, setting.documents, setting.most_documents
    )
    return Proxy(setting, nodes, inspector, judge)


def history_of(setting: argparse.Namespace) -> Histories:
    """Creates the file of the history, or the directory."""
    if setting.part is not None:
        return Continuing(setting.file, setting.part, setting.reading)
    return (Parts if setting.by_shard else History)(setting.file, setting.reading.most_events)


def counts_of(judge: Judge) -> Tuple[int, int]:
    """Returns how many calls were recorded, and how many of them are lost."""
    histories = judge.history.histories
    return sum(it.calls for it in histories), sum(it.lost for it in histories)


def remark_of(judge: Judge) -> str:
    """Returns the remark in the line of progress on a recording that ended early."""
    return f"the recording ended early: {judge.unjudged.ended[0]}" if judge.unjudged.ended else ""


def raise_limit() -> None:
    """Raises the limit of open files, up to what is needed."""
    limit, most = resource.getrlimit(resource.RLIMIT_NOFILE)
    wanted = 2 * MOST_CLIENTS + SPARE
    if limit < wanted:
        with contextlib.suppress(OSError, ValueError):
            resource.setrlimit(
                resource.RLIMIT_NOFILE,
                (wanted if most == resource.RLIM_INFINITY else min(wanted, most), most),
            )


def run(arguments: Sequence[str]) -> int:
    """Records, and returns the exit status: 0 recorded, 1 an error, 3 the recording ended early, 4 it can't
    be checked, 130 interrupted."""
    open_standard_files()
    setting = parse_arguments(arguments)
    gc.set_threshold(100_000, 50, 50)
    try:
        if setting.watch:
            try_watch(setting)
        proxy = proxy_of(setting)
        with contextlib.ExitStack() as stack:
            stack.callback(proxy.judge.close)
            lines = proxy.begin()
            watcher = stack.enter_context(watcher_of(setting, proxy)) if setting.watch else None
            # (ends before the watch, so that its last check has the last line)
            stack.callback(proxy.judge.close)
            stack.enter_context(
                Progress(lambda: counts_of(proxy.judge), remark=lambda: remark_of(proxy.judge))
            )
            proxy.loop.stop_at(signal.SIGINT, signal.SIGTERM)
            proxy.listen(lambda address: report(f"{address}\n", seconds=1.0))
            report_last(lines)
            # (after the addresses, so that failures are reported later; a signal ends what was begun)
            disturber = stack.enter_context(Disturber(proxy.plan(), proxy.judge.note, report_line))
            proxy.serve()
    except (ClusterError, HistoryError, OSError) as fault:
        report_last([f"casbench_recording.proxy: {fault}"])
        return 1
    except CheckError as fault:
        report_last([f"casbench_recording.proxy: {fault}"])
        return CAN_NOT_CHECK
    except KeyboardInterrupt:
        return 130
    report_end(setting, proxy)
    if watcher is not None and watcher.status:
        return watcher.status
    return ENDED_EARLY if proxy.judge.unjudged.ended else int(disturber.has_failed)


def watcher_of(setting: argparse.Namespace, proxy: Proxy) -> WatchProcess:
    """Returns the watch of the recording, which ends the proxy at the first proved fault."""
    proxy.watcher = WatchProcess(
        setting.file, watch_options(setting), lambda: proxy.loop.call(proxy.loop.stop), report_line
    )
    return proxy.watcher


def report_end(setting: argparse.Namespace, proxy: Proxy) -> None:
    """Reports what was recorded, what isn't judged, and which check fits, unless it is the strict one."""
    judge, fits = proxy.judge, proxy.default_reading.command
    calls, _ = counts_of(judge)
    unanswered, documents = sum(it.unanswered for it in judge.history.histories), judge.documents
    if calls:
        judged = f"{counted(documents.judged, 'document')}, {counted(calls, 'call')}"
        left_out = f"{counted(judge.unjudged.count, 'document')}, {counted(documents.left_out, 'call')}"
        recorded = (
            f"recorded {counted(calls, 'call')} in {setting.file}, {unanswered} of them without a reply"
        )
        if not documents.judged:
            recorded = f"{recorded}; all are of documents that are not judged"
        report_last([recorded, f"judged: {judged}; not judged: {left_out}"], 1)
        report_last([f"the check that fits: {fits}"] if fits is not None else [], 1)
    report_last([*([] if calls else ["no call was made, so there is no file"]), *judge.unjudged.report()])


def main() -> NoReturn:
    """Records by the arguments of the process, and ends the process."""
    # (at once: to release half a million calls would take longer than to write them as lost)
    os._exit(run(sys.argv[1:]))

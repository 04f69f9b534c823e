"""Records a load on an OpenSearch cluster in a history text for casbench.

    python3 -m casbench_recording.record http://127.0.0.1:9200 carts carts.ndjson
    casbench check carts.ndjson

The first command creates an empty index of one shard, `carts`, has clients read and write a few documents of
it concurrently, and writes each call and each reply to carts.ndjson. The second reports whether one order of
all calls explains every reply. docs/RECORDING.md describes the arguments, and the rules that a recorder has
to keep. The code that keeps one of them names it.

Credentials come from the environment alone: OPENSEARCH_USER with OPENSEARCH_PASSWORD, or OPENSEARCH_HEADER, a
complete header such as `Authorization: Bearer ...`. It needs Python 3.9 or later, and no other package.
"""

import argparse
import contextlib
import json
import math
import os
import signal
import sys
import time
import urllib.parse
from typing import Any, Dict, List, NamedTuple, Optional, Sequence

from .cluster import (
    START_PATIENCE,
    ClusterAccess,
    ClusterError,
    Connection,
    NoAnswer,
    Url,
    add_certificate_options,
    certificates_of,
    credentials_of,
    number_from,
    trust_of,
    url_of,
)
from .console import ENDED_EARLY, counted
from .default_reading import DefaultReading
from .disturb import Disturber, add_disturb_option
from .history.continuing import Continuing, add_part_options
from .history.readings import OPENSEARCH, Reading, add_reading_options, is_named, reading_of
from .history.writing import CallWriter, History, HistoryError
from .index_inspection import Inspector
from .load.clients import ANY_NUMBER, MIXTURE, WRITES, Habits, Load
from .load.cluster_store import ClusterStore
from .progress import Progress
from .shard_routing import PRIMARY
from .watch.process import CAN_NOT_CHECK, WatchProcess, add_watch_options, try_watch, watch_options
from .watch.snapshots import CheckError

TURNS = ",".join(f"{kind}={weight}" for kind, weight in {**MIXTURE, "bulk": 1}.items())
"""The default frequency of each operation."""

KINDS = ("get", *WRITES, "bulk")

OF_THE_PRIMARY = "primary"
"""The value of --gets with which gets are sent to the primary."""


class LoadStop:
    """Why the clients stop: on request, because the watch found a fault, or because the time is over."""

    def __init__(self) -> None:
        self.is_set = False
        self.was_asked = False
        # the time after which no more calls are made
        self.last = math.inf
        # whether the history was full before the time was over
        self.is_full = False
        # whether a command of the plan failed
        self.has_failed = False

    def ask(self, *_: object) -> None:
        """Handles Ctrl-C and SIGTERM. The second one doesn't wait for open calls."""
        if self.was_asked:
            raise KeyboardInterrupt
        self.is_set = self.was_asked = True

    def halt(self) -> None:
        """Called when the watch found a fault."""
        self.is_set = True

    def is_over(self) -> bool:
        """Returns whether the clients make no more calls."""
        return self.is_set or time.monotonic() >= self.last


# The recording


class FinishedRecording(NamedTuple):
    """A finished recording, why the clients stopped, and the exit status of its watch."""

    recording: CallWriter
    stop: LoadStop
    watched: int


def make_index(connection: Connection, setting: argparse.Namespace, index: str) -> None:
    """Makes an index, empty and with one shard.

    Rule: a history begins on an empty index. So one that exists is refused.
    """
    shape = {"number_of_shards": 1}
    if setting.replicas is not None:
        shape["number_of_replicas"] = setting.replicas
    body = {"settings": {"index": shape}, "mappings": {"properties": {"k": {"type": "long"}}}}
    try:
        answer = connection.ask("PUT", f"/{index}", json.dumps(body))
    except NoAnswer as fault:
        raise ClusterError(f"the cluster didn't answer the creation of the index {index}: {fault}") from fault
    members = answer.members
    if (
        answer.status != 200
        or members.get("acknowledged") is not True
        or members.get("shards_acknowledged") is False
    ):
        raise ClusterError(why_no_index(index, answer.status, members))


def try_primary(connection: Connection, index: str) -> None:
    """Checks that the cluster accepts gets of the primary, as OpenSearch does since 2.4. Otherwise all of
    them would be lost."""
    try:
        answer = connection.ask("GET", f"/{index}/_doc/none?preference={PRIMARY}")
    except NoAnswer as fault:
        raise ClusterError(f"the cluster didn't answer a get of the primary: {fault}") from fault
    if answer.members.get("found") is not False:
        refused = f"the cluster doesn't accept gets with preference={PRIMARY} (HTTP {answer.status})"
        raise ClusterError(f"{refused}: OpenSearch does since 2.4")


def why_no_index(index: str, status: int, members: Dict[str, Any]) -> str:
    """Returns why an index was not created, in words."""
    error = members.get("error")
    kind, reason = (error.get("type"), error.get("reason")) if isinstance(error, dict) else (None, error)
    if status == 200:
        return f"the index {index} was created, but its shard was not ready in time: delete it and try again"
    if status in (401, 403):
        names = "OPENSEARCH_USER, OPENSEARCH_PASSWORD, OPENSEARCH_HEADER"
        return f"the cluster refuses the credentials (HTTP {status}): see {names}"
    if kind == "resource_already_exists_exception":
        return f"the index {index} exists. A history starts on an empty index: name another one, or delete it"
    return f"the index {index} was not created (HTTP {status}): {json.dumps(kind)} {json.dumps(reason)}"


def record(setting: argparse.Namespace) -> FinishedRecording:
    """Creates the index and records the calls of the clients."""
    stop = LoadStop()
    if setting.watch:
        try_watch(setting)
    recording = recording_of(setting)
    with contextlib.ExitStack() as stack:
        stack.callback(recording.end)
        watcher = (
            stack.enter_context(WatchProcess(setting.file, watch_options(setting), stop.halt, report_fault))
            if setting.watch
            else None
        )
        # (ends before the watch, so that its last check has the last line)
        stack.enter_context(recording)
        stack.enter_context(Progress(lambda: (recording.calls, recording.lost)))
        with contextlib.closing(Connection(setting.clusters[0])) as first:
            first.open(START_PATIENCE)
            make_index(first, setting, setting.index)
            if setting.asks_primary:
                try_primary(first, setting.index)
        if is_fitted(setting):
            fit(setting, recording, watcher)
        if setting.seconds is not None:
            stop.last = time.monotonic() + setting.seconds
        load = load_of(setting, recording, stop)
        # (before the first disturbance, so that an interruption ends what was begun)
        for kind in (signal.SIGINT, signal.SIGTERM):
            signal.signal(kind, stop.ask)
        with Disturber(setting.disturb, recording.note, report_fault) as disturber:
            # (after `stop` is set, open calls may still be answered, and are recorded)
            load.run()
        stop.has_failed = disturber.has_failed
        is_early = setting.seconds is not None and not stop.is_over()
        stop.is_full = is_early and isinstance(recording, History) and not recording.room
    return FinishedRecording(recording, stop, watcher.status if watcher is not None else 0)


def is_fitted(setting: argparse.Namespace) -> bool:
    """Returns whether the reading is chosen by the index, which isn't known before it is created: if the
    recording needs a reading, and no option names one."""
    return (setting.watch or setting.part is not None) and not is_named(setting)


def fit(setting: argparse.Namespace, recording: CallWriter, watcher: Optional[WatchProcess]) -> None:
    """Has the recording and its watch use the reading that fits the index; the OpenSearch profile if it can't
    be inspected."""

    def judge_in(reading: Reading) -> None:
        setting.reading = reading
        if watcher is not None:
            watcher.change(watch_options(setting))

    default_reading = DefaultReading(setting.file, recording, len(setting.clusters), is_named(setting))
    default_reading.on_reading = judge_in
    with contextlib.closing(Connection(setting.clusters[0])) as connection:
        try:
            shape = Inspector(connection).inspect(urllib.parse.unquote(setting.index))
        except ClusterError as fault:
            default_reading.take_unknown(str(fault), report_fault)
            return
    if shape is not None:
        default_reading.take(shape, report_fault)
    else:
        default_reading.take_unknown("it isn't there", report_fault)


def load_of(setting: argparse.Namespace, recording: CallWriter, stop: LoadStop) -> Load:
    """Returns the clients. With several URLs they take turns in choosing one, and stay with it."""
    load = Load(recording, setting.seed, stop.is_over)
    store = ClusterStore(setting, load.is_over)
    habits = Habits(
        setting.mixture, setting.documents, is_bound=True, calls=setting.calls, bulk_items=setting.bulk_items
    )
    load.add_clients(setting.clients, store, habits)
    return load


def recording_of(setting: argparse.Namespace) -> CallWriter:
    """Creates the file of the history, or the directory of its parts."""
    if setting.part is not None:
        return Continuing(setting.file, setting.part, setting.reading)
    return History(setting.file, setting.reading.most_events)


def report_fault(text: str) -> None:
    """Writes a line to standard error."""
    print(f"record.py: {text}", file=sys.stderr)


# The command line


def mixture_of(text: str) -> Dict[str, int]:
    """Parses --mixture, the frequency of each operation."""
    mixture = dict.fromkeys(KINDS, 0)
    for part in text.split(","):
        name, _, weight = part.partition("=")
        if name not in mixture or not weight.isdecimal():
            known = ", ".join(f"{kind}=N" for kind in KINDS)
            raise argparse.ArgumentTypeError(f"{part!r} isn't one of {known}")
        mixture[name] = int(weight)
    if not any(mixture.values()):
        raise argparse.ArgumentTypeError("all frequencies are 0")
    return mixture


def urls_of(text: str) -> List[Url]:
    """Parses the URLs of the nodes, separated by commas."""
    return [url_of(it) for it in text.split(",")]


def parse_arguments(arguments: Optional[Sequence[str]]) -> argparse.Namespace:
    """Parses the arguments; those of the process if there are none."""
    parser = argparse.ArgumentParser(
        description="Records a load on an OpenSearch cluster in a history for casbench."
    )
    add = parser.add_argument
    add(
        "urls",
        type=urls_of,
        metavar="URL[,URL..]",
        help="the URL of the cluster, or those of several nodes",
    )
    add("index", help="the index to create; must not exist")
    add("file", help="the file to write the history to; must not exist")
    add("--clients", type=number_from(1), default=4, help="number of concurrent clients (4)")
    add("--documents", type=number_from(1), default=8, help="number of documents (8)")
    add(
        "--calls",
        type=number_from(1),
        help="number of calls of each client (1000; unlimited with --seconds)",
    )
    add("--seconds", type=number_from(0, float), help="stop after this many seconds")
    add("--seed", type=int, default=1, help="seed of the random choice of operations (1)")
    add("--mixture", type=mixture_of, default=TURNS, help=f"relative frequency of each operation ({TURNS})")
    add("--bulk-items", type=number_from(1), default=4, help="number of items of a bulk request (4)")
    add("--timeout", type=number_from(0.001, float), default=10.0, help="seconds to wait for an answer (10)")
    add("--patience", type=number_from(0, float), default=60.0, help="seconds to wait for a connection (60)")
    add_part_options(add)
    add_reading_options(add, gets=OF_THE_PRIMARY)
    add_watch_options(add)
    add_disturb_option(add)
    add("--replicas", type=number_from(0), help="number of replicas of the index (the cluster's default)")
    add_certificate_options(add)
    setting = parser.parse_args(arguments)
    setting.asks_primary = setting.gets == OF_THE_PRIMARY
    if setting.asks_primary:
        # (the profile says how they are read)
        setting.gets = None
    if setting.calls is None:
        setting.calls = 1000 if setting.seconds is None else ANY_NUMBER
    setting.index = urllib.parse.quote(setting.index, safe="")
    setting.certificates = certificates_of(parser, setting, setting.urls)
    setting.reading = reading_of(setting)
    most_calls = (OPENSEARCH if is_fitted(setting) else setting.reading).most_events // 2
    if setting.part is None and setting.seconds is None and setting.clients * setting.calls > most_calls:
        parser.error(f"over {most_calls} calls, the maximum of one history: record in parts, with --parts")
    return setting


def main(arguments: Optional[Sequence[str]] = None) -> int:
    """Records, and returns the exit status: 0 recorded, 1 an error, 3 the recording ended early, 4 it can't
    be checked, 130 interrupted."""
    setting = parse_arguments(arguments)
    try:
        credentials = credentials_of(os.environ)
        setting.clusters = [
            ClusterAccess(it, setting.timeout, credentials, trust_of(it, setting.certificates))
            for it in setting.urls
        ]
        recorded = record(setting)
    except (ClusterError, HistoryError, OSError) as fault:
        report_fault(str(fault))
        return 1
    except CheckError as fault:
        report_fault(str(fault))
        return CAN_NOT_CHECK
    except KeyboardInterrupt:
        return 130
    recording, stop = recorded.recording, recorded.stop
    if recording.calls:
        calls = counted(recording.calls, "call")
        print(f"recorded {calls} in {setting.file}, {recording.unanswered} of them without a reply")
    else:
        print("no call was made, so there is no file", file=sys.stderr)
    if stop.is_full:
        report_fault(f"the recording ended early: {setting.file} is full; --parts records more, in parts")
    return recorded.watched or (
        ENDED_EARLY if stop.is_full else 130 if stop.was_asked else int(stop.has_failed)
    )


if __name__ == "__main__":
    sys.exit(main())

"""The log of the store: the messages of its streams, by their leaders or by the replica that a server has."""

import base64
import contextlib
import json
from typing import Dict, Iterable, Iterator, NamedTuple, Sequence

from protocol import Connection, NatsError
from store import NOT_FOUND, TERM

from casbench_recording.history import Pair


class Logged(NamedTuple):
    """A message: its stream, its sequence, its headers, and its text."""

    stream: str
    sequence: int
    headers: str
    text: str


def messages_by_leaders(port: int, streams: Sequence[str]) -> Iterator[Logged]:
    """All messages, by the leader of each stream. Raises NatsError if it doesn't answer."""
    with contextlib.closing(Connection(port, 30)) as connection:
        for stream in streams:
            for sequence in range(1, last_of_stream(connection, stream) + 1):
                answer = connection.ask_api(f"STREAM.MSG.GET.{stream}", seq=sequence)
                if "message" in answer:
                    its = answer["message"]
                    headers, text = (base64.b64decode(its.get(key, "")).decode() for key in ("hdrs", "data"))
                    yield Logged(stream, sequence, headers, text)
                elif answer["error"]["err_code"] != NOT_FOUND:
                    raise NatsError(f"{stream} {sequence}: {answer}")


def messages_by_replica(port: int, streams: Sequence[str]) -> Iterator[Logged]:
    """The same by direct gets of a server, which answers from its own replica if that follows the leader."""
    with contextlib.closing(Connection(port, 30)) as connection:
        for stream in streams:
            for sequence in range(1, last_of_stream(connection, stream) + 1):
                answer = connection.ask(f"$JS.API.DIRECT.GET.{stream}", json.dumps({"seq": sequence}))
                if not answer.is_missing:
                    yield Logged(stream, sequence, json.dumps(answer.headers), answer.text)


def last_of_stream(connection: Connection, stream: str) -> int:
    """The last sequence of a stream. Raises NatsError if it has no leader."""
    answer = connection.ask_api(f"STREAM.INFO.{stream}")
    if "state" not in answer:
        raise NatsError(f"{stream}: {answer}")
    return int(answer["state"]["last_seq"])


def differences(messages: Iterable[Logged], replicas: Iterable[Iterable[Logged]]) -> Iterator[str]:
    """A line for each message that a replica has with another text than the leader."""
    texts = {it[:2]: it.text for it in messages}
    for number, replica in enumerate(replicas):
        for it in replica:
            if it.text != texts.get(it[:2], it.text):
                yield f"{it.stream} {it.sequence}: {texts[it[:2]]} at the leader, {it.text} at m{number}"


def changes_of(messages: Iterable[Logged]) -> Dict[int, Pair]:
    """By the number of the call that made it, the pair of each change. If a call made two, which it should
    not, the first one counts."""
    changes: Dict[int, Pair] = {}
    for it in messages:
        its = json.loads(it.text)
        if "number" not in its:
            changes.setdefault(its["call"], Pair(TERM, it.sequence))
    return changes

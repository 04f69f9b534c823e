"""A primary of a store and a copy that follows it, which are disturbed while they are recorded: what Redis and PostgreSQL share."""

import abc
from typing import Callable, Generic, List, Protocol, TypeVar

from nodes import free_ports, once
from recorder import Changes, Recording

from casbench_recording.load import Store

IMPATIENCE = 0.3
"""How many seconds clients wait for an answer of a node that is stopped, or that is soon replaced."""


class PortStore(Store, Protocol):
    """A store whose nodes are known by their ports, and have so many seconds to answer each call."""

    ports: List[int]
    deadline: float


AnyStore = TypeVar("AnyStore", bound=PortStore)


class Group(abc.ABC, Generic[AnyStore]):
    """A primary, node 0, and in scenarios that need it a copy that follows it, node 1."""

    calls_between = 600

    def __init__(self, recording: Recording) -> None:
        self.recording, self.nodes, self.load = recording, recording.nodes, recording.load
        self.ports = free_ports(2)

    def name(self, node: int) -> str:
        """The name of a node's process."""
        return f"node-{node}"

    @abc.abstractmethod
    def start(self, node: int) -> None:
        """Starts a node, from what it wrote down if it ran before, and waits until it is ready."""

    @abc.abstractmethod
    def store(self, node: int = 0) -> AnyStore:
        """The store of this node alone."""

    @abc.abstractmethod
    def changes_at(self, port: int) -> Changes:
        """The log of the node with this port."""

    @abc.abstractmethod
    def cut(self) -> None:
        """Cuts the copy's link to the primary: it keeps what it has, and gets nothing more."""

    @abc.abstractmethod
    def join(self) -> None:
        """Has the copy follow the primary again."""

    @abc.abstractmethod
    def promote(self) -> None:
        """Makes the copy a primary."""

    def fail_over(self, store: AnyStore) -> None:
        """Kills the primary, makes the copy the primary, and sends the clients to it."""
        self.nodes.kill(self.name(0))
        self.promote()
        store.ports[0] = self.ports[1]

    def run(self, store: AnyStore, disturb: Callable[[], None] = lambda: None) -> Changes:
        """Runs the clients; returns the log of the node that they ask at last."""
        self.recording.run(store, disturb, self.calls_between)
        return self.changes_at(store.ports[0])

    # Scenarios

    def healthy(self) -> Changes:
        """Nothing happens."""
        return self.run(self.store())

    def paused(self) -> Changes:
        """The primary is stopped for a while, and goes on: what was asked meanwhile is done later, though nobody waits any more."""
        store = self.store()
        store.deadline = IMPATIENCE

        def disturb() -> None:
            self.nodes.stop(self.name(0))
            self.load.wait(0.1, 0.8)
            self.nodes.go_on(self.name(0))

        return self.run(store, disturb)

    def restarted(self) -> Changes:
        """The primary is killed, and started again from its log."""

        def disturb() -> None:
            self.nodes.kill(self.name(0))
            self.load.wait(0.05, 0.3)
            self.start(0)

        return self.run(self.store(), disturb)

    def failover(self, calls_behind: int) -> Changes:
        """The primary is killed, and the copy becomes the primary. Its link is cut so many calls before, if any."""
        store = self.store()

        def disturb() -> None:
            if calls_behind:
                self.cut()
                self.load.wait_for(self.load.history.calls + calls_behind)
            self.fail_over(store)

        return self.run(store, once(disturb))

    def copy_reads(self) -> Changes:
        """Half of the clients read from the copy, whose link is cut for a while."""

        def disturb(_: object) -> None:
            self.cut()
            self.load.wait_for(self.load.history.calls + 100)
            self.join()

        self.recording.run_beside_readers(self.store(), self.store(1), disturb)
        return self.changes_at(self.ports[0])

"""Three members of a store, of which one leads, and which are disturbed while they are recorded: what etcd and ZooKeeper share."""

import abc
import time
from typing import Callable, List, Tuple, Type, TypeVar

from nodes import PATIENCE, NotReady
from recorder import Changes, Recording

from casbench_recording.load import Client, Store, Unreachable

COUNT = 3
"""How many members there are."""

LONG_DEADLINE = 10.0
"""How many seconds a client waits that asks a member which was stopped."""


Answer = TypeVar("Answer")


class Members(abc.ABC):
    """The members. A majority of them answers."""

    calls_between = 600
    # whether all documents are read once more after the load
    reads_at_last = False
    # what may come of asking a member that leads no longer
    faults: Tuple[Type[Exception], ...] = (OSError, Unreachable)

    def __init__(self, recording: Recording) -> None:
        self.recording, self.nodes, self.load = recording, recording.nodes, recording.load

    def name(self, member: int) -> str:
        """The name of a member's process."""
        return f"m{member}"

    @abc.abstractmethod
    def start(self, member: int) -> None:
        """Starts a member, from what it wrote down if it ran before."""

    @abc.abstractmethod
    def leads(self, member: int) -> bool:
        """Whether a member says that it leads."""

    @abc.abstractmethod
    def serves(self, member: int) -> bool:
        """Whether a member follows the others, or leads them."""

    @abc.abstractmethod
    def store(self) -> Store:
        """The store of the members."""

    @abc.abstractmethod
    def old_store(self) -> Store:
        """The same with gets that show what the member knows that is asked, and clients that wait for it long."""

    @abc.abstractmethod
    def changes_at(self, member: int) -> Changes:
        """The store's log, of a member that leads."""

    def start_all(self) -> None:
        """Starts the members, and waits until one leads."""
        for member in range(COUNT):
            self.start(member)
        self.leader()

    def leader(self) -> int:
        """The member that leads, once there is one. Raises NotReady."""
        last = time.monotonic() + 2 * PATIENCE
        while time.monotonic() < last:
            for member in range(COUNT):
                if self.name(member) in self.nodes.processes and self.leads(member):
                    return member
            time.sleep(0.05)
        raise NotReady(f"no member leads:\n{self.nodes.end_of_log(self.name(0))}")

    def asked_of_leader(self, ask: Callable[[int], Answer]) -> Answer:
        """What the member answers that leads. One that leads no longer when it is asked may not answer, and then the next one is asked."""
        last = time.monotonic() + PATIENCE
        while True:
            try:
                return ask(self.leader())
            except self.faults:
                if time.monotonic() > last:
                    raise
                time.sleep(0.05)

    def run(self, disturb: Callable[[], None] = lambda: None) -> Changes:
        """Runs the clients; returns the store's log."""
        store = self.store()
        self.recording.run(store, disturb, self.calls_between)
        if self.reads_at_last:
            self.recording.read_at_last(store)
        return self.asked_of_leader(self.changes_at)

    # Scenarios

    def healthy(self) -> Changes:
        """Nothing happens."""
        return self.run()

    def killed(self, most: int) -> Changes:
        """One member, the leader every second time, or up to so many of them are killed, and started again after a while. The next ones are
        killed when these serve again."""

        def disturb() -> None:
            first = self.leader() if self.load.draw.below(2) else self.load.draw.below(COUNT)
            count = 1 if self.load.draw.below(4) else most
            gone = [(first + it) % COUNT for it in range(count)]
            for member in gone:
                self.nodes.kill(self.name(member))
            self.load.wait(0.1, 0.8)
            for member in gone:
                self.start(member)
            for member in gone:
                self.nodes.wait_until(self.name(member), lambda: self.serves(member))

        return self.run(disturb)

    def stopped(self, least: float, most: float) -> Changes:
        """The leader is stopped for a while, mostly for so long that another one leads, and goes on then."""

        def disturb() -> None:
            leader = self.name(self.leader())
            self.nodes.stop(leader)
            self.load.wait(least, most)
            self.nodes.go_on(leader)

        return self.run(disturb)

    def old_reads(self) -> Changes:
        """Half of the clients read what one member knows. It is stopped; when the others have written its clients ask it again, and it goes
        on."""
        target = (self.leader() + 1) % COUNT

        def disturb(readers: List[Client]) -> None:
            self.load.hold(readers)
            self.load.wait(0.1, 0.2)
            self.nodes.stop(self.name(target))
            self.load.wait_for(self.load.history.calls + 200)
            self.load.release(readers)
            self.load.wait_for_each(readers, 2.0)
            self.load.wait(0.1, 0.2)
            self.nodes.go_on(self.name(target))

        self.recording.run_beside_readers(self.store(), self.old_store(), disturb, target)
        return self.asked_of_leader(self.changes_at)

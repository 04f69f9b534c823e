"""Chooses the reading that fits an index, by its replicas and the number of nodes, and reports it to the
operator."""

from typing import Callable, Optional

from .history.by_shard import Parts
from .history.continuing import Continuing
from .history.readings import OPENSEARCH, STRICT, Profile, Reading
from .history.writing import Histories
from .index_inspection import IndexShape


def reading_that_fits(shape: IndexShape, served: int) -> Reading:
    """Returns the reading that fits an index, if the proxy or the load uses `served` nodes.

    With replicas any copy may answer a get, and another copy may be promoted; between several nodes a write
    may be sent again. A single copy on a single node promises what a strict check asks.
    """
    return OPENSEARCH if shape.has_replicas or max(shape.nodes, served) > 1 else STRICT


def reason_of(shape: IndexShape, served: int) -> str:
    """Returns why the OpenSearch profile fits an index, in words."""
    if shape.has_replicas:
        copies = f"{shape.replicas} replica{'' if shape.replicas == 1 else 's'}"
        return f"the index {shape.name} has {copies}, with {shape.replication.lower()} replication"
    return f"the cluster has {max(shape.nodes, served)} nodes"


def check_of(out: str, history: Histories) -> str:
    """Returns the command that checks a recording with the OpenSearch profile."""
    files = f"{out}/*.ndjson" if isinstance(history, (Continuing, Parts)) else out
    return f"casbench check --profile {Profile.OPENSEARCH.value} {files}"


class DefaultReading:
    """The reading that fits the index of a recording. It is reported once the index is known. If no option
    names a reading, the recording and its watch use it."""

    def __init__(self, out: str, history: Histories, served: int, is_named: bool) -> None:
        self._command = check_of(out, history)
        self._history = history
        self._served = served
        self._is_named = is_named
        self._fits_profile = False
        # called with the reading of the recording, if it differs from the first one
        self.on_reading: Callable[[Reading], object] = lambda reading: None

    def take(self, shape: IndexShape, report: Callable[[str], object]) -> None:
        """Takes the description of the index, before its first call. Reports which check fits, unless it is
        the strict one."""
        if reading_that_fits(shape, self._served) == OPENSEARCH:
            self._take(reason_of(shape, self._served), report)

    def take_unknown(self, why: str, report: Callable[[str], object]) -> None:
        """Called with the reason if the index couldn't be inspected: the OpenSearch profile is chosen, since
        it accuses less."""
        self._take(f"the index couldn't be inspected ({why})", report)

    def _take(self, why: str, report: Callable[[str], object]) -> None:
        """Reports that the OpenSearch profile fits, and why; uses it unless an option names another
        reading."""
        self._fits_profile = True
        report(f"{why}: the check that fits is {self._command}")
        if not self._is_named:
            self._history.judge_in(OPENSEARCH)
            self.on_reading(OPENSEARCH)

    @property
    def command(self) -> Optional[str]:
        """The command of the check that fits, or None if it is the strict check."""
        return self._command if self._fits_profile else None

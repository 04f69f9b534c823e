"""Readings of a history: what the store is assumed to promise. In the strict reading, the default, each reply
shows the last change of its document; the others promise less.

The names and the values are those of casbench's options.
"""

import argparse
from enum import Enum
from typing import Any, Callable, Dict, List, NamedTuple, Optional, Sequence, Type, Union

from .format import MOST_EVENTS


class Gets(Enum):
    """What a get returns: the last version, or that of any copy."""

    LAST = "last"
    ANY = "any"


class Conflicts(Enum):
    """What a conflict means: the write was not performed, may have been performed all the same, or
    nothing."""

    PLAIN = "plain"
    MAYBE = "maybe"
    UNKNOWN = "unknown"


class Writes(Enum):
    """How often a write is performed: once, or, if it has no condition, perhaps twice."""

    ONCE = "once"
    REPEATED = "repeated"


class Failed(Enum):
    """What a lost call that is marked as void means: it may have been performed, or it was not."""

    LOST = "lost"
    TRUSTED = "trusted"


class Reading(NamedTuple):
    """How a history is read: the value of each choice."""

    gets: Gets = Gets.LAST
    conflicts: Conflicts = Conflicts.PLAIN
    writes: Writes = Writes.ONCE
    failed: Failed = Failed.LOST

    def options(self) -> List[str]:
        """Returns the options of casbench for this reading: those of the choices that aren't strict."""
        named = {
            name: choice for name, choice in self._asdict().items() if choice is not getattr(STRICT, name)
        }
        return [word for name, choice in named.items() for word in (f"--{name}", choice.value)]

    @property
    def most_events(self) -> int:
        """How many events a recording has at most, so that one check takes it.

        A check counts a call and its ending, and of a write that may be performed twice a third event. Here
        each call counts as such a write.
        """
        return MOST_EVENTS // 3 * 2 if self.writes is Writes.REPEATED else MOST_EVENTS

    def is_performed_twice(self, op: str, has_condition: bool) -> bool:
        """Returns whether the store may perform this operation a second time. With a condition it would be
        refused."""
        return self.writes is Writes.REPEATED and op != "get" and not has_condition


STRICT = Reading()
OPENSEARCH = Reading(Gets.ANY, Conflicts.UNKNOWN, Writes.REPEATED, Failed.TRUSTED)


class Profile(Enum):
    """What a store promises as a whole: linearizable reads and writes, or what OpenSearch documents."""

    STRICT = "strict"
    OPENSEARCH = "opensearch"

    @property
    def reading(self) -> Reading:
        """The reading of the profile."""
        return OPENSEARCH if self is Profile.OPENSEARCH else STRICT


# The options

CHOICES: Dict[str, Type[Enum]] = {"gets": Gets, "conflicts": Conflicts, "writes": Writes, "failed": Failed}
"""The type of each choice, by its name."""

HELP = {
    "profile": "the guarantees of the store (strict)",
    "gets": "whether a get returns the last version, or any copy's (default: the profile's)",
    "conflicts": "what a conflict means: not performed, maybe performed, or nothing (default: the profile's)",
    "writes": "whether the store may perform a write twice (default: the profile's)",
    "failed": "whether calls marked as void may have been performed (default: the profile's)",
}


class NamedOnce(argparse.Action):
    """Stores the value of an option that may be given once."""

    def __call__(
        self,
        parser: argparse.ArgumentParser,
        namespace: argparse.Namespace,
        values: Union[str, Sequence[str], None],
        option_string: Optional[str] = None,
    ) -> None:
        if getattr(namespace, self.dest) is not None:
            raise argparse.ArgumentError(self, "it may be given only once")
        setattr(namespace, self.dest, values)


def add_reading_options(add: Callable[..., object], **more: str) -> None:
    """Adds the options of a reading; `more` has additional values, by the name of the option."""
    kinds: Dict[str, Type[Enum]] = {"profile": Profile, **CHOICES}
    for name, kind in kinds.items():
        values = [it.value for it in kind] + ([more[name]] if name in more else [])
        add(f"--{name}", action=NamedOnce, choices=values, help=HELP[name])


def is_named(setting: argparse.Namespace) -> bool:
    """Returns whether an option names a reading, or a choice of one."""
    return any(getattr(setting, name) is not None for name in ("profile", *CHOICES))


def reading_of(setting: argparse.Namespace) -> Reading:
    """Returns the reading of the options: that of the profile, with the choices that are named beside it."""
    profile = profile_of(setting).reading

    def chosen(name: str) -> Any:
        value = getattr(setting, name)
        return getattr(profile, name) if value is None else CHOICES[name](value)

    return Reading(*map(chosen, CHOICES))


def profile_of(setting: argparse.Namespace) -> Profile:
    """Returns the profile of the options; the strict one by default."""
    return Profile.STRICT if setting.profile is None else Profile(setting.profile)


def is_ruling_out(setting: argparse.Namespace) -> bool:
    """Returns whether to check with --rule-out: if it is given, or implied by the OpenSearch profile."""
    return setting.rule_out or profile_of(setting) is Profile.OPENSEARCH

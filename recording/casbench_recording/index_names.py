"""The names by which an index is reached, and the expressions in a request that may name it."""

import re
from typing import List, Sequence

LONGEST_EXPRESSION = 2048
"""The maximum length of an index expression that is evaluated."""

DATE = re.compile(r"\{[^{}\\]*(?:\{[^{}\\]*\})?\}")
"""A date in a name, with or without its format."""

ESCAPES = set("{}\\")
"""Characters that make such a name hard to evaluate."""


class Names:
    """The names of an index: its own and its aliases."""

    def __init__(self, names: List[str], routed: List[str]) -> None:
        self.all = frozenset(names)
        # aliases with a routing
        self.routed = frozenset(routed)

    def may_be_among(self, expression: str) -> bool:
        """Returns whether an expression, such as a list, a pattern or a date math name, may name the index. A
        very long expression may."""
        if expression == "_all" or len(expression) > LONGEST_EXPRESSION:
            return True
        return any(self.has(pattern_of(it)) for it in expression.split(","))

    def has(self, pattern: str) -> bool:
        """Returns whether a name, in which `*` stands for any text, names the index."""
        pieces = pattern.split("*")
        return any(is_made_of(it, pieces) for it in self.all)


def pattern_of(name: str) -> str:
    """Returns a name, or the pattern of a date math name: `logs-*` for `<logs-{now/d}>`."""
    if not (name.startswith("<") and name.endswith(">")):
        return name
    pattern = DATE.sub("*", name[1:-1])
    return pattern if not ESCAPES.intersection(pattern) else "*"


def is_made_of(name: str, pieces: Sequence[str]) -> bool:
    """Returns whether a name consists of these pieces in order, with any text between two of them."""
    first, last = pieces[0], pieces[-1]
    if len(pieces) == 1:
        return name == first
    if not name.startswith(first) or not name.endswith(last) or len(name) < len(first) + len(last):
        return False
    at, end = len(first), len(name) - len(last)
    for piece in pieces[1:-1]:
        found = name.find(piece, at, end)
        if found < 0:
            return False
        at = found + len(piece)
    return True

"""Calls in words, for the sentences about witnesses and certificates."""

from typing import Tuple

from .witness_checker import CheckedCall


def spelled(pair: Tuple[int, int]) -> str:
    """Returns a pair as term/number."""
    return f"{pair[0]}/{pair[1]}"


def named(call: CheckedCall) -> str:
    """Describes a call: what it requested, and the reply."""
    asked = call.op if call.condition is None else f"{call.op} under {spelled(call.condition)}"
    shown = "" if call.pair is None else f" {spelled(call.pair)}"
    k = "" if call.found is None else f" with k={call.found}"
    again = ", performed again" if call.is_again else ""
    return f"call {call.number} ({asked}{again}: {call.reply}{shown}{k})"

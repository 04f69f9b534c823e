"""Certificates: checked without casbench. `checked` runs `certificate_checker`, and adds a sentence about the
calls and the states if the certificate isn't valid."""

from typing import Tuple

from . import certificate_checker
from .certificate_checker import Fault, Rule
from .certificate_text import ANSWER
from .format import compact
from .named_calls import named
from .witness_checker import ReadingValues, Refused

MAY_BE = "the document {id} may be in the state {state}"

SENTENCES = {
    Rule.CALL: "This line and the first one don't name one answered call of the document {id} by its record.",
    Rule.FROM: "The document {id} has no reply to this record before that to the call that is named.",
    Rule.EVENT: "The document {id} has no such event between the table before and the reply to the call that "
    "is named.",
    Rule.START: "{start} " + MAY_BE + ", and no state of the first table covers that.",
    Rule.MADE: "When {call} is made " + MAY_BE + ", and no state of the table covers that.",
    Rule.SERVED: "After the reply to {call} " + MAY_BE + ", and no state of the table covers that.",
    Rule.WAITS: "Before the reply to {call} " + MAY_BE + ", from which writes may follow, and no state that "
    "waits covers that.",
    Rule.LEFT: "After the reply to {call} " + MAY_BE + " still.",
}
"""What is wrong, by the rule that is broken."""


def sentence_of(fault: Fault) -> str:
    """Returns what is wrong with a certificate, in a sentence that names the call and the state, and in
    another one where that state comes from."""
    call = "" if fault.call is None else named(fault.call)
    start = f"After the reply to {call}" if call else "Before the first call"
    state = "" if fault.state is None else compact(fault.state.members())
    sentence = SENTENCES[fault.rule].format(id=compact(fault.id), call=call, start=start, state=state)
    if fault.state is None or not fault.state.line or fault.rule is Rule.LEFT:
        return sentence
    by = "" if fault.performed is None else f", by {named(fault.performed)}"
    return f"{sentence} It comes from that of line {fault.state.line}{by}."


def is_certificate(text: bytes) -> bool:
    """Returns whether a text is a certificate, or is meant to be one, by its first line."""
    return text.startswith(ANSWER)


def checked(history: bytes, certificate: bytes, reading: ReadingValues) -> Tuple[int, str]:
    """Checks the two texts; returns the exit status and the output."""
    try:
        its = certificate_checker.check(history, certificate, reading)
    except Refused as refusal:
        return 2, f"refused {refusal}"
    except certificate_checker.Broken as broken:
        fault = broken.fault
        return 1, f"broken line={fault.line} cause={fault.rule.value}\n{sentence_of(fault)}"
    return 0, f"certified doc={compact(its.id)} call={its.call} tables={its.tables} states={its.states}"

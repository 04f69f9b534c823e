"""Parses JSON bodies of requests in a way that no server can read differently: escapes, duplicate keys, and
numbers in place of strings."""

import json
from typing import Any, Callable, Dict, List, Optional, Tuple

MOST_READ = 2 * 1024 * 1024
"""The maximum length in bytes of a body that is read. The source of a longer one is unknown."""


class ComesTwice(ValueError):
    """A duplicate key in an object: parsers differ in which one counts."""


def only_once(pairs: List[Tuple[str, Any]]) -> Dict[str, Any]:
    """Returns the object with these members; raises ComesTwice if a key is duplicate."""
    members = dict(pairs)
    if len(members) != len(pairs):
        raise ComesTwice
    return members


LONGEST_NUMBER = 4300
"""The maximum number of digits of an integer: parsing takes quadratic time. Later releases of Python have
this limit."""

HALF = LONGEST_NUMBER // 2
"""Half as many digits: a number with more than twice as many fills at least one aligned piece of this
length."""


def whole_number(digits: str) -> int:
    """Returns the integer with these digits. Raises ValueError if there are too many."""
    if len(digits) > LONGEST_NUMBER:
        raise ValueError("a whole number has too many digits")
    return int(digits)


SPACE = " \t\n\r"
"""The white space around a JSON text."""


def reader(**settings: Any) -> Callable[[str], Any]:
    """Returns a parser of complete JSON texts with these settings of the decoder; it raises ValueError if a
    text is invalid."""
    read_first = json.JSONDecoder(**settings).raw_decode

    def read(text: str) -> Any:
        plain = text.strip(SPACE)
        value, end = read_first(plain)
        if end < len(plain):
            raise ValueError("there is data after the value")
        return value

    return read


read_plain = reader()
"""Parses a JSON text without very long numbers."""

read_long = reader(parse_int=whole_number)
"""Parses any JSON text. It is slower with numbers."""


def read_json(text: str) -> Any:
    """Parses a JSON text. Raises ValueError if it is invalid, or has a number with too many digits."""
    return (read_long if len(text) > LONGEST_NUMBER and may_have_long_number(text) else read_plain)(text)


def may_have_long_number(text: str) -> bool:
    """Returns whether a number in a text may have too many digits: if an aligned piece has only digits."""
    return any(text[at : at + HALF].isdecimal() for at in range(0, len(text), HALF))


read_action = reader(object_pairs_hook=only_once, parse_int=str)
"""Parses the action of a bulk request's item. An integer is kept as its text, as servers do: -0 isn't 0."""

read_spelled = reader(object_pairs_hook=only_once, parse_int=str, parse_float=str, parse_constant=str)
"""Parses a JSON text without duplicate keys, in which each number is kept as its text."""


def action_of(line: bytes) -> Optional[Dict[str, Any]]:
    """Returns the action in a line of a bulk request, or None if it isn't one that all parsers read alike."""
    try:
        action = read_action(line.decode("utf-8"))
    except (ValueError, RecursionError):
        return None
    return action if isinstance(action, dict) else None

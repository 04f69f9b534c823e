"""The format of history texts: its limits, the members of the lines, and which JSON casbench reads."""

import functools
import json
import re
from enum import Enum
from typing import Any, Dict, List, NamedTuple, Optional, Tuple, Union

MOST_EVENTS = 1_048_576
"""The maximum number of events of a history. A call takes two, itself and its ending."""

LONGEST_LINE = 65_536
"""The maximum length of a line in bytes, without its line feed."""

LONGEST_BODY = LONGEST_LINE - 100
"""The maximum length of the body in a line: the rest is for the number, the time and the other members."""

LONGEST_ID = 512
"""The maximum length of the id of a document in bytes."""

LONGEST_CLIENT = 256
"""The maximum length of the name of a client or a node in bytes."""

LONGEST_NOTE = 1000
"""The maximum length of a note."""

DEEPEST_BODY = 100
"""The maximum nesting of arrays and objects in a body. casbench reads 127 levels, one of which is the
line."""

OPERATIONS = ("get", "index", "delete", "create")

WRITES_A_VALUE = ("index", "create")

TAKES_A_CONDITION = ("index", "delete")

CONFLICT = "version_conflict_engine_exception"

LOST = '{"e":"lost","n":'
"""The start of the line of a lost call, up to its number."""

compact = json.JSONEncoder(separators=(",", ":")).encode
"""Returns the JSON text of a value, without spaces."""

text_of_id = functools.lru_cache(maxsize=8192)(compact)
"""The same for an id, cached."""

HALF_OF_A_PAIR = re.compile(r"\\u[dD][89a-fA-F]|[\ud800-\udfff]")
"""Matches what may be half of a surrogate pair in JSON."""

JsonObject = Dict[str, Any]
"""The members of a JSON object."""

ReplyBody = Union[bytes, str, Dict[str, Any], List[Any], None]
"""The body of a reply: its text as received, in bytes or as a string, or its parsed value, or nothing."""

Reply = Tuple[int, Optional[str]]
"""The status of a reply, and the JSON text of its body, if there is one that casbench reads."""


class Loss(Enum):
    """What is known of a call that ends without a reply."""

    UNKNOWN = "it may have been performed, or may be at any later time"
    OVER = "it may have been performed, and won't be later, since it was answered"
    VOID = "it was not performed"


Rest = Union[str, Loss]
"""The rest of the line of an ending, after the number and the time: that of a reply, or what is known of a
lost call."""


class CallError(ValueError):
    """An invalid call, reply or ending. No line was written for it."""


class Pair(NamedTuple):
    """The primary term and the sequence number that identify a version of a document."""

    term: int
    seq: int


class Operation(NamedTuple):
    """What a call requests: the operation, the document, the value of an index or a create, the condition of
    an index or a delete; and the client and the node, if they are known."""

    op: str
    id: str
    value: Optional[int] = None
    condition: Optional[Pair] = None
    shard: int = 0
    client: str = ""
    node: str = ""


def is_whole(value: object, least: int, most: int) -> bool:
    """Returns whether the value is an integer within these bounds."""
    return type(value) is int and least <= value <= most


def checked_pair(pair: Pair) -> Pair:
    """Returns the pair; raises CallError if it is invalid."""
    checked = pair_if(*pair)
    if checked is None:
        raise CallError(
            "a term is 1 to 2^63-1 and a sequence number 0 to 2^63-1, and not {!r} and {!r}".format(*pair)
        )
    return checked


def pair_if(term: object, seq: object) -> Optional[Pair]:
    """Returns the pair of a term and a sequence number, or None if they are invalid."""
    # (the shifted value is 0 if both are below 2^63 and not negative)
    if type(term) is int and type(seq) is int and term > 0 and not (term | seq) >> 63:
        return Pair(term, seq)
    return None


def text_of_write(id: str, result: str, pair: Pair) -> str:
    """Returns the body of a reply to a performed write."""
    return f'{{"_id":{text_of_id(id)},"result":"{result}","_seq_no":{pair.seq},"_primary_term":{pair.term}}}'


def text_of_find(id: str, pair: Pair, k: int) -> str:
    """Returns the body of a reply to a get that found a version."""
    return (
        f'{{"_id":{text_of_id(id)},"_seq_no":{pair.seq},"_primary_term":{pair.term},'
        f'"found":true,"_source":{{"k":{k}}}}}'
    )


def text_of_missing(id: str) -> str:
    """Returns the body of a reply to a get that found nothing."""
    return f'{{"_id":{text_of_id(id)},"found":false}}'


def pair_of(body: Any) -> Optional[Pair]:
    """Returns the pair in a body, if there is one."""
    return pair_if(body.get("_primary_term"), body.get("_seq_no")) if isinstance(body, dict) else None


@functools.lru_cache(maxsize=8192)
def member_of_id(id: str) -> str:
    """Returns the member with the id of a call's document, cached. Raises CallError if the id is invalid."""
    if not isinstance(id, str) or not 1 <= length_of(id) <= LONGEST_ID:
        raise CallError(f"an id is a text of 1 to {LONGEST_ID} bytes, and not {id!r}")
    return f'"id":{compact(id)}'


@functools.lru_cache(maxsize=8192)
def members_of_who(client: str, node: str) -> str:
    """Returns the members with the client and the node, as far as they are known, cached. Raises CallError if
    a name is invalid."""
    return "".join([member_of(key, name) for key, name in (("client", client), ("node", node)) if name])


def member_of(key: str, name: str) -> str:
    """Returns the member with the name of a client or a node."""
    if not isinstance(name, str) or not 1 <= length_of(name) <= LONGEST_CLIENT:
        raise CallError(f"a {key} is a text of at most {LONGEST_CLIENT} bytes, and not {name!r}")
    return f',"{key}":{compact(name)}'


def members_of_call(operation: Operation) -> str:
    """Returns the rest of the line of a call, after its number. Raises CallError if the call is invalid."""
    op, id, value, condition, shard, client, node = operation
    if op not in OPERATIONS:
        raise CallError(f"an operation is one of {', '.join(OPERATIONS)}, and not {op!r}")
    try:
        members = f'{member_of_id(id)},"op":"{op}"'
    except TypeError as fault:
        raise CallError(f"an id is a text, and not {id!r}") from fault
    # (the shifted value is 0 if the number fits into these bits and isn't negative)
    if type(shard) is not int or shard >> 10:
        raise CallError(f"a shard is a whole number up to 1023, and not {shard!r}")
    if op in WRITES_A_VALUE:
        if type(value) is not int or value >> 64:
            raise CallError(f"the value of a write is a whole number below 2^64, and not {value!r}")
        members += f',"k":{value}'
    if condition is not None:
        if op not in TAKES_A_CONDITION:
            raise CallError(f"a {op} has no condition")
        term, seq = checked_pair(condition)
        members += f',"if_seq_no":{seq},"if_primary_term":{term}'
    members += members_of_who(client, node)
    return f'{members},"shard":{shard}}}' if shard else members + "}"


def line_of_ending(number: int, now: int, rest: Rest) -> str:
    """Returns the line of an ending."""
    if isinstance(rest, str):
        return f'{{"e":"reply","n":{number},"t":{now}{rest}}}\n'
    void = ',"void":true' if rest is Loss.VOID else ""
    return f'{LOST}{number},"t":{now}{void}}}\n'


def rest_of(ending: Union[Reply, Loss]) -> Rest:
    """Returns the rest of the line of an ending: the status and the body of a reply as received, or what is
    known of a loss.

    If the body is too long for a line, only its relevant members are kept; if these are too long, none.
    """
    if isinstance(ending, Loss):
        return ending
    status, text = ending
    start = f',"status":{status}'
    if text is None:
        return start
    # (a character has at most four bytes)
    if len(text) * 4 > LONGEST_BODY and len(text.encode()) > LONGEST_BODY:
        text = shortened(text)
        if len(text.encode()) > LONGEST_BODY:
            return start
    return f'{start},"body":{text}'


def shortened(text: str) -> str:
    """Returns the text of a body with only its relevant members."""
    value = value_of(text)
    return compact(counting_members(value)) if isinstance(value, dict) else "null"


def counting_members(body: Dict[str, Any]) -> Dict[str, Any]:
    """Returns the relevant members of a body."""
    kept = {key: body[key] for key in ("_id", "_seq_no", "_primary_term", "result", "found") if key in body}
    for name, key in (("_source", "k"), ("error", "type")):
        member = body.get(name)
        if isinstance(member, dict) and key in member:
            kept[name] = {key: member[key]}
    return kept


def text_of(body: ReplyBody) -> Optional[str]:
    """Returns the JSON text of a body on one line, or None if it isn't JSON that casbench reads."""
    try:
        if isinstance(body, bytes):
            text = body.decode("utf-8")
        elif isinstance(body, str) or body is None:
            text = body or ""
        else:
            text = compact(body)
        value_of(text)
        # (a line feed in JSON is white space: strings have none)
        return text.replace("\n", " ").replace("\r", " ") if is_readable(text) else None
    except (TypeError, ValueError, RecursionError):
        return None


def whole_number(digits: str) -> Union[int, float]:
    """Parses an integer. For casbench -0 isn't an integer, so it becomes a float."""
    other_number(digits)
    return -0.0 if digits == "-0" else int(digits)


def other_number(digits: str) -> float:
    """Parses a number that has to fit into a float."""
    number = float(digits)
    if not abs(number) < 1e308:
        raise ValueError(f"{digits} is past what a float holds")
    return number


value_of = json.JSONDecoder(
    parse_int=whole_number, parse_float=other_number, parse_constant=other_number
).decode
"""Parses a JSON text. Raises ValueError if it is invalid, or has a number that casbench doesn't read."""


def length_of(text: str) -> int:
    """Returns the length of a text in UTF-8; 0 if it can't be encoded, because of half of a surrogate
    pair."""
    try:
        return len(text.encode())
    except UnicodeEncodeError:
        return 0


def is_readable(text: str) -> bool:
    """Returns whether casbench reads the JSON text: it has no half of a surrogate pair and isn't nested too
    deeply."""
    if not HALF_OF_A_PAIR.search(text) and text.count("{") + text.count("[") <= DEEPEST_BODY:
        return True
    # (objects as lists of pairs, so that a duplicate key keeps both values)
    return is_readable_value(json.loads(text, object_pairs_hook=list), DEEPEST_BODY)


def is_readable_value(value: Any, levels: int) -> bool:
    """The same for a value, and this number of levels."""
    if isinstance(value, list):
        return levels > 0 and all(is_readable_value(part, levels - 1) for part in value)
    if isinstance(value, tuple):
        return all(is_readable_value(part, levels) for part in value)
    return not isinstance(value, str) or not value or length_of(value) > 0

#!/usr/bin/env python3
"""Checks how the built program reads lines, replies, bulk requests and numbers, and what replies it writes.

    python3 tests/replies.py [PROGRAM]

PROGRAM is the built casbench; if it isn't named, the one that ./casbench would run. A text that is refused is reported
with its line and cause. One that is accepted stands in small histories, or in other texts, of which one at least would
be answered otherwise if it were read otherwise: a get finds what was written, and in another history what was not; a
conflict has its cause, or none; two writes take one pair.

There are two ways to the fields of a line, and the quick one leaves a line with a space before a colon to the other: so
each line of a history is tried with such a space too. The quick way asks for no growth, which shows the lines that it
takes. Growths are counted with a library that cc, a C compiler, makes; if there is none, that test is skipped.
"""

import itertools
import json
import sys
import tempfile

from answers import AnswersTest
from case_files import case_text
from growths import NO_MEMORY, Growths
from program_test import run_tests
from running import needs_compiler, run_by_parts, text_of_run
from texts import DEPTH, LINE_BYTES, MOST_NUMBER, MOST_OF_PAIR, REFUSED_COUNT
from texts import broken, call, condition, conflict, created, delete, deleted, found, get, index, lost, missing, nested, no
from texts import no_writer, not_found, pair_of, pair_twice, refused, refused_item, reply, updated, verified, witness_of
from texts import written_call, written_reply, yes

# Where the line that a row is about stands in a history.
HERE = "@\n"

# The reply table: an operation, the status and the body of a reply to it, and what is heard.
REPLIES = [
    (
        "index",
        201,
        '{"_index":"i","_id":"d","_version":1,"result":"created","_shards":{"total":2,"successful":1,"failed":0},"_seq_no":0,"_primary_term":1}',
        "created 1/0",
    ),
    ("index", 200, '{"_id":"d","result":"created","_seq_no":0,"_primary_term":1}', "unknown"),
    ("index", 200, '{"_id":"d","result":"updated","_primary_term":1}', "unknown"),
    ("index", 201, '{"_id":"x","result":"created","_seq_no":0,"_primary_term":1}', "stranger"),
    ("index", 409, '{"error":{"type":"version_conflict_engine_exception","reason":"x"},"status":409}', "conflict"),
    ("index", 409, '{"error":"x","status":409}', "unknown"),
    ("index", 503, "null", "unknown"),
    (
        "delete",
        404,
        '{"_index":"i","_id":"d","_version":1,"result":"not_found","_shards":{"total":2,"successful":1,"failed":0},"_seq_no":0,"_primary_term":1}',
        "not_found 1/0",
    ),
    ("delete", 200, '{"_id":"d","result":"deleted","_seq_no":1,"_primary_term":1}', "deleted 1/1"),
    ("get", 200, '{"_id":"d","_seq_no":0,"_primary_term":1,"found":true,"_source":{"k":1}}', "found 1/0"),
    ("get", 404, '{"_index":"i","_id":"d","found":false}', "missing"),
    ("get", 404, '{"error":"no such index"}', "unknown"),
    ("create", 201, '{"_id":"d","result":"created","_seq_no":1,"_primary_term":1}', "created 1/1"),
    ("create", 200, '{"_id":"d","result":"updated","_seq_no":1,"_primary_term":1}', "unknown"),
]


def made(term, seq, k=1):
    """The lines of a write, call 1, that creates the document."""
    return [index(1, k=k), created(1, term, seq)]


def created_shown(asked, term, seq):
    # A get finds the pair, and none with another number. As an update the reply would be wrong if nothing was
    # written.
    return [
        ([asked, HERE, get(1), found(1, term, seq)], yes(2)),
        ([asked, HERE, get(1), found(1, term, seq + 1)], no_writer(3, 1)),
        ([asked, HERE, get(1), found(1, term + 1, seq)], no_writer(3, 1)),
    ]


def deleted_shown(asked, term, seq):
    # What was there is created again after it; but no other write takes its pair.
    before = made(term, seq - 1)
    return [
        ([*before, asked, HERE, index(2), created(2, term, seq + 1)], yes(3)),
        ([*before, asked, HERE, index(2), created(2, term, seq)], pair_twice(5, 0, 2)),
    ]


def not_found_shown(asked, term, seq):
    # The same if nothing was there.
    return [
        ([asked, HERE, index(1), created(1, term, seq + 1)], yes(2)),
        ([asked, HERE, index(1), created(1, term, seq)], pair_twice(3, 0, 1)),
    ]


def found_shown(asked, term, seq):
    # It found 1 at the pair, so no other number of the three may have been written. Else the get would be left out.
    return [
        ([*made(term, seq), asked, HERE], yes(2)),
        ([*made(term, seq + 1), asked, HERE], no_writer(3, 0)),
        ([*made(term + 1, seq), asked, HERE], no_writer(3, 0)),
        ([*made(term, seq, k=2), asked, HERE], no_writer(3, 0)),
    ]


def missing_shown(asked):
    # It is right if nothing was written, and wrong after a write.
    return [([asked, HERE], yes(1)), ([*made(1, 0), asked, HERE], no(3, 0))]


def conflict_shown(asked):
    # It is wrong without a condition, and right under one that isn't met. Of unknown outcome the call would be left
    # out.
    under_condition = index(0, condition(1, 5))
    return [([asked, HERE], no(1, 0)), ([*made(1, 0), under_condition, HERE], yes(2))]


def unknown_shown(asked):
    # A get is left out, whatever was written. A write may have been performed with any pair, or not at all.
    if asked == get(0):
        return [([asked, HERE], yes(1, left_out=1)), ([*made(1, 0), asked, HERE], yes(2, left_out=1))]
    return [
        ([asked, HERE, get(1), found(1, 1, 0)], yes(2)),
        ([asked, HERE, get(1), found(1, 1, 7)], yes(2)),
        ([asked, HERE, get(1), missing(1)], yes(2, left_out=1)),
    ]


def stranger_shown(asked):
    return [([asked, HERE], refused(2, "stranger"))]


# Of what is heard the histories that show it, with their answers: those of the call `asked`, which is call 0.
SHOWN = {
    "created": created_shown,
    "deleted": deleted_shown,
    "not_found": not_found_shown,
    "found": found_shown,
    "missing": missing_shown,
    "conflict": conflict_shown,
    "unknown": unknown_shown,
    "stranger": stranger_shown,
}

FOUND_REPLY = reply(1, 200, '{"_index":"i","_id":"d","_version":1,"_seq_no":0,"_primary_term":1,"found":true,"_source":{"k":1}}').strip()

# Lines that are taken, and histories that show how each is read, with their answers.
TAKEN = [
    (
        '{"e":"call","n":0,"id":"d","op":"index","k":1}',
        [
            # It writes 1.
            ([HERE, created(0, 1, 0), get(1), found(1, 1, 0, k=1)], yes(2)),
            ([HERE, created(0, 1, 0), get(1), found(1, 1, 0, k=2)], no_writer(3, 1)),
            # It is an index, which updates what is there, without a condition.
            ([index(1), created(1, 1, 0), HERE, updated(0, 1, 1)], yes(2)),
            ([HERE, conflict(0)], no(1, 0)),
        ],
    ),
    (
        '{"e":"call","n":2,"id":"d","op":"index","k":3,"if_primary_term":1,"if_seq_no":0}',
        [
            # Its condition is 1/0: there is no conflict if the document is at that pair, and one if it is at
            # another.
            ([index(0), created(0, 1, 0), HERE, conflict(2)], no(3, 2)),
            ([index(0), created(0, 1, 1), HERE, conflict(2)], yes(2)),
            ([index(0), created(0, 2, 0), HERE, conflict(2)], yes(2)),
            # It writes 3.
            ([index(0), created(0, 1, 0), HERE, updated(2, 1, 1), get(3), found(3, 1, 1, k=3)], yes(3)),
            ([index(0), created(0, 1, 0), HERE, updated(2, 1, 1), get(3), found(3, 1, 1, k=4)], no_writer(5, 3)),
        ],
    ),
    (
        '{"e":"call","n":0,"id":"d","op":"delete","shard":1023}',
        [
            # It is a delete of d without a condition.
            ([index(1, ',"shard":1023'), created(1, 1, 0), HERE, deleted(0, 1, 1)], yes(2)),
            ([HERE, conflict(0)], no(1, 0)),
            # On its shard no other write takes its pair; on others one does.
            ([HERE, not_found(0, 1, 0), index(1, ',"shard":1023', "e"), created(1, 1, 0)], pair_twice(3, 0, 1)),
            ([HERE, not_found(0, 1, 0), index(1, ',"shard":0', "e"), created(1, 1, 0)], yes(2, docs=2)),
        ],
    ),
    (
        '{"e":"call","n":0,"id":"d","op":"get","k":null,"if_seq_no":"x"}',
        [
            # It is a get: these replies show nothing of another operation, and it would be left out.
            ([HERE, missing(0)], yes(1)),
            ([index(1), created(1, 1, 0), HERE, found(0, 1, 0)], yes(2)),
            ([index(1), created(1, 1, 0), HERE, missing(0)], no(3, 0)),
        ],
    ),
    (
        '{"e":"call","n":0,"id":"d","op":"create","k":1,"if_seq_no":null}',
        [
            # It writes 1.
            ([HERE, created(0, 1, 0), get(1), found(1, 1, 0, k=1)], yes(2)),
            ([HERE, created(0, 1, 0), get(1), found(1, 1, 0, k=2)], no_writer(3, 1)),
            # It is a create without a condition: there is a conflict if the document is there, and no other one.
            ([index(1), created(1, 1, 0), HERE, conflict(0)], yes(2)),
            ([HERE, conflict(0)], no(1, 0)),
        ],
    ),
    (
        '{"e":"call","n":5,"id":"d","op":"delete","if_seq_no":2,"if_primary_term":3,"shard":7}',
        [
            # It is call 5, of d, and its condition is 3/2.
            ([index(4, ',"shard":7'), created(4, 3, 2), HERE, conflict(5)], no(3, 5)),
            ([index(4, ',"shard":7'), created(4, 3, 3), HERE, conflict(5)], yes(2)),
            ([index(4, ',"shard":7'), created(4, 2, 2), HERE, conflict(5)], yes(2)),
            ([index(4, ',"shard":7'), created(4, 2, 3), HERE, conflict(5)], yes(2)),
            # It is a delete.
            ([index(4, ',"shard":7'), created(4, 3, 2), HERE, deleted(5, 3, 3), get(6, ',"shard":7'), missing(6)], yes(3)),
            # Its shard is 7.
            ([index(4, ',"shard":6'), HERE], refused(2, "shard-moved")),
        ],
    ),
    (
        '{"e":"reply","n":0,"status":65535}',
        [
            # It ends call 0, and shows nothing of it.
            ([index(0), HERE], yes(1, left_out=1)),
            ([index(0), HERE, get(1), found(1, 1, 0)], yes(2)),
            ([index(0), HERE, conflict(0)], refused(3, "ended")),
        ],
    ),
    (
        '{"e":"lost","n":18446744073709551615,"status":"x"}',
        [
            # It ends the call with the greatest number, and shows nothing of it. As a reply it would be refused for its
            # status.
            ([index(MOST_NUMBER), HERE], yes(1, left_out=1)),
            ([index(MOST_NUMBER), HERE, conflict(MOST_NUMBER)], refused(3, "ended")),
            ([index(MOST_NUMBER - 1), HERE], refused(2, "no-call")),
        ],
    ),
    (
        FOUND_REPLY,
        [
            # It is the reply to call 1, and a get of d found 1 at 1/0. If it showed nothing the get would be left out.
            ([index(0), created(0, 1, 0), get(1), HERE], yes(2)),
            ([index(0), created(0, 1, 1), get(1), HERE], no_writer(3, 1)),
            ([index(0), created(0, 2, 0), get(1), HERE], no_writer(3, 1)),
            ([index(0, k=2), created(0, 1, 0), get(1), HERE], no_writer(3, 1)),
            ([index(0), created(0, 1, 0), get(1, doc="e"), HERE], refused(4, "stranger")),
            ([index(0), created(0, 1, 0), get(2), HERE], refused(4, "no-call")),
            # It has no result: of a write it shows nothing.
            ([index(0), created(0, 1, 0), index(1), HERE], yes(2, left_out=1)),
        ],
    ),
    (
        FOUND_REPLY.replace("200", "409"),
        [
            # It has no error, so it is no conflict.
            ([index(0), created(0, 1, 0), index(1), HERE], yes(2, left_out=1)),
        ],
    ),
    (
        '{"e":"reply","status":200,"n":1,"body":{"_id":"d","found":true},"n":2,"body":{"_source":{"k":1,"k":[]}}}',
        [
            # It ends call 2, and not call 1, and shows nothing of it.
            ([get(1), get(2), HERE, missing(1)], yes(2, left_out=1)),
            ([get(1), get(2), HERE, missing(2)], refused(4, "ended")),
        ],
    ),
    (
        '{"e":"reply","status":200,"n":1,"body":{"_id":"x","found":true},"n":2,"body":{"_source":{"k":1,"k":[]}}}',
        [
            # The first body's id doesn't count, else this were a stranger's reply.
            ([get(1), get(2), HERE, missing(1)], yes(2, left_out=1)),
        ],
    ),
    (
        '{"e":"reply","status":200,"n":2,"body":{"_seq_no":0,"_primary_term":1,"found":true},"body":{"_source":{"k":1}}}',
        [
            # No field of the first body counts, else this get had found what nobody wrote.
            ([get(2), HERE], yes(1, left_out=1)),
        ],
    ),
    (
        '{"e":"reply","status":200,"n":2,"body":{"_seq_no":0,"_primary_term":1,"found":true,"_source":{"k":1,"k":[]}}}',
        [
            # The last k is no number, so nothing is shown.
            ([get(2), HERE], yes(1, left_out=1)),
        ],
    ),
    (
        '{"e":"reply","status":200,"n":2,"body":{"_seq_no":0,"_primary_term":1,"found":true,"_source":{"k":[],"k":1}}}',
        [
            # The last k is a number, so this get found 1 at 1/0.
            ([index(1), created(1, 1, 0), get(2), HERE], yes(2)),
            ([get(2), HERE], no_writer(1, 2)),
        ],
    ),
]

# Members of a line that name the number of a call, and that number, or the cause against it.
NUMBERS = [
    ("", "shape"),
    (',"n":18446744073709551615', MOST_NUMBER),
    (',"n":9999999999999999999', 10**19 - 1),
    (',"n":10000000000000000000', 10**19),
    (',"n":18446744073709551616', "range"),
    (',"n":1.0', "range"),
    (',"n":1e3', "range"),
    (',"n":-0', "range"),
    (',"n":-1', "range"),
    (',"n":"d"', "shape"),
    (',"n":1,"\\u006e":2', 2),
    (',"n":true', "shape"),
    (',"n":null', "shape"),
    (',"n":[]', "shape"),
]


def numbered(rest, wanted):
    """The lines of a delete with a conflict that has no cause, whose answer names the number of the call."""
    lines = [
        f'{{"e":"call","id":"d","op":"delete"{rest}}}\n',
        f'{{"e":"reply","status":409,"body":{{"error":{{"type":"version_conflict_engine_exception"}}}}{rest}}}\n',
    ]
    return lines, refused(1, wanted) if isinstance(wanted, str) else no(1, wanted)


def nested_object(depth):
    """An object that nests so deep."""
    return '{"at":' + nested(depth - 1) + "}"


# Lines that are refused, and their causes.
REFUSED = [
    ("[]", "shape"),
    ('{"e":"end","n":0}', "shape"),
    ('{"e":"lost","n":null}', "shape"),
    ('{"e":"lost","n":18446744073709551616}', "range"),
    ('{"e":"reply","n":0,"status":65536}', "range"),
    ('{"e":"reply","n":-1,"status":"x"}', "shape"),
    ('{"e":"call","n":0,"id":"d","op":"create"}', "shape"),
    ('{"e":"call","n":0,"id":"d","op":"update"}', "shape"),
    ('{"e":"call","n":-1,"id":"","op":"get"}', "id"),
    ('{"e":"call","n":-1,"id":"","op":"get","shard":null}', "shape"),
    ('{"e":"call","n":-1,"id":"d","op":"delete","if_seq_no":1}', "half"),
    ('{"e":"call","n":0,"id":"d","op":"index","k":1.0}', "range"),
    ('{"e":"call","n":0,"id":"d","op":"delete","if_seq_no":9223372036854775808,"if_primary_term":1}', "range"),
    ('{"e":"call","n":0,"id":"d","op":"get","shard":1024}', "range"),
    ('{"e":', "json"),
    ("{} {}", "json"),
    ("1e999", "json"),
    ("\ufeff{}", "json"),
    ('{"e":"\\ud800"}', "json"),
    # What the quick way may not take for a line of fields.
    ('{"n":01}', "json"),
    ('{"at":[1e999]}', "json"),
    ('{"at":[1,]}', "json"),
    ('{"n":1,}', "json"),
    ('{"n":1}}', "json"),
    ('{"n":1},', "json"),
    ('{"n"}', "json"),
    ('{"n":"a":1}', "json"),
    ('{"n":truer}', "json"),
    (nested_object(DEPTH + 1), "json"),
]

# Lines that are refused by themselves, their causes, and whether the quick way takes them.
QUICK = [
    ("{}", "shape", True),
    (FOUND_REPLY, "no-call", True),
    ('{"n":1,"body":{"_id":"d","found":true},"n":2,"body":{"_source":{"k":1,"k":[]}}}', "shape", True),
    ('{"n":9999999999999999999}', "shape", True),
    ('{"n":10000000000000000000}', "shape", False),
    ('{"n":-0}', "shape", False),
    ('{"n":1.0}', "shape", False),
    ('{"at":[true,{"n":null}],"n":false}', "shape", True),
    ('{"n":"a\\n"}', "shape", False),
    ('{"n":"\u00e9"}', "shape", False),
    ('{"body":1}', "shape", False),
    (' { "n": 1 , "at": [ true\t, "a b" ] , "body": { } } \r', "shape", True),
    ('{"n" :1}', "shape", False),
    ("[1]", "shape", False),
    (nested_object(DEPTH), "shape", True),
]

# A sequence number and a term, each as it is spelled, or absent; and what they are: no pair, a cause, or a pair.
PAIRS = [
    (None, None, None),
    ("0", None, "half"),
    (None, "9223372036854775807", "half"),
    ("1.0", None, "half"),
    ("0", "0", "range"),
    ("9223372036854775808", "9223372036854775807", "range"),
    ("9223372036854775807", "9223372036854775808", "range"),
    ("1.0", "9223372036854775807", "range"),
    ("0", "9223372036854775807", (MOST_OF_PAIR, 0)),
]

# Pairs that a document has: the last of those above, and two that differ from it by one number.
PAIRS_HELD = [(MOST_OF_PAIR, 0), (MOST_OF_PAIR, 1), (1, 0)]


def members(names, numbers):
    """Members with these names, each after a comma; an absent number has none."""
    return "".join(f',"{name}":{number}' for name, number in zip(names, numbers) if number is not None)


def condition_rows(seq, term, pair):
    """The numbers as a condition: of a call, for which there may be a conflict if the document is at another pair,
    and nowhere else; and of a bulk's action, whose call line has them."""
    rest = members(("if_seq_no", "if_primary_term"), (seq, term))
    action = f'{{"delete":{{"_id":"a"{rest}}}}}\n'
    if isinstance(pair, str):
        bulk = refused(1, pair)
        yield "check", [delete(0, rest)], refused(1, pair)
    else:
        bulk = written_call(0, "delete", "a", condition(term, seq) if pair else "") + lost(0)
        for at in PAIRS_HELD:
            text = index(0) + created(0, *at) + delete(1, rest) + conflict(1)
            yield "check", [text], no(3, 1) if pair in (None, at) else yes(2)
    yield "bulk", [action, '{"items":[{"delete":{}}]}'], bulk


def witness_rows(seq, term, pair):
    """The numbers as the pair that a witness gives to a lost write; the get after it has to find the same."""
    witness = witness_of("d", []) + f'{{"rec":0{members(("seq", "term"), (seq, term))}}}\n{{"rec":1}}\n'
    for at in PAIRS_HELD:
        history = index(0) + lost(0) + get(1) + found(1, *at)
        if isinstance(pair, str):
            wanted = refused(2, pair, "witness")
        elif pair is None:
            wanted = broken("pair-missing place=0")
        else:
            wanted = verified(2) if pair == at else broken("illegal place=1")
        yield "verify", [history, witness], wanted


# Bodies of bulk requests, replies to them, and what is written.
NO_ITEMS = '{"items":[]}'
SOURCE_OF_A = '{"index":{"_id":"a"}}'
BULKS = [
    (
        '\r\n{"create":{"_id":"c","if_seq_no":"x"}}\n \t\n{"k":3}',
        '{"items":[{"create":{}}]}',
        written_call(0, "create", "c", ',"k":3') + lost(0),
    ),
    # Lines where an action has to stand.
    ('{"index":', NO_ITEMS, refused(1, "syntax")),
    ("\n[]", NO_ITEMS, refused(2, "action")),
    ('{"update":{"_id":"a"}}', NO_ITEMS, refused(1, "action")),
    ('{"delete":"a"}', NO_ITEMS, refused(1, "action")),
    ('{"delete":{"_id":"a"},"index":{"_id":"a"}}', NO_ITEMS, refused(1, "action")),
    ('{"delete":{}}', NO_ITEMS, refused(1, "action")),
    ('{"delete":{"_id":""}}', NO_ITEMS, refused(1, "action")),
    ('{"delete":{"_id":"a","if_seq_no":null}}', NO_ITEMS, refused(1, "action")),
    ('{"delete":{"_id":"a","if_seq_no":-1}}', NO_ITEMS, refused(1, "half")),
    ('{"delete":{"_id":"a","if_seq_no":-1,"if_primary_term":1}}', NO_ITEMS, refused(1, "range")),
    # Lines where a source has to stand.
    (SOURCE_OF_A, NO_ITEMS, refused(2, "source")),
    (SOURCE_OF_A + "\n", NO_ITEMS, refused(2, "source")),
    (SOURCE_OF_A + "\n\n \n", NO_ITEMS, refused(4, "source")),
    (SOURCE_OF_A + '\n{"k":1', NO_ITEMS, refused(2, "syntax")),
    (SOURCE_OF_A + "\n{}", NO_ITEMS, refused(2, "source")),
    (SOURCE_OF_A + "\n[1]", NO_ITEMS, refused(2, "source")),
    (SOURCE_OF_A + '\n\n{"k":1.0}', NO_ITEMS, refused(3, "source")),
    (SOURCE_OF_A + '\n{"k":18446744073709551616}', NO_ITEMS, refused(2, "source")),
    (SOURCE_OF_A + '\n{"k":18446744073709551615}\n{}', NO_ITEMS, refused(3, "action")),
    (
        SOURCE_OF_A + '\n{"k":18446744073709551615}',
        '{"items":[{"index":{}}]}',
        written_call(0, "index", "a", ',"k":18446744073709551615') + lost(0),
    ),
    # Blank lines: the longest one, and one that is longer.
    (" " * LINE_BYTES, NO_ITEMS, ""),
    (" " * (LINE_BYTES + 1), NO_ITEMS, refused(1, "syntax")),
    # Lines with a carriage return before the line feed, with nothing, and with no line feed.
    ("{}\r\n\n\t x", NO_ITEMS, refused(1, "action")),
    ('{"delete":{"_id":"a"}}\r\n\n\t x', NO_ITEMS, refused(3, "syntax")),
    ('{"delete":{"_id":"a"}}\r\n\n\t {}', NO_ITEMS, refused(3, "action")),
]

# The body of the case `bulk`: an index, a delete and an index. The lines of its calls, and those that show nothing of
# them.
BODY = case_text("bulk", "body")
CALLS = "".join(case_text("bulk", "stdout").splitlines(keepends=True)[:3])
LOST = "".join(map(lost, range(3)))

# Replies to that body, and what is written.
BULK_REPLIES = [
    ('{"items":', refused(1, "syntax")),
    ("[]", REFUSED_COUNT),
    ('{"items":{}}', REFUSED_COUNT),
    ('{"items":[{"index":{}},{"index":{}},{"index":{}}]}', refused_item(1)),
    ('{"items":[{"index":{}},{"delete":{}},{"index":{},"delete":{}}]}', refused_item(2)),
    ('{"items":[{"index":1},{"delete":{}},{"index":{}}]}', refused_item(0)),
    # A stranger, whatever its status, is reported after an item that is none; and statuses that are none show nothing.
    ('{"items":[{"index":{"_id":"x","status":"x"}},{"delete":{"_id":"b","status":65536}},{"index":{}}]}', refused_item(0)),
    ('{"items":[{"index":{"_id":"x","status":"x"}},{"delete":{"_id":"b","status":65536}},{"index":1}]}', refused_item(2)),
    ('{"items":[{"index":{"_id":"a","status":"x"}},{"delete":{"_id":"b","status":65536}},{"index":{}}]}', CALLS + LOST),
    # Each line that is no JSON.
    *((line, refused(1, "syntax")) for line, cause in REFUSED if cause == "json"),
]

# An action, the status and the fields of its item's body, and the body of the reply that is written.
WRITTEN = [
    ("index", 201, '"result":"created","_seq_no":0,"_primary_term":1', '{"_id":"a","_primary_term":1,"_seq_no":0,"result":"created"}'),
    ("index", 200, '"result":"updated","_seq_no":0,"_primary_term":1', '{"_id":"a","_primary_term":1,"_seq_no":0,"result":"updated"}'),
    ("delete", 200, '"result":"deleted","_seq_no":1,"_primary_term":1', '{"_id":"a","_primary_term":1,"_seq_no":1,"result":"deleted"}'),
    ("delete", 404, '"result":"not_found","_seq_no":1,"_primary_term":1', '{"_id":"a","_primary_term":1,"_seq_no":1,"result":"not_found"}'),
    ("index", 409, '"error":{"type":"version_conflict_engine_exception"}', '{"error":{"type":"version_conflict_engine_exception"}}'),
]


def written_row(action, status, fields, body):
    """A bulk of one item, and the lines that are written of it."""
    source, k = ('{"k":7}\n', ',"k":7') if action == "index" else ("", "")
    item = f'{{"{action}":{{"_id":"a","status":{status},{fields}}}}}'
    wanted = written_call(0, action, "a", k) + written_reply(0, status, body)
    return "bulk", [f'{{"{action}":{{"_id":"a"}}}}\n{source}', f'{{"items":[{item}]}}'], wanted


# How many calls and documents a run of one client has, in which gets find documents and miss them.
RUN_CALLS, RUN_DOCS = 60, 2

# A line that is taken, and a reply to it.
ASKED, ANSWERED = get(0).strip(), missing(0).strip()

# Texts that are read so many bytes at a time, and their answers.
PARTS = [
    (text, size, wanted)
    for text, wanted in [
        ("", yes(0, docs=0)),
        ("\n", yes(0, docs=0)),
        ("\n{", refused(2, "json")),
        ("{}", refused(1, "shape")),
        ("{}\r\n\n\t x", refused(1, "shape")),
        ("{}\r\n\n\t x\n", refused(1, "shape")),
        # The same with a first line that is accepted: the third is reported as the third, with a line feed and without, and
        # read whole.
        (ASKED + "\r\n\n\t x", refused(3, "json")),
        (ASKED + "\r\n\n\t x\n", refused(3, "json")),
        (ASKED + "\r\n\n\t " + ANSWERED, yes(1)),
        (ASKED + "\r\n\n\t " + ANSWERED + "\n", yes(1)),
        (ASKED + "\r\n\n\t " + ANSWERED + "\n{", refused(4, "json")),
    ]
    for size in (1, 2, 3, 64)
] + [
    (" " * length + "\n", size, wanted)
    for length, wanted in [(LINE_BYTES, yes(0, docs=0)), (LINE_BYTES + 1, refused(1, "long")), (200_000, refused(1, "long"))]
    for size in (4_096, 32_768)
]

# Texts that are read so, and the answers; and the lines that are refused, as stories show them.
SHOWN_LINES = [
    ("{}\r\n\n\t x", refused(1, "shape"), "{}\\u{d}"),
    (ASKED + "\r\n\n\t x", refused(3, "json"), "\\u{9} x"),
    (ASKED + "\r\n\n\t x\n", refused(3, "json"), "\\u{9} x"),
]


def spaced(line):
    """The line with a space before its first colon."""
    return line.replace('":', '" :', 1)


def gets_of(lines):
    """The gets in the lines of a run: the place of each reply, and what it has to be after the writes before it."""
    held = {}
    for at in range(0, len(lines), 2):
        asked, body = json.loads(lines[at]), json.loads(lines[at + 1])["body"]
        name, numbers = asked["id"], f'"_primary_term":{body.get("_primary_term")},"_seq_no":{body.get("_seq_no")}'
        if asked["op"] == "get" and held.get(name):
            yield at + 1, written_reply(asked["n"], 200, f'{{"_id":"{name}",{held[name]},"found":true}}')
        elif asked["op"] == "get":
            yield at + 1, written_reply(asked["n"], 404, f'{{"_id":"{name}","found":false}}')
        elif "_seq_no" in body:
            held[name] = None if asked["op"] == "delete" else f'{numbers},"_source":{{"k":{asked["k"]}}}'


def history_rows():
    """The rows about lines of histories: the texts of a check, and its answers."""
    rows = list(TAKEN)
    for op, status, body, heard in REPLIES:
        kind, _, pair = heard.partition(" ")
        asked = call(0, op, ',"k":1' if op in ("index", "create") else "")
        rows.append((reply(0, status, body).strip(), SHOWN[kind](asked, *(pair_of(pair) if pair else ()))))
    rows += [(line, [([HERE], refused(1, cause))]) for line, cause, *_ in REFUSED + QUICK]
    for line, histories in rows:
        for (lines, wanted), form in itertools.product(histories, dict.fromkeys([line, spaced(line)])):
            yield "".join(lines).replace(HERE, f"{form}\n"), wanted
    for rest, wanted in NUMBERS:
        lines, answer = numbered(rest, wanted)
        yield "".join(lines), answer
        yield "".join(map(spaced, lines)), answer


def text_rows():
    """The rows about texts in files: a command, its texts, and what it writes."""
    yield from (("check", [text], wanted) for text, wanted in history_rows())
    for row in PAIRS:
        yield from condition_rows(*row)
        yield from witness_rows(*row)
    yield from (("bulk", [body, answer], wanted) for body, answer, wanted in BULKS)
    yield from (("bulk", [BODY, answer], wanted) for answer, wanted in BULK_REPLIES)
    yield from (written_row(*row) for row in WRITTEN)


class Replies(AnswersTest):
    """How texts are read, and what is written."""

    def test_texts(self):
        rows = [(f"{command} {texts}", command, texts, wanted) for command, texts, wanted in text_rows()]
        self.run_subtests(self.check_files, rows)

    def test_parts(self):
        """Texts that are read so many bytes at a time."""
        rows = [(f"{text} by {size}", "check", text, size, wanted) for text, size, wanted in PARTS]
        self.run_subtests(self.check_parts, rows)

    def check_shown(self, text, size, wanted, line):
        status, out, err = run_by_parts(self.program, "explain", text, size)
        first, *_, last = out.splitlines(keepends=True)
        self.assertEqual((status, first, last.strip() + err), (2, wanted, line))

    def test_shown_lines(self):
        """The story of a refused line shows it."""
        rows = itertools.product(SHOWN_LINES, (1, 2, 3, 64))
        rows = [(f"the line of {text} by {size}", text, size, wanted, line) for (text, wanted, line), size in rows]
        self.run_subtests(self.check_shown, rows)

    def test_line_without_end(self):
        """A line that is too long is refused before its end comes."""
        for size in (4_096, 32_768):
            with self.subTest(size=size):
                self.check_parts("check", " " * (LINE_BYTES + 1), size, refused(1, "long"), is_ended=False)

    def test_run(self):
        """What a run writes of gets, and how it is read back: what was found, and nothing else."""
        text = text_of_run(self.program, calls=RUN_CALLS, docs=RUN_DOCS)
        lines = text.splitlines(keepends=True)
        gets = list(gets_of(lines))
        with self.subTest("the gets"):
            self.assertEqual([lines[at] for at, _ in gets], [wanted for _, wanted in gets])
        with self.subTest("the kinds of replies to them"):
            self.assertEqual({json.loads(wanted)["status"] for _, wanted in gets}, {200, 404})
        with self.subTest("the run as it is"):
            self.check_files("check", [text], yes(RUN_CALLS, docs=RUN_DOCS))
        at, line = next((at, line) for at, line in gets if '"found":true' in line)
        for name in ("k", "_seq_no", "_primary_term"):
            other = "".join([*lines[:at], line.replace(f'"{name}":', f'"{name}":9'), *lines[at + 1 :]])
            with self.subTest(f"another {name}"):
                self.check_files("check", [other], no_writer(at, json.loads(line)["n"]))

    def check_growths(self, growths, few, line, cause, is_quick):
        wanted = ((2, refused(1, cause).encode(), b""), False) if is_quick else (NO_MEMORY, True)
        self.assertEqual(growths.check(line, few), wanted)

    @needs_compiler
    def test_quick_lines(self):
        """The lines that are read by the quick way ask for no more growths than an object with nothing in it. The
        others don't get the next growth here, and so there is no answer to them."""
        with tempfile.TemporaryDirectory() as folder:
            growths = Growths(self.program, folder)
            few = growths.count("{}")
            self.run_subtests(self.check_growths, [(f"growths of {row[0]}", growths, few, *row) for row in QUICK])


if __name__ == "__main__":
    sys.exit(run_tests())

#!/usr/bin/env python3
"""Has the built program write stories, with a page and without, and checks what they say.

    python3 tests/stories.py [PROGRAM]

PROGRAM is the built casbench; if it isn't named, the one that ./casbench would run. The history of each text case gets
a story: it begins with the line of a check and ends with its status, and is the same if a page is written too. The
texts below get one too: a text with an id that is markup, two that are too long for a whole story, and some that were
written by hand for the reasons that a story gives. What is wanted of those follows from the rules of the register, and
not from the program.
"""

import datetime
import gzip
import pathlib
import re
import sys
import tempfile

from case_files import all_cases
from program_test import ProgramTest, run_tests
from running import bytes_of, run, said
from texts import MOST_OF_PAIR, READINGS, condition, conflict, create, created, delete, deleted, found, get, index, lost, missing, no
from texts import no_writer, refuted, reply, updated

# A get of what nobody wrote, of a document with markup for its id, after blank lines.
MARKUP = "\n\n" + get(0, doc=r"<script>alert(\"1\")</script>&") + "\n" + found(0, 1, 0, k=2)


def a_write(number):
    """The lines of a write that is performed after as many."""
    return index(number, k=number) + (updated if number else created)(number, 1, number)


# A thousand calls that were never answered, and then a get of what nobody wrote.
OPEN_CALLS = "".join(map(index, range(1_000))) + get(1_000) + found(1_000, 1, 0, k=2)

# A hundred writes, one after the other, and then a get of the first version.
LONG_ORDER = "".join(map(a_write, range(100))) + get(100) + found(100, 1, 0, k=0)

# When the calls of the next text were made, in milliseconds since 1970, and in words.
MADE = 1_764_079_389_123


def written(line, time):
    """The line of an event, with when it was written."""
    return line.replace('{"e":', f'{{"t":{time},"e":', 1)


def written_at_end(line, time):
    """The same behind all other members."""
    return line.replace("}\n", f',"t":{time}}}\n')


def at(time):
    """When a line was written, in words, to the millisecond."""
    return datetime.datetime.fromtimestamp(time / 1000, datetime.timezone.utc).strftime("%Y-%m-%dT%H:%M:%S.%f")[:-3] + "Z"


def clock(time):
    """The same without its date, which is given once for all lines."""
    return at(time)[11:-1]


# A get of an old version. Some lines say when they were written; what others say is no time.
TIMED = (
    written(index(0, k=0), MADE) + created(0, 1, 0).replace("}}\n", ',"t":5}}\n') + written(index(1), '"soon"') + written(updated(1, 1, 1), -1.5)
    + written(get(2), MADE + 2_000) + written_at_end(found(2, 1, 0, k=0), MADE + 86_400_007)
)

# Name, text, how the story begins, what it has, and how often the page has what.
TEXTS = [
    (
        "lines that say when they were written",
        TIMED,
        refuted("stale-get", "2,1", 5, 2),
        [
            f"\n! line 5 at {at(MADE + 2_000)}, call 2: get -> line 6 at {at(MADE + 86_400_007)}: k=0 at 1/0\n",
            "\n* line 3, call 1: index k=1 -> line 4: updated as 1/1\n",
            f"(line 4) before call 2, a get, was made (line 5 at {at(MADE + 2_000)}).",
            f"  line 1 at {at(MADE)}, call 0: index k=0 -> line 2: created as 1/0\n",
        ],
        {
            f"5 at {at(MADE + 2_000)}": range(2, 100),
            f"1 at {at(MADE)}": range(1, 100),
            f'<td class="mono">5 at {at(MADE + 2_000)}</td>': [1],
            f'<span class="when">line 6 at {at(MADE + 86_400_007)}</span>: k=0 at 1/0': [1],
            f"<dt>written</dt><dd>{at(MADE)} to {at(MADE + 86_400_007)}</dd>": [1],
            "Times are in UTC": [0],
        },
    ),
    (
        "lines that say who asked, and a note",
        written(index(0, ',"client":"cart"'), MADE) + written(created(0, 1, 0), MADE + 1) + written(index(1, ',"client":"p\\u0061y"', k=2), MADE + 2)
        + written(updated(1, 1, 1), MADE + 3) + written(get(2, ',"client":"cart","note":"node 2 is <back>"'), MADE + 4) + written(found(2, 1, 0), MADE + 5),
        refuted("stale-get", "2,1", 5, 2),
        [
            f"\nTimes are in UTC, on {at(MADE)[:10]} unless another date is given.\n",
            f"\n  line 1 at {clock(MADE)}, call 0 by cart: index k=1 -> line 2 at {clock(MADE + 1)}: created as 1/0\n",
            f"\n* line 3 at {clock(MADE + 2)}, call 1 by pay: index k=2 -> line 4 at {clock(MADE + 3)}: updated as 1/1\n",
            f"\n  line 5 at {clock(MADE + 4)}, note: node 2 is <back>\n! line 5 at {clock(MADE + 4)}, call 2 by cart: get -> ",
        ],
        {
            "<th>client</th>": [1],
            f'<td class="mono">1 at {clock(MADE)}</td><td class="mono">0</td><td class="mono">cart</td>': [1],
            f'<tr class="note"><td>note</td><td class="mono">5 at {clock(MADE + 4)}</td><td colspan="5">node 2 is &lt;back&gt;</td></tr>': [1],
            '<g class="note" tabindex="0"><title>line 5: node 2 is &lt;back&gt;</title>': [1],
            f"<dt>written</dt><dd>{at(MADE)[:10]}, {clock(MADE)} to {clock(MADE + 5)} (UTC)</dd>": [1],
            "<dt>history</dt><dd>events: 6; calls: 3; documents: 1</dd>": [1],
        },
    ),
    (
        "an id of markup",
        MARKUP,
        "refuted kind=no-writer ",
        ['"<script>alert("1")</script>&" on shard 0', "! line 3, call 0: get -> line 5: k=2 at 1/0"],
        {"<details>": [0], "<script": [0], "&lt;script&gt;alert(&quot;1&quot;)&lt;/script&gt;&amp;": range(1, 100)},
    ),
    (
        "a thousand open calls",
        OPEN_CALLS,
        no_writer(1_001, 1_000),
        [
            "Earlier calls left out: 961.",
            "  line 962, call 961: index k=1 -> no reply (open at the same time: 962, 963, 964, 965, 966, 967, 968, 969 and 992 more)\n",
            "Left out: 960.",
        ],
        {'<g class="bar': [1 + 200], '<g class="bar lost"': [199]},
    ),
    (
        "the end of a long order",
        LONG_ORDER,
        refuted("stale-get", "100,1", 201, 100),
        [
            "\n  line 1, call 0: index k=0 -> line 2: created as 1/0\n* line 3, call 1: index k=1 -> line 4: updated as 1/1\n! line 201,",
            "\n\nThe other calls, in the order of their events:\n  line 127, call 63: index k=63 -> line 128: updated as 1/63\n",
            "\nEarlier calls left out: 61.\n",
            "\nEarlier calls of this order, not shown: 60.\nFurther calls of it, only on the page of --html: 32.\n  call 92: index k=92 -> 1/92 k=92\n",
            "\n  call 99: index k=99 -> 1/99 k=99\n",
        ],
        {},
    ),
]


# An order may be there that was not found: one write without a reply is needed twice, for a version that a get shows
# and for a conflict.
NEEDED_TWICE = (
    index(0) + created(0, 1, 0) + index(1, k=9) + lost(1) + get(2) + found(2, 1, 1, k=9)
    + index(3, condition(1, 1), k=2) + updated(3, 1, 2) + create(5, k=5) + lost(5) + index(4, condition(1, 2), k=4) + conflict(4)
)

# The search fails at a document of shard 0, and the evidence is a stale get of another one of shard 1.
OTHER = ',"shard":1'
TWO_DOCUMENTS = (
    index(0, doc="a") + lost(0) + create(1, doc="a", k=2) + lost(1) + get(2, doc="a") + found(2, 1, 0, k=1)
    + get(3, doc="a") + found(3, 1, 1, k=1)
    + index(4, OTHER, "b", k=3) + created(4, 1, 0) + index(5, OTHER, "b", k=4) + updated(5, 1, 1) + get(6, OTHER, "b") + found(6, 1, 0, k=3)
)

# A conflict without a cause, and then a stale get of another document.
CONFLICT_FIRST = (
    index(0, doc="a") + created(0, 1, 0) + index(1, doc="a", k=2) + conflict(1)
    + index(2, OTHER, "b", k=3) + created(2, 1, 0) + index(3, OTHER, "b", k=4) + updated(3, 1, 1) + get(4, OTHER, "b") + found(4, 1, 0, k=3)
)

# The line of the write stands behind the reply to the get that shows it.
LATE_LINE = get(1) + found(1, 1, 0, k=1) + index(0) + created(0, 1, 0)

TEXTS += [
    (
        "a write that is needed twice",
        NEEDED_TWICE,
        no(11, 4),
        [
            "\nNo order of the calls was found that explains the reply to call 4.\nThis `no` is undecided, so it is no sign of a fault",
            "\nWhat would decide it: ",
            "call 1 (line 3: index k=9, no reply).",
            "`casbench verify`",
        ],
        {"Why no order": [0], "is proved": [0], "<details>": [1]},
    ),
    (
        "evidence of another document",
        TWO_DOCUMENTS,
        refuted("stale-get", "6,5", 7, 3),
        [
            "\nThis is proved by evidence",
            'The search failed first at "a", with the reply to call 3. The calls that prove it are of another document, "b" on shard 1;',
            "Call 5 (index k=4) was answered with the version 1/1 (line 12) before call 6, a get, was made (line 13).",
        ],
        {"<tr class=\"broken\">": [1], "<tr class=\"evidence\">": [2], "Of the document &quot;b&quot;": [0]},
    ),
    (
        "evidence that is complete only with a later line",
        CONFLICT_FIRST,
        refuted("stale-get", "4,3", 3, 1),
        [
            "\nConflict without a cause: ",
            "\nThis is proved, since the document is ruled out",
            "\nCall 1 (index k=2, called in line 3) was answered with a conflict (line 4).",
            "\nThe first line names call 4 (line 10) and call 3 (line 8). That is evidence too, but it is complete only with a line after the reply to call 1.",
        ],
        {"<tr class=\"broken\">": [1], "<tr class=\"evidence\">": [0]},
    ),
    (
        "a line that was written late",
        LATE_LINE,
        no_writer(1, 1),
        ["\nWas a line written late? The reply to call 1 on line 2 shows what call 0 (index k=1) writes, and the line of call 0 comes only after it, on line 3."],
        {},
    ),
    (
        "a write that met a conflict, and may have been performed",
        index(0) + created(0, 1, 0) + index(1, condition(1, 0), k=2) + conflict(1) + get(2) + missing(2),
        no(5, 2),
        [
            "\nThis is proved, though ",
            "\nNo write without a reply or answered with a conflict can have done it:\n  line 3, call 1: index k=2 if at 1/0 -> conflict: it writes, and a delete is needed\n",
        ],
        {},
        "--conflicts",
        "maybe",
    ),
]

# Two gets: one shows a write before it is acknowledged, the next one the version before it.
ONE_COPY_AHEAD = index(0) + created(0, 1, 0) + index(1, k=2) + get(2) + found(2, 1, 1, k=2) + get(3) + found(3, 1, 0) + updated(1, 1, 1)

# A get of a version that was replaced by an acknowledged write, by calls with numbers of their own.
OLDER_GET = index(10) + created(10, 1, 0) + index(21, k=2) + updated(21, 1, 1) + get(32) + found(32, 1, 0)

# A write of a new document that says that it was there: its first attempt made it.
SENT_AGAIN = index(7, k=5) + updated(7, 1, 1) + get(8) + found(8, 1, 1, k=5)

# The line of a call of which the recorder says that nothing was performed.
VOID = '{"e":"lost","n":1,"void":true}\n'

PROFILE = ("--profile", "opensearch")
BY_PROFILE = "\n\nBy what OpenSearch documents:\n"

# What stories say under readings, and of replies that are in no table.
TEXTS += [
    (
        "a write that was answered with a status of no row, and one that was not answered",
        index(0) + created(0, 1, 0) + index(1, k=2) + reply(1, 429, '{"error":{"type":"x"},"status":429}') + index(2, k=3) + lost(2)
        + index(3, k=4) + updated(3, 1, 1) + get(4) + found(4, 1, 0),
        refuted("stale-get", "4,3", 9, 4),
        [
            "\n  line 3, call 1: index k=2 -> line 4: HTTP 429, which doesn't say whether the write was performed\n",
            "\n  line 5, call 2: index k=3 -> no reply (open at the same time: 3, 4)\n",
            "\n* line 7, call 3: index k=4 -> line 8: updated as 1/1 (open at the same time: 2)\n",
            "\n\nWrites of unknown outcome, which may or may not have happened:\n"
            '  line 3, call 1 of "d": index k=2 -> line 4: HTTP 429\n  line 5, call 2 of "d": index k=3\n',
        ],
        {">1 index k=2: HTTP 429<": [1], '<g class="bar lost"': [1], "Writes without a reply, which": [0]},
    ),
    (
        "a get that was answered with a status of no row",
        index(0) + created(0, 1, 0) + get(5) + reply(5, 503, "null") + index(1, k=4) + updated(1, 1, 1) + get(2) + found(2, 1, 0),
        refuted("stale-get", "2,1", 7, 2),
        ["\n  line 3, call 5: get -> line 4: HTTP 503, which doesn't say what was read\n"],
        {"Writes of unknown outcome": [0]},
    ),
    (
        "a stale get, if writes may be performed twice",
        OLDER_GET,
        refuted("stale-get", "32,21", 5, 32),
        [
            "\nThe reply that broke it: line 6, the reply to call 32 (get, called in line 5): k=1 at 1/0. ",
            "\nCall 21 (index k=2) was answered with the version 1/1 (line 4) before call 32, a get, was made (line 5).",
            "\n  line 1, call 10: index k=1 -> line 2: created as 1/0\n* line 3, call 21: index k=2 -> line 4: updated as 1/1\n"
            "! line 5, call 32: get -> line 6: k=1 at 1/0\n",
            "  call 10: index k=1 -> 1/0 k=1\n  call 21: index k=2 -> 1/1 k=2\n",
        ],
        {
            "<dt>history</dt><dd>events: 6; calls: 3; documents: 1</dd>": [1],
            "<dt>options</dt><dd>--conflicts plain --writes repeated --workers 1</dd>": [1],
            "By what OpenSearch documents": [0],
        },
        "--writes",
        "repeated",
    ),
    (
        "a stale get, whatever copy answered it",
        OLDER_GET,
        refuted("stale-get", "32,21", 5, 32),
        [
            '\nStale read: a get returned an older version than one that was acknowledged before (call 32 of "d", line 6).\n'
            "Nothing explains the reply to a get, whatever copy answered it.\nThis is proved by evidence",
            "This get is judged by itself: any copy may have answered it, but none that is in sync answers so.",
            "\n\nWhy nothing explains these replies:\nCall 21 (index k=2) was answered with the version 1/1 (line 4) before call 32, a get, was made (line 5). "
            "Any copy may answer a get, but each copy in sync has what was acknowledged before the get was made. "
            "This one was answered with 1/0 (line 6), which is older than 1/1. So no copy in sync can have answered so.\n",
            "\n! line 5, call 32: get -> line 6: k=1 at 1/0\n",
            "  call 10: index k=1 -> 1/0 k=1\n  call 21: index k=2 -> 1/1 k=2\n",
        ],
        {
            "<dt>options</dt><dd>--gets any --conflicts unknown --writes repeated --failed trusted --rule-out --workers 1</dd>": [1],
            "By what OpenSearch documents": [0],
            "preference": [0],
        },
        *PROFILE,
    ),
    (
        "a write that a get missed, whatever copy answered it",
        index(3) + created(3, 1, 0) + get(4) + missing(4),
        refuted("missed-write", "4,3", 3, 4),
        [
            '\nAcknowledged write not seen: a get found nothing after a write was acknowledged (call 4 of "d", line 4).\n',
            'This one found nothing (line 4), and no delete that was called before that reply can have removed "d" after 1/0. ',
            "\n! line 3, call 4: get -> line 4: not found\n",
        ],
        {},
        "--gets",
        "any",
    ),
    (
        "a get of what nobody wrote, whatever copy answered it and however often writes were performed",
        index(3) + created(3, 1, 0) + get(4) + found(4, 1, 1, k=9),
        no_writer(3, 4),
        [
            "no write with k=9 was without a reply or answered with a conflict, nor was one called that the store may have performed a second time. "
            "So no copy can have had what the get found.\n",
        ],
        {},
        *PROFILE,
    ),
    (
        "a document that is ruled out, if writes may be performed twice",
        index(4, condition(1, 7), k=3) + updated(4, 1, 6) + index(5, k=4) + updated(5, 1, 8),
        refuted("ruled-out", "4", 1, 4),
        [
            "\nCall 4 (index k=3 if at 1/7, called in line 1) was answered \"updated as 1/6\" (line 2).",
            "So no order has a place for call 4 and its reply.",
        ],
        {},
        "--writes",
        "repeated",
        "--rule-out",
    ),
    (
        "writes that are performed twice don't help",
        index(4, condition(1, 0), k=3) + updated(4, 1, 6) + delete(5) + deleted(5, 1, 7),
        no(1, 4),
        ["\nThe document has no write without a reply that could have done it, and no write that could have done it if it was performed a second time.\n"],
        {},
        "--writes",
        "repeated",
    ),
    (
        "gets that are judged one by one",
        ONE_COPY_AHEAD,
        "yes docs=1 calls=4 left_out=0 gets=2\n",
        [
            "\nOne order of the calls explains the replies to the writes, and each get is explained by itself.\n",
            "Gets that were judged one by one, since any copy may answer a get: 2. ",
            "\n  gets that were answered: 2\n",
            '\n  documents with the most calls: "d" with 4\n',
        ],
        {"events: 8; calls: 4; documents: 1": [1]},
        *PROFILE,
    ),
    (
        "a write that was sent again",
        SENT_AGAIN,
        "yes docs=1 calls=2 left_out=0\n",
        [
            "Calls of unknown outcome that took effect in the order that was found: 0. ",
            "\nWrites that the order has a second time, since a store may send a write again: 1.\n",
            '\n  documents with the most calls: "d" with 2\n',
        ],
        {},
        "--writes",
        "repeated",
    ),
    (
        "a call that is void",
        index(0) + created(0, 1, 0) + index(1, k=2) + VOID + get(2) + found(2, 1, 1, k=2),
        no_writer(5, 2),
        ["\n  line 3, call 1: index k=2 -> line 4: nothing was performed, as the recorder states\n"],
        {"may or may not have happened": [0]},
        "--failed",
        "trusted",
    ),
    (
        "two copies, as OpenSearch documents them",
        ONE_COPY_AHEAD,
        no(6, 3),
        [
            f"{BY_PROFILE}With `--profile opensearch` this history gets: yes docs=1 calls=4 left_out=0 gets=2\n"
            "So as OpenSearch documents itself this is explained: a get may be answered by any copy,",
            " Of OpenSearch: a get without `preference=_primary` may be answered by any copy, and one copy shows a write that is not acknowledged yet,",
        ],
        {},
    ),
    (
        "two copies, and then a stale get",
        ONE_COPY_AHEAD + get(4) + found(4, 1, 0),
        refuted("stale-get", "4,1", 6, 3),
        [
            f"{BY_PROFILE}With `--profile opensearch` this history gets: {refuted('stale-get', '4,1', 9, 4)}So what OpenSearch documents doesn't explain it either: ",
        ],
        {},
    ),
    (
        "a stale get, which OpenSearch doesn't explain in other words",
        OLDER_GET,
        refuted("stale-get", "32,21", 5, 32),
        ["one in sync has what was acknowledged before the get was made"],
        {"By what OpenSearch documents": [0]},
    ),
    (
        "a conflict with its own first attempt",
        create(0) + conflict(0),
        no(1, 0),
        [
            f"{BY_PROFILE}With `--profile opensearch` this history gets: yes docs=1 calls=1 left_out=",
            "its coordinating node sends a write again after it lost the connection to the primary, and the second attempt meets a conflict with the first one.",
        ],
        {},
    ),
    (
        "another reading than the strict one",
        create(0) + conflict(0) + index(1, condition(1, 0)) + created(1, 1, 1),
        no(3, 1),
        ["Condition not honoured"],
        {"By what OpenSearch documents": [0]},
        "--conflicts",
        "maybe",
    ),
    (
        "lines that say that nothing was performed",
        create(0) + conflict(0) + index(1, doc="e") + VOID,
        no(1, 0),
        [f"{BY_PROFILE}Lines of this text may have the member `void`, which is heeded only then: `casbench check --profile opensearch FILE` answers"],
        {"this history gets": [0]},
    ),
]

# The greatest pair.
GREATEST = MOST_OF_PAIR, MOST_OF_PAIR

# Documents that are ruled out, each by a call that has no place. Name, text, the reply at which the search fails and
# its call and the call that has no place, what the story has, and what the page has how often.
RULED_OUT = [
    (
        "an index without a condition that met a conflict, and a lost write elsewhere",
        index(0, doc="e") + lost(0) + index(1, k=2) + created(1, 1, 0) + index(2, k=3) + conflict(2),
        (5, 2, 2),
        ["\nCall 2 (index k=3, called in line 5) was answered with a conflict (line 6). But it has no condition,"],
        {"can have done it": [0]},
    ),
    (
        "a conflict on a version that stood all the time",
        index(0) + created(0, 1, 0) + index(1, condition(1, 0), k=2) + updated(1, 1, 3) + index(2, condition(1, 0), k=3) + lost(2)
        + get(3) + found(3, 1, 3, k=2) + index(4, condition(1, 3), k=4) + conflict(4) + index(5, k=5) + lost(5),
        (9, 4, 4),
        [
            "\nCall 1 (index k=2 if at 1/0) was answered with the version 1/3 (line 4), so the document had reached it by then. "
            "Call 4 (index k=4 if at 1/3) was made after that (line 9), so it comes after it. "
            "It was answered with a conflict on 1/3 (line 10). So something must have replaced 1/3 before line 10.",
            "\n  line 5, call 2: index k=3 if at 1/0 -> no reply: it asks for another version, 1/0\n",
            "\n* line 3, call 1: ",
            "\n! line 9, call 4: ",
        ],
        # The get is described and drawn below only, and so all are drawn twice; the last call comes after the reply.
        {'<g class="bar evidence"': [2], '<g class="bar broken"': [2], '<tr class="evidence">': [1], "<svg": [2], "<details>": [1]},
    ),
    (
        "a document created where it was",
        index(0) + created(0, 1, 0) + index(1, k=2) + lost(1) + delete(2) + lost(2) + index(3, k=3) + created(3, 1, 1),
        (7, 3, 3),
        [
            "\nCall 3 (index k=3, called in line 7) was answered \"created as 1/1\" (line 8). This says that the document was not there just before 1/1. "
            "But the last version before 1/1 that a reply shows is 1/0 (call 0, line 2), and with it the document was there.",
            "\n  line 3, call 1: index k=2 -> no reply: it writes, and a delete is needed\n",
            "\n  line 5, call 2: delete -> no reply: it could only have been performed between 1/0 and 1/1, and no number is free between them\n",
        ],
        {'<tr class="evidence">': [1]},
    ),
    (
        "a delete that came after the version which it would have to precede",
        index(0) + created(0, 1, 0) + index(2, k=3) + index(1, k=2) + updated(1, 1, 5) + delete(3) + lost(3) + created(2, 1, 3),
        (7, 2, 2, 1),
        ["\n  line 6, call 3: delete -> no reply: it was called only after the document had passed that version\n"],
        {},
    ),
    (
        "a get that missed a document that was there",
        index(0) + created(0, 1, 0) + "".join(index(n, k=n + 1) + lost(n) for n in range(1, 8)) + get(8) + missing(8),
        (17, 8, 8),
        [
            "\nCall 0 (index k=1) was answered with the version 1/0 (line 2), so the document had reached it by then. "
            "Call 8 (get) was made after that (line 17), so it comes after it. It was answered \"not found\" (line 18). "
            "So something must have deleted the document before line 18. But with 1/0 the document was there,",
            "\nNo write without a reply can have done it:\n  line 15, call 7: index k=8 -> no reply: it writes, and a delete is needed\n",
            "\nAnd 2 more.\n",
        ],
        {},
    ),
    (
        "a chain: a lost delete, a get that missed it, and a create that met it",
        index(0) + created(0, 1, 0) + delete(1) + lost(1) + get(2) + missing(2) + create(3, k=7) + conflict(3),
        (7, 3, 3),
        [
            "\nCall 0 (index k=1) was answered with the version 1/0 (line 2), so the document had reached it by then. "
            "Call 2 (get) was made after that (line 5) and was answered \"not found\" (line 6), so the document had been deleted by then: ",
            "Call 3 (create k=7) was made after that (line 7), so it comes after it. It was answered with a conflict (line 8). "
            "So something must have written the document before line 8.",
            "\n  line 3, call 1: delete -> no reply: it deletes, and a write of a number is needed\n",
        ],
        {'<tr class="evidence">': [2]},
    ),
    (
        "a write under the version of a delete",
        index(0) + created(0, 1, 0) + delete(1) + deleted(1, 1, 1) + index(2, condition(1, 1), k=3) + updated(2, 1, 3),
        (5, 2, 2),
        ["But with 1/1 the document was deleted (call 1, line 4), and no condition is met by a document that is not there."],
        {'<tr class="evidence">': [1]},
    ),
    (
        "a conflict before what came later",
        index(0) + created(0, 1, 0) + index(1, condition(1, 0), k=2) + conflict(1) + index(2, condition(1, 0), k=3) + updated(2, 1, 1),
        (3, 1, 1),
        [
            "\nCall 0 (index k=1) was answered with the version 1/0 (line 2), so the document had reached it by then. "
            "Call 1 (index k=2 if at 1/0) was made after that (line 3), so it comes after it. "
            "It was answered with a conflict on 1/0 (line 4). So something must have replaced 1/0 before line 4.",
        ],
        {'<tr class="evidence">': [1]},
    ),
    (
        "a version that nobody can have written",
        index(0) + created(0, 1, 0) + delete(1) + lost(1) + index(2, condition(1, 2), k=2) + updated(2, 1, 3),
        (5, 2, 2),
        [
            "So the document must have had the version 1/2 by then. But no reply shows which write made 1/2.",
            "\n  line 3, call 1: delete -> no reply: it deletes, and a write of a number is needed\n",
        ],
        {},
    ),
    (
        "a version that none of the writes without a reply can have made",
        index(0) + created(0, 1, 0) + index(1, condition(1, 3), k=9) + lost(1) + index(2, k=8) + lost(2) + delete(3) + lost(3)
        + get(4) + found(4, 1, 1, k=9) + index(5, k=9) + lost(5),
        (9, 4, 4),
        [
            "So the document must have had the version 1/1 by then. But no reply shows which write made 1/1.\n"
            "No write without a reply can have done it:\n"
            "  line 7, call 3: delete -> no reply: it deletes, and a write of a number is needed\n"
            "  line 5, call 2: index k=8 -> no reply: it writes another number than was found\n"
            "  line 3, call 1: index k=9 if at 1/3 -> no reply: it asks for another version, 1/3\n"
            "So no order ",
        ],
        {},
    ),
    (
        "a version whose writer was called after a later one",
        index(0) + created(0, 1, 0) + get(1) + index(2, k=2) + updated(2, 1, 5) + index(3, k=9) + lost(3) + found(1, 1, 1, k=9),
        (7, 1, 2),
        [
            "So the document must have had the version 1/1 (call 1, line 8) by then. But no reply shows which write made 1/1.\n"
            "No write without a reply can have done it:\n"
            "  line 6, call 3: index k=9 -> no reply: it was called only after the reply to call 2 (line 5)\nSo no order ",
        ],
        {},
    ),
    (
        "a delete under a version that was replaced at once",
        index(0) + created(0, 1, 0) + index(1, k=2) + updated(1, 1, 1) + delete(2, condition(1, 0)) + lost(2) + get(3) + missing(3),
        (7, 3, 3),
        [
            "\nNo write without a reply can have done it:\n  line 5, call 2: delete if at 1/0 -> no reply: "
            "it could only have been performed between 1/0 and 1/1, and no number is free between them\nSo no order ",
        ],
        {},
    ),
    (
        "a conflict on a version behind which a write under the one before it can't stand",
        index(0) + created(0, 1, 0) + index(1, k=2) + updated(1, 1, 1) + index(2, condition(1, 0), k=5) + lost(2)
        + index(3, condition(1, 1), k=3) + conflict(3),
        (7, 3, 3),
        [
            "\nNo write without a reply can have done it:\n  line 5, call 2: index k=5 if at 1/0 -> no reply: "
            "it could only have been performed between 1/0 and 1/1, and no number is free between them\nSo no order ",
        ],
        {},
    ),
    (
        "a creation behind another version than the one for which a delete asks",
        index(0) + created(0, 1, 0) + index(1, k=2) + updated(1, 1, 4) + delete(2, condition(1, 0)) + lost(2) + index(3, k=3) + created(3, 1, 9),
        (7, 3, 3),
        ["\nNo write without a reply can have done it:\n  line 5, call 2: delete if at 1/0 -> no reply: it asks for another version, 1/0\nSo no order "],
        {},
    ),
    (
        "the greatest version, behind which there is none",
        index(0) + created(0, *GREATEST) + delete(1) + lost(1) + delete(2, condition(*GREATEST)) + lost(2) + get(3) + missing(3),
        (7, 3, 3),
        [
            "\nNo write without a reply can have done it:\n"
            f"  line 5, call 2: delete if at {GREATEST[0]}/{GREATEST[1]} -> no reply: it can't have been performed where that is needed\n"
            "  line 3, call 1: delete -> no reply: it can't have been performed where that is needed\nSo no order ",
        ],
        {},
    ),
    (
        "an update before which no version is left",
        index(0, k=9) + lost(0) + index(1, k=2) + updated(1, 1, 0),
        (3, 1, 1),
        [
            "\nCall 1 (index k=2, called in line 3) was answered \"updated as 1/0\" (line 4). This says that the document was there just before 1/0. "
            "But no reply shows a version before 1/0, so the document was not there. So something else must have written it just before.\n"
            "No write without a reply can have done it:\n"
            "  line 1, call 0: index k=9 -> no reply: it could only have been performed before 1/0, and no version is before it\nSo no order ",
        ],
        {},
    ),
    (
        "an update of a document that was deleted",
        index(0) + created(0, 1, 0) + delete(1) + deleted(1, 1, 1) + delete(2) + lost(2) + index(3, k=3) + updated(3, 1, 3),
        (7, 3, 3),
        [
            "This says that the document was there just before 1/3. "
            "But the last version before 1/3 that a reply shows is 1/1 (call 1, line 4), and with it the document was not there.",
            "\nNo write without a reply can have done it:\n"
            "  line 5, call 2: delete -> no reply: it deletes, and a write of a number is needed\nSo no order ",
        ],
        {},
    ),
    (
        "a get that found a version after another one had missed it",
        index(0) + created(0, 1, 0) + delete(1) + lost(1) + get(2) + missing(2) + get(3) + found(3, 1, 0),
        (7, 3, 3),
        [
            "But the document had been changed after 1/0 by a write of unknown outcome before the call was made, "
            "and a document never goes back to an older version.\nWhat became of the writes without a reply plays no part in this.\nSo no order ",
        ],
        {"can have done it": [0]},
    ),
    (
        "a write below a version that was found",
        index(0) + created(0, 1, 0) + index(1, k=9) + lost(1) + get(2) + found(2, 1, 5, k=9) + index(3, k=3) + updated(3, 1, 3),
        (7, 3, 3, 2),
        [
            "\nCall 2, a get, was answered with k=9 at the version 1/5 (line 6), so the document had reached it by then. ",
            "But the document had reached 1/5 before the call was made, and each write of a document gets a version newer than those before.",
        ],
        {},
    ),
    (
        "a write under a condition that created its document",
        index(0) + created(0, 1, 0) + index(1, condition(1, 0), k=3) + created(1, 1, 5),
        (3, 1, 1),
        ["It was to be performed only if the document is there at 1/0, and its reply says that the document was not there. It can't be both.\nSo no order "],
        {},
    ),
    (
        "a write under a version above its own",
        index(0) + created(0, 1, 5) + index(1, condition(1, 7), k=3) + updated(1, 1, 6),
        (3, 1, 1),
        ["It was to be performed only if the document is at 1/7, and a write that replaces 1/7 gets a newer version. This one did not."],
        {},
    ),
    (
        "a write under a version that was replaced",
        index(0) + created(0, 1, 0) + index(1, k=9) + lost(1) + get(2) + found(2, 1, 1, k=9) + index(3, condition(1, 0), k=3) + updated(3, 1, 3),
        (7, 3, 3),
        ["But the version 1/1 (call 2, line 6) lies between 1/0 and its own, so the document was past 1/0 by then."],
        {},
    ),
    (
        "a write under a version that was changed by a write without a reply",
        index(0) + created(0, 1, 0) + delete(1) + lost(1) + get(2) + missing(2) + index(3, condition(1, 0), k=3) + updated(3, 1, 9),
        (7, 3, 3),
        [
            "It was to be performed only if the document is still at 1/0. "
            "But the document had been changed after 1/0 by a write of unknown outcome before the call was made.",
        ],
        {},
    ),
    (
        "a create that met no document, of which nothing is known",
        create(0) + conflict(0),
        (1, 0, 0),
        [
            "So something must have written the document before line 2. But no write can have done so by then.\n"
            "The document has no write without a reply that could have done it.\nSo no order ",
        ],
        {},
    ),
]

# The anomaly that each of them shows, by the table of FORMATS.md.
CONFLICT, LOST, NOT_SEEN = "Conflict without a cause", "Acknowledged write lost", "Acknowledged write not seen"
TAKEN_BACK, UNMET, LOST_UPDATE = "Shown and taken back", "Condition not honoured", "Lost update"
UNWRITTEN_VALUE, UNWRITTEN_VERSION = "Read of something nobody wrote", "Version that nobody wrote"
HEADLINES = {
    "an index without a condition that met a conflict, and a lost write elsewhere": CONFLICT,
    "a conflict on a version that stood all the time": CONFLICT,
    "a document created where it was": LOST,
    "a delete that came after the version which it would have to precede": LOST,
    "a get that missed a document that was there": NOT_SEEN,
    "a chain: a lost delete, a get that missed it, and a create that met it": CONFLICT,
    "a write under the version of a delete": UNMET,
    "a conflict before what came later": CONFLICT,
    "a version that nobody can have written": UNWRITTEN_VERSION,
    "a version that none of the writes without a reply can have made": UNWRITTEN_VALUE,
    "a version whose writer was called after a later one": UNWRITTEN_VERSION,
    "a delete under a version that was replaced at once": NOT_SEEN,
    "a conflict on a version behind which a write under the one before it can't stand": CONFLICT,
    "a creation behind another version than the one for which a delete asks": LOST,
    "the greatest version, behind which there is none": NOT_SEEN,
    "an update before which no version is left": UNWRITTEN_VERSION,
    "an update of a document that was deleted": LOST,
    "a get that found a version after another one had missed it": TAKEN_BACK,
    "a write below a version that was found": TAKEN_BACK,
    "a write under a condition that created its document": UNMET,
    "a write under a version above its own": UNMET,
    "a write under a version that was replaced": LOST_UPDATE,
    "a write under a version that was changed by a write without a reply": LOST_UPDATE,
    "a create that met no document, of which nothing is known": CONFLICT,
}

# Name, text, headline, and what the story has: evidence, and what speaks for or against what is to be ruled out.
STALE = "Stale read: a get returned an older version than one that was acknowledged before"
GONE = "Acknowledged write lost: a reply shows the document as if an acknowledged write before it had not been made"
SWAPPED = "Lost update: a write was performed though the version that its condition asks for had been replaced"
TWICE = "One version given twice: two writes of a shard were answered with the same version"
EVIDENT = [
    (
        "a stale get, after which the version is shown again",
        index(0) + created(0, 1, 0) + index(1) + updated(1, 1, 1) + get(2) + found(2, 1, 0) + get(3) + found(3, 1, 1) + index(4, k=5) + updated(4, 1, 2),
        f'{STALE} (call 2 of "d", line 6).',
        [
            "\nThe version 1/1 is shown again by call 3 (line 8), which was made after the reply to call 2: so it was not lost for good,",
            "\nThe versions that the document's writes were given never fall back, neither before nor after the reply ",
        ],
    ),
    (
        "a stale get, after which the version isn't shown again",
        index(0) + created(0, 1, 0) + index(1) + updated(1, 1, 1) + get(2) + found(2, 1, 0) + get(3) + found(3, 1, 0),
        f'{STALE} (call 2 of "d", line 6).',
        [
            "\nNo call that was made after the reply to call 2 shows the version 1/1 again, ",
            "\nAcknowledged writes that are never seen again: 1 (documents: 1; versions: 1/1 to 1/1; lines of their replies: 4 to 4). ",
        ],
    ),
    (
        "a stale get with times",
        TIMED,
        f'{STALE} (call 2 of "d", line 6 at {at(MADE + 86_400_007)}).',
        [],
    ),
    (
        "numbers that fall back",
        index(0) + created(0, 1, 5) + index(1) + updated(1, 1, 6) + get(2) + found(2, 1, 5) + index(3) + updated(3, 1, 3),
        f'{GONE} (call 2 of "d", line 6).',
        [
            "\nCall 3 (index k=1) was performed on the older state (line 8), and no later reply shows or builds on what was acknowledged before it: 1/5 to 1/6.",
            "\nThe document's versions fall back: call 1 was given 1/6, and call 3, made after that reply, 1/3 (line 8).",
        ],
    ),
    (
        "one version for two documents",
        index(0, doc="a") + created(0, 1, 0) + index(1, doc="b", k=2) + created(1, 1, 0),
        f'{TWICE} (call 1 of "b", line 4).',
        ["\nThe two writes are of different documents: make sure that both are of one shard.\n"],
    ),
    (
        "one version for two writes of a document",
        index(0) + created(0, 1, 0) + index(1, k=2) + updated(1, 1, 0),
        f'{TWICE} (call 1 of "d", line 4).',
        ["\nBoth lines name one document: make sure that both are in one index, "],
    ),
    (
        "a condition that was not looked at",
        index(0) + created(0, 1, 0) + index(1, condition(1, 0), k=2) + updated(1, 1, 1) + index(2, condition(1, 0), k=3) + updated(2, 1, 2),
        'Lost update: a write was performed though the version that its condition asks for had been replaced (call 2 of "d", line 6).',
        [],
    ),
    (
        "a get of what a write asked for that was answered with a conflict",
        index(0) + created(0, 1, 0) + index(1, condition(1, 0), k=4) + conflict(1) + get(2) + found(2, 1, 1, k=4),
        'Conflict without a cause: a write was answered with a conflict though no condition of it was unmet (call 1 of "d", line 4).',
        [
            "\nThe first line names call 2 (line 6). That is evidence too, but it is complete only with a line after the reply to call 1.",
            "\nDid a conflict hide a write? Call 1 (index k=4 if at 1/0) was answered with a conflict (line 4), and call 2 shows k=4 at 1/1 (line 6), ",
            "`casbench explain --conflicts maybe FILE`",
            "\nWith `--conflicts maybe` this history gets: yes docs=1 calls=3 left_out=0\n",
        ],
    ),
    (
        "a creation where the document was, by a write that was acknowledged only later",
        index(0) + index(1) + created(1, 1, 1) + created(0, 1, 0),
        'Shown and taken back: a reply shows the document as it was before what another reply shows (call 1 of "d", line 3).',
        [],
    ),
    (
        "a get that found what a lost write may have written, behind a version that nobody wrote",
        index(0) + created(0, 1, 0) + get(1) + index(2, k=2) + lost(2) + get(4) + found(4, 1, 5, k=2)
        + index(3, k=9) + lost(3) + found(1, 1, 1, k=9),
        'Version that nobody wrote: a reply needs a version that no recorded write can have made (call 4 of "d", line 7).',
        [],
    ),
]


def rolled_back(first, doc, more=""):
    """The lines of an index that loses two acknowledged writes and gives their numbers again. The calls are numbered from the
    first one on."""
    zero, one, swap, read, removal, last = range(first, first + 6)
    return (
        index(zero, more, doc, k=0) + created(zero, 1, 1) + index(one, more, doc, k=1) + updated(one, 1, 2)
        + index(swap, condition(1, 2) + more, doc, k=5) + updated(swap, 1, 3) + get(read, more, doc) + found(read, 1, 1, k=0)
        + delete(removal, condition(1, 1) + more, doc) + deleted(removal, 1, 2) + index(last, more, doc, k=4) + created(last, 1, 3)
    )


EVIDENT += [
    (
        "a get that misses an acknowledged create, and a conflict that has nothing to do with it",
        create(1) + create(2, k=2) + conflict(2) + created(1, 1, 2) + get(3) + missing(3),
        'Acknowledged write not seen: a get found nothing after a write was acknowledged (call 3 of "d", line 6).',
        [],
    ),
    (
        "two writes under one version, the first of which is read before both are acknowledged",
        create(0, k=0) + created(0, 1, 1) + index(55, condition(1, 1), k=55) + index(64, condition(1, 1), k=64) + get(66)
        + found(66, 1, 2, k=55) + index(67, condition(1, 2), k=67) + updated(55, 1, 2) + conflict(67) + updated(64, 1, 3),
        f'{SWAPPED} (call 64 of "d", line 10).',
        [],
    ),
    (
        "a write under a version that was replaced, which is read before it is acknowledged",
        create(0, k=0) + created(0, 1, 1) + index(13, k=13) + index(17, condition(1, 1), k=17) + get(19) + updated(13, 1, 5)
        + found(19, 1, 7, k=17) + updated(17, 1, 7),
        f'{SWAPPED} (call 17 of "d", line 8).',
        [],
    ),
    (
        "two deletes that are given one version",
        delete(1) + deleted(1, 1, 37) + delete(2) + deleted(2, 1, 37),
        f'{TWICE} (call 2 of "d", line 4).',
        [],
    ),
    (
        "numbers that are given again after a loss",
        rolled_back(0, "d"),
        f'{GONE} (call 3 of "d", line 8).',
        [
            "\nAcknowledged writes that are never seen again: 2 (documents: 1; versions: 1/2 to 1/3; lines of their replies: 4 to 6). ",
            " That is known over lines 8 to 12.\n",
            "\nCall 4 (delete if at 1/1) was performed on the older state (line 10), ",
            "\nWrites that were given a version which another write of the same document had been given: 2 (lines of their replies: 10 to 12). ",
        ],
    ),
    (
        "the same in two documents",
        rolled_back(0, "d") + rolled_back(10, "f", OTHER),
        f'{GONE} (call 3 of "d", line 8).',
        [
            "\n  Acknowledged write lost: 2, on lines 8 to 20\nAcknowledged writes that are never seen again: 4 (documents: 2; versions: 1/2 to 1/3; ",
        ],
    ),
    (
        "a loss with times",
        "".join(written(line + "\n", MADE + 1_500 * number) for number, line in enumerate(rolled_back(0, "d").splitlines())),
        f'{GONE} (call 3 of "d", line 8 at {clock(MADE + 10_500)}).',
        [f" That is known over 6.0 seconds of recording, from line 8 at {clock(MADE + 10_500)} to line 12 at {clock(MADE + 16_500)}.\n"],
    ),
    (
        "two creates at the same time that are both performed",
        create(1) + create(2, k=2) + created(2, 1, 2) + created(1, 1, 1),
        'Condition not honoured: a write was performed though its condition cannot have held (call 2 of "d", line 3).',
        [],
    ),
]

# What a story doesn't say of some of them.
UNSAID = {
    "a stale get, after which the version is shown again": ["never seen again"],
    "numbers that are given again after a loss": ["is shown again", "not lost for good"],
    "the same in two documents": ["is shown again", "Condition not honoured"],
    "two creates at the same time that are both performed": ["Shown and taken back"],
}

# Histories that have an order, and what the story says that they are able to show, and what it doesn't say.
NOTHING_OVERLAPS, NOTHING_READ = "no two calls of a document overlapped", "neither a get nor a condition asks for what was written"
COVERAGE = [
    (
        "calls one after the other",
        index(0) + created(0, 1, 0) + get(1) + found(1, 1, 0),
        [
            "\n  calls that overlapped another call of their document: 0 of 2\n",
            "\n  gets that were answered: 1\n",
            "\n  conditional writes, creates included: 0 performed, 0 answered with a conflict\n",
            "\n  primary terms seen: 1\n",
            '\n  documents with the most calls: "d" with 2\n',
            NOTHING_OVERLAPS,
            "All versions are of one primary term",
        ],
        [NOTHING_READ],
    ),
    (
        "calls that overlap, a term that rises, a condition that is refused, and a lost write",
        create(0) + get(1) + missing(1) + created(0, 1, 0) + index(2, condition(1, 0), k=2) + updated(2, 2, 1)
        + index(3, condition(1, 0), k=3) + conflict(3) + index(4, k=4) + lost(4),
        [
            "\n  calls that overlapped another call of their document: 2 of 5\n",
            "\n  conditional writes, creates included: 2 performed, 1 answered with a conflict\n",
            "\n  writes without a reply: 1\n",
            "\n  primary terms seen: 1 to 2\n",
        ],
        [NOTHING_OVERLAPS, NOTHING_READ, "All versions are of one primary term"],
    ),
    ("a write that nobody reads", index(0) + created(0, 1, 0), [NOTHING_READ], [NOTHING_OVERLAPS]),
    ("no calls", "", [], ["What this recording is able to show"]),
]


class Stories(ProgramTest):
    """Stories, each with a page and without."""

    def story_of(self, text, *options):
        """The story of a history and its page. It is the same without a page, and begins with the answer of a check."""
        with tempfile.TemporaryDirectory() as folder:
            history, page = (pathlib.Path(folder) / name for name in ("history", "page"))
            history.write_bytes(bytes_of(text))
            with_page = said(run(self.program, ["explain", history, "--html", page, *options]))
            page_text = page.read_text()
            without_page = said(run(self.program, ["explain", history, *options]))
            status, line = said(run(self.program, ["check", history, *options]))
        self.assertEqual(without_page, with_page)
        self.assertEqual(with_page[0], status)
        self.assertEqual(with_page[1][: len(line) + 1], f"{line}\n")
        return with_page[1], page_text

    def check_counts(self, page, counts):
        """Each text stands in the page as often as it may."""
        for part, allowed in counts.items():
            self.assertIn(page.count(part), allowed, part)

    def check_case(self, history, reading):
        _, page = self.story_of(history, "--conflicts", reading)
        self.assertTrue(page.startswith("<!doctype html>"))

    def test_cases(self):
        """The history of each text case has a story with its answer, and a page."""
        histories = {name: texts["history"] for name, texts in all_cases().items() if "history" in texts}
        rows = [(f"{name}, {reading}", history, reading) for name, history in histories.items() for reading in READINGS]
        self.run_subtests(self.check_case, rows)

    def check_text(self, text, begins, parts, counts, *options):
        story, page = self.story_of(text, *options)
        self.assertEqual(story[: len(begins)], begins)
        for part in parts:
            self.assertIn(part, story)
        self.check_counts(page, counts)

    def test_texts(self):
        """A story begins as it should and has its parts, and so has its page."""
        self.run_subtests(self.check_text, TEXTS)

    def check_advice(self, story):
        """What is to be ruled out comes after the reasons, then what to do, then the calls."""
        headings = ["First rule out", "Then", "The calls that matter, in the order of their events"]
        places = [story.index(f"\n\n{it}:\n") for it in headings]
        self.assertEqual(places, sorted(places))

    def check_reason(self, headline, text, place, parts, counts):
        # the line names the call that the whole history has no place for, or one before it by what is known by then, and
        # an explanation the first one that has no place by itself
        event, number, stop, *named = place
        first = "The replies contradict one another: no order of the calls explains them.\nThis is proved, "
        plain, page = self.story_of(text)
        ruled_out, _ = self.story_of(text, "--rule-out")
        for story, line, more in ((plain, no(event, number), "though"), (ruled_out, refuted("ruled-out", [*named, stop][0], event, number), "since")):
            self.assertEqual(story[: len(line)], line)
            title, _, rest = story[len(line) :].lstrip("\n").partition("\n")
            self.assertEqual(rest[: len(first + more)], first + more)
            self.assertRegex(title, rf"^{headline}: [^:]+ \(call {stop} of \"d\", line \d+\)\.$")
            self.check_advice(story)
        for part in [*parts, f"\nSo no order has a place for call {stop} and its reply. This is proved", "\nThe calls that matter, "]:
            self.assertIn(part, plain)
        reasons = [it[it.index("\nWhy no order can have these replies:\n") :] for it in (plain, ruled_out)]
        if named and named[0] > stop:
            # both say that no later line is needed: beside the call that the first line names, or by itself
            for place, begin in enumerate(("The reasons above need no line after ", "The first line names ")):
                reasons[place], count = re.subn(rf"\n{begin}[^\n]*", "", reasons[place])
                self.assertEqual(count, 1)
        if named and named[0] < stop:
            # with the option that call is marked too, since it is evidence
            reasons = [re.sub(r"\n\* ", "\n  ", it) for it in reasons]
        self.assertEqual(*reasons)
        self.check_counts(page, counts)

    def test_reasons(self):
        """A story gives the reason why its document is ruled out: the same with the option, whose line says so, and
        without it."""
        self.run_subtests(self.check_reason, [(name, HEADLINES[name], *row) for name, *row in RULED_OUT])

    def check_headline(self, absent, text, headline, parts, *options):
        story, page = self.story_of(text, *options)
        _, _, title, _ = story.split("\n", 3)
        self.assertEqual(title, headline)
        self.check_advice(story)
        for part in parts:
            self.assertIn(part, story)
        for part in absent:
            self.assertNotIn(part, story)
        self.assertIn(f"<h1>{headline}</h1>".replace('"', "&quot;"), page)

    def test_headlines(self):
        """A story names the anomaly, and says what speaks for or against it."""
        self.run_subtests(self.check_headline, [(name, UNSAID.get(name, ()), *row) for name, *row in EVIDENT])

    def check_undecided(self, text, *options):
        story, _ = self.story_of(text, *options)
        for heading in ("First rule out", "Then"):
            self.assertNotIn(f"\n{heading}:\n", story)

    def test_undecided(self):
        """What is undecided accuses nobody, so nothing is to be ruled out."""
        self.run_subtests(self.check_undecided, [("a write that is needed twice", NEEDED_TWICE)])

    def check_coverage(self, text, parts, absent):
        story, page = self.story_of(text)
        self.assertEqual(story[:4], "yes ")
        for part in parts:
            self.assertIn(part, story)
        for part in absent:
            self.assertNotIn(part, story)
        self.assertIn("<dt>options</dt><dd>--conflicts plain --workers 1</dd>", page)
        self.assertIn("<dt>program</dt><dd>casbench 0.1.0</dd>", page)

    def test_coverage(self):
        """The story of a history that has an order says what the recording is able to show."""
        self.run_subtests(self.check_coverage, COVERAGE)

    def check_refused(self, text, part, absent):
        story, _ = self.story_of(text)
        self.assertEqual(story[:8], "refused ")
        self.assertIn(part, story)
        self.assertNotIn(absent, story)

    def test_refused(self):
        """The story of a refused text says what to do if it was compressed or cut off."""
        one = get(0) + missing(0)
        rows = [
            ("a compressed text", gzip.compress(one.encode()), "compressed by gzip: `zcat FILE | casbench check`", "head"),
            ("a last line that was cut off", one + get(1)[:20], "`head -n 2 FILE | casbench check`", "zcat"),
            ("two lines in one", one + get(1)[:20] + get(2), "two lines may have been written into one", "head"),
            ("a first line that was cut off", get(0)[:20], "it may have been cut off", "head"),
        ]
        self.run_subtests(self.check_refused, rows)


if __name__ == "__main__":
    sys.exit(run_tests())

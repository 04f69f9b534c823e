#!/usr/bin/env python3
"""Has the built program read single lines and small histories, and checks how it read them.

    python3 tests/lines.py [PROGRAM]

PROGRAM is the built casbench; if it isn't named, the one that ./casbench would run. A line that is refused is reported
with its number and its first cause. A line that is accepted stands in a small history whose answer or story would be
another one if the line were read otherwise. Texts are read with few bytes at hand at a time; of several faults of a
bulk the first is reported.

There are three ways to the fields of a line: the quick one leaves escapes and bytes past ASCII to the second, and both
leave numbers that aren't digits alone to the third. Drawn lines get the same story by each; and plain lines are read by
the quick one, which is seen by the growths that a check asks for. These are counted with a library that cc, a C
compiler, makes; if there is none, that test is skipped.

Drawn histories without an order are cut behind the event that is named: the first events alone are judged as within the
whole.
"""

import re
import sys
import tempfile
from collections import Counter

from answers import AnswersTest
from case_files import case_text
from drawing import CONFLICT, MISSING, Call, Draws, Ending, Op, Reply, lines
from growths import NO_MEMORY, Growths
from offences import CHANGES, Clients, changed
from program_test import run_tests
from running import needs_compiler, run, said
from texts import LINE_BYTES, LINES, MOST_NUMBER, MOST_OF_PAIR, OFFENCE, REFUSED_COUNT
from texts import call, condition, created, delete, doc_missing, found, get, index, lost, missing, nested, no
from texts import no_writer, not_found, refused, refused_item, status_of, updated, witness_of, written_call, yes

# An index of "d" on shard 3 that was answered, a get of "d" that is open, and a get of "e" on shard 4 that is lost.
THREE_CALLS = index(0, ',"shard":3') + created(0, 1, 0) + get(1, ',"shard":3') + get(2, ',"shard":4', "e") + lost(2)

# Calls whose numbers neither rise nor fall: 4 and 0 are answered, 12 is lost, 9 and 11 are open.
ODD_NUMBERS = get(9) + get(4) + get(12, doc="e") + get(0) + get(11, doc="e") + missing(4) + lost(12) + missing(0)

# Three documents on three shards, two of which are called again.
THREE_DOCUMENTS = get(0, ',"shard":7', "b") + get(1, doc="a") + get(2, ',"shard":7', "b")
THREE_DOCUMENTS += get(3, ',"shard":1023', "c") + get(4, doc="a")

INDEX_THEN_GET = case_text("index-then-get")

# Lines with the greatest numbers that there may be.
LAST_SHARD = get(0, ',"shard":1023')
LAST_NUMBER = get(MOST_NUMBER, ',"at":[1,{}]')
LAST_PAIR = index(0, condition(1, MOST_OF_PAIR))

# Name, text, and the answer of a check.
TEXTS = [
    # lines that are refused by themselves
    ("a shard past the last one", '{"e":"call","n":0,"id":"d","op":"get","shard":1024}', refused(1, "range")),
    ("a shard that is null", '{"e":"call","n":0,"id":"d","op":"get","shard":null}', refused(1, "shape")),
    ("conditions that are null", '{"e":"call","n":0,"id":"d","op":"index","k":1,"if_seq_no":null,"if_primary_term":null}', refused(1, "shape")),
    ("a primary term of 0", '{"e":"call","n":0,"id":"d","op":"index","k":1,"if_seq_no":0,"if_primary_term":0}', refused(1, "range")),
    ("a call without a number", '{"e":"call","id":"d","op":"get"}', refused(1, "shape")),
    ("an array", '["e","call"]', refused(1, "shape")),
    ("a loss without its call", '{"e":"lost","n":0}', refused(1, "no-call")),
    # of several causes the first is reported: a field of another kind, an empty id, half of a condition, a number that
    # isn't whole
    ("another kind before an empty id", '{"e":"call","n":1.5,"id":"","op":"index","k":"1","if_seq_no":0}', refused(1, "shape")),
    ("an empty id before half of a condition", '{"e":"call","n":1.5,"id":"","op":"index","k":1,"if_seq_no":0}', refused(1, "id")),
    ("half of a condition before a range", '{"e":"call","n":1.5,"id":"d","op":"index","k":1,"if_seq_no":0}', refused(1, "half")),
    ("a status past its range before a call that isn't there", '{"e":"reply","n":9,"status":70000}', refused(1, "range")),
    ("a reply without a body, and without its call", '{"e":"reply","n":9,"status":200}', refused(1, "no-call")),
    # limits behind the first line, and the limit of lines before what the line is
    ("the longest line behind a blank one", "\n" + " " * LINE_BYTES, yes(0, docs=0)),
    ("a line one byte longer behind a blank one", "\n" + " " * (LINE_BYTES + 1), refused(2, "long")),
    ("an open bracket past the last line", "\n" * LINES + "[", refused(LINES + 1, "lines")),
    # shard 1023, which the next call has to name too: on another shard, or on none, the document has moved
    ("the last shard again", LAST_SHARD + get(1, ',"shard":1023'), yes(2, left_out=2)),
    ("the last shard, then the one before", LAST_SHARD + get(1, ',"shard":1022'), refused(2, "shard-moved")),
    ("the last shard, then none", LAST_SHARD + get(1), refused(2, "shard-moved")),
    # a delete without a condition: another operation can't be answered so, which would leave it out, and with a
    # condition no order would have a document deleted that isn't there
    ("a delete", delete(0) + not_found(0, 1, 0), yes(1)),
    # the greatest number, which the answer names, of a get
    ("the greatest number of a call", LAST_NUMBER + found(MOST_NUMBER, 1, 0), no_writer(1, MOST_NUMBER)),
    # one more event behind the three calls, of which 0 and 2 are ended and 1 is open. A call that is taken is counted,
    # and so is a new document; its shard is in a story below
    ("three calls", THREE_CALLS, yes(3, left_out=2, docs=2)),
    ("a second call", THREE_CALLS + get(0, ',"shard":3'), refused(6, "second-call")),
    ("a second call before a shard that moved", THREE_CALLS + get(0, ',"shard":5'), refused(6, "second-call")),
    ("a shard that moved", THREE_CALLS + get(3, ',"shard":5'), refused(6, "shard-moved")),
    ("a shard that is kept", THREE_CALLS + get(3, ',"shard":3'), yes(4, left_out=3, docs=2)),
    *((f"another document on shard {shard}", THREE_CALLS + get(3, f',"shard":{shard}', "f"), yes(4, left_out=3, docs=3)) for shard in (3, 1023)),
    ("a reply without its call", THREE_CALLS + created(3, 1, 0), refused(6, "no-call")),
    ("a second reply", THREE_CALLS + created(0, 1, 0), refused(6, "ended")),
    ("a second reply that is of another operation", THREE_CALLS + found(0, 1, 0), refused(6, "ended")),
    ("a reply to a lost call", THREE_CALLS + found(2, 1, 0), refused(6, "ended")),
    # (a reply that is of another operation is of unknown outcome, so the get stays in no place; a get that found what
    # was written has one, and one that missed it can't have any)
    ("a reply that is of another operation", THREE_CALLS + created(1, 1, 0), yes(3, left_out=2, docs=2)),
    ("a get that finds what was written", THREE_CALLS + found(1, 1, 0), yes(3, left_out=1, docs=2)),
    ("a get that misses what was written", THREE_CALLS + missing(1), no(5, 1)),
    ("a loss of no call", THREE_CALLS + lost(3), refused(6, "no-call")),
    ("a loss of an answered call", THREE_CALLS + lost(0), refused(6, "ended")),
    ("a loss of an open call", THREE_CALLS + lost(1), yes(3, left_out=2, docs=2)),
    ("a loss of an open call, which ends it", THREE_CALLS + lost(1) * 2, refused(7, "ended")),
    # losses behind calls whose numbers neither rise nor fall: the first ends an open call, and the next one is refused
    ("odd numbers", ODD_NUMBERS, yes(5, left_out=3, docs=2)),
    *((f"odd numbers, {number} lost", ODD_NUMBERS + lost(number) * 2, refused(10, "ended")) for number in (9, 11)),
    *((f"odd numbers, {number} lost", ODD_NUMBERS + lost(number), refused(9, "ended")) for number in (4, 12, 0)),
    *((f"odd numbers, {number} lost", ODD_NUMBERS + lost(number), refused(9, "no-call")) for number in (1, 10, 13)),
]

# Name, text, the answer with which its story begins, and what the story has. Each text ends with a reply that no order
# explains; so its story shows the document with its shard, and each call of it with all that was read.
STORIES = [
    (
        "a get on the last shard",
        LAST_SHARD + found(0, 1, 0),
        no_writer(1, 0),
        ['"d" on shard 1023.\n', "line 1, call 0: get -> line 2: k=1 at 1/0\n"],
    ),
    (
        "a condition with the greatest sequence number",
        LAST_PAIR + updated(0, 2, 0),
        no(1, 0),
        ["line 1, call 0: index k=1 if at 1/9223372036854775807 -> line 2: updated as 2/0\n"],
    ),
    (
        "an index and a get",
        INDEX_THEN_GET + get(2) + missing(2),
        no(5, 2),
        ['"d" on shard 0.\n', "line 1, call 0: index k=1 -> line 2: created as 1/0\n", "line 3, call 1: get -> line 4: k=1 at 1/0\n"],
    ),
    (
        "the first of two documents",
        THREE_CALLS + missing(1),
        no(5, 1),
        ['"d" on shard 3.\n', "line 1, call 0: index k=1 -> line 2: created as 1/0\n", "line 3, call 1: get -> line 6: not found\n"],
    ),
    (
        "the second of two documents",
        THREE_CALLS + get(3, ',"shard":4', "e") + found(3, 1, 0),
        no_writer(6, 3),
        ['"e" on shard 4.\n', "line 4, call 2: get -> no reply (", "line 6, call 3: get -> line 7: k=1 at 1/0 ("],
    ),
    *(
        (f"a third document on shard {shard}", THREE_CALLS + get(3, f',"shard":{shard}', "f") + found(3, 1, 0), no_writer(6, 3), [part])
        for shard, part in ((3, '"f" on shard 3.\n'), (1023, '"f" on shard 1023.\n'))
    ),
    (
        "odd numbers, the first document",
        ODD_NUMBERS + get(20) + found(20, 1, 0),
        no_writer(9, 20),
        ["line 1, call 9: get -> no reply (", "line 2, call 4: get -> line 6: not found (", "line 4, call 0: get -> line 8: not found ("],
    ),
    (
        "odd numbers, the second document",
        ODD_NUMBERS + get(20, doc="e") + found(20, 1, 0),
        no_writer(9, 20),
        ["line 3, call 12: get -> no reply (", "line 5, call 11: get -> no reply ("],
    ),
    *(
        (f"three documents, the one of call {number}", THREE_DOCUMENTS + found(number, 1, 0), no_writer(5, number), [f"{document}.\n"])
        for number, document in ((0, '"b" on shard 7'), (1, '"a" on shard 0'), (3, '"c" on shard 1023'))
    ),
]

# Two of the three documents, which a witness names, and the number of the third: they are numbered in the order of
# their first calls.
LEFT_OUT = [("ac", 0), ("bc", 1), ("ba", 2)]

# An index of "a", a delete of "b" and another index of "a".
BULK = case_text("bulk", "body")

# The lines of the bulk, of which nothing is known, when its calls have the last three numbers.
FIRST = MOST_NUMBER - 2
BULK_OF_LAST_NUMBERS = (
    written_call(FIRST, "index", "a", ',"k":1')
    + written_call(FIRST + 1, "delete", "b")
    + written_call(FIRST + 2, "index", "a", condition(1, 0) + ',"k":2')
    + "".join(map(lost, range(FIRST, FIRST + 3)))
)

UNKNOWN_ITEMS = '{"items":[{"index":{"status":503}},{"delete":{"status":503}},{"index":{"status":503}}]}'

# The second item is a stranger; in the other reply the third one is none, too.
STRANGER = '{"items":[{"index":{}},{"delete":{"_id":"x"}},{"index":{"_id":"a"}}]}'
STRANGER_THEN_KIND = '{"items":[{"index":{}},{"delete":{"_id":"x"}},{"delete":{}}]}'

# Name, number of the first call, body and reply of a bulk, and what is written.
BULKS = [
    ("the last numbers", FIRST, BULK, UNKNOWN_ITEMS, BULK_OF_LAST_NUMBERS),
    # the body's fault is reported first, then the reply's, then a stranger, then that the numbers are past the
    # greatest, as in each of these rows
    ("a body's fault before the reply's", MOST_NUMBER, "{}", "{", refused(1, "action")),
    ("a reply's fault before the numbers", MOST_NUMBER, BULK, "{", refused(1, "syntax")),
    ("an item that is none before a stranger", MOST_NUMBER, BULK, STRANGER_THEN_KIND, refused_item(2)),
    ("a stranger before the numbers", MOST_NUMBER, BULK, STRANGER, refused_item(1)),
    ("the numbers alone", MOST_NUMBER, BULK, UNKNOWN_ITEMS, REFUSED_COUNT),
]

# An index that was answered, a blank line and a get that is lost, without a line feed at the end.
INDEX_THEN_LOST_GET = (index(0) + created(0, 1, 0) + "\n" + get(1) + lost(1)).rstrip("\n")
SECOND_CALL = get(0) * 2 + lost(0)
CUT_SHORT = '{"e":"call","n":0,"i'

# A command, a text, and what is written, whatever number of bytes is at hand at each read.
AT_HAND = [
    ("check", "", yes(0, docs=0)),
    ("check", "\n \t\r\n", yes(0, docs=0)),
    ("check", INDEX_THEN_LOST_GET, yes(2, left_out=1)),
    ("witness", INDEX_THEN_LOST_GET, witness_of("d", [(0, None)])),
    ("check", SECOND_CALL, refused(2, "second-call")),
    ("check", CUT_SHORT, refused(1, "json")),
]
BYTES_AT_HAND = [1, 50, 64, 4096]

# What follows the number in lines whose fields the quick way reads, some of them refused later.
PLAIN = [
    '"e":"call","id":"d","op":"get"}',
    '"e":"call","id":"e","op":"index","k":17,"shard":0}',
    '"op":"index","k":9223372036854775807,"if_seq_no":3,"if_primary_term":1,"id":"a long name","e":"call"}',
    '"e":"call","id":"d","op":"delete","if_seq_no":9223372036854775808,"if_primary_term":1}',
    '"e":"call","id":"d","op":"create","k":9999999999999999999}',
    '"e":"call","id":"d","op":"index","k":1,"if_seq_no":1}',
    '"e":"call","id":"","op":"merge","shard":1}',
    '"e":"call","id":"","op":"get"}',
    '"e":"call","id":"d","op":"get","shard":1}',
    '"e":"reply","status":201,"body":{"_index":"i","_id":"d","_version":1,"result":"created","_shards":{"total":2,"successful":1},"_seq_no":0,"_primary_term":1}}',
    '"e":"reply","status":200,"body":{"_id":"e","result":"updated","_seq_no":7,"_primary_term":2}}',
    '"e":"reply","status":200,"body":{"_id":"d","_seq_no":1,"_primary_term":1,"found":true,"_source":{"x":"y","k":4}}}',
    '"e":"reply","status":404,"body":{"_id":"d","found":false}}',
    '"e":"reply","status":409,"body":{"error":{"root_cause":[{"type":"t","reason":"[d]: version conflict"}],"type":"version_conflict_engine_exception"},"status":409}}',
    '"e":"lost"}',
    '"e":"lost","n":3}',
    '"e":"call","id":"d","id":"e","op":"get","op":"delete"}',
    '"e": "call", "id": "d", "op": "get" , "at": [ 1, { "x": [ ] }, true, false, null ] } ',
]

# What follows it in lines that the quick way leaves to the others: numbers of other forms, escapes, no JSON.
ODD = [
    '"e":"call","id":"d","op":"index","k":10000000000000000000}',
    '"e":"call","id":"d","op":"index","k":18446744073709551615}',
    '"e":"call","id":"d","op":"index","k":18446744073709551616}',
    '"e":"call","id":"d","op":"index","k":-0}',
    '"e":"call","id":"d","op":"index","k":-1}',
    '"e":"call","id":"d","op":"index","k":1.0}',
    '"e":"call","id":"d","op":"index","k":1e3}',
    '"e":"call","id":"d","op":"get","at":1.5}',
    '"e":"call","id":"d","op":"get","at":[0,1e999]}',
    '"e":"call","id":"d","op":"index","k":01}',
    '"e":"call","id":"d","op":"index","k":+1}',
    r'"e":"call","id":"a\u0062","op":"get"}',
    r'"e":"call","id":"\ud800","op":"get"}',
    '"e":"call","id":"é","op":"get"}',
    r'"e":"call","id":"a\"b","op":"get"}',
    r'"e":"lost","\u006e":4}',
    '"e":"lost","at":[1,]}',
    '"e":"lost","at":{"y":1,}}',
    '"e":"lost","at":[1 2]}',
    '"e":"lost","at":truer}',
    '"e":"lost","body":null}',
    '"e":"reply","status":200,"body":{"_id":"d","_source":null,"error":"e"}}',
    '"e" :"lost"}',
    '"e":"lost"}}',
]

# Bytes that damage a line.
DAMAGE = [b"\xff", b"\x80", b"\x1f", b'"', b"\\", b" ", b",", b"}", b":"]

# How many lines are drawn, what the numbers of their calls are below, and how many of them have to be accepted at
# least.
DRAWN_LINES, NUMBERS, LEAST_ACCEPTED = 600, 24, 100

# The calls before a drawn line: the replies that are drawn fit some of them. The last four are lost.
BEFORE = "".join(call(n, ["get", "index", "index", "delete"][n % 4], f',"k":{n}', "dded"[n % 4]) for n in range(16))
BEFORE += "".join(map(lost, range(12, 16)))

# The line of a text that is the drawn one, and the causes that drawn lines have to be refused for.
DRAWN_AT = BEFORE.count("\n") + 1
CAUSES = {"json", "shape", "id", "half", "range", "second-call", "shard-moved", "no-call", "ended", "stranger"}

# How many histories of ten calls are drawn, and how many recordings with one reply changed; the shard of each document
# in them.
WILD, RECORDED, CALLS, SHARDS = 50, 48, 10, (5, 0, 1023)

# How many of them must at least be cut so that both stories have the same order before the event.
LEAST_ORDERS = 40

# What the story of a history without an order says of the events before the one that is named.
ORDER_BEFORE = re.compile(r"\nAn order of the document's calls before that reply:\n(?:.+\n)*")


def answer(program, command, text):
    """The exit status and the answer of a command to the text."""
    return said(run(program, [command], text))


def drawn_line(draws):
    """The bytes of a drawn line: some nest deep, some are damaged, and some are cut short."""
    text = f'{{"n":{draws.below(NUMBERS)},'
    if draws.below(10) == 0:
        text += f'"at":{nested(draws.below(4) + 124)},'
    line = (text + draws.one_of(ODD if draws.below(3) == 0 else PLAIN)).encode()
    place = draws.below(len(line))
    if draws.below(20) == 0:
        return line[:place]
    if draws.below(5) == 0:
        return line[:place] + draws.one_of(DAMAGE) + line[place + 1 :]
    return line


# A member that is no field, with an escape in its key, so that the quick way doesn't read the line; and one whose
# number is not digits alone, so that the second doesn't read it either.
ESCAPED, FRACTION = b'"\\u0061t":0,', b'"at":0.5,'


def with_member(line, member):
    """The line with one more member before its others. A line that doesn't begin with a brace is left as it is."""
    return b"{" + member + line[1:] if line.startswith(b"{") else line


def document_of(line):
    """The document that a line names last, as it is spelled there; `d` if it names none."""
    named = re.findall(rb'"id": ?("(?:[^"\\]|\\.)*")', line)
    return named[-1] if named else b'"d"'


def story_around(program, line, document):
    """The story of the line behind some calls and before a get that finds what nobody wrote, so that it shows all calls
    of the document. Of a refused line its own bytes are left out."""
    after = get(99, doc="@").encode().replace(b'"@"', document) + found(99, 9, 9, k=99).encode()
    status, story = answer(program, "explain", BEFORE.encode() + line + b"\n" + after)
    return status, story.partition("\nHow the line begins:\n")[0]


def read_alike(program, line):
    """The cause for which a drawn line is refused, or `accepted`; each way reads it alike."""
    document = document_of(line)
    status, text = story = story_around(program, line, document)
    for member in (ESCAPED, FRACTION):
        other = story_around(program, with_member(line, member), document)
        if story != other or status not in (1, 2):
            raise AssertionError(f"{story}, and with {member.decode()} {other}")
    cause = re.match(rf"refused line={DRAWN_AT} cause=([a-z-]+)\n", text)
    return cause[1] if cause else "accepted"


def wild_reply(draws, number):
    """A drawn reply to the call, whatever it asked; none for a loss."""
    replies = [Reply("found", (1, number), number), MISSING, CONFLICT, Reply("indexed", (1, number), False), None]
    return replies[draws.below(len(replies))]


# The kinds of reply that each operation of a wild history can have.
KINDS = {"get": ("found", "missing"), "index": ("indexed", "conflict"), "delete": ("conflict",)}


def wild_events(seed):
    """Ten calls of three documents, and drawn endings of some: those that a history can have."""
    draws, events, waiting = Draws(seed), [], {}
    for number in range(CALLS):
        doc = draws.below(len(SHARDS))
        waiting[number] = [Op("get"), Op("index", number), Op("delete", None, (2, 7))][draws.below(3)]
        events.append(Call(number, doc, waiting[number]))
        for _ in range(2):
            ended = draws.below(number + 1)
            reply = wild_reply(draws, ended)
            if ended in waiting and (reply is None or reply.kind in KINDS[waiting[ended].name]):
                events.append(Ending(ended, reply))
                del waiting[ended]
    return events


def recorded_events(seed):
    """A recording of three documents with one reply changed, if one can be."""
    events = Clients(seed, len(SHARDS)).recorded()
    changed(events, CHANGES[seed % len(CHANGES)])
    return events


def judged_when_cut(program, events):
    """Judges a history; returns `yes`, or how its first events compare with the whole. Those up to the event that is
    named have no order; those before it have one if that is said. It is `order` if both stories have the same one
    before that event, on the same reply."""
    text = list(lines(events, lambda doc: SHARDS[doc]))
    _, story = answer(program, "explain", "".join(text))
    offence = OFFENCE.match(story)
    if not offence:
        if not story.startswith("yes "):
            raise AssertionError(story)
        return "yes"
    event = int(offence["event"])
    _, through = answer(program, "explain", "".join(text[: event + 1]))
    _, before = answer(program, "check", "".join(text[:event]))
    if through.startswith("yes ") or before.startswith("yes ") != (offence["before"] == "shown"):
        raise AssertionError(f"{story}, through the event {through}, and before it {before}")
    named = ("event", "call", "before")
    if OFFENCE.match(through).group(*named) != offence.group(*named):
        return "another event"
    order, wanted = ORDER_BEFORE.findall(through), ORDER_BEFORE.findall(story)
    if order != wanted:
        raise AssertionError(f"{story}, and through the event {through}")
    return "order" if order else "no order"


class Lines(AnswersTest):
    """How lines are read."""

    def test_texts(self):
        self.run_subtests(self.check_input, TEXTS)

    def check_story(self, text, line, parts):
        status, story = answer(self.program, "explain", text)
        self.assertEqual((status, story[: len(line)]), (status_of(line), line))
        for part in parts:
            self.assertIn(part, story)

    def test_stories(self):
        """A story begins with the line and has the parts."""
        self.run_subtests(self.check_story, STORIES)

    def test_witnesses(self):
        """The document that a witness lacks is named by its number."""
        rows = []
        for names, number in LEFT_OUT:
            texts = THREE_DOCUMENTS, "".join(witness_of(name, []) for name in names)
            rows.append((f"a witness of {names}", "verify", texts, doc_missing(number)))
        self.run_subtests(self.check_files, rows)

    def test_bulks(self):
        rows = []
        for name, first, body, reply, wanted in BULKS:
            rows.append((name, "bulk", (body, reply), wanted, "--first", str(first)))
        self.run_subtests(self.check_files, rows)

    def test_few_bytes_at_hand(self):
        rows = [
            (f"{command} {text[:40]!r} by {count} bytes", command, text, count, wanted)
            for command, text, wanted in AT_HAND
            for count in BYTES_AT_HAND
        ]
        self.run_subtests(self.check_parts, rows)

    def check_spaced(self, growths, rest):
        plain, spaced = (f'{{"at"{space}:0,"n":3,{rest}' for space in ("", " "))
        self.assertEqual(growths.check(spaced, growths.count(plain)), (NO_MEMORY, True))

    @needs_compiler
    def test_quick_lines(self):
        """A check of a plain line with a space before a colon, which leaves it to another way, asks for more growths
        than without the space."""
        with tempfile.TemporaryDirectory() as folder:
            growths = Growths(self.program, folder)
            self.run_subtests(self.check_spaced, [(f"quickly: {rest}", growths, rest) for rest in PLAIN])

    def test_drawn_lines(self):
        """Drawn lines are read alike by each way. Enough are accepted, and each cause refuses some."""
        draws = Draws(7)
        drawn = [drawn_line(draws) for _ in range(DRAWN_LINES)]
        rows = [(f"drawn line {it[:200]!r}", self.program, it) for it in drawn]
        causes = Counter(self.run_subtests(read_alike, rows))
        with self.subTest("causes"):
            self.assertLessEqual(CAUSES, set(causes))
        with self.subTest("accepted lines"):
            self.assertGreaterEqual(causes["accepted"], LEAST_ACCEPTED)

    def test_cut_histories(self):
        """Drawn histories that are cut are judged as within the whole. Enough of them have an order before the
        event."""
        rows = [(f"wild history {seed}", self.program, wild_events(seed)) for seed in range(WILD)]
        rows += [(f"recording {seed}", self.program, recorded_events(seed)) for seed in range(RECORDED)]
        cuts = Counter(self.run_subtests(judged_when_cut, rows))
        with self.subTest("orders before the event"):
            self.assertGreaterEqual(cuts["order"], LEAST_ORDERS)


if __name__ == "__main__":
    sys.exit(run_tests())

#!/usr/bin/env python3
"""Has the built program verify places of small histories, read witness texts, and write them.

    python3 tests/witnesses.py [PROGRAM]

PROGRAM is the built casbench; if it isn't named, the one that ./casbench would run. Places are verified against the
calls of one document, in both readings of a conflict: the answer has the counts if they are valid, else the first
fault. A text that is accepted stands beside small histories, whose answers show what was read. Texts are read whole,
and seven bytes at a time. A line that is refused is reported with its first cause, before any document and after one.
The witness of a history is compared byte for byte, and read back.
"""

import json
import pathlib
import sys
import tempfile

from case_files import case_text
from program_test import ProgramTest, run_tests
from running import asked, run_on_files, run_on_parts
from texts import ID_BYTES, ITEMS, LINE_BYTES, LINES, MOST_OF_PAIR, MOST_RECORD, READINGS
from texts import answer_of, broken, condition, conflict, create, created, delete, deleted, doc_missing, found, get, index
from texts import lost, missing, not_found, places_of, refused, updated, verified, witness_of

# The condition that the document is at 1/0.
FIRST = condition(1, 0)

# An index, an index under a condition, and two gets that find the second and the first; all but the first are open at
# one time. In the other history the last get is called when the first one was answered.
TWO_WRITES = [index(0), created(0, 1, 0), index(1, FIRST, k=2), get(2)]
OVERLAPPING = [*TWO_WRITES, get(3), found(2, 1, 1, k=2), found(3, 1, 0), updated(1, 1, 1)]
NOT_OVERLAPPING = [*TWO_WRITES, found(2, 1, 1, k=2), get(3), found(3, 1, 0), updated(1, 1, 1)]

# The first get is open while the second and the third are called and answered.
THREE_GETS = [get(0), get(1), missing(1), get(2), missing(2), missing(0)]

# A lost write explains why the last one met a conflict.
LOST_WRITE = [index(0), created(0, 1, 0), index(1, FIRST, k=2), lost(1), index(2, FIRST, k=3), conflict(2)]

UNANSWERED = [create(0, k=1), delete(1), create(2, k=2), get(3)]

# The get 1 and the delete are not answered.
MIXED = [index(0), created(0, 1, 0), get(1), delete(2), get(3), found(3, 1, 0), get(4), missing(4)]

# A history, and places that are verified against it; the answer if a conflict hides nothing, and, if it differs, the
# answer if a conflict may hide a pair. The places 0 1=3/2 are the record 0, and the record 1 with the pair 3/2.
PLACES = [
    (OVERLAPPING, "0 3 1 2", "valid"),
    (OVERLAPPING, "0 2 1 3", "illegal place=1"),
    (OVERLAPPING, "0 3 1", "absent rec=2"),
    # The least of the absent records is named.
    (OVERLAPPING, "0", "absent rec=1"),
    (OVERLAPPING, "", "absent rec=0"),
    (NOT_OVERLAPPING, "0 3 1 2", "late place=3"),
    # Places that are late, and no neighbours of what they are late for.
    (THREE_GETS, "2 0 1", "late place=2"),
    (THREE_GETS, "2 1 0", "late place=1"),
    (THREE_GETS, "1 0 2", "valid"),
    (THREE_GETS, "1 2 0", "valid"),
    # A reply directly before another call, and directly after it.
    ([get(0), missing(0), get(1), missing(1)], "1 0", "late place=1"),
    ([get(0), get(1), missing(0), missing(1)], "1 0", "valid"),
    # A lost write.
    (LOST_WRITE, "0 1=3/2 2", "valid"),
    (LOST_WRITE, "0 1=1/1 2", "valid"),
    (LOST_WRITE, "0 1 2", "pair-missing place=1"),
    (LOST_WRITE, "0 1=1/0 2", "illegal place=1"),
    (LOST_WRITE, "0 1=1/1 1=3/2 2", "twice place=2"),
    # Its condition is not met before the first write.
    (LOST_WRITE, "1=3/2 0 2", "illegal place=0"),
    (LOST_WRITE, "0 2", "illegal place=1"),
    (LOST_WRITE, "0 2=3/2", "pair-given place=1", "valid"),
    (LOST_WRITE, "0 1=1/1 2=3/2", "pair-given place=2", "illegal place=2"),
    # A lost write before an update: it was called before the update was answered, or after.
    ([index(0, k=2), index(1), updated(1, 1, 1)], "0=1/0 1", "valid"),
    ([index(0), updated(0, 1, 1), index(1, k=2)], "1=1/0 0", "late place=1"),
    # A conflict, under a condition that is met, and without one.
    ([index(0), created(0, 1, 0), index(1, FIRST, k=3), conflict(1)], "0 1=3/2", "pair-given place=1", "valid"),
    ([index(0), created(0, 1, 0), index(1, FIRST, k=3), conflict(1)], "0 1=1/0", "pair-given place=1", "illegal place=1"),
    ([index(0), created(0, 1, 0), index(1, FIRST, k=3), conflict(1)], "0 1", "illegal place=1"),
    ([index(0), conflict(0)], "0=1/0", "pair-given place=0", "valid"),
    ([index(0), conflict(0)], "0", "illegal place=0"),
    # Deletes and creates, one after another.
    ([delete(0), not_found(0, 1, 0), get(1), missing(1), index(2), created(2, 1, 1)], "0 1 2", "valid"),
    ([delete(0), deleted(0, 1, 0), get(1), missing(1), index(2), created(2, 1, 1)], "0 1 2", "illegal place=0"),
    ([delete(0), not_found(0, 1, 0), get(1), missing(1), index(2), updated(2, 1, 1)], "0 1 2", "illegal place=2"),
    ([create(0), created(0, 1, 0), delete(1), deleted(1, 1, 1), create(2), created(2, 1, 2)], "0 1 2", "valid"),
    ([create(0), created(0, 1, 0), delete(1), not_found(1, 1, 1), create(2), created(2, 1, 2)], "0 1 2", "illegal place=1"),
    ([create(0), created(0, 1, 0), delete(1), deleted(1, 1, 1), create(2), created(2, 1, 1)], "0 1 2", "illegal place=2"),
    ([create(0), created(0, 1, 0), create(1), conflict(1), delete(2), deleted(2, 1, 1)], "0 1 2", "valid"),
    # No create is answered so: it is of unknown outcome, and as it is not answered it needs a pair; but it can't take
    # one there.
    ([create(0), created(0, 1, 0), create(1), updated(1, 1, 1), delete(2), deleted(2, 1, 1)], "0 1 2", "pair-missing place=1"),
    ([create(0), created(0, 1, 0), create(1), updated(1, 1, 1), delete(2), deleted(2, 1, 2)], "0 1=1/1 2", "illegal place=1"),
    # Calls without a reply may be left out; a write among them that is not is performed with the pair given.
    (UNANSWERED, "", "valid"),
    (UNANSWERED, "1=1/0", "valid"),
    (UNANSWERED, "2=1/0 1=1/1", "valid"),
    (UNANSWERED, "1=1/0 0=1/1", "valid"),
    (UNANSWERED, "0=1/1 1=1/0", "illegal place=1"),
    (UNANSWERED, "0=1/0 2=1/1", "illegal place=1"),
    (UNANSWERED, "0=1/0 3", "stranger place=1"),
    # Two or more faults hold in most of these places, and the first is reported.
    (MIXED, "0 3 2=1/1 4", "valid"),
    (MIXED, "0 5", "stranger place=1"),
    (MIXED, f"{MOST_RECORD}=1/0", "stranger place=0"),
    (MIXED, "1=1/0 1", "stranger place=0"),
    (MIXED, "0 0=1/1", "twice place=1"),
    (MIXED, "0 2=1/1 2", "twice place=2"),
    (MIXED, "4 2=1/1 4", "twice place=2"),
    (MIXED, "0 2 5", "pair-missing place=1"),
    (MIXED, "0=1/0", "pair-given place=0"),
    (MIXED, "4 0=1/1", "pair-given place=1"),
    (MIXED, "0 4=1/1", "pair-given place=1"),
    (MIXED, "4 0 0", "late place=1"),
    (MIXED, "4 2=1/1 0", "late place=2"),
    (MIXED, "0 2=1/1 3", "illegal place=2"),
    (MIXED, "0 4 5", "illegal place=1"),
    (MIXED, "0 2=1/1 4", "absent rec=3"),
    (MIXED, "0", "absent rec=3"),
]


def not_read(line, cause):
    """The answer if a line of the witness can't be read."""
    return refused(line, cause, "witness")


def document(doc, places=""):
    """The lines of a document with these places."""
    return witness_of(doc, places_of(places))


# What is shown of a pair: a write of the number 2 is lost, and a get after it finds 2 at a pair, which has to be the
# pair that a witness gives to the write.


def lost_then_found(first, term, seq, doc="d"):
    """The lines of the two calls, the first of which has this number."""
    return [index(first, doc=doc, k=2), lost(first), get(first + 1, doc=doc), found(first + 1, term, seq, k=2)]


def two_documents(pair_of_a, pair_of_b):
    """Two documents on one shard; in each a write, and a lost one with the pair that a get found."""
    first = [index(0, doc="a"), created(0, 1, 0), index(1, doc="b"), created(1, 1, 1)]
    return [*first, *lost_then_found(2, *pair_of_a, doc="a"), *lost_then_found(4, *pair_of_b, doc="b")]


def three_documents(*endings):
    """Gets of three documents: a is called once, b eight times, and c once, each call numbered on; and these lines
    after them."""
    return [get(0, doc="a"), *(get(n, doc="b") for n in range(1, 9)), get(9, doc="c"), *endings]


BLANK_LINES = "\n \t\r\n\n   "
TWO_LOST_WRITES = document("a", "0 1=1/2 2") + document("b", "0 1=1/4 2")
TWICE_A = document("a", "0 1") * 2
AMONG_BLANK_LINES = '\r\n{"doc":"a"}\r\n \t\n{"doc":"b"}\n\n\t {"rec" : 7} \r\n\n{"doc":"c"}'
GREATEST_PAIR = f'{{"doc":"d"}}\n{{"term":{MOST_OF_PAIR},"seq":{MOST_OF_PAIR},"rec":1}}\n{{"rec":2}}\n'
PAIR_AGAIN = '{"doc":"d"}\n{"rec":0,"seq":5,"term":0,"seq":6,"term":7}\n{"rec":1}\n'
RECORD_AGAIN = '{"doc":"d"}\n{"rec":null,"rec":-1,"rec":4}'
FIVE_GETS = [get(n) for n in range(5)]

# A witness text, a history, and the answer.
TEXTS = [
    # No document.
    ("", [], verified(0, docs=0)),
    (BLANK_LINES, [], verified(0, docs=0)),
    ("", [get(0)], doc_missing(0)),
    (BLANK_LINES, [get(0)], doc_missing(0)),
    # One without a place, and without a line feed.
    ('{"doc":"d"}', [get(0)], verified(1, left_out=1)),
    ('{"doc":"d"}', [get(0), missing(0)], broken("absent rec=0")),
    ('{"doc":"d"}', [get(0, doc="e")], broken("doc-stranger")),
    # Places with a pair and without, in an order that no other places have.
    (document("d", "0 1=3/2 2"), case_text("lost-write-explains-conflict"), verified(3)),
    (document("d", "0 1=3/2 2"), [index(0), created(0, 1, 0), *lost_then_found(1, 3, 2)], verified(3)),
    (document("d", "0 1=3/2 2"), [index(0), created(0, 1, 0), *lost_then_found(1, 3, 3)], broken("illegal place=2")),
    (document("d", "0 1=3/2 2"), [index(0), created(0, 1, 0), *lost_then_found(1, 2, 2)], broken("illegal place=2")),
    (document("d", "0 1"), case_text("index-then-get"), verified(2)),
    (document("d", "0 3 1 2"), case_text("overlapping-gets"), verified(4)),
    # Two documents.
    (TWO_LOST_WRITES, case_text("scarce-number-enough"), verified(6, docs=2)),
    (TWO_LOST_WRITES, two_documents((1, 2), (1, 4)), verified(6, docs=2)),
    (TWO_LOST_WRITES, two_documents((1, 4), (1, 2)), broken("illegal place=2")),
    (TWO_LOST_WRITES, two_documents((1, 2), (1, 5)), broken("illegal place=2", entry=1)),
    # One document twice; neither is known to the other history.
    (TWICE_A, case_text("documents-interleaved"), broken("doc-twice", entry=1)),
    (TWICE_A, [get(0)], broken("doc-stranger")),
    # Three documents, the second of which has one place; each fault names the entry of its document.
    (AMONG_BLANK_LINES, three_documents(missing(8)), verified(10, left_out=9, docs=3)),
    (AMONG_BLANK_LINES, three_documents(missing(7)), broken("stranger place=0", entry=1)),
    (AMONG_BLANK_LINES, three_documents(missing(8), missing(7)), broken("absent rec=6", entry=1)),
    (AMONG_BLANK_LINES, three_documents(missing(8), missing(0)), broken("absent rec=0")),
    (AMONG_BLANK_LINES, three_documents(missing(8), missing(9)), broken("absent rec=0", entry=2)),
    # The greatest record, which no document has; the least pair and the greatest.
    (document("d", f"{MOST_RECORD}"), [get(0), missing(0)], broken("stranger place=0")),
    (document("d", "0=1/0 1"), lost_then_found(0, 1, 0), verified(2)),
    (document("d", "0=1/0 1"), lost_then_found(0, 1, 1), broken("illegal place=1")),
    (document("d", "0=1/0 1"), lost_then_found(0, 2, 0), broken("illegal place=1")),
    (GREATEST_PAIR, [get(0), *lost_then_found(1, MOST_OF_PAIR, MOST_OF_PAIR)], verified(3, left_out=1)),
    (GREATEST_PAIR, [get(0), *lost_then_found(1, MOST_OF_PAIR, MOST_OF_PAIR - 1)], broken("illegal place=1")),
    (GREATEST_PAIR, [get(0), *lost_then_found(1, MOST_OF_PAIR - 1, MOST_OF_PAIR)], broken("illegal place=1")),
    # Of a key named twice the last value counts.
    (RECORD_AGAIN, [*FIVE_GETS, missing(4)], verified(5, left_out=4)),
    (RECORD_AGAIN, [*FIVE_GETS, missing(0)], broken("stranger place=0")),
    (PAIR_AGAIN, lost_then_found(0, 7, 6), verified(2)),
    (PAIR_AGAIN, lost_then_found(0, 7, 5), broken("illegal place=1")),
    # The document is looked for first, and the other fields of its line don't count; fields that aren't known never do.
    ('{"rec":"0","seq":1,"doc":"d","at":null}', [get(0)], verified(1, left_out=1)),
    ('{"doc":"d"}\n{"at":null,"rec":0}', [get(0), missing(0)], verified(1)),
    # Texts that are refused: blank lines count, and nothing is read after the first line that is refused.
    ('{"rec":0}\n', [], not_read(1, "shape")),
    ('{"doc":"d"}\n{"rec":0,"seq":1}\n', [], not_read(2, "half")),
    ('\n \t\r\n{"doc":"d"}\n\n{"rec":-1}\n{"rec":', [], not_read(5, "range")),
    ('{"doc":"d"}\n{"rec":0}\n{"rec":1}\n{"doc":0}\n{"rec":-1}', [], not_read(4, "shape")),
    ('{"doc":"d"}{"rec":0}', [], not_read(1, "json")),
    ('{"doc":\n"d"}', [], not_read(1, "json")),
    ("\u000b\n", [], not_read(1, "json")),
    ("\u00a0\n", [], not_read(1, "json")),
]

# How many bytes each read of a text gives.
AT_HAND = 7

# Lines that are refused: the first cause before any document, that after one, and the lines.
REFUSED = [
    ("json", "json", [b'{"rec":0', b"rec"]),
    # What is no text: a byte that is no letter's, a letter cut short in an id, and one that has a surrogate's number.
    ("json", "json", [b"\xff", b'{"doc":"\xc3"}', b'{"doc":"\xed\xa0\x80"}']),
    ("shape", "shape", [b"1", b"null", b'"doc"', b'[{"doc":"d"}]', b"{}", b'{"Doc":"d"}']),
    ("shape", "shape", [b'{"doc":1}', b'{"doc":null}', b'{"doc":["d"]}', b'{"doc":"d","doc":null}']),
    # The document is looked for first.
    ("shape", "shape", [b'{"rec":0,"doc":null}']),
    ("id", "id", [b'{"doc":""}', b'{"rec":"0","seq":1,"doc":""}', b'{"doc":"d","doc":""}']),
    ("shape", "shape", [b'{"rec":"0"}', b'{"rec":null}', b'{"seq":0,"term":1}']),
    ("shape", "shape", [b'{"rec":0,"seq":null}', b'{"rec":0,"term":null}', b'{"rec":0,"seq":null,"term":null}']),
    ("shape", "shape", [b'{"rec":0,"seq":0,"term":"1"}', b'{"rec":0,"seq":true,"term":1}']),
    # A field of another kind, before half a pair and a number past its range.
    ("shape", "shape", [b'{"seq":1}', b'{"term":0}', b'{"rec":-1,"seq":-1,"term":""}', b'{"rec":-1,"seq":{}}']),
    # A place before any document, before half a pair and a number past its range.
    ("shape", "half", [b'{"rec":0,"seq":0}', b'{"rec":0,"term":1}']),
    # Half a pair, before a number past its range.
    ("shape", "half", [b'{"rec":4294967296,"seq":0}', b'{"rec":1.0,"term":0}', b'{"rec":0,"seq":9223372036854775808}']),
    ("shape", "range", [b'{"rec":4294967296}', b'{"rec":18446744073709551615}', b'{"rec":18446744073709551616}']),
    ("shape", "range", [b'{"rec":1.0}', b'{"rec":1e3}', b'{"rec":-1}', b'{"rec":-0}']),
    ("shape", "range", [b'{"rec":4294967296,"seq":0,"term":1}', b'{"rec":0,"seq":0,"term":0}']),
    ("shape", "range", [b'{"rec":0,"seq":0,"term":9223372036854775808}', b'{"rec":0,"seq":9223372036854775808,"term":1}']),
    ("shape", "range", [b'{"rec":0,"seq":-0,"term":1}', b'{"rec":0,"seq":0,"term":1.0}']),
]


def among_documents(byte, length):
    """So many bytes of one kind, with the line of a document before them and after."""
    return b'{"doc":"d"}\n' + byte * length + b'\n{"doc":"d"}\n'


ONE_GET = [get(0), missing(0)]

# Texts at their limits, and past them: a history, a text, and the answer.
LIMITS = [
    ([get(0)], among_documents(b" ", LINE_BYTES), broken("doc-twice", entry=1)),
    ([get(0)], among_documents(b" ", LINE_BYTES + 1), not_read(2, "long")),
    ([get(0)], among_documents(b"x", LINE_BYTES), not_read(2, "json")),
    ([get(0)], among_documents(b"x", LINE_BYTES + 1), not_read(2, "long")),
    ([get(0)], among_documents(b"\xff", LINE_BYTES + 1), not_read(2, "long")),
    ([], b"\n" * LINES, verified(0, docs=0)),
    ([], b"\n" * LINES + b"x", not_read(LINES + 1, "lines")),
    # A text of as many documents and places as there may be is accepted, and its second place names a record again.
    (ONE_GET, b'{"doc":"d"}\n' + b'{"rec":0}\n' * (ITEMS - 1), broken("twice place=1")),
    (ONE_GET, b'{"doc":"d"}\n' + b'{"rec":0}\n' * ITEMS, not_read(ITEMS + 1, "full")),
]

# Ids of letters that JSON escapes, and of letters of more than one byte; the longest of letters of one to four bytes,
# and of those that take the most bytes in a text.
IDS = ['"', "\\", "\n", "\r\t ", "\b\f", "\0\x1f\x7f", "/", "\u00e9", "\u2028", "\U0001f600", '{"doc":"d"}', "x"]
LONGEST = [letter * (ID_BYTES // len(letter.encode())) for letter in ("x", "\u00e9", "\U0001f600", '"', "\x01")]

# Ids that are too long, of letters of one byte and of two.
TOO_LONG = ["x" * (ID_BYTES + 1), "\u00e9" * (ID_BYTES // 2 + 1)]

# A get of e on the second shard, after the write that it finds.
SHOWN = [index(3, ',"shard":1', "e"), created(3, 1, 0), get(4, ',"shard":1', "e"), found(4, 1, 0)]

# A history, the text that is written of it, and the answer to this text: of no document, of one, and of two.
WRITTEN = [
    ([], "", verified(0, docs=0)),
    (LOST_WRITE, '{"doc":"d"}\n{"rec":0}\n{"rec":1,"seq":2,"term":3}\n{"rec":2}\n', verified(3)),
    (SHOWN, '{"doc":"e"}\n{"rec":0}\n{"rec":1}\n', verified(2)),
    (
        LOST_WRITE + SHOWN,
        '{"doc":"d"}\n{"rec":0}\n{"rec":1,"seq":2,"term":3}\n{"rec":2}\n{"doc":"e"}\n{"rec":0}\n{"rec":1}\n',
        verified(5, docs=2),
    ),
]


def answer_to_places(history, places, fault):
    """The answer to these places: the counts if they are valid, else the fault."""
    if fault != "valid":
        return answer_of(broken(fault))
    calls = sum('"e":"call"' in line for line in history)
    return answer_of(verified(calls, left_out=calls - len(places.split())))


class Witnesses(ProgramTest):
    """Verifications of witness texts, and the texts that are written."""

    def verify(self, history, witness, conflicts="plain"):
        """How a verification of the witness text ends; a history may be a list of its lines."""
        return run_on_files(self.program, "verify", ["".join(history), witness], ["--conflicts", conflicts])

    def verify_by_parts(self, history, witness):
        """The same if each read of the witness text gives a few bytes, and no more."""
        with tempfile.TemporaryDirectory() as folder:
            file = pathlib.Path(folder) / "history"
            file.write_text("".join(history))
            return run_on_parts(self.program, ["verify", file], witness, AT_HAND)

    def check_answer(self, history, witness, line):
        self.assertEqual(self.verify(history, witness), answer_of(line))

    def check_written(self, history, text, line):
        """This text is the witness of the history, and a verification of it ends so."""
        self.assertEqual(asked(self.program, "witness", "".join(history)), (0, text))
        self.check_answer(history, text, line)

    def check_places(self, history, places, reading, fault):
        ended = self.verify(history, document("d", places), reading)
        self.assertEqual(ended, answer_to_places(history, places, fault))

    def test_places(self):
        """The places, in both readings of a conflict."""
        rows = [
            (f"{reading}, {places!r} of {history}", history, places, reading, fault)
            for history, places, *faults in PLACES
            for reading, fault in zip(READINGS, (faults[0], faults[-1]))
        ]
        self.run_subtests(self.check_places, rows)

    def check_text(self, verify, text, history, line):
        self.assertEqual(verify(history, text), answer_of(line))

    def test_texts(self):
        """The texts, read whole and a few bytes at a time."""
        rows = [
            (f"{verify.__name__} {text!r}, {history}", verify, text, history, line)
            for text, history, line in TEXTS
            for verify in (self.verify, self.verify_by_parts)
        ]
        self.run_subtests(self.check_text, rows)

    def test_refused_lines(self):
        """The lines that are refused, before any document and after one."""
        rows = []
        for first, later, lines in REFUSED:
            for line in lines:
                rows.append((f"line {line}", "", line, not_read(1, first)))
                rows.append((f"a later line {line}", "", b'{"doc":"d"}\n' + line + b"\n", not_read(2, later)))
        self.run_subtests(self.check_answer, rows)

    def test_ids(self):
        """The ids, spelled as they are and with escapes: what is written of a document and read back, and what is read
        of a text."""
        written, read, line = [], [], verified(1, left_out=1)
        for name in IDS + LONGEST:
            plain = json.dumps(name, ensure_ascii=False)
            for spelled in dict.fromkeys([json.dumps(name), plain]):
                history, witness = get(0, doc=spelled[1:-1]), f'{{"doc":{spelled}}}'
                written.append((f"id {spelled[:80]!a} written", history, f'{{"doc":{plain}}}\n', line))
                read.append((f"id {spelled[:80]!a} read", history, witness, line))
                read.append((f"not id {spelled[:80]!a}", get(0), witness, broken("doc-stranger")))
        read += [(f"id {name[:80]!a}", "", f'{{"doc":"{name}"}}', not_read(1, "id")) for name in TOO_LONG]
        self.run_subtests(self.check_written, written)
        self.run_subtests(self.check_answer, read)

    def test_limits(self):
        rows = [(f"{text[:40]}, {len(text)} bytes", history, text, line) for history, text, line in LIMITS]
        self.run_subtests(self.check_answer, rows)

    def test_written(self):
        self.run_subtests(self.check_written, [(f"written of {row[0]}", *row) for row in WRITTEN])


if __name__ == "__main__":
    sys.exit(run_tests())

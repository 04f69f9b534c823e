"""The lines of histories and of witnesses, and the lines that the program answers with. Each ends with a line feed.

It is no test itself; the tests write their texts with it, and what is wanted of them.
"""

import re

# The most bytes of a line and of an id, the most lines of a text, the most events of a history, the most documents and
# places of a witness, and how deep values may stand in one another.
LINE_BYTES, ID_BYTES, LINES, EVENTS, ITEMS, DEPTH = 65_536, 512, 4_194_304, 1_048_576, 2_097_152, 127

# The greatest number of a call, the greatest of a pair, and the greatest record.
MOST_NUMBER, MOST_OF_PAIR, MOST_RECORD = 2**64 - 1, 2**63 - 1, 2**32 - 1

# How a conflict may be read.
READINGS = ("plain", "maybe")


def nested(depth):
    """So many lists, each in the one before."""
    return "[" * depth + "]" * depth


# Calls. If no document is named it is d; more members stand each after a comma.


def call(n, op, more="", doc="d"):
    """The line of a call."""
    return f'{{"e":"call","n":{n},"id":"{doc}","op":"{op}"{more}}}\n'


def index(n, more="", doc="d", k=1):
    return call(n, "index", f',"k":{k}{more}', doc)


def create(n, more="", doc="d", k=1):
    return call(n, "create", f',"k":{k}{more}', doc)


def delete(n, more="", doc="d"):
    return call(n, "delete", more, doc)


def get(n, more="", doc="d"):
    return call(n, "get", more, doc)


def condition(term, seq):
    """The members of a condition, which asks for this pair."""
    return f',"if_primary_term":{term},"if_seq_no":{seq}'


# Endings of calls. If a document is named its id stands in the body.


def lost(n):
    """The line of a call that is lost."""
    return f'{{"e":"lost","n":{n}}}\n'


def reply(n, status, body):
    """The line of a reply."""
    return f'{{"e":"reply","n":{n},"status":{status},"body":{body}}}\n'


def id_member(doc):
    return f'"_id":"{doc}",' if doc else ""


def performed(n, status, result, term, seq, doc=""):
    """The reply to a write that was performed."""
    return reply(n, status, f'{{{id_member(doc)}"result":"{result}","_seq_no":{seq},"_primary_term":{term}}}')


def created(n, term, seq, doc=""):
    return performed(n, 201, "created", term, seq, doc)


def updated(n, term, seq, doc=""):
    return performed(n, 200, "updated", term, seq, doc)


def deleted(n, term, seq, doc=""):
    return performed(n, 200, "deleted", term, seq, doc)


def not_found(n, term, seq, doc=""):
    """The reply to a delete that was performed though the document was not there."""
    return performed(n, 404, "not_found", term, seq, doc)


def found(n, term, seq, k=1, doc=""):
    return reply(n, 200, f'{{{id_member(doc)}"_seq_no":{seq},"_primary_term":{term},"found":true,"_source":{{"k":{k}}}}}')


def missing(n, doc=""):
    return reply(n, 404, f'{{{id_member(doc)}"found":false}}')


def conflict(n):
    return reply(n, 409, '{"error":{"type":"version_conflict_engine_exception"}}')


# Lines that the program writes itself: their members stand by their names.


def written_call(n, op, doc, more=""):
    return f'{{"e":"call","id":"{doc}"{more},"n":{n},"op":"{op}"}}\n'


def written_reply(n, status, body):
    return f'{{"body":{body},"e":"reply","n":{n},"status":{status}}}\n'


# Witnesses.


def pair_of(word):
    """The pair that is written as its term and its number, as 1/0."""
    term, seq = word.split("/")
    return int(term), int(seq)


def places_of(words):
    """The places: `0 1=3/2` is the record 0, and the record 1 with the pair 3/2."""
    parts = (it.partition("=") for it in words.split())
    return [(int(record), pair_of(pair) if pair else None) for record, _, pair in parts]


def witness_of(doc, places):
    """The lines of a document with these places."""
    rows = ['{"doc":"%s"}\n' % doc]
    for record, pair in places:
        more = "" if pair is None else f',"seq":{pair[1]},"term":{pair[0]}'
        rows.append(f'{{"rec":{record}{more}}}\n')
    return "".join(rows)


# Answers. If no count of documents is named it is one.


def yes(calls, left_out=0, docs=1):
    return f"yes docs={docs} calls={calls} left_out={left_out}\n"


def verified(calls, left_out=0, docs=1):
    return f"verified docs={docs} calls={calls} left_out={left_out}\n"


def no(event, number):
    """The answer if no order is found; this reply, to the call with this number, is named."""
    return f"no event={event} call={number} before=shown\n"


def refuted(kind, calls, event, number):
    """The answer if these calls are evidence of the kind."""
    return f"refuted kind={kind} calls={calls} event={event} call={number} before=shown\n"


def no_writer(event, number):
    """The answer if a get found what nobody wrote."""
    return refuted("no-writer", number, event, number)


def pair_twice(event, first, second):
    """The answer if a write was answered with the pair of another one."""
    return refuted("pair-twice", f"{first},{second}", event, second)


def refused(line, cause, file=""):
    """The answer if a line can't be read; of a verification the file is named too."""
    named = f"file={file} " if file else ""
    return f"refused {named}line={line} cause={cause}\n"


def broken(fault, entry=0):
    """The answer if a witness has a fault in this entry."""
    return f"broken entry={entry} cause={fault}\n"


def doc_missing(doc):
    """The answer if a witness lacks this document."""
    return f"broken doc={doc} cause=doc-missing\n"


# The refusals of a bulk: an item of the reply is none of the body's, and the counts differ or the numbers end.
REFUSED_COUNT = "refused cause=count\n"


def refused_item(item):
    return f"refused item={item} cause=kind\n"


# The messages on standard error.
READ_FAULT, WRITE_FAULT, SETTING_FAULT = "casbench: read fault\n", "casbench: write fault\n", "casbench: setting\n"



def no_calls(file=""):
    """The note on standard error of a check that writes `yes` of a history without calls, in a file if one is named."""
    return f"casbench: {file}: no calls, so nothing was judged\n" if file else "casbench: no calls, so nothing was judged\n"


def too_few(calls, least, file=""):
    """The note of a check that writes `yes` of a history with fewer calls than are asked for."""
    return f"casbench: {file}: {calls}, fewer than {least}\n" if file else f"casbench: {calls}, fewer than {least}\n"


# An answer without an order: the kind of evidence and its calls, if there is evidence, and the reply that is named.
OFFENCE = re.compile(
    r"(?:no|refuted kind=(?P<kind>\S+) calls=(?P<calls>\d+(?:,\d+)?)) "
    r"event=(?P<event>\d+) call=(?P<call>\d+) before=(?P<before>shown|unshown)\n"
)


def status_of(line):
    """The exit status that comes with the answer that begins so."""
    return {"refused": 2, "no": 1, "refuted": 1, "broken": 1}.get(line.partition(" ")[0], 0)


def answer_of(out):
    """How a run with this answer ends: its status and both outputs."""
    return status_of(out), out, ""


def check_of(out):
    """The same of a check of standard input, which has a note if there are no calls."""
    return status_of(out), out, no_calls() if out == yes(0, docs=0) else ""

#!/usr/bin/env python3
"""Compares what the package's checker says of certificates with their rules, which tests/certificate_rules.py tries one
by one.

    python3 tests/certificates.py [PROGRAM]

PROGRAM is the built casbench; if it isn't named, the one that ./casbench would run. Drawn are small histories, in each
reading, and recordings with one fault, of up to 160 calls. Of each in which a document is ruled out the checker has to
accept the certificate that `casbench witness --rule-out` writes, under the same options. Then the certificate is changed
in many ways, and the checker has to refuse it if a rule is broken. At last the small histories are changed, until the
exact search finds an order: the certificate has to be refused then, whatever it says.

Some fixed certificates show the sentence that comes with each rule, the lines that are refused, and the command.
"""

import json
import pathlib
import subprocess
import sys
import tempfile
from collections import Counter
from concurrent.futures import ProcessPoolExecutor
from typing import Callable, NamedTuple

import ruled_out
import small_drawing
import small_readings
from case_files import case_text
from certificate_rules import is_valid
from drawing import Draws, lines
from orders import text_of as text_of_recording
from program import TOP
from program_test import ProgramTest, run_tests
from reading_answers import check_all, witness_of_text
from readings import Reading, history_of, text_of
from recordings import environment, own_reading
from small_readings import is_explained
from texts import MOST_OF_PAIR, refuted

from casbench_recording.history.witness import checked

# How many processes judge the histories, and how many of these the program is asked of at once.
WORKERS, AT_ONCE = 2, 100

# How many certificates have to be accepted at least, how many changed ones refused, how many of each kind of change, and
# how many by each rule.
LEAST_ACCEPTED, LEAST_REFUSED, LEAST_OF_A_KIND, LEAST_OF_A_RULE = 2_000, 2_000, 20, 20

# How many certificates of an explained history are refused at least, and how often a history is changed at most until
# it is explained.
LEAST_EXPLAINED, TRIES = 500, 8

# The lines of the checker that aren't blank: how many at most, and its modules.
MOST_LINES, MODULES = 580, ("certificate_text", "certificate_states", "certificate_steps", "certificate_checker")


class Source(NamedTuple):
    """Histories that are drawn: a name, the text of a seed, the reading, how many seeds there are, whether an exact
    search judges them, and how many changes each certificate gets."""

    name: str
    draw: Callable
    reading: Reading
    seeds: int
    is_small: bool
    changes: int


def small_text(seed):
    small = small_drawing.small_history(seed)
    return "".join(lines(small.events, small.shard_of))


def faulty_text(seed):
    return text_of_recording(ruled_out.small_history(seed))


def recording_text(seed):
    return text_of_recording(ruled_out.recording(seed))


PLAIN, MAYBE = Reading(), Reading(conflicts="maybe")
SOURCES = [Source("small", small_text, it, 6_000, True, 4) for it in (PLAIN, MAYBE)]
SOURCES += [Source("small with faults", faulty_text, it, 3_000, True, 4) for it in (PLAIN, MAYBE)]
SOURCES += [Source("small", small_readings.small_history, it, 1_000, True, 4) for it in small_readings.READINGS.values()]
SOURCES += [Source("recording", recording_text, it, 300, False, 2) for it in (PLAIN, MAYBE)]


# Certificates as they are changed: the line of the answer, and the members of the others.


class Lines:
    """The lines of a certificate: the answer, and the members of the claim, the begin, and the states and events."""

    def __init__(self, text):
        self.answer, *rows = text.splitlines()
        self.claim, self.begin, *self.rows = map(json.loads, rows)

    def text(self):
        rows = [self.claim, self.begin, *self.rows]
        return "\n".join([self.answer, *(json.dumps(it, separators=(",", ":"), sort_keys=True) for it in rows)]) + "\n"

    def events(self):
        """The indexes of the lines of events."""
        return [at for at, it in enumerate(self.rows) if is_event(it)]

    def states(self, waits=None, is_first=None):
        """The indexes of the states: of those that wait or don't, and of those of the first table or the others."""
        first = min(self.events(), default=len(self.rows))
        states = [at for at, it in enumerate(self.rows) if not is_event(it)]
        states = [at for at in states if waits is None or waits == ("waits" in self.rows[at])]
        return [at for at in states if is_first is None or is_first == (at < first)]


def is_event(line):
    return "made" in line or "answered" in line


# The changes. Each changes the lines, and says whether it did.


def cut_off(_, its):
    """The last table is cut off."""
    events = its.events()
    del its.rows[events[-1] if events else len(its.rows) :]
    return bool(events)


def leave_out(draws, its, **which):
    states = its.states(**which)
    if states:
        its.rows.pop(draws.one_of(states))
    return bool(states)


def leave_out_first_state(draws, its):
    """A state of the first table is left out."""
    return leave_out(draws, its, is_first=True)


def leave_out_state(draws, its):
    """A state of another table is left out."""
    return leave_out(draws, its, waits=False, is_first=False)


def leave_out_waiting_state(draws, its):
    """A state that waits is left out."""
    return leave_out(draws, its, waits=True)


def leave_out_table(draws, its):
    """A table is left out that isn't the last one."""
    events = its.events()
    if len(events) < 2:
        return False
    at = draws.below(len(events) - 1)
    del its.rows[events[at] : events[at + 1]]
    return True


def change_state(draws, its, change):
    """A state is changed; it has changed if it isn't what it was."""
    states = its.states()
    at = draws.one_of(states) if states else None
    if at is None:
        return False
    state = dict(its.rows[at])
    change(state)
    was, its.rows[at] = its.rows[at], state
    return state != was


def raise_pair(draws, its):
    """The pair of a state is raised."""
    return change_state(draws, its, lambda it: it.update(next_of(it)))


def next_of(state):
    """The sequence number after that of a state, if there is one."""
    seq = state.get("seq", MOST_OF_PAIR)
    return {} if seq == MOST_OF_PAIR else {"seq": seq + 1}


def turn_existence(draws, its):
    """A document that exists is missing in a state, or the other way round."""
    return change_state(draws, its, lambda it: it.update(exists=not it["exists"]))


def lower_flipped(draws, its):
    """The number `flipped` of a state is lowered."""
    return change_state(draws, its, lambda it: it.update(flipped=max(0, it["flipped"] - 1)))


def lower_arrived(draws, its):
    """The number `arrived` of a state is lowered."""
    return change_state(draws, its, lambda it: it.update(arrived=max(0, it["arrived"] - 1)))


def add_record(draws, state, key):
    """Adds a record, mostly one of the next few, to the list of a state."""
    state[key] = sorted({*state.get(key, ()), draws.below(max(4, its_records(state) + 2))})


def its_records(state):
    return max(state["flipped"], state["arrived"])


def add_owed(draws, its):
    """A conflict is owed more."""
    return change_state(draws, its, lambda it: add_record(draws, it, "owed"))


def add_spent(draws, its):
    """A conflict is spent more."""
    return change_state(draws, its, lambda it: add_record(draws, it, "spent"))


def raise_count(draws, its):
    """A write without a reply is performed more."""
    key = draws.one_of(("deletes", "makes"))
    return change_state(draws, its, lambda it: it.update({key: it.get(key, 0) + 1}))


def stop_waiting(draws, its):
    """A state that waits is one of the table after the reply."""
    states = its.states(waits=True)
    if states:
        at = draws.one_of(states)
        its.rows[at] = {key: value for key, value in its.rows[at].items() if key != "waits"}
    return bool(states)


def leave_state(draws, its):
    """A state is left in the last table."""
    states = its.states()
    if states:
        its.rows.append({key: value for key, value in its.rows[draws.one_of(states)].items() if key != "waits"})
    return bool(states)


def change_event(draws, its):
    """A table is that of another event."""
    events = its.events()
    if events:
        at = draws.one_of(events)
        ((key, record),) = its.rows[at].items()
        its.rows[at] = {key: record + 1 if draws.below(2) else max(0, record - 1)}
    return bool(events)


def change_begin(draws, its):
    """The tables begin elsewhere."""
    was, records = its.begin["from"], range(its.claim["rec"] + 2)
    its.begin = {"from": draws.one_of([None, *records])}
    return its.begin["from"] != was


def change_claim(draws, its):
    """Another record is ruled out, or another call of whatever document."""
    key = draws.one_of(("call", "rec"))
    its.claim = {**its.claim, key: max(0, its.claim[key] + draws.one_of((-1, 1)))}
    its.answer = its.answer.replace(" calls=", f" calls={its.claim['call']} was=")
    return True


CHANGES = [cut_off, leave_out_first_state, leave_out_state, leave_out_waiting_state, leave_out_table, raise_pair]
CHANGES += [turn_existence, lower_flipped, lower_arrived, add_owed, add_spent, raise_count, stop_waiting]
CHANGES += [leave_state, change_event, change_begin, change_claim]


# What the checker says.


def said_of(text, certificate, reading):
    """What the checker says of a certificate: the word, and the cause if it is broken."""
    status, line = checked(text.encode(), certificate.encode(), own_reading(reading))
    word, *members = line.partition("\n")[0].split()
    if status != {"certified": 0, "broken": 1, "refused": 2}[word]:
        raise AssertionError(f"{line} with status {status}")
    return word, dict(it.split("=", 1) for it in members).get("cause")


def check_accepted(text, certificate, reading, answer):
    """The checker accepts a certificate that the program writes, which keeps the rules and has the answer's line."""
    said = said_of(text, certificate, reading)
    is_right = certificate.startswith(answer.line) and is_valid(reading, history_of(text), certificate)
    if said != ("certified", None) or not is_right:
        raise AssertionError(f"{said}, {is_right}, {reading}\n{text}\n{certificate}")


def check_changed(text, certificate, reading, draws, change):
    """The checker refuses the certificate after a change if a rule is broken, and accepts it otherwise; returns what is
    counted."""
    its = Lines(certificate)
    if not change(draws, its) or its.text() == certificate:
        return []
    word, cause = said_of(text, its.text(), reading)
    if (word == "certified") != is_valid(reading, history_of(text), its.text()) or word == "refused":
        raise AssertionError(f"{word} {cause} after {change.__name__}, {reading}\n{text}\n{certificate}\n{its.text()}")
    return ["still valid"] if word == "certified" else ["refused", f"by {cause}", change.__name__]


def explained_history(text, reading, draws):
    """The history after a few changes, if one of these makes it explained; otherwise None."""
    history = history_of(text)
    for _ in range(TRIES):
        events = list(history.events)
        draws.one_of(small_drawing.CHANGES)(draws, events)
        other = history._replace(events=events)
        if events != history.events and is_explained(other, reading):
            return other
    return None


def check_explained(text, certificate, reading, draws):
    """The checker refuses the certificate of an explained history that resembles its own; returns what is counted."""
    other = explained_history(text, reading, draws)
    if other is None:
        return []
    word, cause = said_of(text_of(other), certificate, reading)
    if word != "broken":
        raise AssertionError(f"{word}, of a history that is explained, {reading}\n{text_of(other)}\n{certificate}")
    return ["refused", f"by {cause}", "of an explained history"]


def judged_some(program, source, first):
    """Judges the certificates of the histories of some seeds; returns what is counted."""
    texts = [source.draw(seed) for seed in range(first, min(first + AT_ONCE, source.seeds))]
    counts, reading = Counter(), source.reading
    for at, (text, answer) in enumerate(zip(texts, check_all(program, texts, reading))):
        if answer.kind != "ruled-out":
            continue
        draws, certificate = Draws(first + at + 11_000), witness_of_text(program, text, reading)
        check_accepted(text, certificate, reading, answer)
        counts["accepted"] += 1
        for change in drawn_changes(draws, source.changes):
            counts.update(check_changed(text, certificate, reading, draws, change))
        if source.is_small:
            counts.update(check_explained(text, certificate, reading, draws))
    return counts


def drawn_changes(draws, count):
    """So many kinds of changes."""
    left = list(CHANGES)
    return [left.pop(draws.below(len(left))) for _ in range(count)]


class Drawn(ProgramTest):
    """Certificates that the program writes of drawn histories, and what becomes of them."""

    def test_drawn(self):
        rows = []
        for source in SOURCES:
            firsts = range(0, source.seeds, AT_ONCE)
            rows += [(f"{source.name}, {source.reading}, from {it} on", self.program, source, it) for it in firsts]
        returned = self.run_subtests(judged_some, rows, lambda _: ProcessPoolExecutor(WORKERS))
        counts = sum(filter(None, returned), Counter())
        print("; ".join(f"{counts[it]} {it}" for it in sorted(counts)))
        least = {"accepted": LEAST_ACCEPTED, "refused": LEAST_REFUSED, "of an explained history": LEAST_EXPLAINED}
        least.update({it.__name__: LEAST_OF_A_KIND for it in CHANGES})
        least.update({f"by {it}": LEAST_OF_A_RULE for it in CAUSES})
        for name, count in least.items():
            with self.subTest(f"how many are {name}"):
                self.assertGreaterEqual(counts[name], count)


CAUSES = ("call", "from", "event", "start", "made", "served", "waits", "left")


# The fixed certificate: a get finds nothing a second time, and the one delete without a reply explained it the first time.

FIXED = case_text("ruled-out-lost-delete-wanted-twice")
CERTIFICATE = refuted("ruled-out", 4, 9, 4)
CERTIFICATE += """\
{"call":4,"doc":"a","rec":4}
{"from":0}
{"arrived":1,"exists":true,"flipped":1,"seq":0,"term":1}
{"answered":2}
{"arrived":1,"exists":true,"flipped":1,"seq":0,"term":1,"waits":true}
{"arrived":3,"deletes":1,"exists":false,"flipped":3,"seq":1,"term":1}
{"answered":3}
{"arrived":3,"deletes":1,"exists":false,"flipped":3,"seq":1,"term":1,"waits":true}
{"arrived":4,"deletes":1,"exists":true,"flipped":4,"seq":4,"term":1}
{"answered":4}
{"arrived":4,"deletes":1,"exists":true,"flipped":4,"seq":4,"term":1,"waits":true}
"""
CERTIFIED = 'certified doc="a" call=4 tables=4 states=6'

# Lines that are changed, by their numbers, and what the checker says then.
SENTENCES = [
    (
        {2: '{"call":4,"doc":"a","rec":3}'},
        "line=2 cause=call",
        'This line and the first one don\'t name one answered call of the document "a" by its record.',
    ),
    (
        {2: '{"call":4,"doc":"b","rec":4}'},
        "line=2 cause=call",
        'This line and the first one don\'t name one answered call of the document "b" by its record.',
    ),
    (
        {3: '{"from":1}'},
        "line=3 cause=from",
        'The document "a" has no reply to this record before that to the call that is named.',
    ),
    (
        {3: '{"from":null}'},
        "line=3 cause=start",
        'Before the first call the document "a" may be in the state {"arrived":0,"exists":false,"flipped":0}, and no state '
        "of the first table covers that.",
    ),
    (
        {4: '{"arrived":1,"exists":true,"flipped":1,"seq":1,"term":1}'},
        "line=3 cause=start",
        'After the reply to call 0 (index: created 1/0) the document "a" may be in the state '
        '{"arrived":1,"exists":true,"flipped":1,"seq":0,"term":1}, and no state of the first table covers that.',
    ),
    (
        {5: '{"answered":1}'},
        "line=5 cause=event",
        'The document "a" has no such event between the table before and the reply to the call that is named.',
    ),
    (
        {5: '{"made":1}\n{"answered":2}'},
        "line=5 cause=made",
        'When call 1 (delete: no reply) is made the document "a" may be in the state '
        '{"arrived":1,"exists":true,"flipped":1,"seq":0,"term":1}, and no state of the table covers that. '
        "It comes from that of line 4.",
    ),
    (
        {7: '{"arrived":2,"deletes":1,"exists":false,"flipped":3,"seq":1,"term":1}'},
        "line=5 cause=served",
        'After the reply to call 2 (get: missing) the document "a" may be in the state '
        '{"arrived":3,"deletes":1,"exists":false,"flipped":3,"seq":1,"term":1}, and no state of the table covers that. '
        "It comes from that of line 6, by call 1 (delete: no reply).",
    ),
    (
        {6: ""},
        "line=5 cause=waits",
        'Before the reply to call 2 (get: missing) the document "a" may be in the state '
        '{"arrived":1,"exists":true,"flipped":1,"seq":0,"term":1}, from which writes may follow, and no state that waits '
        "covers that. It comes from that of line 4.",
    ),
    (
        {12: CERTIFICATE.splitlines()[11] + '\n{"arrived":5,"exists":true,"flipped":5,"seq":4,"term":1}'},
        "line=11 cause=left",
        'After the reply to call 4 (get: missing) the document "a" may be in the state '
        '{"arrived":5,"exists":true,"flipped":5,"seq":4,"term":1} still.',
    ),
]

# Lines that the format doesn't allow, in the place of a line; and the line that is refused, if it is another one.
REFUSED = [
    (2, '{"call":4,"doc":"a"}'),
    (2, '{"call":-1,"doc":"a","rec":4}'),
    (2, '{"call":4,"doc":"","rec":4}'),
    (3, '{"from":true}'),
    (3, "{}"),
    (3, "[]"),
    (4, '{"arrived":1,"exists":1,"flipped":1}'),
    (4, '{"arrived":1,"flipped":1}'),
    (4, '{"arrived":1,"exists":true}'),
    (4, '{"arrived":1,"exists":true,"flipped":1,"seq":0}'),
    (4, '{"arrived":1,"exists":true,"flipped":1,"seq":0,"term":0}'),
    (4, '{"arrived":1,"exists":true,"flipped":1,"owed":1}'),
    (4, '{"arrived":1,"exists":true,"flipped":1,"spent":["1"]}'),
    (4, '{"arrived":1,"exists":true,"flipped":1,"makes":1.0}'),
    (4, '{"arrived":1,"exists":true,"flipped":1,"waits":true}'),
    (5, '{"made":2}', 6),
    (5, '{"answered":4294967296}'),
    (5, '{"answered":2', 5),
]


def with_lines(changes):
    """The fixed certificate with other lines in the place of some."""
    rows = dict(enumerate(CERTIFICATE.splitlines(), 1))
    return "".join(f"{it}\n" for it in {**rows, **changes}.values())


def command(*words):
    """How the command ends."""
    words = [sys.executable, "-m", "casbench_recording.witness", "check", *words]
    ran = subprocess.run(words, capture_output=True, text=True, env=environment(), cwd=TOP)
    return ran.returncode, ran.stdout, ran.stderr


class Fixed(ProgramTest):
    """What the checker says of the fixed certificate, the command, and how long the checker is."""

    def check_said(self, certificate, *wanted, history=FIXED):
        self.assertEqual(checked(history.encode(), certificate.encode()), wanted)

    def test_sentences(self):
        """The sentence that comes with each rule."""
        self.check_said(CERTIFICATE, 0, CERTIFIED)
        for changes, where, sentence in SENTENCES:
            with self.subTest(sentence):
                self.check_said(with_lines(changes), 1, f"broken {where}\n{sentence}")
        self.assertEqual({where.partition("cause=")[2] for _, where, _ in SENTENCES}, set(CAUSES))

    def test_formats(self):
        """It is the one of docs/FORMATS.md."""
        self.assertIn(f"```\n{CERTIFICATE}```\n", (TOP / "docs" / "FORMATS.md").read_text(encoding="utf-8"))

    def test_other_answer(self):
        """The first line names another call."""
        self.check_said(CERTIFICATE.replace("calls=4", "calls=2"), 1, "broken line=2 cause=call\n" + SENTENCES[0][2])

    def test_lenience(self):
        """Blank lines and other members are skipped, and what needs not be there may be there."""
        changes = {4: '\n{"term":1,"seq":0,"flipped":1,"arrived":1,"exists":true,"owed":[],"makes":0,"waits":false,"x":[]}'}
        self.check_said(with_lines(changes), 0, CERTIFIED)

    def test_refused(self):
        """Lines that the format doesn't allow, and texts that end too soon."""
        for number, line, *others in REFUSED:
            with self.subTest(line):
                self.check_said(with_lines({number: line}), 2, f"refused file=witness line={[number, *others][-1]}")
        rows = CERTIFICATE.splitlines(keepends=True)
        for count in (1, 2):
            self.check_said("".join(rows[:count]), 2, f"refused file=witness line={count + 1}")
        self.check_said(CERTIFICATE, 2, "refused file=history line=1", history="{}")

    def test_other_kinds(self):
        """The first line of another answer is no line of a witness."""
        for line in (refuted("no-writer", 4, 9, 4), "no event=9 call=4 before=shown\n"):
            self.check_said(line, 2, "refused file=witness line=1")

    def test_command(self):
        with tempfile.TemporaryDirectory() as folder:
            history, certificate = (pathlib.Path(folder) / it for it in ("history", "certificate"))
            history.write_text(FIXED)
            certificate.write_text(CERTIFICATE)
            self.assertEqual(command(history, certificate), (0, f"{CERTIFIED}\n", ""))
            # (a write may be performed twice, so there are other records)
            status, out, _ = command("--profile", "opensearch", history, certificate)
            self.assertEqual((status, out.partition("\n")[0]), (1, "broken line=2 cause=call"))

    def test_length_of_checker(self):
        """The checker has few lines, and imports nothing of the package but the checker of witnesses."""
        folder, count, imported = TOP / "recording" / "casbench_recording" / "history", 0, set()
        for module in MODULES:
            rows = (folder / f"{module}.py").read_text(encoding="utf-8").splitlines()
            count += sum(1 for it in rows if it.strip())
            imported |= {it.split()[1] for it in rows if it.startswith(("import ", "from "))}
        self.assertLessEqual(count, MOST_LINES)
        own = {f".{it}" for it in (*MODULES, "witness_checker")}
        self.assertLessEqual(imported, own | {"bisect", "dataclasses", "enum", "typing"})


if __name__ == "__main__":
    sys.exit(run_tests())

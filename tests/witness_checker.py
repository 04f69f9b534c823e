#!/usr/bin/env python3
"""Compares the package's witness checker, which shares nothing with casbench, with `casbench verify`: the answers and
the first faults.

    python3 tests/witness_checker.py [PROGRAM]

PROGRAM is the built casbench; if it isn't named, the one that ./casbench would run. Compared are all text cases, those
of verify with their witnesses and all histories in each reading with the witness that the program writes of them; 2,000
drawn witnesses of histories of two to four documents, as the program writes them, and changed; and in each reading as
many of small histories, some of which only a weaker promise explains. Then the sentence that comes with each cause is
checked, and the command.
"""

import json
import pathlib
import subprocess
import sys
import tempfile
from collections import Counter

from agree import drawn
from case_files import all_cases, case_text
from drawing import Draws
from program import TOP
from program_test import ProgramTest, run_tests
from readings import history_of, strict_history, text_of
from recordings import environment, own_reading, reading_of_options
from running import bytes_of, run_on_files, said
from small_readings import READINGS, small_history
from texts import condition, conflict, created, delete, found, get, index, lost, missing, places_of, updated, witness_of

from casbench_recording.history.readings import OPENSEARCH, STRICT, Conflicts, Failed, Reading
from casbench_recording.history.witness import checked

# How many witnesses are drawn of larger histories, and how many of them are verified and broken at least.
WITNESSES, LEAST_VERIFIED, LEAST_BROKEN = 2_000, 700, 700

# How many are drawn of small histories in each reading, and how many of them are verified and broken at least.
SMALL, LEAST_VERIFIED_SMALL, LEAST_BROKEN_SMALL = 400, 120, 120

# The causes of a broken witness, and those of gets that are judged one by one: each has to come at least so often among
# the drawn ones.
CAUSES = "doc-stranger doc-twice doc-missing stranger twice pair-missing pair-given late illegal absent pair-twice".split()
CAUSES_OF_GETS = ("no-writer", "stale-get", "missed-write")
LEAST_OF_A_CAUSE, LEAST_OF_GETS = 5, 1

# The most lines of the checker that aren't blank.
MOST_LINES = 260

# How a conflict is read by a strict check, and otherwise strictly.
MAYBE = Reading(conflicts=Conflicts.MAYBE)
CONFLICTS = (STRICT, MAYBE)


def asked(program, command, *texts, reading):
    """The status and the answer of a command on files with these texts, in a reading."""
    return said(run_on_files(program, command, texts, reading.options()))


def compared(program, history, witness, reading):
    """What both say of a witness: the word, and the cause if it is broken. They say the same but for the cause of a
    refusal."""
    history, witness = map(bytes_of, (history, witness))
    status, line = asked(program, "verify", history, witness, reading=reading)
    wanted = line.partition(" cause=")[0] if status == 2 else line.rstrip("\n")
    own_status, own = checked(history, witness, reading)
    if (own_status, own.partition("\n")[0]) != (status, wanted):
        raise AssertionError(f"{own_status} {own}, and casbench says {status} {line}")
    return dict(it.split("=") for it in wanted.split()[1:])["cause"] if status == 1 else wanted.split()[0]


# Cases


def case_rows(program):
    """The cases of verify: a name and what is compared."""
    for name, texts in all_cases().items():
        words = texts["args"].decode().split()
        if words[:1] == ["verify"]:
            yield name, program, texts["history"], texts["witness"], reading_of_options(words)


def compared_as_written(program, history, reading):
    """The same of a history with the witness that the program writes of it, or with an empty one."""
    status, text = asked(program, "witness", history, reading=reading)
    return compared(program, history, text if status == 0 else "", reading)


# Drawn witnesses


class Witness:
    """A witness as it is changed: its documents, each with its places, which are a record and a pair or nothing."""

    def __init__(self, text):
        self.entries = []
        for it in map(json.loads, text.splitlines()):
            if "doc" in it:
                self.entries.append((it["doc"], []))
            else:
                self.entries[-1][1].append((it["rec"], (it["term"], it["seq"]) if "seq" in it else None))

    def text(self):
        return "".join(witness_of(*it) for it in self.entries)


def change_entries(draws, entries):
    """An entry is left out, comes twice, is that of another document, or goes elsewhere."""
    at, kind = draws.below(len(entries)), draws.below(4)
    entry = entries.pop(at)
    if kind == 1:
        entries.insert(at, entry)
    if kind in (1, 3):
        entries.insert(draws.below(len(entries) + 1), entry)
    if kind == 2:
        entries.insert(at, (draws.one_of("abcdx"), entry[1]))


def change_places(draws, places):
    """A place is left out, comes twice, goes elsewhere, or is of another record."""
    at, kind = draws.below(len(places)), draws.below(5)
    record, pair = places.pop(at)
    if kind == 1:
        places.insert(at, (record, pair))
    if kind in (1, 2, 3):
        near = min(len(places), at + draws.below(3))
        places.insert(near if kind == 3 else draws.below(len(places) + 1), (record, pair))
    if kind == 4:
        places.insert(at, (draws.below(12), pair))


def change_pair(draws, places):
    """A place gives another pair, mostly the next one or the one before, or one although it has none, or none although
    it has one."""
    given = [it for it, (_, pair) in enumerate(places) if pair]
    at = draws.one_of(given) if given and draws.below(4) else draws.below(len(places))
    record, pair = places[at]
    if pair and draws.below(4):
        places[at] = (record, (pair[0], max(0, pair[1] + draws.one_of((-1, 1)))))
    else:
        places[at] = (record, None if pair else (1 + (draws.below(8) == 0), draws.below(14)))


def changed(draws, text):
    """The witness after one change, or two."""
    witness = Witness(text)
    for _ in range(1 + draws.below(2)):
        entries = [it for _, it in witness.entries if it]
        kind = draws.below(6)
        if witness.entries and (kind == 0 or not entries):
            change_entries(draws, witness.entries)
        elif entries:
            (change_places if kind < 4 else change_pair)(draws, draws.one_of(entries))
    return witness.text()


def hidden(draws, history, text):
    """The history with a conflict in the place of a reply that shows a performed write, and the witness with the pair
    that it hides."""
    rows, witness = history.decode().splitlines(keepends=True), Witness(text)
    events = [json.loads(it) for it in rows]
    shown = [at for at, it in enumerate(events) if it["e"] == "reply" and "result" in it["body"]]
    if not shown:
        return history, text
    at = draws.one_of(shown)
    number, body = events[at]["n"], events[at]["body"]
    id = next(it["id"] for it in events if it["n"] == number)
    record = [it["n"] for it in events if it["e"] == "call" and it["id"] == id].index(number)
    rows[at] = conflict(number)
    for doc, places in witness.entries:
        if doc == id:
            shown = body["_primary_term"], body["_seq_no"]
            places[:] = [(it, shown if it == record else pair) for it, pair in places]
    return "".join(rows).encode(), witness.text()


def drawn_witness(program, seed):
    """What both say of a drawn witness: one as the program writes it, or a changed one."""
    draws, reading = Draws(seed + 7_000), CONFLICTS[seed % 2]
    history = drawn(seed // 4)
    status, text = asked(program, "witness", history, reading=STRICT)
    if status:
        # (without an order any places will do: those of the answered calls as they were made)
        text = answered_as_made(history)
    elif reading is MAYBE:
        history, text = hidden(draws, history, text)
    return compared(program, history, changed(draws, text) if seed % 4 > 1 else text, reading)


def answered_as_made(history):
    """A witness of the answered calls of each document in the order of their lines."""
    events = list(map(json.loads, history.splitlines()))
    answered = {it["n"] for it in events if it["e"] == "reply"}
    calls = {}
    for it in events:
        if it["e"] == "call":
            calls.setdefault(it["id"], []).append(it["n"])
    places = {id: [(at, None) for at, it in enumerate(its) if it in answered] for id, its in calls.items()}
    return "".join(witness_of(*it) for it in places.items())


def without_gets(text):
    """The text with a loss in the place of each reply to a get. If gets are judged one by one the order is of the same
    events."""
    rows = list(map(json.loads, text.splitlines()))
    gets = {it["n"] for it in rows if it["e"] == "call" and it["op"] == "get"}
    for row, line in zip(rows, text.splitlines(keepends=True)):
        yield lost(row["n"]) if row["e"] == "reply" and row["n"] in gets else line


def small_witness(program, name, seed):
    """What both say of a drawn witness of a small history in a reading: one as the program writes it, or a changed one.
    The order is found whatever the gets show that are judged one by one."""
    reading = READINGS[name]
    draws, history, own = Draws(seed + 9_000), small_history(seed), own_reading(reading)
    given = "".join(without_gets(history)) if reading.gets == "any" else history
    status, text = asked(program, "witness", given, reading=own)
    if status:
        text = answered_as_made(text_of(strict_history(reading, history_of(history))))
    return compared(program, history, changed(draws, text) if seed % 2 else text, own)


# Sentences

ONE = [index(3), created(3, 1, 4)]
UNDER = condition(1, 4)

# A history, the places of its document d, and the sentence that describes the first fault.
SENTENCES = [
    ([*ONE, get(5)], "0 1", "A get without a reply has no place, and this place is that of call 5 (get: no reply)."),
    (ONE, "0 7", 'The document "d" has no record with this number.'),
    (ONE, "0 0", 'An earlier place of the document "d" is that of call 3 (index: created 1/4) too.'),
    (
        [*ONE, delete(5, UNDER)],
        "0 1",
        "The place gives no pair, though no reply shows which pair was taken by call 5 (delete under 1/4: no reply).",
    ),
    (ONE, "0=1/5", "The place gives a pair, though its call was answered: call 3 (index: created 1/4)."),
    (
        [*ONE, get(5), found(5, 1, 4)],
        "1 0",
        'The reply can\'t be that of call 5 (get: found 1/4 with k=1), since the document "d" was never written before the place.',
    ),
    (
        [*ONE, delete(5), lost(5), get(6), found(6, 1, 4)],
        "0 1=1/6 2",
        'The reply can\'t be that of call 6 (get: found 1/4 with k=1), since the document "d" was deleted by 1/6 before the place.',
    ),
    (
        [*ONE, get(5), missing(5)],
        "0 1",
        'The reply can\'t be that of call 5 (get: missing), since the document "d" has the version 1/4 with k=1 before the place.',
    ),
    (
        [*ONE, index(5), get(6), updated(5, 1, 6), found(6, 1, 4), get(7), found(7, 1, 6)],
        "0 2 1",
        'The document "d" has no place for an answered call, call 7 (get: found 1/6 with k=1).',
    ),
    (
        [get(2), missing(2), *ONE],
        "1 0",
        "Before the place stands call 3 (index: created 1/4), which was made after the reply to call 2 (get: missing).",
    ),
]

# Histories under the profile of OpenSearch: the places of the document d, and the sentence that describes the first
# fault.
SENTENCES_OF_OPENSEARCH = [
    (
        ONE,
        "0 1",
        "The place gives no pair, though no reply shows which pair was taken by call 3 (index, performed again: no reply).",
    ),
    (
        [*ONE, delete(5, UNDER), conflict(5)],
        "0 2",
        "The place gives no pair, though no reply shows which pair was taken by "
        "call 5 (delete under 1/4: conflict, which shows nothing).",
    ),
    (
        [*ONE, get(5), found(5, 1, 4)],
        "0 2",
        "A get without a reply has no place, and this place is that of call 5 (get: found, which shows nothing).",
    ),
    (
        [*ONE, index(5), lost(5).replace("}", ',"void":true}')],
        "0 2=1/5",
        "A get without a reply has no place, and this place is that of call 5 (get: no reply).",
    ),
    (
        [*ONE, get(5), found(5, 1, 4, k=7)],
        "0",
        'No write that was made before the reply can have given the document "d" what was found by '
        "call 5 (get: found 1/4 with k=7).",
    ),
    (
        [*ONE, get(5), found(5, 1, 3)],
        "0",
        "An older version was found by call 5 (get: found 1/3 with k=1) than was written by call 3 (index: created 1/4), "
        "whose reply came before the get was made.",
    ),
    (
        [*ONE, get(5), missing(5)],
        "0",
        "Nothing was found by call 5 (get: missing), though a reply came before it was made to call 3 (index: created 1/4), "
        "and no delete can be behind that.",
    ),
]

TWO = [*ONE, index(5, doc="e"), created(5, 1, 4)]
# (of two pairs that are taken twice the lesser one is named, here that of the documents x and y)
FOUR = [it for n, doc in enumerate("dexy") for it in (index(n, doc=doc), created(n, 1, 9 if doc in "de" else 4))]

# The same with a whole witness.
WHOLE = [
    (ONE, "", 'No entry is of the document "d", whose first call is call 3 (index: created 1/4).'),
    (ONE, witness_of("d", [(0, None)]) * 2, 'An earlier entry is of the document "d" too.'),
    (ONE, witness_of("x", []), 'No call of the history is of the document "x".'),
    (
        TWO,
        witness_of("d", [(0, None)]) + witness_of("e", [(0, None)]),
        "One pair is taken by two calls of a shard, call 3 (index: created 1/4) and call 5 (index: created 1/4).",
    ),
    (
        FOUR,
        "".join(witness_of(doc, [(0, None)]) for doc in "dexy"),
        "One pair is taken by two calls of a shard, call 2 (index: created 1/4) and call 3 (index: created 1/4).",
    ),
]


def sentence_of(history, witness, reading=STRICT):
    """The second line of the checker's answer to a witness."""
    return checked("".join(history).encode(), witness.encode(), reading)[1].partition("\n")[2]


# Lost calls that are marked as void, or by something else: each with how it is read, and what the checker says of a
# witness without places.
VOIDS = [
    ("true", Failed.TRUSTED, (0, "verified docs=1 calls=2 left_out=1")),
    ("1", Failed.TRUSTED, (2, "refused file=history line=4")),
    ("1", Failed.LOST, (0, "verified docs=1 calls=2 left_out=1")),
]


def command(words):
    """How the command ends."""
    words = [sys.executable, "-m", "casbench_recording.witness", *words]
    ran = subprocess.run(words, capture_output=True, text=True, env=environment(), cwd=TOP)
    return ran.returncode, ran.stdout, ran.stderr


class Comparing(ProgramTest):
    """The answers of both checkers."""

    def test_cases_of_verify(self):
        """The cases of verify, with their witnesses."""
        self.run_subtests(compared, case_rows(self.program))

    def test_other_cases(self):
        """The histories of all cases, with what the program writes of them."""
        histories = {name: texts["history"] for name, texts in all_cases().items() if "history" in texts}
        readings = [*CONFLICTS, *map(own_reading, READINGS.values())]
        rows = [(f"{name}, {it}", self.program, text, it) for name, text in histories.items() for it in readings]
        self.run_subtests(compared_as_written, rows)

    def test_drawn_witnesses(self):
        """Drawn witnesses, enough of which are verified, and broken by each cause."""
        answers = self.run_subtests(drawn_witness, [(f"seed {it}", self.program, it) for it in range(WITNESSES)])
        counts = Counter(answers)
        self.check_counts("strict", counts, LEAST_VERIFIED, LEAST_BROKEN)
        for cause in CAUSES:
            self.assertGreaterEqual(counts[cause], LEAST_OF_A_CAUSE, cause)

    def check_counts(self, name, counts, verified, broken):
        """Enough witnesses are verified, and broken."""
        print(f"{name}: " + ", ".join(f"{count} {word}" for word, count in sorted(counts.items(), key=str)))
        self.assertGreaterEqual(counts["verified"], verified)
        self.assertGreaterEqual(sum(counts[it] for it in {*CAUSES, *CAUSES_OF_GETS}), broken)

    def test_small_histories(self):
        """Drawn witnesses of small histories in each reading."""
        for name, reading in READINGS.items():
            rows = [(f"{name}, seed {it}", self.program, name, it) for it in range(SMALL)]
            counts = Counter(self.run_subtests(small_witness, rows))
            self.check_counts(name, counts, LEAST_VERIFIED_SMALL, LEAST_BROKEN_SMALL)
            for cause in CAUSES_OF_GETS if reading.gets == "any" else ():
                self.assertGreaterEqual(counts[cause], LEAST_OF_GETS, f"{name}: {cause}")


class Explaining(ProgramTest):
    """The sentence that comes with a cause, the command, and how long the checker is."""

    def test_sentences(self):
        rows = [(history, witness_of("d", places_of(places)), wanted) for history, places, wanted in SENTENCES]
        for history, witness, wanted in rows + WHOLE:
            with self.subTest(witness):
                self.assertEqual(sentence_of(history, witness), wanted)

    def test_sentences_of_opensearch(self):
        for history, places, wanted in SENTENCES_OF_OPENSEARCH:
            with self.subTest(wanted):
                self.assertEqual(sentence_of(history, witness_of("d", places_of(places)), OPENSEARCH), wanted)

    def test_voids(self):
        """A void is heeded, or refused if it is neither true nor false, only if losses are trusted."""
        for value, failed, wanted in VOIDS:
            with self.subTest(value, failed=failed):
                history = "".join([*ONE, index(5), f'{{"e":"lost","n":5,"void":{value}}}\n'])
                said_of = checked(history.encode(), witness_of("d", [(0, None)]).encode(), Reading(failed=failed))
                self.assertEqual(said_of, wanted)

    def test_command(self):
        with tempfile.TemporaryDirectory() as folder:
            history, witness = (pathlib.Path(folder) / it for it in ("history", "witness"))
            history.write_text(case_text("verify-good-order"))
            witness.write_text(case_text("verify-good-order", "witness"))
            counts = "verified docs=1 calls=4 left_out="
            self.assertEqual(command(["check", history, witness]), (0, f"{counts}0\n", ""))
            history.write_text("".join([*ONE, get(5), found(5, 1, 4)]))
            witness.write_text(witness_of("d", [(0, None)]))
            ended = command(["check", "--profile", "opensearch", history, witness])
            self.assertEqual(ended, (0, "verified docs=1 calls=2 left_out=0 gets=1\n", ""))
            self.assertEqual(command(["check", history, witness])[0], 1)

    def test_options(self):
        """An option that comes twice, and a value that it doesn't have."""
        for words, why in (
            (["--gets", "any", "--gets", "last"], "argument --gets: it may be given only once"),
            (["--writes", "twice"], "argument --writes: invalid choice: 'twice' (choose from 'once', 'repeated')"),
        ):
            with self.subTest(words):
                status, out, err = command(["check", *words, "h", "w"])
                self.assertEqual((status, out), (2, ""))
                self.assertTrue(err.startswith("usage: ") and err.endswith(f"error: {why}\n"), err)

    def test_missing_file(self):
        with tempfile.NamedTemporaryFile() as witness:
            why = "witness: [Errno 2] No such file or directory: 'tests/none'\n"
            self.assertEqual(command(["check", "tests/none", witness.name]), (4, "", why))

    def test_length_of_checker(self):
        """The checker has few lines, and imports nothing of the package."""
        text = (TOP / "recording" / "casbench_recording" / "history" / "witness_checker.py").read_text(encoding="utf-8")
        imported = [it.split()[1] for it in text.splitlines() if it.startswith(("import ", "from "))]
        self.assertLessEqual(sum(1 for it in text.splitlines() if it.strip()), MOST_LINES)
        self.assertEqual(imported, ["json", "bisect", "contextlib", "dataclasses", "itertools", "typing"])


if __name__ == "__main__":
    sys.exit(run_tests())

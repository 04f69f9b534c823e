#!/usr/bin/env python3
"""Tests the Java recorder: compiles recording/java with the machine's JDK, against stubs of OpenSearch's classes, and runs it.

    python3 tests/java.py [PROGRAM]

PROGRAM is the built casbench; if it isn't named, the one that ./casbench would run. Without a JDK nothing is run, and without Debian's
junit5 the test for JUnit isn't; a line says so. The last line says how many tests passed and failed.
"""

import json
import os
import pathlib
import random
import re
import shutil
import signal
import subprocess
import sys
import tempfile
import time
import unittest

from documents import copied_checkout, is_as_wanted, parted, sessions
from program import TOP
from program_test import ProgramTest, run_tests
from recordings import judged

JAVA = TOP / "recording" / "java"
OWN = TOP / "tests" / "java"
JARS = pathlib.Path("/usr/share/java")
CONSOLE = [JARS / f"{it}.jar" for it in ("junit-jupiter-api", "junit-jupiter-engine", "junit-jupiter-params", "junit-platform-commons")]
CONSOLE += [JARS / f"{it}.jar" for it in ("junit-platform-console", "junit-platform-engine", "junit-platform-launcher")]
CONSOLE += [JARS / f"{it}.jar" for it in ("junit-platform-reporting", "opentest4j", "opentest4j-reporting-events", "apiguardian-api", "picocli")]

CALLS, MOST_SECONDS = 524_288, 40
"""How many calls the load makes, and how long it may try, beside what else the machine does."""

CALLS_A_SECOND = 1_000_000 if len(os.sched_getaffinity(0)) >= 4 else 500_000
"""How many calls a second it has to record; the page states how many on four processors."""

SECONDS = 120
"""A run that takes longer has failed."""


def ran(words, **how):
    """Runs a command; returns its exit status, and its output on both streams."""
    done = subprocess.run(words, stdin=subprocess.DEVNULL, stdout=subprocess.PIPE, stderr=subprocess.STDOUT, text=True, timeout=SECONDS, **how)
    return done.returncode, done.stdout


def events_of(file):
    """The events of a history, without their times."""
    lines = [json.loads(it) for it in pathlib.Path(file).read_text(encoding="utf-8").splitlines()]
    return [{key: value for key, value in it.items() if key != "t"} for it in lines]


def endings_of(file):
    """How each call of a history ended, by the order of the calls: by a status with a result, lost, void, or not at all."""
    calls = {}
    for it in events_of(file):
        if it["e"] == "call":
            calls[it["n"]] = "open"
        elif it["e"] == "lost":
            calls[it["n"]] = "void" if it.get("void") else "lost"
        else:
            body = it["body"]
            calls[it["n"]] = f"{it['status']} {body.get('result', body.get('found', 'conflict'))}"
    return list(calls.values())


class JavaTest(ProgramTest):
    """A test that runs compiled classes. All are compiled once."""

    classes = None

    @classmethod
    def setUpClass(cls):
        if shutil.which("javac") is None:
            raise unittest.SkipTest("there is no JDK here (Debian's package default-jdk-headless), so the Java recorder was not run")
        if JavaTest.classes is None:
            JavaTest.classes = tempfile.TemporaryDirectory(prefix="casbench-java-")
            files = [*(JAVA / "src").rglob("*.java"), *(JAVA / "stubs").rglob("*.java"), *OWN.glob("*.java")]
            files += [it for it in (JAVA / "examples").rglob("*.java") if "org.junit" not in it.read_text(encoding="utf-8")]
            status, said = ran(["javac", "--release", "11", "-Xlint:all", "-Werror", "-d", JavaTest.classes.name, *files])
            if status:
                raise AssertionError(said)

    def setUp(self):
        folder = tempfile.TemporaryDirectory(prefix="casbench-java-")
        self.addCleanup(folder.cleanup)
        self.folder = pathlib.Path(folder.name)
        self.file = self.folder / "h.ndjson"

    def words(self, name, *words, program=None):
        """The words that run a class."""
        named = [f"-Dcasbench.program={program}"] if program else []
        return ["java", *named, "-cp", JavaTest.classes.name, name, *map(str, words)]

    def java(self, name, *words, program=None, **how):
        """The output of a class, whose exit status is 0."""
        status, said = ran(self.words(name, *words, program=program), **how)
        self.assertEqual(status, 0, said)
        return said


class Compiled(JavaTest):
    """The recorder by itself."""

    def test_the_history_needs_nothing_else(self):
        """It is one file for JDK 11, without another class."""
        status, said = ran(["javac", "--release", "11", "-d", self.folder, JAVA / "src" / "casbench" / "CasHistory.java"])
        self.assertEqual((status, said), (0, ""))


class Lines(JavaTest):
    """The text of the file."""

    def test_all_that_a_line_may_say(self):
        self.java("Cases", "lines", self.file)
        text = "\u00e4\u0000\U0001f600\\"
        condition = {"if_seq_no": 4, "if_primary_term": 2}
        first = {"e": "call", "n": 0, "id": "a", "op": "index", "k": 2**64 - 1, **condition, "client": 'x"y', "node": "node-1", "shard": 3}
        written = {"_id": "a", "result": "updated", "_seq_no": 5, "_primary_term": 2}
        created = {"_id": "b", "result": "created", "_seq_no": 0, "_primary_term": 1}
        found = {"_id": text, "found": True, "_seq_no": 0, "_primary_term": 1, "_source": {"k": 2**64 - 2}}
        note = "a node \\u00e4 \\ud83d stops; and goes on"
        conflict = {"error": {"type": "version_conflict_engine_exception"}}
        deleted = {"_id": "b", "result": "deleted", "_seq_no": 1, "_primary_term": 1}
        not_found = {"_id": "none", "result": "not_found", "_seq_no": 2, "_primary_term": 1}
        wanted = [
            [first, 200, written],
            [{"e": "call", "n": 2, "id": "b", "op": "index", "k": 2}, 201, created],
            [{"note": note, "e": "call", "n": 4, "id": text, "op": "get"}, 200, found],
            [{"e": "call", "n": 6, "id": "d" * 512, "op": "create", "k": 6}, 409, conflict],
            [{"e": "call", "n": 8, "id": "b", "op": "delete", "if_seq_no": 0, "if_primary_term": 1}, 200, deleted],
            [{"e": "call", "n": 10, "id": "none", "op": "delete"}, 404, not_found],
            [{"e": "call", "n": 12, "id": "none", "op": "get"}, 404, {"_id": "none", "found": False}],
        ]
        lines = []
        for call, status, body in wanted:
            lines += [call, {"e": "reply", "n": call["n"], "status": status, "body": body}]
        lines += [{"note": "at the end", "e": "call", "n": 14, "id": "open", "op": "get"}, {"e": "lost", "n": 14}]
        self.assertEqual(events_of(self.file), lines)
        # (the condition of the first call is a version that nobody wrote: the program reads all lines, and doesn't refuse them)
        self.assertNotIn("refused", judged(self.program, self.file))

    def test_a_call_ends_once(self):
        said = self.java("Cases", "endings", self.file)
        self.assertEqual(said.splitlines(), ["true false false", "true", "true", "false 3", "false false 1"])
        self.assertEqual(endings_of(self.file), ["lost", "lost", "lost", "void"])
        self.assertEqual(judged(self.program, self.file), "yes docs=4 calls=4 left_out=4")

    def test_what_no_history_can_have(self):
        self.assertEqual(self.java("Cases", "refusals", self.file).splitlines(), ["18 of 18", "true"])

    def test_lines_are_flushed(self):
        said = self.java("Cases", "flush", self.file)
        self.assertEqual(said.split(), [str(it) for it in range(1, 201)])


class Room(JavaTest):
    """Files that are full, and disks."""

    def test_a_file_that_is_full(self):
        """Open calls are lost before a call that has no line: the room of a write is three events, checked strictly two."""
        self.assertEqual(self.java("Cases", "full", self.file).splitlines(), ["true true false false false 2", self.file.name])
        self.assertEqual(endings_of(self.file), ["lost", "201 created"])
        self.assertEqual(judged(self.program, self.file, "--profile", "opensearch"), "yes docs=2 calls=2 left_out=1 gets=0")
        other = self.folder / "strict.ndjson"
        self.assertEqual(self.java("Cases", "strict", other).splitlines(), ["true true true false false 1", other.name])
        self.assertEqual(endings_of(other), ["lost", "201 created", "201 created"])

    def test_files_one_after_the_other(self):
        """A document of the first file isn't recorded in the second one."""
        said = self.java("Cases", "rotated", self.file).splitlines()
        self.assertEqual(said, ["true true false false true true false 2", "h.ndjson", "h-2.ndjson"])
        self.assertEqual(endings_of(self.file), ["lost", "201 created"])
        self.assertEqual([it.get("id") for it in events_of(self.folder / "h-2.ndjson") if it["e"] == "call"], ["d", "e"])

    def test_a_disk_that_is_full(self):
        """The lines that were written are complete, and closing the history reports the fault."""
        limited = ["bash", "-c", 'ulimit -f 8; trap "" XFSZ; exec "$@"', "-", *self.words("Cases", "disk", self.file)]
        status, said = ran(limited)
        self.assertEqual(status, 0, said)
        self.assertIn("The lines before are whole", said)
        self.assertLessEqual(self.file.stat().st_size, 8 * 1024)
        self.assertEqual(judged(self.program, self.file).split()[0], "yes")
        self.assertEqual([it.name for it in self.folder.iterdir()], [self.file.name])

    def test_a_load_that_goes_on(self):
        """Files that become full under eight threads are explained, with the same documents all along or with new ones."""
        self.java("Load", self.file, 8, 200_000, 1, "strict", "most=100000")
        self.assertEqual(judged(self.program, f"{self.file}-1", "--rule-out").split()[0], "yes")
        self.java("Load", self.file.with_name("r"), 8, 200_000, 1, "rotate", "most=10000", "new-documents")
        files = sorted(self.folder.glob("r-*"))
        self.assertGreater(len(files), 15)
        for it in files:
            with self.subTest(it.name):
                self.assertEqual(judged(self.program, it, "--profile", "opensearch").split()[0], "yes")


class Speed(JavaTest):
    """How many calls a second are recorded, until all are in the file."""

    def rounds(self, threads):
        """Runs loads, one after the other, until one is fast enough; returns the calls a second of the fastest one, and its file. Some
        are slower, while the machine does something else or before the JVM has compiled the code."""
        began, best = time.monotonic(), 0.0
        with subprocess.Popen(self.words("Load", self.file, threads, CALLS, 40, "strict"), stdout=subprocess.PIPE, text=True) as load:
            for line in load.stdout:
                count, seconds, left_out, late = line.split()
                file = pathlib.Path(next(load.stdout).split()[0])
                self.assertEqual((count, left_out, late), (str(CALLS), "0", "0"))
                best = max(best, CALLS / float(seconds))
                if best >= CALLS_A_SECOND or time.monotonic() - began > MOST_SECONDS:
                    break
                file.unlink()
            load.kill()
        return best, file

    def test_calls_a_second(self):
        for threads in (8, 32):
            with self.subTest(f"{threads} threads"):
                best, file = self.rounds(threads)
                print(f"{threads} threads: {best:,.0f} calls a second")
                self.assertEqual(judged(self.program, file, "--rule-out"), f"yes docs=256 calls={CALLS} left_out=0")
                self.assertGreaterEqual(best, CALLS_A_SECOND)
                file.unlink()


class CutOff(JavaTest):
    """Files that end early are histories."""

    def check_cut(self, text, size):
        """A text that is cut off after its last complete line is explained."""
        cut = self.folder / "cut.ndjson"
        cut.write_bytes(text[:size].rpartition(b"\n")[0] + b"\n")
        self.assertRegex(judged(self.program, cut, "--rule-out"), r"^yes docs=\d+ calls=\d+ left_out=\d+$")

    def test_at_any_line(self):
        self.java("Load", self.file, 16, 40_000, 1)
        text = pathlib.Path(f"{self.file}-1").read_bytes()
        for seed in range(20):
            with self.subTest(seed):
                self.check_cut(text, random.Random(seed).randrange(1000, len(text)))

    def test_of_a_process_that_is_killed(self):
        for kind in ((), ("flush",)):
            with self.subTest(kind), subprocess.Popen(self.words("Load", self.file, 16, CALLS, 1, "strict", *kind)) as load:
                written = pathlib.Path(f"{self.file}-1")
                began = time.monotonic()
                while not (written.exists() and written.stat().st_size > 2_000_000) and time.monotonic() - began < SECONDS:
                    time.sleep(0.02)
                load.send_signal(signal.SIGKILL)
                load.wait()
                text = written.read_bytes()
                self.assertGreater(len(text), 2_000_000)
                self.check_cut(text, len(text))
                written.unlink()


class Verdicts(JavaTest):
    """The results of assertExplained."""

    def said(self, case, *options, program=None, **how):
        """The output of a case on both streams."""
        return self.java("Cases", case, self.folder / f"{case}-{len(list(self.folder.iterdir()))}.ndjson", *options, program=program, **how)

    def test_with_the_program(self):
        program = self.program
        self.assertEqual(self.said("yes", "--profile", "opensearch", program=program), "passed\n")
        self.assertEqual(self.said("yes", "--at-least", "2", program=program), "passed\n")
        self.assertRegex(self.said("yes", "--at-least", "3", program=program), r"(?s)^failed: .*2 calls, fewer than 3")
        stale = self.said("stale", "--profile", "opensearch", "--at-least", "2", program=program)
        self.assertRegex(stale, r"(?s)^failed: casbench check .*stale.*: refuted\n\nStale read: .*\"a\", line 6")
        self.assertRegex(self.said("nothing", program=program), "^failed: .*no call was recorded")
        self.assertRegex(self.said("yes", "--no-such-option", program=program), "^failed: casbench could not check .*status 64")

    def test_a_no_that_is_not_proved_accuses_nobody(self):
        said = self.said("undecided", program=self.program)
        self.assertRegex(said, "(?s)^casbench accuses nobody.*This `no` is undecided.*\npassed\n$")

    def test_without_the_program(self):
        java = os.path.dirname(shutil.which("java"))
        empty = self.folder / "path"
        empty.mkdir()
        environment = {"PATH": str(empty), "HOME": str(self.folder)}
        words = [os.path.join(java, "java"), "-cp", JavaTest.classes.name, "Cases", "stale", str(self.file), "--profile", "opensearch"]
        status, said = ran(words, env=environment)
        how = f"casbench isn't here, so nothing was judged. To check: casbench check --profile opensearch --rule-out {self.file}\n"
        self.assertEqual((status, said), (0, f"{how}passed\n"))
        self.assertEqual(len(events_of(self.file)), 6)
        self.assertRegex(self.said("yes", program="/no/such/program"), "^failed: casbench can't be run: ")
        os.symlink(self.program, empty / "casbench")
        self.assertRegex(ran(words[:5] + [str(self.file) + "2", "--profile", "opensearch"], env=environment)[1], "^failed: ")


    def test_where_no_process_may_be_started(self):
        """Under a security manager, as in tests of OpenSearch 2.x, the history is kept, and a line shows how to check it."""
        policy = self.folder / "policy"
        files = 'permission java.io.FilePermission "<<ALL FILES>>", "read,write,delete";'
        for more in ("", 'permission java.util.PropertyPermission "*", "read"; permission java.lang.RuntimePermission "getenv.*";'):
            policy.write_text(f"grant {{ {files} {more} }};")
            file = self.folder / f"h{len(more)}.ndjson"
            words = self.words("Cases", "stale", file, "--profile", "opensearch", program=self.program)
            status, said = ran([words[0], "-Djava.security.manager=default", f"-Djava.security.policy=={policy}", *words[1:]])
            if "ecurity manager" in said.lower() and status:
                self.skipTest("this Java has no security manager, so nothing was run under one")
            with self.subTest(more):
                self.assertEqual(status, 0, said)
                self.assertRegex(said, r"so nothing was judged\. To check: casbench check --profile opensearch --rule-out .*\npassed\n$")
                self.assertEqual(len(events_of(file)), 6)


# How the calls of a recording client end, by the row of tests/java/Clients.java.
ENDINGS = {
    **dict.fromkeys(["validation", "mapping", "security", "coordinator"], ["void"]),
    **dict.fromkeys(["primary", "argument", "timeout", "conflict-within", "thrown", "coordinator-update"], ["lost"]),
    **dict.fromkeys(["conflict", "conflict-update-if"], ["409 conflict"]),
    **dict.fromkeys(["conflict-update", "conflict-version", "get-fails", "noop", "no-pair", "another-id", "part", "no-source"], ["lost"]),
    **dict.fromkeys(["created", "create", "upsert"], ["201 created"]),
    "updated": ["200 updated"],
    "deleted": ["200 deleted"],
    "not-found": ["404 not_found"],
    **dict.fromkeys(["found", "found-primary"], ["200 True"]),
    "missing": ["404 False"],
    "mget": ["404 False", "lost", "200 True"],
    "mget-fails": ["lost"] * 3,
    "bulk": ["201 created", "409 conflict", "lost", "lost"],
    **dict.fromkeys(["bulk-short", "bulk-fails", "bulk-refused"], ["lost"] * 4),
    "bulk-refused-of-one-shard": ["void"] * 2,
    "bulk-refused-of-shards": ["lost"] * 2,
    "sources": ["201 created", "200 True", "200 updated", "200 True", "lost", "lost", "200 updated", "200 True", "200 True", "201 created"],
    **dict.fromkeys([f"unrecordable-{it}" for it in range(3)], ["201 created"]),
    **dict.fromkeys(["script", "pipeline", "other-pattern"], ["201 created"]),
    **dict.fromkeys([f"other-indices-{it}" for it in ("data-write-reindex", "data-write-update-byquery", "admin-delete")], ["201 created"]),
    **dict.fromkeys(["other-passes-1", "other-passes-2"], ["201 created", "200 True"]),
    "several-shards": ["201 created"],
}

class Clients(JavaTest):
    """The recording client, on a node with the answer of a row."""

    def test_rows(self):
        said = self.java("Clients", self.folder)
        # (those of rows without a call are removed)
        self.assertEqual({it.name for it in self.folder.iterdir()}, set(ENDINGS))
        for name, wanted in ENDINGS.items():
            with self.subTest(name):
                self.assertEqual(endings_of(self.folder / name), wanted)
        ended = set(re.findall(r"^([a-z0-9-]+): ", said, re.MULTILINE))
        self.assertEqual(ended - {"casbench"}, {it for it in ENDINGS if re.match("unrecord|script|pipe|several|other-(indices|pattern)", it)})

    def test_what_calls_ask(self):
        self.java("Clients", self.folder)
        calls = {name: events_of(self.folder / name)[0] for name in ENDINGS}
        pair = {"if_seq_no": 3, "if_primary_term": 2}
        self.assertLessEqual(pair.items(), calls["updated"].items())
        self.assertLessEqual(pair.items(), calls["conflict-update-if"].items())
        self.assertLessEqual({"op": "delete", "id": "d", "if_seq_no": 0, "if_primary_term": 1}.items(), calls["deleted"].items())
        self.assertEqual((calls["create"]["op"], calls["upsert"]["op"], calls["upsert"]["k"]), ("create", "index", 1))
        self.assertNotIn("if_seq_no", calls["conflict-version"])
        self.assertEqual((calls["several-shards"]["shard"], calls["created"]["node"]), (5, "node-1"))

    def test_numbers_of_sources(self):
        """Equal sources have the same number, and a get of a version that an update wrote has that of all unknown sources."""
        self.java("Clients", self.folder)
        events = events_of(self.folder / "sources")
        written = [it["k"] for it in events if it["e"] == "call" and "k" in it]
        shown = [it["body"]["_source"]["k"] for it in events if it["e"] == "reply" and "_source" in it["body"]]
        source = written[0]
        self.assertEqual(written, [source, 1, 1, source, 1])
        self.assertEqual(shown[:3], [source, 1, source])
        self.assertNotIn(shown[3], (1, source))


RIGHT = (TOP / "examples" / "right.ndjson").read_text(encoding="utf-8")

FAULTS = ("STALE_READS", "LOST_WRITES", "UNCHECKED_CONDITIONS", "NUMBERS_TWICE")
"""What the map of the examples does wrong."""


class Examples(JavaTest):
    """A replicated map, which is refuted with each fault and explained without one."""

    def check_demonstration(self, fault, wanted):
        file = self.folder / fault
        self.java("casbench.examples.Demonstration", file, fault)
        self.assertEqual(judged(self.program, file).split()[0], wanted)

    def check_on_map(self, name, fault, wanted, *options):
        said = self.java(name, self.folder / f"{fault}-{name}", fault, *options, program=self.program)
        self.assertRegex(said, wanted)

    def test_demonstration(self):
        rows = [*((it, self.check_demonstration, it, "refuted") for it in FAULTS), ("right", self.check_demonstration, "NONE", "yes")]
        self.run_subtests(lambda check, *words: check(*words), rows, workers=2)

    def test_of_a_cluster(self):
        """The example for OpenSearch's own tests, whose clients lose answers, checked as OpenSearch is."""
        rows = [(it, self.check_on_map, "OnMap", it, "^failed: casbench check .*: refuted\n") for it in FAULTS]
        rows.append(("right", self.check_on_map, "OnMap", "NONE", "^passed\n$"))
        self.run_subtests(lambda check, *words: check(*words), rows, workers=2)

    def test_of_all_requests(self):
        """The recording client, with partial updates, bulk and multi-get too, whose answers may be lost."""
        profile = ("--profile", "opensearch")
        rows = [(it, self.check_on_map, "Mixed", it, "^failed: casbench check .*: refuted\n", *profile) for it in FAULTS]
        rows += [("right", self.check_on_map, "Mixed", "NONE", "^passed\n$", *profile)]
        self.run_subtests(lambda check, *words: check(*words), rows, workers=2)

    def test_junit(self):
        missing = [it.name for it in CONSOLE if not it.exists()]
        if missing:
            self.skipTest(f"Debian's package junit5 isn't here ({missing[0]}), so the example's test was not run by JUnit")
        jars = os.pathsep.join([JavaTest.classes.name, *map(str, CONSOLE)])
        test = next((JAVA / "examples").rglob("ReplicatedMapTest.java"))
        self.assertEqual(ran(["javac", "--release", "11", "-cp", jars, "-d", self.folder, test]), (0, ""))
        words = ["java", f"-Dcasbench.program={self.program}", "-cp", f"{jars}{os.pathsep}{self.folder}"]
        words += ["org.junit.platform.console.ConsoleLauncher", "--disable-banner", "--details=summary", "-c", "casbench.examples.ReplicatedMapTest"]
        status, said = ran(words)
        self.assertEqual(status, 0, said)
        self.assertRegex(said, r"\[ +5 tests successful +\]")

    def test_page(self):
        """The session of the folder's page prints what the page shows."""
        copied_checkout(self.program, self.folder)
        (session,) = sessions("recording/java/README.md")
        commands, wanted = parted(session)
        status, said = ran(["bash", "-ec", commands], cwd=self.folder)
        self.assertEqual(status, 0, said)
        self.assertTrue(is_as_wanted(said, wanted), said)

    def test_gradle(self):
        """The task passes if each history is explained. It fails with the explanation if one isn't, and at too few calls."""
        if shutil.which("gradle") is None:
            self.skipTest("Debian's package gradle isn't here, so the task of Gradle was not run")
        (self.folder / "build.gradle").write_text(f"apply from: '{JAVA}/check-histories.gradle'\n")
        (self.folder / "settings.gradle").write_text("")
        (self.folder / "build").mkdir()
        words = ["gradle", "--offline", "--no-daemon", "-q", "-g", str(self.folder / "home"), f"-Pcasbench={self.program}", "checkHistories"]
        for name, wanted in (("right", ['"answer":"yes"']), ("stale-get", ["Stale read: a get returned", "4 calls, fewer than 5"])):
            with self.subTest(name):
                shutil.copy(TOP / "examples" / f"{name}.ndjson", self.folder / "build")
                if name != "right":
                    (self.folder / "build" / "few.ndjson").write_text("".join(RIGHT.splitlines(keepends=True)[:8]))
                status, said = ran([*words, "-PcasbenchOptions=--profile opensearch --rule-out --at-least 5"], cwd=self.folder)
                self.assertEqual(status == 0, name == "right", said)
                for it in wanted:
                    self.assertIn(it, said)


if __name__ == "__main__":
    sys.exit(run_tests())

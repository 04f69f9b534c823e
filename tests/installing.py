#!/usr/bin/env python3
"""Tests what installs casbench: dist/install, what dist/renew makes for it, the commands that pip installs, and the
licences that come with them.

    python3 tests/installing.py [PROGRAM]

What is installed is the program in dist/, whichever is named. The last line says how many tests passed and failed.
"""

import importlib.util
import os
import pathlib
import re
import shutil
import subprocess
import sys
import tempfile
import unittest
from typing import NamedTuple

from program import TOP
from program_test import run_tests
from recordings import PACKAGE, FolderTest, environment
from running import SECONDS

DIST = TOP / "dist"

# What dist/renew makes and what comes with it, below the prefix, and where it lies as seen from dist/; all of it; and
# the list of it.
MADE = {
    "bin/casbench": "x86_64-linux/casbench",
    "share/man/man1/casbench.1": "share/man/man1/casbench.1",
    "share/bash-completion/completions/casbench": "share/bash-completion/completions/casbench",
    "share/zsh/site-functions/_casbench": "share/zsh/site-functions/_casbench",
    "share/fish/vendor_completions.d/casbench.fish": "share/fish/vendor_completions.d/casbench.fish",
}
LICENSES = {
    "share/doc/casbench/LICENSE": "../LICENSE",
    "share/doc/casbench/NOTICE": "../NOTICE",
    "share/doc/casbench/THIRD-PARTY": "THIRD-PARTY",
}
INSTALLED = {**MADE, **LICENSES}
LIST = "share/casbench/installed"

NOBODY = 65_534


class End(NamedTuple):
    """How a command ended: its status, and what it wrote."""

    status: int
    out: str
    err: str


def ended(command, **how):
    """How a command ends."""
    how = {"stdin": subprocess.DEVNULL, "capture_output": True, "text": True, "timeout": SECONDS, **how}
    ran = subprocess.run([str(it) for it in command], check=False, **how)
    return End(ran.returncode, ran.stdout, ran.stderr)


def contents(folder):
    """What is in a folder: the directories, and the files with what they have."""
    found = sorted(pathlib.Path(folder).rglob("*"))
    return {str(it.relative_to(folder)): it.read_bytes() if it.is_file() else None for it in found}


class Install(FolderTest):
    """dist/install."""

    def setUp(self):
        super().setUp()
        self.top = pathlib.Path(self.folder)
        self.prefix = self.top / "a prefix" / "of \\ two"

    def install(self, *arguments, dist=DIST, tools=(), **more):
        """How the script ends; `tools` are scripts that stand in for commands, by their names."""
        path = os.environ["PATH"]
        for name, text in dict(tools).items():
            tool = self.top / "tools" / name
            tool.parent.mkdir(exist_ok=True)
            tool.write_text(f"#!/bin/sh\n{text}\n")
            tool.chmod(0o755)
            path = f"{self.top / 'tools'}:{os.environ['PATH']}"
        kept = {key: it for key, it in os.environ.items() if key != "DESTDIR"}
        return ended([dist / "install", *arguments], cwd=self.top, env={**kept, "PATH": path, **more})

    def assert_installed(self, prefix):
        """Holds that all is there, with the rights that it needs."""
        for name, source in INSTALLED.items():
            self.assertTrue((prefix / name).read_bytes() == (DIST / source).read_bytes(), name)
            self.assertEqual((prefix / name).stat().st_mode & 0o777, 0o755 if name == "bin/casbench" else 0o644)
        self.assertEqual((prefix / "bin").stat().st_mode & 0o777, 0o755)
        self.assertEqual(list(prefix.rglob("*.new-*")), [])

    def test_it_is_installed_and_removed(self):
        arguments = ["--prefix", self.prefix]
        self.assertEqual(self.install(*arguments), (0, f"installed casbench in {self.prefix}\n", ""))
        self.assert_installed(self.prefix)
        checked = ended([self.prefix / "bin" / "casbench", "check", TOP / "examples" / "right.ndjson"], cwd=self.top)
        self.assertEqual(checked, (0, "yes docs=1 calls=5 left_out=0\n", ""))
        # (again, as by a newer checkout)
        self.assertEqual(self.install(f"--prefix={self.prefix}/").status, 0)
        self.assert_installed(self.prefix)
        self.assertEqual(self.install("--remove", *arguments), (0, f"removed casbench from {self.prefix}\n", ""))
        self.assertEqual(contents(self.top), {})
        again = self.install(*arguments, "--remove")
        self.assertEqual((again.status, again.out), (1, ""))
        self.assertIn("nothing is installed in", again.err)

    def test_a_prefix_that_is_no_absolute_path(self):
        self.assertEqual(self.install("--prefix", "here/below").out, f"installed casbench in {self.top}/here/below\n")
        self.assert_installed(self.top / "here" / "below")
        self.assertEqual(self.install("--prefix", "./here//below", "--remove").status, 0)
        self.assertEqual(contents(self.top), {})

    def test_a_mask_of_rights(self):
        mask = os.umask(0o077)
        self.addCleanup(os.umask, mask)
        self.assertEqual(self.install("--prefix", self.prefix).status, 0)
        self.assert_installed(self.prefix)

    def test_what_was_there_stays(self):
        for name in ("keep", "bin/other", "share/man/man1/other.1", "share/casbench/notes"):
            (self.prefix / name).parent.mkdir(parents=True, exist_ok=True)
            (self.prefix / name).write_text("own")
        (self.prefix / "share" / "zsh").mkdir()
        before = contents(self.top)
        self.assertEqual(self.install("--prefix", self.prefix).status, 0)
        self.assertEqual(self.install("--prefix", self.prefix, "--remove").status, 0)
        self.assertEqual(contents(self.top), before)

    def test_a_file_of_others_is_not_overwritten(self):
        for name in (*INSTALLED, LIST):
            for is_link in (False, True):
                with self.subTest(name=name, is_link=is_link):
                    place = self.prefix / name
                    place.parent.mkdir(parents=True)
                    if is_link:
                        place.symlink_to("nowhere")
                    else:
                        place.write_text("own") if name != LIST else place.mkdir()
                    before = contents(self.top)
                    end = self.install("--prefix", self.prefix)
                    self.assertEqual((end.status, end.out, contents(self.top)), (1, "", before))
                    self.assertIn(f"{place} is ", end.err)
                    shutil.rmtree(self.top / "a prefix")

    def test_a_file_that_was_changed_stays(self):
        self.install("--prefix", self.prefix)
        changed = self.prefix / "share" / "zsh" / "site-functions" / "_casbench"
        changed.write_text("own")
        end = self.install("--prefix", self.prefix)
        self.assertEqual((end.status, changed.read_text()), (1, "own"))
        (self.prefix / "bin" / "casbench").unlink()
        end = self.install("--prefix", self.prefix, "--remove")
        self.assertEqual((end.status, end.out), (1, ""))
        self.assertEqual(end.err, f"dist/install: {changed} was changed since it was installed: it stays\n")
        self.assertEqual([it for it in self.top.rglob("*") if it.is_file()], [changed])

    def test_a_directory_for_a_package(self):
        packed = self.top / "packed"
        for destination in (f"{packed}", "packed/"):
            self.assertEqual(self.install("--prefix", "/usr", DESTDIR=destination).status, 0)
            self.assert_installed(packed / "usr")
            self.assertNotIn(str(packed), (packed / "usr" / LIST).read_text())
            self.assertEqual(self.install("--prefix", "/usr", "--remove", DESTDIR=destination).status, 0)
            self.assertEqual(contents(self.top), {"packed": None})

    def test_wrong_arguments(self):
        no_directory = (["--prefix"], ["--prefix="], ["--prefix", "--remove"], ["--prefix", "a\nb"])
        for arguments in (*no_directory, ["--prefix", "a", "--prefix", "b"], ["/usr"], ["--remove", "x"], ["-r"]):
            with self.subTest(arguments=arguments):
                end = self.install(*arguments)
                self.assertEqual((end.status, end.out), (2, ""))
                self.assertRegex(end.err, r"^dist/install: .+\n\nUsage: dist/install ")
        for word in ("--help", "-h"):
            end = self.install(word)
            self.assertEqual((end.status, end.err), (0, ""))
            self.assertTrue(end.out.startswith("Usage: dist/install "))
        self.assertEqual(contents(self.top), {})

    def test_what_stands_in_the_way(self):
        self.top.chmod(0o755)
        (self.top / "file").touch()
        elsewhere = [("uname", "echo Darwin arm64")]
        rows = [
            (["--prefix", self.top / "file"], {}, f"{self.top}/file is no directory"),
            (["--prefix", "x"], {"tools": elsewhere}, "the program is for Linux on x86-64, and this is Darwin arm64"),
        ]
        for arguments, how, wanted in rows:
            with self.subTest(wanted=wanted):
                end = self.install(*arguments, **how)
                self.assertEqual((end.status, end.out, end.err), (1, "", f"dist/install: {wanted}\n"))
                self.assertFalse((self.top / "x").exists())

    def copied(self):
        """A copy of dist/ and of the licence beside it, which everybody may read."""
        self.top.chmod(0o755)
        checkout = self.top / "checkout"
        checkout.mkdir(mode=0o755)
        for name in ("LICENSE", "NOTICE"):
            shutil.copy(TOP / name, checkout / name)
        return pathlib.Path(shutil.copytree(DIST, checkout / "dist", ignore=shutil.ignore_patterns("__pycache__")))

    def test_what_is_missing(self):
        dist = self.copied()
        for place, name in INSTALLED.items():
            with self.subTest(name=name):
                source = pathlib.Path(os.path.normpath(dist / name))
                source.rename(self.top / "away")
                end = self.install("--prefix", "x", dist=dist)
                (self.top / "away").rename(source)
                advice = "dist/renew makes it" if place in MADE else "it is a part of the checkout"
                self.assertEqual(end, (1, "", f"dist/install: there is no {source}: {advice}\n"))
        program = dist / "x86_64-linux" / "casbench"
        program.write_bytes(program.read_bytes()[:100_000])
        end = self.install("--prefix", "x", dist=dist)
        self.assertEqual(end, (1, "", f"dist/install: {program} doesn't start here\n"))
        self.assertFalse((self.top / "x").exists())

    @unittest.skipUnless(os.geteuid() == 0, "only root may run a command as somebody else")
    def test_whoever_may_not_write(self):
        dist, closed = self.copied(), self.top / "closed"
        closed.mkdir(mode=0o755)
        rights = {"user": NOBODY, "group": NOBODY, "extra_groups": []}
        advice = "isn't writable: name another --prefix, or be root\n"
        for arguments, wanted in ((["--prefix", closed], f"{closed} {advice}"), ([], advice)):
            end = ended([dist / "install", *arguments], cwd="/", **rights)
            self.assertEqual((end.status, end.out, contents(closed)), (1, "", {}))
            self.assertIn(wanted, end.err)
        self.install("--prefix", closed)
        before = contents(closed)
        end = ended([dist / "install", "--remove", "--prefix", closed], cwd="/", **rights)
        self.assertEqual((end.status, contents(closed)), (1, before))
        self.assertIn("isn't writable: be root", end.err)

    def test_a_failure_on_the_way(self):
        # (the third file can't be copied; somebody ends the script there)
        failing = 'echo x >>"$COUNT"; [ $(wc -l <"$COUNT") -lt 3 ] || { $ACT; exit 1; }; exec /bin/cp "$@"'
        for is_there in (False, True):
            if is_there:
                self.install("--prefix", self.prefix)
            before = contents(self.top / "a prefix")
            for act in ("true", "kill -TERM $PPID"):
                with self.subTest(is_there=is_there, act=act):
                    count = self.top / "count"
                    failing_here = failing.replace("$ACT", act)
                    end = self.install("--prefix", self.prefix, tools=[("cp", failing_here)], COUNT=str(count))
                    self.assertEqual((end.status, end.out), (1, ""))
                    last = f"dist/install: nothing was installed in {self.prefix}\n"
                    self.assertTrue(end.err.endswith(last), end.err)
                    self.assertEqual(contents(self.top / "a prefix"), before)
                    count.unlink()

    def test_a_newer_version_is_installed_and_removed(self):
        dist = self.copied()
        self.install("--prefix", self.prefix, dist=dist)
        page = dist / "share" / "man" / "man1" / "casbench.1"
        page.write_text("newer")
        self.assertEqual(self.install("--prefix", self.prefix, dist=dist).status, 0)
        self.assertEqual((self.prefix / "share/man/man1/casbench.1").read_text(), "newer")
        self.assertEqual(self.install("--prefix", self.prefix, "--remove", dist=dist).status, 0)
        self.assertEqual([it for it in self.top.iterdir() if it != dist.parent], [])


class Renew(FolderTest):
    """dist/renew, with a toolchain that builds nothing."""

    def test_it_makes_what_is_installed(self):
        top = pathlib.Path(self.folder)
        shutil.copytree(DIST, top / "dist", ignore=shutil.ignore_patterns("__pycache__", "share", "x86_64-linux"))
        (top / "crates" / "casbench" / "out").mkdir(parents=True)
        shutil.copy2(DIST / "x86_64-linux" / "casbench", top / "crates" / "casbench" / "out" / "casbench")
        for name in ("crates.txt", "HANDLES", *(f"crates/casbench/{it}/file" for it in ("src", "specs", "proofs"))):
            (top / name).parent.mkdir(exist_ok=True)
            (top / name).write_text("text\n")
        for name, text in (("casbench", '[ "$*" = "--prove --version" ]'), ("tools/rt", "echo toolchain")):
            (top / name).parent.mkdir(exist_ok=True)
            (top / name).write_text(f"#!/bin/sh\n{text}\n")
            (top / name).chmod(0o755)
        end = ended([top / "dist" / "renew"], env={**os.environ, "PATH": f"{top}/tools:{os.environ['PATH']}"})
        self.assertEqual(end, (0, "", ""))
        for name in MADE.values():
            self.assertTrue((top / "dist" / name).read_bytes() == (DIST / name).read_bytes(), name)
        sources = (top / "dist" / "x86_64-linux" / "SOURCES").read_text()
        self.assertRegex(sources, r"^toolchain toolchain\nsources \w{64}\nprogram \w{64}\n$")


class Licences(unittest.TestCase):
    """The licence's files in the checkout."""

    def test_the_package_has_copies(self):
        for name in ("LICENSE", "NOTICE"):
            self.assertEqual((PACKAGE / name).read_bytes(), (TOP / name).read_bytes(), name)

    def test_each_library_has_a_notice(self):
        """dist/THIRD-PARTY has an entry for each library that a crate uses and that is none of the checkout's crates,
        and names the toolchain of the program."""
        lines = (TOP / "crates.txt").read_text(encoding="utf-8").splitlines()
        crates = {re.match(r"\w+", it)[0] for it in lines}
        used = {name for it in lines for name in it.partition(":")[2].split()}
        third_party = (DIST / "THIRD-PARTY").read_text(encoding="utf-8")
        entries = set(re.findall(r"^(\w+)\n    ", third_party, re.MULTILINE))
        self.assertGreaterEqual(len(used - crates), 10)
        self.assertEqual(used - crates - entries, set())
        toolchain = (DIST / "x86_64-linux" / "SOURCES").read_text(encoding="utf-8").split()[1]
        self.assertIn(f"the toolchain {toolchain}.", third_party)


@unittest.skipUnless(importlib.util.find_spec("pip"), "this Python has no pip, so the package's commands were not installed")
class Commands(unittest.TestCase):
    """The commands that pip installs, in a folder that all tests have in common."""

    @classmethod
    def setUpClass(cls):
        folder = tempfile.TemporaryDirectory(prefix="casbench-installed-")
        cls.addClassCleanup(folder.cleanup)
        cls.installed = pathlib.Path(folder.name)
        options = ["--quiet", "--no-index", "--no-build-isolation", "--disable-pip-version-check"]
        install = [sys.executable, "-m", "pip", "install", *options, "--target", folder.name, PACKAGE]
        end = ended(install, env=environment())
        if end.status:
            raise AssertionError(end.err)

    def run_of(self, command, *arguments):
        """How a command ends, which may be one that is installed."""
        folder = self.installed / "bin"
        return ended([folder / command, *arguments], cwd=folder, env=environment(PYTHONPATH=str(self.installed)))

    def test_each_command_starts(self):
        sources = sorted((PACKAGE / "casbench_recording").rglob("*.py"))
        runs = [it for it in sources if '\nif __name__ == "__main__":\n' in it.read_text(encoding="utf-8")]
        modules = [it.parent.name if it.name == "__main__.py" else it.stem for it in runs]
        self.assertLessEqual({"proxy", "record", "shrink", "split", "stand_in", "watch", "witness"}, set(modules))
        names = {f"casbench-{it.replace('_', '-')}": it for it in modules}
        self.assertEqual({it.name for it in (self.installed / "bin").iterdir()}, set(names))
        for name, module in names.items():
            self.assert_starts([name], name)
            self.assert_starts([sys.executable, "-m", f"casbench_recording.{module}"], f"{module}.py")

    def test_the_licence_comes_with_it(self):
        (folder,) = self.installed.glob("casbench_recording-*.dist-info")
        for name in ("LICENSE", "NOTICE"):
            self.assertEqual((folder / name).read_bytes(), (TOP / name).read_bytes(), name)
        self.assertIn("\nLicense: Apache-2.0\n", (folder / "METADATA").read_text(encoding="utf-8"))

    def assert_starts(self, command, name):
        """Holds that a command shows its usage by this name, and refuses an argument that it doesn't have."""
        with self.subTest(command=name):
            end = self.run_of(*command, "--help")
            self.assertEqual((end.status, end.err), (0, ""))
            self.assertTrue(end.out.startswith(f"usage: {name} "), end.out)
            end = self.run_of(*command, "--no-such-option")
            self.assertEqual((end.status, end.out), (2, ""))
            self.assertIn(f"\n{name}: error: ", end.err)

    def test_a_command_does_its_work(self):
        for witness, status, answer in (("good", 0, "verified "), ("late", 1, "broken ")):
            files = [TOP / "examples" / it for it in ("overlapping.ndjson", f"overlapping-{witness}.witness")]
            end = self.run_of("casbench-witness", "check", *files)
            self.assertEqual((end.status, end.out[: len(answer)], end.err), (status, answer, ""))


if __name__ == "__main__":
    sys.exit(run_tests())

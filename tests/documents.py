#!/usr/bin/env python3
"""Runs each command that the documents show, in a copy of the checkout, and compares what it prints.

    python3 tests/documents.py [PROGRAM]

PROGRAM is the built casbench; if it isn't named, the one that ./casbench would run. A block of a document that begins
with `$ ` is a session: its commands are those behind `$ ` and `> `, and the lines of a here-document; all other lines
are what they print on standard output. A line `..` stands for any lines. The example pages are made again too.
"""

import os
import pathlib
import re
import shutil
import subprocess
import sys
import tempfile
from concurrent.futures import ThreadPoolExecutor
from itertools import repeat

from program import TOP
from program_test import ProgramTest, run_tests
from running import free_ports, run

STORES = [f"examples/stores/{it}/README.md" for it in ("redis", "postgresql", "zookeeper", "nats", "galera")]
STORES.append("examples/stores/nats/REPORT.md")
DOCUMENTS = ["README.md", "examples/README.md", *STORES, "docs/RECORDING.md"]

# The ports that the documents have a stand-in and a proxy listen on; each document gets some of its own.
PORTS = ("9200", "9201")


def parted(block):
    """The commands of a block, and what they print. A command goes on to the end of its here-document."""
    commands, wanted, ends = [], [], None
    for line in block.splitlines(keepends=True):
        if ends:
            commands.append(line)
            ends = None if line.strip() == ends else ends
        elif line.startswith(("$ ", "> ")):
            commands.append(line[2:])
            here_document = re.search(r"<<'(\w+)'", line)
            ends = here_document and here_document[1]
        else:
            wanted.append(line)
    return "".join(commands), "".join(wanted)


def is_as_wanted(printed, wanted):
    """Whether the text is the wanted one, in which a line `..` stands for any lines."""
    pattern = "".join(r"(?:.*\n)*" if line == "..\n" else re.escape(line) for line in wanted.splitlines(keepends=True))
    return re.fullmatch(pattern, printed) is not None


def copied_checkout(program, to):
    """Makes a copy of what the documents name, in which ./casbench is the program."""
    for name in ("docs", "examples", "recording", "tests"):
        shutil.copytree(TOP / name, to / name, ignore=shutil.ignore_patterns("__pycache__"))
    os.symlink(program, to / "casbench")


def sessions(document):
    """The sessions of a document."""
    text = (TOP / document).read_text(encoding="utf-8")
    return re.findall(r"^```\n(\$ .*?)^```$", text, re.MULTILINE | re.DOTALL)


def with_ports(block, ports):
    """The block with these ports in the place of its own."""
    for its, port in zip(PORTS, ports):
        block = block.replace(its, port)
    return block


def run_document(program, document, ports):
    """Runs the sessions of a document, one after the other in one copy; returns for each what is wrong with it, or
    nothing."""
    wrong = []
    environment = {key: it for key, it in os.environ.items() if not key.startswith("OPENSEARCH_")}
    with tempfile.TemporaryDirectory() as folder:
        folder = pathlib.Path(folder)
        copied_checkout(program, folder)
        for block in sessions(document):
            commands, wanted = parted(with_ports(block, ports))
            how = {"cwd": folder, "env": environment, "text": True, "timeout": 600}
            ran = subprocess.run(["bash", "-c", commands], stdin=subprocess.DEVNULL, capture_output=True, **how)
            fault = f"{commands}wrote\n{ran.stdout[:2000]}and not\n{wanted}{ran.stderr[:2000]}"
            wrong.append("" if is_as_wanted(ran.stdout, wanted) else fault)
    return wrong


class Documents(ProgramTest):
    """The sessions of the documents, and the pages of the examples."""

    def test_sessions(self):
        """Each session prints what its document shows. The documents are run side by side, and each has sessions."""
        ports = free_ports(len(DOCUMENTS) * len(PORTS))
        shares = [ports[at :: len(DOCUMENTS)] for at in range(len(DOCUMENTS))]
        with ThreadPoolExecutor() as pool:
            for document, wrong in zip(DOCUMENTS, pool.map(run_document, repeat(self.program), DOCUMENTS, shares)):
                with self.subTest(f"whether {document} has sessions"):
                    self.assertNotEqual(wrong, [])
                for number, fault in enumerate(wrong, 1):
                    with self.subTest(f"session {number} of {document}"):
                        self.assertFalse(fault, fault)

    def check_page(self, page):
        with tempfile.TemporaryDirectory() as folder:
            made = pathlib.Path(folder) / page.name
            run(self.program, ["explain", page.with_suffix(".ndjson"), "--html", made])
            is_right = made.exists() and made.read_bytes() == page.read_bytes()
        self.assertTrue(is_right, "it isn't the page of its history")

    def test_pages(self):
        """The page of each example is that of its history."""
        pages = sorted((TOP / "examples").glob("*.html"))
        self.assertNotEqual(pages, [])
        self.run_subtests(self.check_page, [(str(it.relative_to(TOP)), it) for it in pages])

    def test_headlines(self):
        """Each headline of docs/FORMATS.md has the page of an example."""
        formats = (TOP / "docs" / "FORMATS.md").read_text(encoding="utf-8")
        table = formats[formats.index("#### Headlines") : formats.index("### By witness")]
        wanted = set(re.findall(r"^\| ([A-Z][^|`]*[a-z]) \|", table, re.MULTILINE))
        pages = (TOP / "examples").glob("*.html")
        shown = {re.search("<h1>([^:<]*)", it.read_text(encoding="utf-8"))[1] for it in pages}
        self.assertGreaterEqual(len(wanted), 10)
        self.assertEqual(wanted - shown, set())


if __name__ == "__main__":
    sys.exit(run_tests())

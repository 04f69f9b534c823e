#!/usr/bin/env python3
"""Holds the documents to the sources: what they name is there, and what is there they name.

    python3 tests/claims.py [PROGRAM]

No program is run; one may be named, as for the other tests. What is held:

- The pages that are made from the sources are what `docs/make` makes. Each file of definitions and each public
  definition has a comment; sources are of the known kinds, and names with a capital letter are there. Each law is the
  contract of a call.
- docs/PROVED.md is as docs/making/proved.py makes it. Each public call says what it does, by a `///`, and what it
  requires, by a comment, and cites no definition of specs/aids; the contract of each law is one definition.
- docs/ARCHITECTURE.md has a row for each crate in "The crates", with the libraries that crates.txt gives it; the table
  of the gate says how many edits must fail.
- Files, links, modules of lemmas, `CRATE::NAME` and `Type::name` that a document names are there, and clauses behind
  these.

Each name that is held counts one.
"""

import fnmatch
import re
import subprocess
import sys
from typing import NamedTuple

from program import TOP
from program_test import ProgramTest, run_tests

sys.path.insert(0, str(TOP / "docs"))
from making import contracts, proved  # noqa: E402
from making import sources as making  # noqa: E402

CRATES = TOP / "crates"
STORES = [f"examples/stores/{it}README.md" for it in ("", "redis/", "postgresql/", "zookeeper/", "nats/", "galera/")]
DOCUMENTS = [
    "README.md",
    "CHANGELOG.md",
    "SECURITY.md",
    "examples/README.md",
    *STORES,
    "examples/stores/nats/REPORT.md",
    "recording/README.md",
    "recording/java/README.md",
    "examples/opensearch/README.md",
    *sorted(f"docs/{it.name}" for it in (TOP / "docs").glob("*.md")),
]

# The files of a folder of definitions that only name others.
LISTS = {"Lib.antt", "aids.antt"}

# Traits whose functions need no heading: those of copies, what is shown of a value, and what makes one fault of another.
OMITTED_TRAITS = {"Clone", "Copy", "Debug", "From"}

# Words that are files: such as begin with a folder of the checkout, and such as end so.
FOLDERS = ("tests", "crates", "examples", "recording", "docs", "dist", ".ci")
ENDINGS = (".antt", ".c", ".html", ".md", ".ndjson", ".png", ".py", ".rt", ".txt", ".witness")


# ---- documents


class Row(NamedTuple):
    """A row of a table: its line, the heading above it, the names of the columns, and what stands in them."""

    line: int
    heading: str
    head: tuple
    cells: tuple


def quoted(text):
    """What stands in backticks."""
    return re.findall(r"`([^`]+)`", text)


def in_brackets(text):
    """What stands in brackets if it is names and nothing else, parted at `; `: what stands before `: `, and the
    names."""
    for group in re.findall(r"\(([^()]*`[^()]*)\)", text):
        for piece in group.split("; "):
            before, _, names = piece.rpartition(": ")
            if re.fullmatch(r"(`[^`]+`(, | and )?)+(by `\w+`)?", names):
                yield before, quoted(names.split("by `")[0])


def lines_of(page):
    """The numbered lines of a document, but for its blocks."""
    is_block = False
    for number, line in enumerate((TOP / page).read_text(encoding="utf-8").splitlines(), 1):
        if line.startswith("```"):
            is_block = not is_block
        elif not is_block:
            yield number, line


def headings_of(page):
    """The numbered headings of a document."""
    return [(number, line) for number, line in lines_of(page) if re.match(r"#+ ", line)]


def rows_of(page, claims):
    """The rows of the tables of a document. Each has as many cells as its head."""
    heading, head, rows = "", (), []
    for number, line in lines_of(page):
        heading = line if line.startswith("#") else heading
        cells = tuple(it.strip() for it in line.strip()[1:-1].split("|")) if line.startswith("|") else ()
        if not cells or not head:
            head = cells
        elif not all(re.fullmatch(r":?-+:?", it) for it in cells):
            rows.append(Row(number, heading, head, cells + ("",) * (len(head) - len(cells))))
            if len(cells) != len(head):
                claims.hold(False, page, number, f"the row of {cells[0]} has {len(cells)} cells, its head {len(head)}")
    return rows


# ---- sources


class Function(NamedTuple):
    """A function: its module, the impl or the trait that it stands in, its name and its contract. What an impl gives to
    a trait is one without a name, with the names of what is given as its clauses."""

    module: str
    owner: str
    name: str
    is_public: bool
    ensures: tuple
    owes: bool
    contract: str

    @property
    def key(self):
        return f"{self.owner}::{self.name}" if self.owner else self.name


def owner_of(line):
    """`Type`, `Type as Trait` or `Trait` if the line begins an impl or a trait, `tests` if it begins a module."""
    while re.search(r"<[^<>]*>", line):
        line = re.sub(r"<[^<>]*>", "", line)
    match = re.match(r"impl (?:(\S+) for )?(\S+) \{|(?:pub(?:\(\w+\))? )?trait (\w+)", line)
    if match:
        return match[3] or (f"{match[2]} as {match[1]}" if match[1] else match[2])
    return "tests" if re.match(r"mod \w+ \{", line) else ""


def header_of(lines, indent):
    """Of lines that begin with a function those before its body."""
    header = []
    for line in lines:
        is_within = len(line) - len(line.lstrip()) > indent
        if header and not is_within and not line.lstrip().startswith((")", "where")):
            break
        header.append(line)
        if not is_within and ("{" in line or line.endswith(";")):
            break
    return "\n".join(header)


def functions_of(module, text):
    """The functions of a file, but for those of its tests."""
    functions, owner, lines = [], "", text.splitlines()
    for place, line in enumerate(lines):
        if line and line[0].isalpha():
            owner = owner_of(line)
        match = re.match(r"( *)(pub )?(?:pub\([^)]*\) )?(?:const |unsafe )*fn (\w+)", line)
        if match and owner != "tests" and len(match[1]) <= 4:
            header = header_of(lines[place:], len(match[1]))
            clauses = re.findall(rf"^{match[1]}    (ensures|requires)(?: (\w+))? \{{", header, re.MULTILINE)
            ensures = tuple(name for kind, name in clauses if kind == "ensures")
            owes = any(kind == "requires" for kind, _ in clauses)
            owner_of_own = owner if match[1] else ""
            functions.append(Function(module, owner_of_own, match[3], bool(match[2]), ensures, owes, header))
    return functions


class Crate:
    """A crate: its functions, its public calls by the names that documents give them, its types with their values, and
    more."""

    def __init__(self, folder):
        self.name, self.is_library = folder.name, (folder / "src" / "lib.rt").exists()
        self.functions, self.impls, self.types, self.traits, self.modules, self.nested = [], {}, {}, set(), set(), set()
        for file in sorted((folder / "src").rglob("*.rt")):
            module = str(file.relative_to(folder / "src").with_suffix(""))
            if not {"tests", "testing"} & set(module.split("/")):
                self.read(module, file.read_text(encoding="utf-8"))
        lib = (folder / "src" / "lib.rt").read_text(encoding="utf-8") if self.is_library else ""
        self.exported = dict(exports(lib))
        # The public modules, with the names that a caller has for them.
        self.open = {name: name for name in re.findall(r"^pub mod (\w+);", lib, re.MULTILINE)}
        self.open.update({f"{path}/{it}": it for it, path in self.exported.items() if f"{path}/{it}" in self.nested})
        self.calls = {self.public_name(it): it for it in self.functions if self.public_name(it)}

    def read(self, module, text):
        """Takes what a file has. A trait that is derived is given nothing."""
        self.modules.add(module)
        self.nested |= {f"{module}/{name}" for name in re.findall(r"^pub mod (\w+);", text, re.MULTILINE)}
        self.functions += functions_of(module, text)
        self.traits |= set(re.findall(r"^pub trait (\w+)", text, re.MULTILINE))
        block = r"(?:[^{\n]*\{\n((?:[^}\n].*\n|\n)*)\})?"
        for name, body in re.findall(r"^(?:pub(?:\(\w+\))? )?(?:struct|enum|type) (\w+)" + block, text, re.MULTILINE):
            self.types[name] = set(re.findall(r"^    ([A-Z]\w*)", body, re.MULTILINE))
        for traits, name in re.findall(r"^#\[derive\(([^)]*)\)\]\n(?:[#/].*\n)*pub (?:struct|enum) (\w+)", text, re.MULTILINE):
            for owner in (f"{name} as {trait}" for trait in traits.replace("Error", "Display").split(", ")):
                self.impls.setdefault(owner, Function(module, owner, "", False, (), False, ""))
        for line, body in re.findall(r"^(impl\b.* for .*\{)\n((?:[^}\n].*\n|\n)*)\}", text, re.MULTILINE):
            given = tuple(re.findall(r"^    ghost (\w+) =", body, re.MULTILINE))
            self.impls[owner_of(line)] = Function(module, owner_of(line), "", False, given, False, body)

    def public_name(self, it):
        """How documents name the function, if a caller has it; else nothing."""
        if it.owner:
            kind = it.owner.split(" as ")[0]
            is_named = it.is_public or it.owner in self.traits or " as " in it.owner
            return it.key if is_named and (kind in self.exported or kind.startswith("&")) else ""
        if it.is_public and self.exported.get(it.name) == it.module:
            return it.name
        return f"{self.open[it.module]}::{it.name}" if it.is_public and it.module in self.open else ""

    def found(self, name):
        """The functions that a document's name stands for: a call, all of a trait, or what an impl gives to its
        trait."""
        if name in self.traits:
            return {key: it for key, it in self.calls.items() if it.owner == name}
        if name in self.impls:
            return {name: self.impls[name]}
        calls = self.calls if self.is_library else {it.key: it for it in self.functions}
        if name in calls:
            return {name: calls[name]}
        kind, _, own = name.partition("::")
        return {key: it for key, it in calls.items() if it.name == own and it.owner.startswith(f"{kind} as ")}


def exports(lib):
    """The names that a crate hands on, each with the module or the crate that it comes from."""
    for path, names in re.findall(r"^pub use (\w+(?:::\w+)*)::(\w+|\{[^}]*\});", lib, re.MULTILINE):
        for name in re.findall(r"\w+", names):
            yield name, path.replace("::", "/")


class Definitions:
    """The public definitions of a file, and the fields of its records."""

    def __init__(self, file):
        text = file.read_text(encoding="utf-8")
        self.names = set(re.findall(r"^ *(?:\w+ pub|pub \w+) ([^\s:]\S*)", text, re.MULTILINE))
        records = re.findall(r"^( *)pub record (\S+).*\n((?:\1 .*\n|\n)*)", text, re.MULTILINE)
        self.fields = {name: set(re.findall(r"^ +pub (\w+) :", body, re.MULTILINE)) for _, name, body in records}


class Sources:
    """The crates, the libraries that crates.txt gives each, and the files of definitions."""

    def __init__(self):
        listed = re.findall(r"^(\w+)[^:\n]*:(.*)$", (TOP / "crates.txt").read_text(encoding="utf-8"), re.MULTILINE)
        self.uses = {name: libraries.split() for name, libraries in listed}
        folders = sorted(it.parent.name for it in CRATES.glob("*/src"))
        self.crates = {name: Crate(CRATES / name) for name in dict.fromkeys([*self.uses, *folders])}
        # Those that documents describe: a crate of tests has nothing but tests.
        self.described = {name: it for name, it in self.crates.items() if not name.endswith("_tests")}
        files = [it for it in CRATES.glob("*/specs/*.antt") if it.name not in LISTS]
        self.specs = {str(it.relative_to(CRATES)): Definitions(it) for it in sorted(files)}
        self.definitions = {name for it in self.specs.values() for name in it.names}
        types = [it for crate in self.crates.values() for it in crate.types.values()]
        self.values = {value for values in types for value in values} | {"None"}


# ---- MODEL.md


# A source that a definition may name, before a colon or a bracket: one of these, and what of it.
KNOWN_SOURCE = r"(after )?(Herlihy and Wing, section (2|3\.1)|OpenSearch( and profile)?|HTML|profile)\b"
# Names of other crates, which comments of definitions mention.
NAMES_ELSEWHERE = {"Data"}


class Model:
    """The comments from which the page of definitions is made."""

    def __init__(self, sources, claims):
        self.sources, self.claims = sources, claims
        self.files, self.laws = making.spec_files(), making.laws()
        types = {name for crate in sources.crates.values() for name in crate.types}
        self.known = sources.definitions | sources.values | types | NAMES_ELSEWHERE

    def hold(self, is_so, file, name, told):
        with self.claims.subTest(f"{file.path}: {name}"):
            self.claims.assertTrue(is_so, told)

    def hold_definition(self, file, it):
        """Holds that a definition has a comment, that its sources are of the known kinds, and, if it is a law, that it
        is the contract of a call."""
        self.hold(it.blocks, file, it.name, "it has no comment")
        for source in it.source.split("; ") if it.source else ():
            self.hold(re.match(KNOWN_SOURCE, source), file, it.name, f"the source {source} is of no known kind")
        if file.path.endswith("/Laws.antt") and not it.arguments:
            self.hold((file.crate, it.name) in self.laws, file, it.name, "it is the contract of no law")

    def hold_all(self):
        """Holds the comments, and that what they name with a capital letter is there."""
        for file in self.files.values():
            self.hold(file.blocks, file, "the file", "it has no comment")
            for it in file.definitions:
                self.hold_definition(file, it)
            texts = [*file.blocks, *(block for it in file.parts for block in it.blocks)]
            texts += [field.text for it in file.definitions for field in it.fields]
            for name in (name for text in texts for name in re.findall(r"`([A-Z]\w+)[^`]*`", text)):
                self.hold(name in self.known, file, name, "there is no such name")
        there = {(file.crate, it.name) for file in self.files.values() for it in file.definitions}
        for (crate, name), call in self.laws.items():
            with self.claims.subTest(call):
                self.claims.assertIn((crate, name), there, "its contract is no public definition of its crate")


# ---- PROVED.md


class Proved:
    """The page of contracts, which docs/making/proved.py makes of the sources."""

    page = "docs/PROVED.md"

    def __init__(self, sources, claims):
        self.sources, self.claims = sources, claims
        self.headings = {line for _, line in headings_of(self.page)}

    def hold(self, is_so, told):
        self.claims.hold(is_so, self.page, 1, told)

    def hold_call(self, name, call, source):
        """Holds that a call says what it does, and what it requires, and cites no definition that is only an aid."""
        self.hold(call.says, f"{name} has no `///`")
        named = {it for clause in call.clauses for it in re.findall(r"`(\w+)`", clause.comment)}
        for clause in (it for it in call.clauses if it.kind == "requires"):
            self.hold(clause.comment or clause.name in named, f"no comment says what {name} requires: {clause.formula}")
        for clause in (it for it in call.clauses if it.kind != "ghost"):
            for aid in contracts.names_cited(clause, source.aids):
                self.hold(False, f"{name} cites {aid} of specs/aids, which is for private contracts")

    def hold_law(self, name, call):
        """Holds that the contract of a law is a definition, and nothing else."""
        contract = [(it.name, re.fullmatch(r"[A-Z]\w*", it.formula) is not None) for it in call.clauses]
        self.hold(contract == [("", True)], f"{name} is no law")

    def hold_all(self):
        """Holds that the page is as the sources make it, and has each crate and each public call."""
        self.hold((TOP / self.page).read_text(encoding="utf-8") == proved.page(), "docs/make was not run")
        for name in self.sources.described:
            if name in proved.LEFT_OUT:
                self.hold(f"## {name}" not in self.headings, f"the crate {name} has a section")
            else:
                self.hold(f"## {name}" in self.headings, f"the crate {name} has no section")
        for crate in (contracts.Crate(name) for name in proved.LEFT_OUT):
            for name, call, _ in contracts.calls_of(crate):
                self.hold(not call.clauses, f"{name} has a contract that the page leaves out")
        for crate in (contracts.Crate(name) for name in proved.ORDER):
            for name, call, source in contracts.calls_of(crate):
                self.hold_call(name, call, source)
                if name.startswith("laws::"):
                    self.hold_law(name, call)
        for crate in (it for name, it in self.sources.described.items() if name not in proved.LEFT_OUT):
            for key in (key for key, it in crate.calls.items() if it.owner.partition(" as ")[2] not in OMITTED_TRAITS):
                owner = key.rpartition("::")[0].replace(" as ", "` as `")
                is_so = any(f"{it} `{key}`" in self.headings for it in ("###", "####")) or f"### `{owner}`" in self.headings
                self.hold(is_so, f"the call {key} has no heading")


# ---- ARCHITECTURE.md


def hold_rooms(page, rows, sources, claims):
    """Holds the table of crates with what they stand on."""
    rows = [it for it in rows if it.head[0] == "crate" and it.head[-1] == "stands on"]
    for row in rows:
        name, cell = row.cells[0], row.cells[-1]
        claims.hold(name in sources.uses, page, row.line, f"crates.txt has no crate {name}")
        wanted = [it if it in sources.crates else f"`{it}`" for it in sources.uses.get(name, [])]
        is_so = sorted(filter(None, cell.split(", "))) == sorted(wanted)
        fault = f"{name} stands on {cell or 'nothing'}, by crates.txt on {', '.join(wanted) or 'nothing'}"
        claims.hold(is_so, page, row.line, fault)
    for name in sources.described:
        is_so = name in {row.cells[0] for row in rows}
        claims.hold(is_so, page, rows[0].line if rows else 1, f"the crate {name} has no row in the rooms")


def hold_gate(page, rows, sources, claims):
    """Holds the table of what the gate takes: its crates, the crates of tests, and how many edits must fail."""
    for row in (it for it in rows if it.head[0] == "crate" and "edits" in it.head):
        crates = row.cells[0].split(", ")
        for name in (*crates, *re.findall(r"\w+_tests", " ".join(row.cells))):
            claims.hold(name in sources.crates, page, row.line, f"there is no crate {name}")
        edits = sum(len(list((CRATES / name).glob("must-fail/*.edit"))) for name in crates)
        cell = row.cells[row.head.index("edits")]
        claims.hold(cell == (str(edits) if edits else ""), page, row.line, f"{row.cells[0]} has {edits or 'no'} edits")


# ---- what is cited


def anchors_of(page):
    """The anchors of a document's headings."""
    return {re.sub(r"[^\w\- ]", "", line.lstrip("# ").lower()).replace(" ", "-") for _, line in headings_of(page)}


class Citations:
    """What documents cite."""

    def __init__(self, sources, claims):
        self.crates, self.claims = sources.crates, claims
        self.functions = {key for it in self.crates.values() for key in (*it.calls, *(own.key for own in it.functions))}
        files = [it.relative_to(TOP) for name in FOLDERS for it in (TOP / name).rglob("*.*")]
        self.files = [f"/{it}" for it in files if "out" not in it.parts]

    def is_file(self, word):
        """Whether there is the file: at this place, or one whose path ends so. What the toolchain makes need not be
        there."""
        path = word[2:] if word.startswith("./") else word
        if "out" in path.split("/"):
            return True
        if word.startswith("./") or path.split("/")[0] in FOLDERS:
            return any(TOP.glob(path.rstrip("/"))) if "*" in path else (TOP / path).exists()
        return any(fnmatch.fnmatch(it, f"*/{path}") for it in self.files)

    def is_linked(self, page, link):
        """Whether there is what a document links to."""
        path, _, anchor = link.partition("#")
        other = ((TOP / page).parent / path).resolve() if path else TOP / page
        return other.exists() and (not anchor or anchor in anchors_of(other.relative_to(TOP)))

    def is_named(self, path):
        """Whether a crate has what is named behind it, or else a type or a module what is named behind that."""
        crate = self.crates.get(path.split("::")[0])
        if crate is None:
            return path in self.functions or any(it.found(path) for it in self.crates.values())
        own = {it.key for it in crate.functions}
        own |= {*crate.calls, *crate.types, *crate.traits, *crate.modules, *crate.exported}
        return path.partition("::")[2] in own

    def is_behind(self, path, name):
        """Whether a call has the clause that is named behind it; or else there is such a function beside it."""
        functions = [it for crate in self.crates.values() for it in crate.found(path.partition("::")[2]).values()]
        return any(name in it.ensures for it in functions) or self.is_named(f"{path.rpartition('::')[0]}::{name}")

    def hold_document(self, page):
        """Holds what a document cites."""
        for number, line in lines_of(page):
            for word in (it.rstrip(":,") for text in quoted(line) for it in text.split()):
                word = module_file(word)
                is_path = word.startswith(tuple(f"{it}/" for it in (".", *FOLDERS))) or word.endswith(ENDINGS)
                if is_path and re.fullmatch(r"(\./)?(\w|\*|\.ci)[\w.*-]*(/[\w.*-]+)*/?", word):
                    self.claims.hold(self.is_file(word), page, number, f"there is no file {word}")
                if re.fullmatch(r"\w+Lemmas", word):
                    self.claims.hold(self.is_file(f"{word}.antt"), page, number, f"there is no module of lemmas {word}")
                if re.fullmatch(r"\w+(::\w+)+", word):
                    self.claims.hold(self.is_named(word), page, number, f"there is no {word}")
            for path, name in re.findall(r"`(\w+(?:::\w+)+)`, (?:clause )?`(\w+)`", line):
                if path.split("::")[0] in self.crates:
                    self.claims.hold(self.is_behind(path, name), page, number, f"{path} has no clause {name}")
            for link in re.findall(r"\]\(([^):]+)\)", line) + re.findall(r"^\[[^\]]+\]: ([^:\s]+)$", line):
                self.claims.hold(self.is_linked(page, link), page, number, f"there is nothing behind the link {link}")


def module_file(word):
    """The file of a module or a package of the recorders, if the word names one; any other word as it is."""
    name = re.fullmatch(r"casbench_recording\.(\w+)", word)
    path = f"recording/casbench_recording/{name[1]}" if name else ""
    return word if not name else f"{path}/__init__.py" if (TOP / path).is_dir() else f"{path}.py"


class Claims(ProgramTest):
    """What the documents say. Each name that is held is a subtest."""

    @classmethod
    def setUpClass(cls):
        cls.sources = Sources()

    def hold(self, is_so, page, line, fault):
        """Holds a name at a line of a page."""
        with self.subTest(f"{page}:{line}"):
            self.assertTrue(is_so, fault)

    def test_made_pages(self):
        made = subprocess.run([TOP / "docs" / "make", "--check"], capture_output=True, text=True)
        self.assertEqual((made.returncode, made.stdout, made.stderr), (0, "", ""), "docs/make has to be run")

    def test_toolchain(self):
        """The pages name the toolchain with which the program of dist/ was built."""
        built = (TOP / "dist" / "x86_64-linux" / "SOURCES").read_text().splitlines()[0].removeprefix("toolchain ")
        for page in ("README.md", "docs/PROVED.md"):
            self.assertEqual(re.findall(r"`(rattle-kit[^`]*)`", (TOP / page).read_text()), [built], page)

    def test_model(self):
        Model(self.sources, self).hold_all()

    def test_proved(self):
        Proved(self.sources, self).hold_all()

    def test_architecture(self):
        page = "docs/ARCHITECTURE.md"
        rows = rows_of(page, self)
        hold_rooms(page, rows, self.sources, self)
        hold_gate(page, rows, self.sources, self)

    def test_citations(self):
        citations = Citations(self.sources, self)
        for page in DOCUMENTS:
            citations.hold_document(page)


if __name__ == "__main__":
    sys.exit(run_tests(needs_program=False))

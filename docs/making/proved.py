#!/usr/bin/env python3
"""Makes docs/PROVED.md of the sources: what each public call says, requires and promises.

    python3 docs/making/proved.py            writes docs/PROVED.md
    python3 docs/making/proved.py --check    reports a difference, and exits with 1 if there is one

The page is the text of header_proved.md, in which the line `<!-- calls -->` stands for the sections of the crates. A
section has what the crate's `lib.rt` says first of itself; then its types, traits and functions, each with its `///`,
its signature and its clauses. A clause is said by the `//` comment above it, else by its formula. A comment that begins
with names of clauses (`` `ok`, `fault`: .. ``) says these clauses of the call together. Definitions that a clause cites
are links to docs/MODEL.md.
"""

import re
import sys
from pathlib import Path

DOCS = Path(__file__).resolve().parent.parent

sys.path.insert(0, str(DOCS))
from making import contracts, users  # noqa: E402 (they lie beside this file)

PAGE = DOCS / "PROVED.md"
HEADER = DOCS / "making" / "header_proved.md"
MARK = "<!-- calls -->"
WIDTH = 110

# The crates in the order of the page.
ORDER = (
    "version_pair doc_register events api_lines history recorder workload repl_group disturbances places witness "
    "write_chain completing completing_by_rules completing_forward doc_check check_pool evidence readings "
    "deciding "
    "narrowing shard_numbers covers compose page story_reasons story_blocks story_drawings story stream_io "
    "result_lines recorded_runs command_line report seed_search casbench"
).split()

# The crates that are left out: no call of theirs has a contract, and explanations alone use them.
LEFT_OUT = {"certificate", "story_words"}

# Traits whose impls are not shown: those of views, of copies, of what is shown of a value, and of errors.
UNSHOWN_TRAITS = {"Model", "Clone", "Copy", "Debug", "Display", "Drop", "Eq", "Error", "From"}


def anchor_of(crate, file):
    """The anchor of the heading of a file of definitions in docs/MODEL.md."""
    return re.sub(r"[^\w\- ]", "", f"{crate}/specs/{file}.antt".lower()).replace(" ", "-")


def wrapped(text, first="", then=""):
    """The words of a text in lines. What stands in backticks or is a link isn't parted, and no line begins as a list
    does."""
    pieces = re.findall(r"(?:`[^`]*`|\[`[^`]*`\]\[[^\]]*\]|\S)+", text)
    lines, line = [], first
    for place, piece in enumerate(pieces):
        ahead = piece if place == 0 else f" {piece}"
        if place and len(line) + len(ahead) > WIDTH and not re.match(r"([-+*=#>|]|\d+[.)])", piece):
            lines.append(line)
            line, ahead = then, piece
        line += ahead
    return [*lines, line]


def paragraphs_of(says, link):
    """What a `///` says, in lines of the page: its paragraphs and the items of its lists wrapped, its blocks as they
    stand."""
    lines, text, first, is_block = [], [], "", False
    cut = [it[1:] if it.startswith(" ") else it for it in says]
    for line in [*cut, ""]:
        is_item = bool(re.match(r"- ", line))
        if is_block or line.startswith("```"):
            is_block = is_block != line.startswith("```")
            lines.append(line)
            continue
        if (not line or is_item) and text:
            lines += wrapped(link(" ".join(text)), first, " " * len(first))
            text, first = [], ""
        if not line:
            lines.append("")
        elif is_item:
            text, first = [line[2:]], "- "
        else:
            text.append(line.strip())
    while lines and not lines[-1]:
        lines.pop()
    return lines


class Section:
    """The lines of the page that are about a crate, and the files of definitions that they link to."""

    def __init__(self, crate, importers):
        self.crate, self.importers, self.lines, self.files = crate, importers, [], set()
        self.lines += [f"## {crate.name}", "", *paragraphs_of(crate.says, str), ""]
        for source in crate.sources:
            self.add_source(source)

    def linked(self, text, imports, names):
        """The text, in which these names of definitions that stand in backticks are links. The names that were linked
        stand in `names` no more."""

        def link(match):
            name = match[1].split()[0]
            if name not in self.citable:
                return match[0]
            names[:] = [it for it in names if it != name]
            return self.link_to(match[1], imports[name])

        return re.sub(r"`([^`]+)`(?!\])", link, text)

    def link_to(self, text, place):
        """A link to the file of definitions of a name."""
        self.files.add(place)
        return f"[`{text}`][{'/'.join(place)}]"

    def clause_lines(self, clause, names, imports):
        """The lines about a clause, or about those that its comment names."""
        cited = contracts.names_cited(clause, imports)
        self.citable = set(cited)
        said = self.linked(" ".join(clause.comment.split()), imports, cited)
        links = ", ".join(self.link_to(it, imports[it]) for it in cited)
        ahead = f"{names}: " if names else ""
        if not said and len(clause.formula) > WIDTH - 10 - len(ahead):
            lines = wrapped(f"{names or 'It holds that'}" + (f" ({links})" if links else "") + ":", "- ", "  ")
            return [*lines, "", "  ```text", *(f"  {it}" for it in formula_lines(clause.formula)), "  ```", ""]
        if not said and cited == [clause.formula]:
            return wrapped(ahead + links, "- ", "  ")
        return wrapped(ahead + (said or f"`{clause.formula}`") + (f" ({links})" if links else ""), "- ", "  ")

    def clauses_lines(self, title, clauses, imports):
        """The lines about the clauses of one kind. A comment that begins with names of clauses is about these."""
        lines, told = [], set()
        for clause in clauses:
            if clause.name and clause.name in told:
                continue
            match = re.match(r"((?:`\w+`(?:, | and )?)+): (.*)", clause.comment, re.DOTALL)
            named = re.findall(r"`(\w+)`", match[1]) if match else []
            if clause.name in named and set(named) <= {it.name for it in clauses}:
                told.update(named)
                formula = " ".join(it.formula for it in clauses if it.name in named)
                clause = clause._replace(comment=match[2], formula=formula)
            else:
                named = [clause.name] if clause.name else []
            lines += self.clause_lines(clause, ", ".join(f"`{it}`" for it in named), imports)
        return [f"{title}:", "", *lines, ""] if lines else []

    def call_lines(self, name, call, imports, level="###"):
        """The lines about a call."""
        self.citable = {it for clause in call.clauses for it in contracts.names_cited(clause, imports) if it[0].isupper()}
        lines = [f"{level} `{name}`", "", *paragraphs_of(call.says, lambda it: self.linked(it, imports, [])), ""]
        if not name.startswith("laws::"):
            lines += ["```rust", call.signature, "```", "", *self.user_lines(name)]
        for title, kind in (("Requires", "requires"), ("Promises", "ensures")):
            lines += self.clauses_lines(title, [it for it in call.clauses if it.kind == kind], imports)
        return lines

    def user_lines(self, name):
        """The line about the files that import a function or a type; none of a method."""
        files = self.importers.get((self.crate.name, name), [])
        return [*wrapped(f"*Used in* {users.listed(files)}."), ""] if files else []

    def add_block(self, title, block, imports):
        """Adds what a type, a trait or an impl of a trait says of itself, and what is given to the trait."""
        self.citable = set()
        said = paragraphs_of(block.says, str)
        ghosts = [it for it in block.ghosts if it.kind == "ghost" and (it.comment or shows(it.formula))]
        verb = "Each says for itself" if block.kind == "trait" else "Gives to the trait"
        self.lines += [f"### {title}", "", *said, *([""] if said else []), *self.clauses_lines(verb, ghosts, imports)]

    def add_source(self, source):
        """Adds what a file declares and a caller has. The methods of a type and what it gives to traits stand with it,
        in whichever file they are."""
        for block in source.blocks:
            shown = self.crate.shown_name(source, block)
            if not shown:
                continue
            if block.kind == "fn" and contracts.is_shown(self.crate, block.calls[0]):
                self.lines += self.call_lines(shown, block.calls[0], source.imports)
            elif block.kind == "trait":
                self.add_block(f"The trait `{shown}`", block, source.imports)
                for call in block.calls:
                    self.lines += self.call_lines(f"{shown}::{call.name}", call, source.imports, "####")
            elif block.kind == "type":
                self.add_type(shown, block, source)
            elif block.kind == "impl" and shown not in self.crate.types:
                self.add_impl(shown, block, source)

    def add_type(self, shown, block, source):
        """Adds a type with its methods and what it gives to traits, if it has any."""
        sources, start = [source, *(it for it in self.crate.sources if it is not source)], len(self.lines)
        impls = [(own, it) for own in sources for it in own.blocks if it.kind == "impl" and it.name == shown]
        for own, impl in sorted(impls, key=lambda it: bool(it[1].trait)):
            self.add_impl(shown, impl, own)
        if any(it.startswith(f"#### `{shown}::") for it in self.lines[start:]):
            said = paragraphs_of(block.says, str)
            lines = [f"### `{shown}`", "", *said, *([""] if said else []), *self.user_lines(shown)]
            self.lines[start:start] = lines

    def add_impl(self, shown, block, source):
        """Adds the methods of an impl, or what it gives to a trait."""
        if not block.trait:
            for call in (it for it in block.calls if contracts.is_shown(self.crate, it)):
                self.lines += self.call_lines(f"{shown}::{call.name}", call, source.imports, "####")
        elif block.trait not in UNSHOWN_TRAITS:
            self.add_block(f"`{shown}` as `{block.trait}`", block, source.imports)
            for call in block.calls if any(it.clauses for it in block.calls) else []:
                self.lines += self.call_lines(f"{shown} as {block.trait}::{call.name}", call, source.imports, "####")


def shows(formula):
    """Whether a ghost item's formula says something, and is no proof."""
    return not re.search(r"Prim\.|_equiv|\blaws\b", formula)


def formula_lines(formula):
    """A formula in lines."""
    lines, line = [], ""
    for word in formula.split():
        if line and len(line) + 1 + len(word) > WIDTH - 2:
            lines.append(line)
            line = f"  {word}"
        else:
            line = f"{line} {word}" if line else word
    return [*lines, line]


def page():
    """The text of the page."""
    crates = [contracts.Crate(name) for name in ORDER]
    importers = users.importing_files(crates)
    sections = [Section(crate, importers) for crate in crates]
    header = HEADER.read_text(encoding="utf-8")
    before, _, after = header.partition(MARK)
    files = {it for section in sections for it in section.files}
    files |= {tuple(it.split("/")) for it in re.findall(r"`\]\[(\w+/\w+)\]", header)}
    calls = "\n".join(line for section in sections for line in section.lines)
    links = "\n".join(f"[{crate}/{file}]: MODEL.md#{anchor_of(crate, file)}" for crate, file in sorted(files))
    text = f"{before}{calls.strip()}\n{after.rstrip()}\n\n{links}\n"
    return re.sub(r"\n{3,}", "\n\n", text)


def main(words):
    """Writes the page, or with `--check` compares it."""
    if words not in ([], ["--check"]):
        print(__doc__.split("\n\n")[1], file=sys.stderr)
        return 64
    made = page()
    if not words:
        PAGE.write_text(made, encoding="utf-8")
    elif PAGE.read_text(encoding="utf-8") != made:
        print("docs/PROVED.md is not as the sources make it: python3 docs/making/proved.py", file=sys.stderr)
        return 1
    return 0


if __name__ == "__main__":
    sys.exit(main(sys.argv[1:]))

"""Makes MODEL.md from the files of definitions: their comments, and the types of the code that they speak of.

The order of the sections and of the files in them is given here; the words are those of the comments.
"""

import re
import textwrap

from . import contracts, proved, sources
from .sections import SECTIONS
from .sources import Definition
from .users import Users, cited_by, listed

# The definition that states what an answer means; of those whose equations a `yes` takes only in part, what these
# equations cite; and the line of the header that the list of all that a `yes` rests on replaces.
ANSWER = ("report/specs/Verdict.antt", "IsAnswer")
TAKEN_IN_PART = {
    ANSWER: [("report/specs/Verdict.antt", "OfText"), ("report/specs/Verdict.antt", "Says")],
    ("report/specs/Verdict.antt", "Says"): [
        ("report/specs/Verdict.antt", "IsExplainedWith"),
        ("result_lines/specs/Lines.antt", "yes_line"),
    ],
    ("evidence/specs/Evidence.antt", "Holds"): [
        ("evidence/specs/Evidence.antt", name) for name in ("HasNoWriter", "IsStaleGet", "IsMissedWrite")
    ],
}
PLACE = "{the definitions that a yes rests on}"

HEADER = sources.TOP / "docs" / "making" / "header_model.md"
COLUMNS = 110

# Values of a type are left out if there are more of them than this.
MOST_VALUES = 30


class Fault(Exception):
    """What is wrong with the sources of a page."""


def anchor_of(path):
    """The anchor of the heading of a file."""
    return re.sub(r"[^\w\- ]", "", path.lower()).replace(" ", "-")


def wrapped(text, begin="", indent=None):
    """The text, wrapped, with this before its first line and as many spaces before the others. What is in backticks
    stays on one line."""
    indent = " " * len(begin) if indent is None else indent
    how = {"initial_indent": begin, "subsequent_indent": indent, "break_long_words": False, "break_on_hyphens": False}
    joined = re.sub(r"`[^`]*`", lambda it: it[0].replace(" ", "\0"), text)
    return [line.replace("\0", " ") for line in textwrap.wrap(joined, COLUMNS, **how)]


class Page:
    """The page: what it names, and where."""

    def __init__(self):
        self.files, self.laws = sources.spec_files(), sources.laws()
        self.users = Users(self.files, [contracts.Crate(it) for it in proved.ORDER])
        self.order = [path for _, _, paths in SECTIONS for path in paths]
        self.check_order()
        self.owners = {}
        for path in self.order:
            for it in self.files[path].definitions:
                self.owners.setdefault(it.name, []).append(path)
        self.types, self.type_places = self.placed_types()

    def check_order(self):
        """Each file of definitions stands in one section."""
        missing, strange = sorted(set(self.files) - set(self.order)), sorted(set(self.order) - set(self.files))
        if missing or strange or len(self.order) != len(set(self.order)):
            raise Fault(f"docs/making/sections.py: missing {missing}, not there {strange}, or one stands twice")

    def placed_types(self):
        """The types of the code by the file under which they are shown, and these files by the types: the first file of
        their crate that imports them, or else the first of all."""
        places = {}
        for path in self.order:
            for key in self.files[path].types:
                own = key[0] == path.split("/")[0]
                if key not in places or (own and places[key].split("/")[0] != key[0]):
                    places[key] = path
        found = {key: sources.type_of(*key) for key in places}
        shown = {path: [found[key] for key in places if places[key] == path and found[key]] for path in self.order}
        return shown, {key: path for key, path in places.items() if found[key]}

    # ---- names within a text

    def place_of(self, name, file):
        """The file whose definition, or whose type, a text in this file means by the name; nothing of other words."""
        if any(it.name == name for it in file.definitions):
            return file.path
        if name in file.imports:
            key = file.imports[name]
            is_there = len(key) == 2 and key[0] in self.owners.get(key[1], [])
            return key[0] if is_there else self.type_places.get(key, "")
        owners = self.owners.get(name, []) if re.search(r"[A-Z_]", name) else []
        near = [it for it in owners if it.split("/")[0] == file.crate]
        return (near or owners)[0] if len(near or owners) == 1 else ""

    def linked(self, text, file):
        """The text with its names in backticks, those of other files as links to them."""

        def quoted(match):
            word = match[1].partition(" ")[0]
            place = self.place_of(word, file) if word else ""
            return f"[`{match[1]}`](#{anchor_of(place)})" if place and place != file.path else match[0]

        def bare(match):
            return f"`{match[0]}`" if match[0] in fields or self.place_of(match[0], file) else match[0]

        fields = {it.name for own in file.definitions for it in own.fields}
        text = re.sub(r"\bdocs/(\w+\.md)\b", r"[\1](\1)", text)
        pieces = re.split(r"(`[^`]*`)", text)
        pieces[::2] = [re.sub(r"\b(?:[A-Z][a-z]+){2,}\b|\b[a-z]+(?:_[a-z]+)+\b", bare, it) for it in pieces[::2]]
        return re.sub(r"`([^`]+)`", quoted, "".join(pieces))

    # ---- pieces of the page

    def block_lines(self, block, file, indent=""):
        """The lines of a block: of a table, of a point of a list, or of a paragraph."""
        if block.startswith("|"):
            return [indent + self.linked(row, file) for row in block.splitlines()]
        if block.startswith("- "):
            return wrapped(self.linked(block[2:], file), f"{indent}- ")
        return wrapped(self.linked(block, file), indent)

    def blocks_lines(self, blocks, file, indent=""):
        """The lines of some blocks, with a blank one between two that aren't points of one list."""
        lines, before = [], ""
        for block in blocks:
            if lines and not (block.startswith("- ") and before.startswith("- ")):
                lines.append("")
            lines += self.block_lines(block, file, indent)
            before = block
        return lines

    def definition_lines(self, it, file):
        """The lines of a definition: its name and its arguments, its comment and its notes, and its fields."""
        name = f"- `{' '.join((it.name, *it.arguments))}`"
        has_first = it.blocks and not it.blocks[0].startswith(("- ", "|"))
        first, others = (it.blocks[0], it.blocks[1:]) if has_first else ("", it.blocks)
        said = f"{name}: {self.linked(ended(first), file)}" if first else name
        notes = self.notes_of(it, file)
        lines = wrapped(said if others else f"{said} {notes}".strip(), "", "  ")
        if others:
            lines += ["", *self.blocks_lines(others, file, "  ")]
            lines += ["", *wrapped(notes, "  ")] if notes else []
            lines += [""] if it.fields else []
        return lines + self.field_lines(it.fields, file)

    def notes_of(self, it, file):
        """What is noted of a definition: of which law it is the contract, its source, and its users."""
        law = self.laws.get((file.crate, it.name))
        notes = [f"A law: the contract of `{law}`."] if law else []
        notes += [self.linked(f"*Source: {it.source}.*", file)] if it.source else []
        users = [] if law else self.users.by_definition[file.path, it.name]
        places = ((f"`{name}`", "" if path in ("", file.path) else f"#{anchor_of(path)}") for path, name in users)
        named = listed([f"[{name}]({place})" if place else name for name, place in places])
        return " ".join(notes + [f"*Used by* {named}."] if users else notes)

    def field_lines(self, fields, file):
        """The lines of fields: first those that have a comment, then the names of the others."""
        lines = []
        for it in fields:
            if it.text:
                lines += wrapped(f"`{it.name}`: {self.linked(ended(it.text), file)}", "  - ")
        silent = [f"`{it.name}`" for it in fields if not it.text]
        return lines + (wrapped(f"{', '.join(silent)}", "  - ") if silent else [])

    def type_lines(self, it, file):
        """The lines of a type of the code, with its values."""
        text = self.linked(ended(" ".join(it.blocks)), file)
        lines = wrapped(f"- the type `{it.name}` of the crate {it.crate}: {text}", "", "  ")
        return lines + (self.field_lines(it.fields, file) if len(it.fields) <= MOST_VALUES else [])

    def file_lines(self, path):
        """The lines of a file."""
        file = self.files[path]
        lines = [f"### {path}", "", *self.blocks_lines(file.blocks, file), ""]
        for it in self.types[path]:
            lines += self.type_lines(it, file)
        lines += [""] if self.types[path] else []
        for it in file.parts:
            if isinstance(it, Definition):
                lines += self.definition_lines(it, file)
            elif it.is_title:
                lines += ["", f"**{it.blocks[0][:1].upper()}{it.blocks[0][1:]}**", ""]
            else:
                lines += ["", *self.blocks_lines(it.blocks, file), ""]
        return lines + [""]

    def definitions_of_yes(self):
        """All definitions that a `yes` rests on, each by its file and its name."""
        cited, reached = set(), [ANSWER]
        while reached:
            one = reached.pop()
            if one not in cited:
                cited.add(one)
                own = cited_by(self.files, *one)
                part = TAKEN_IN_PART.get(one, own)
                if not set(part) <= set(own):
                    raise Fault(f"docs/making/model.py: {one[1]} doesn't cite all of {part}")
                reached += part
        return cited

    def lines_of_yes(self):
        """The list of all definitions that a `yes` rests on: of each file their names and the lines they begin on."""
        cited, lines, files = self.definitions_of_yes(), [], 0
        for path in self.order:
            named = [it for it in self.files[path].definitions if (path, it.name) in cited]
            if named:
                names = ", ".join(f"`{it.name}` {it.start}" for it in named)
                lines += wrapped(f"[{path}](#{anchor_of(path)}): {names}", "- ")
                files += 1
        return "\n".join([f"These are {len(cited)} definitions of {files} files.", "", *lines])

    def text(self):
        """The page."""
        header = HEADER.read_text(encoding="utf-8")
        if header.count(PLACE) != 1:
            raise Fault(f"{HEADER}: {PLACE} doesn't stand there once")
        lines = header.replace(PLACE, self.lines_of_yes()).splitlines() + [""]
        for title, introduction, paths in SECTIONS:
            lines += [f"## {title}", ""]
            lines += [*wrapped(self.linked(introduction, self.files[paths[0]])), ""] if introduction else []
            for path in paths:
                lines += self.file_lines(path)
        return re.sub(r"\n{3,}", "\n\n", "\n".join(lines)).strip() + "\n"


def ended(text):
    """The text, ended by a full stop."""
    return text if not text or text.endswith((".", ":", "?", ".)")) else f"{text}."


def page():
    """The text of docs/MODEL.md."""
    return Page().text()

"""Reads what the pages are made of: files of definitions (crates/CRATE/specs/FILE.antt), and the types of the code
that they speak of (crates/CRATE/src/*.rt)."""

import pathlib
import re
from typing import NamedTuple

TOP = pathlib.Path(__file__).resolve().parent.parent.parent
CRATES = TOP / "crates"

# The files of a folder of definitions that only name others.
LISTS = {"Lib.antt", "aids.antt"}

# The constructors that begin with a small letter and are not declared in a file of definitions of this project.
SMALL_CONSTRUCTORS = {"zero", "true", "false", "tt", "null", "no_members", "no_items"}

# Names for arguments of some types, for those that no equation names.
SHORT_NAMES = {
    "Bool": "b",
    "ClockView": "view",
    "DocPlaces": "document",
    "DocState": "state",
    "FieldValue": "field",
    "Placed": "call",
    "Result": "answer",
}

# Names for arguments that are pairs of these types.
PAIR_NAMES = {
    "List ℕ × DocState": "entry",
    "List ℕ × Op": "item",
    "List ℕ × ℕ": "document",
    "Pair × ℕ": "link",
    "ℕ × Answer": "heard",
    "ℕ × Event": "entry",
    "ℕ × HeldWrite": "write",
    "ℕ × Reply": "heard",
}

# The line of a comment that names the source of a definition.
SOURCE = re.compile(r"Source: (.*)")


class Field(NamedTuple):
    """A field of a record or a constructor of data: its name and what its comment says."""

    name: str
    text: str


class Definition(NamedTuple):
    """A public definition: its name, the names of its arguments, the blocks of its comment, its source, its fields, the
    line of the file on which it begins, and the words of its equations or fields."""

    name: str
    arguments: tuple
    blocks: tuple
    source: str
    fields: tuple
    start: int
    words: frozenset = frozenset()


class Note(NamedTuple):
    """A title within a file, or a comment that stands by itself."""

    is_title: bool
    blocks: tuple


class SpecFile(NamedTuple):
    """A file of definitions: its path, what its first comment says, what follows, and what it imports: definitions,
    each with its file and its name there; types of the code, each with its crate, module and name; and values of these,
    each with nothing. The types of the code stand once more by themselves."""

    path: str
    blocks: tuple
    parts: tuple
    imports: dict
    types: tuple

    @property
    def crate(self):
        return self.path.split("/")[0]

    @property
    def definitions(self):
        return [it for it in self.parts if isinstance(it, Definition)]


class Type(NamedTuple):
    """A type of the code: its crate, its name, what its `///` says, and its values or fields."""

    crate: str
    name: str
    blocks: tuple
    fields: tuple


# ---- comments


def blocks_of(lines):
    """The blocks of a comment, given without the signs that begin its lines: a paragraph is one line, a list has a line
    for each point, a table one for each row."""
    blocks, is_open = [], False
    for line in lines:
        text = line.strip()
        if not text:
            is_open = False
        elif text.startswith("|"):
            is_table = bool(blocks) and blocks[-1].startswith("|") and is_open is None
            blocks[-1:] = [f"{blocks[-1]}\n{text}"] if is_table else [*blocks[-1:], text]
            is_open = None
        elif text.startswith("- ") or not is_open:
            blocks.append(text)
            is_open = True
        else:
            blocks[-1] += f" {text}"
    return tuple(blocks)


def commented(lines):
    """The blocks of a definition's comment, and the source that its last line names."""
    places = [place for place, line in enumerate(lines) if SOURCE.match(line.strip())]
    if not places:
        return blocks_of(lines), ""
    text = " ".join(it.strip() for it in lines[places[-1] :])
    return blocks_of(lines[: places[-1]]), SOURCE.match(text)[1].rstrip(".")


# ---- definitions


def parted(text, sign=" "):
    """The text parted at the sign, but for what stands in brackets."""
    parts, depth = [""], 0
    for letter in text:
        depth += (letter in "({[") - (letter in ")}]")
        if letter == sign and not depth:
            parts.append("")
        else:
            parts[-1] += letter
    return [it.strip() for it in parts if it.strip()]


def named_by_type(kind):
    """A name for an argument of this type, for one that no equation names."""
    kind = kind.strip()
    while kind.startswith("(") and kind.endswith(")") and len(parted(kind)) == 1:
        kind = kind[1:-1]
    head, *rest = parted(kind) or [""]
    if "×" in rest:
        return PAIR_NAMES.get(kind, "x")
    if head == "Option" and rest:
        return named_by_type(rest[0])
    if head == "List" and rest:
        one = named_by_type(rest[0])
        many = f"{one[:-1]}ies" if one.endswith("y") else f"{one}s"
        return {"ℕ": "bytes", "(List ℕ)": "lines"}.get(rest[0], many)
    if not re.fullmatch(r"[A-Z]\w*", head):
        return {"ℕ": "n"}.get(head, "x")
    return SHORT_NAMES.get(head, re.sub(r"(?<!^)(?=[A-Z])", "_", head).lower())


def arguments_of(signature, equations, small):
    """The names of the arguments of a definition with these equations, but for proofs: the name that its type gives, or
    else the first one that an equation gives."""
    kinds = [it for it in parted(signature, "→") if not it.startswith("{")]
    kinds = [(name, it) for it in kinds[:-1] for name in (binders(it) or [""])]
    patterns = [[side for side in parted(it) if not side.startswith("{")] for it in equations]
    names = []
    for place in range(max(map(len, patterns), default=0)):
        bound, kind = kinds[place] if place < len(kinds) else ("", "")
        given = [it[place] for it in patterns if place < len(it)]
        own = [it for it in given if re.fullmatch(r"[a-z][\w']*|P|Acts", it) and it not in small]
        own += [it for pattern in given for it in re.findall(r"^\(Some ([a-z]\w*)\)$", pattern) if it not in small]
        rests = [it for pattern in given for it in re.findall(r"^\(\S+ ∷ (\w+)\)$", pattern)]
        if not re.search(r" (≡|≤|<) ", kind):
            names.append((bound or (own or [""])[0], named_by_type(kind), (rests or ["other"])[0]))
    owned, chosen = {own for own, _, _ in names}, []
    for own, by_type, other in names:
        chosen.append(own or (other if by_type in owned or by_type in chosen else by_type))
    return tuple(chosen)


def binders(text):
    """The names that brackets as (a b : T) (c : U) bind; nothing of other text."""
    matches = [re.match(r"\(([\w' ]+) : ", it) for it in parted(text)]
    return [name for it in matches for name in it[1].split()] if all(matches) else []


def record_arguments(head):
    """The names of the arguments in the head of a record, but for those in braces."""
    groups = parted(head)
    groups = groups[: groups.index(":")] if ":" in groups else groups
    return tuple(name for it in groups if it.startswith("(") for name in binders(it))


def names_in(group):
    """What a list of imported names says: each name here with its name there."""
    for it in parted(group, ","):
        there, _, here = it.partition(" as ")
        yield (here or there).strip(), there.strip()


class Reader:
    """Reads the lines of a file of definitions."""

    def __init__(self, path, text, small):
        self.path, self.lines, self.small = path, text.splitlines(), small
        self.place, self.parts, self.imports, self.types = 0, [], {}, []

    def take_comment(self):
        """Takes the lines of a comment; returns them without their signs."""
        taken = []
        while self.place < len(self.lines) and self.lines[self.place].lstrip().startswith("--"):
            taken.append(self.lines[self.place].lstrip()[2:].removeprefix(" "))
            self.place += 1
        return taken

    def take_import(self, line):
        """Takes an import: of definitions, or of a type of the code."""
        match = re.match(r"use Rattle\.(\w+)\.specs\.((?:\w+\.)*\w+)(?:\.\{(.*)\})?", line)
        if not match:
            return
        crate, module, names = match.groups()
        if module.startswith("declared."):
            path = module.split(".")[1:]
            key = (crate, "/".join(path[:-1]), path[-1])
            is_type = path[-1] != "TheVariants"
            self.types += [key] if is_type else []
            self.imports.update({here: key if is_type else () for here, _ in names_in(names or "")})
        else:
            path = f"{crate}/specs/{module.replace('.', '/')}.antt"
            self.imports.update({here: (path, there) for here, there in names_in(names or "")})

    def take_fields(self, indent, is_data):
        """Takes the fields of a record, or the constructors of data: the lines up to a blank one, further in."""
        fields, comment = [], []
        own = re.compile(rf"{indent}  (?:pub )?(\S+) :" if is_data else rf"{indent}  pub (\w+) :")
        while self.place < len(self.lines) and self.lines[self.place].startswith(f"{indent}  "):
            line = self.lines[self.place]
            match = own.match(line)
            if line.strip().startswith("--"):
                comment.append(line.strip()[2:].strip())
            elif match:
                fields.append(Field(match[1], " ".join(comment)))
                comment = []
            self.place += 1
        return tuple(fields)

    def take_definition(self, line, comment):
        """Takes a definition, if the line begins one; returns whether it does."""
        match = re.match(r"( *)(?:pub (record|data)|(?:abbrev|unfoldable) pub) (\S+)(.*)", line)
        if not match:
            return False
        indent, kind, name, rest = match.groups()
        start = self.place
        self.place += 1
        fields = self.take_fields(indent, kind == "data") if kind else ()
        if kind:
            arguments = record_arguments(rest)
        else:
            signature = " ".join([rest.strip().removeprefix(":"), *self.more_signature(indent)])
            arguments = arguments_of(signature, self.equations(indent, name), self.small)
        self.parts.append(Definition(name, arguments, *commented(comment), fields, start))
        return True

    def more_signature(self, indent):
        """The lines on which a signature goes on."""
        lines = []
        for line in self.lines[self.place :]:
            if not re.match(rf"{indent}    ", line):
                break
            lines.append(line.strip())
        return lines

    def equations(self, indent, name):
        """The left sides of the equations of a name, without the name."""
        own = re.compile(rf"{indent}{re.escape(name)}( .*?)?? =(?: |$)")
        sides = []
        for line in self.lines[self.place :]:
            if re.match(rf"{indent}(?:abbrev|unfoldable|pub|--)", line):
                break
            match = own.match(line)
            if match:
                sides.append((match[1] or "").strip())
        return sides

    def read(self):
        """The file. A comment belongs to the definition that follows it without a blank line."""
        top = self.take_comment()
        while self.place < len(self.lines):
            line = self.lines[self.place]
            if line.lstrip().startswith("--"):
                comment = self.take_comment()
                following = self.lines[self.place] if self.place < len(self.lines) else ""
                if following.startswith("infix"):
                    self.place += 1
                    following = self.lines[self.place]
                if not self.take_definition(following, comment):
                    is_title = comment[0].startswith("---- ")
                    blocks = (comment[0][5:],) if is_title else blocks_of(comment)
                    self.parts.append(Note(is_title, blocks))
            elif not self.take_definition(line, []):
                self.take_import(line)
                self.place += 1
        return SpecFile(self.path, blocks_of(top), self.parts_with_words(), self.imports, tuple(self.types))

    def parts_with_words(self):
        """The parts, each definition with the words between its first line and the next definition."""
        parts, end = [], len(self.lines)
        for part in reversed(self.parts):
            if isinstance(part, Definition):
                code = " ".join(it for it in self.lines[part.start : end] if not it.lstrip().startswith("--"))
                part, end = part._replace(words=frozenset(re.findall(r"[^\s(){},;⟦⟧.]+(?=\.top\b|[\s(){},;⟦⟧]|$)", code))), part.start
            parts.insert(0, part)
        return tuple(parts)


def spec_files():
    """The files of public definitions, by their paths below `crates`."""
    files = sorted(it for it in CRATES.glob("*/specs/*.antt") if it.name not in LISTS)
    texts = {str(it.relative_to(CRATES)): it.read_text(encoding="utf-8") for it in files}
    small = set(SMALL_CONSTRUCTORS)
    for text in texts.values():
        for body in re.findall(r"^pub data .*\n((?: .*\n)*)", text, re.MULTILINE):
            small |= set(re.findall(r"^  ([a-z]\w*) :", body, re.MULTILINE))
    return {path: Reader(path, text, small).read() for path, text in texts.items()}


# ---- laws


def laws():
    """The laws: for a crate and a definition, the call whose contract the definition is."""
    found = {}
    contract = re.compile(r"^pub fn (\w+)\(\)\n    ensures \{ (\w+) \}$", re.MULTILINE)
    for file in sorted(CRATES.glob("*/src/laws.rt")):
        crate = file.parent.parent.name
        for call, name in contract.findall(file.read_text(encoding="utf-8")):
            found[crate, name] = f"{crate}::laws::{call}"
    return found


# ---- types of the code


def documented(lines, place):
    """The `///` above a line, without the attributes that stand between."""
    taken = []
    while place > 0 and re.match(r"\s*(///|#\[)", lines[place - 1]):
        place -= 1
        if lines[place].lstrip().startswith("///"):
            taken.insert(0, lines[place].lstrip()[3:].strip())
    return taken


def value_of(lines, place):
    """How a value of an enum, or a field of a struct, is named at its line: with the fields that a value has."""
    match = re.match(r"    ([A-Z]\w*)(?:( \{)(?: (.*?) \},)?$|\((.*)\))?", lines[place])
    if match and match[2]:
        end = next(at for at in range(place, len(lines)) if lines[at].rstrip().endswith("},"))
        fields = parted(match[3], ",") if match[3] else [it for it in lines[place + 1 : end] if "//" not in it]
        return f"{match[1]} {{{', '.join(it.split(':')[0].strip() for it in fields)}}}"
    if match and match[4]:
        return f"{match[1]}({match[4]})"
    if match:
        return match[1]
    match = re.match(r"    (?:pub(?:\(\w+\))? )?(\w+): ", lines[place])
    return match[1] if match else ""


def type_of(crate, module, name):
    """A type of the code, if its module declares a struct or an enum of this name."""
    file = CRATES / crate / "src" / f"{module}.rt"
    lines = file.read_text(encoding="utf-8").splitlines() if file.exists() else []
    for place, line in enumerate(lines):
        match = re.match(rf"pub(?:\(\w+\))? (?:struct|enum) {name}\b(.*)", line)
        if match:
            fields = []
            for at in range(place + 1, len(lines)) if match[1].endswith("{") else ():
                if lines[at].startswith("}"):
                    break
                own = value_of(lines, at)
                if own:
                    fields.append(Field(own, " ".join(documented(lines, at))))
            return Type(crate, name, blocks_of(documented(lines, place)), tuple(fields))
    return None

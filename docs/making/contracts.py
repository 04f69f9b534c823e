"""The contracts of the sources: what each file declares, and what it says of each type, trait, function and clause."""

import re
from pathlib import Path
from typing import NamedTuple

CRATES = Path(__file__).resolve().parent.parent.parent / "crates"

# The modules of the program whose functions are shown. A program has no callers, so these are its own parts.
PROGRAM_PARTS = (
    "bulk",
    "check",
    "check_each",
    "exit",
    "explain",
    "files",
    "notes",
    "objects",
    "outcome",
    "output",
    "page_file",
    "run",
    "verify",
    "witness_file",
)

# The beginnings of a function, a clause and a ghost item.
FUNCTION = r"\s*(pub )?(?:const |unsafe )*fn (\w+)"
CLAUSE = r"(requires|ensures)(?: (\w+))? \{(.*)"
GHOST = r"(ghost) (\w+)(?::| =) \{(.*)"


class Clause(NamedTuple):
    """A clause of a contract: `requires`, `ensures` or `ghost`, its name, its formula, and the comment above it."""

    kind: str
    name: str
    formula: str
    comment: str


class Call(NamedTuple):
    """A function: its name, what it says of itself, its signature and its clauses."""

    name: str
    is_public: bool
    says: list
    signature: str
    clauses: list


class Block(NamedTuple):
    """What a file declares at its first level: a type, a trait, an impl or a function, and what it says of itself; of a
    trait or an impl also the calls and the ghost items."""

    kind: str  # type, trait, impl or fn
    name: str
    trait: str
    is_public: bool
    says: list
    calls: list
    ghosts: list


class Source(NamedTuple):
    """A file: its blocks, the definitions that it imports, by their names: the crate and the file of each, and the names
    of those that it imports from folders of aids."""

    module: str
    blocks: list
    imports: dict
    aids: set


def code_of(line):
    """The line without the comment at its end, and with strings emptied."""
    line = re.sub(r'"(?:[^"\\]|\\.)*"', '""', line)
    return re.sub(r"//.*", "", line)


def depth_of(line):
    """By how much the line opens more braces than it closes."""
    code = re.sub(r"'[{}]'|b'[{}]'", "", code_of(line))
    return code.count("{") - code.count("}")


def imports_of(text):
    """The definitions of crates that a file imports."""
    imports = {}
    for crate, file, names in re.findall(r"ghost use Rattle\.(\w+)\.specs\.([A-Z]\w*)\.\{([^}]*)\}", text):
        if (CRATES / crate / "specs" / f"{file}.antt").exists():
            imports.update({it.split()[0]: (crate, file) for it in names.split(",")})
    return imports


def aids_of(text):
    """The definitions that a file imports from folders of aids."""
    imports = re.findall(r"ghost use Rattle\.\w+\.specs\.aids\.\w+\.\{([^}]*)\}", text)
    return {it.split()[0] for names in imports for it in names.split(",")}


def unaliased(text):
    """The text of a file, in which each name that its contracts have for another one is that name."""
    aliases = {}
    for names in re.findall(r"ghost use [\w.]+\.\{([^}]*)\}", text):
        aliases.update({alias: name for name, alias in re.findall(r"(\w+) as (\w+)", names)})
    pattern = re.compile(rf"(?<![\w.`])({'|'.join(aliases)})(?!\w)") if aliases else None

    def line_of(line):
        is_code = re.match(r"\s*(//|ghost use|use |pub |fn |\w+:)", line)
        return line if is_code else pattern.sub(lambda it: aliases[it[1]], line)

    return "\n".join(line_of(it) for it in text.split("\n")) if aliases else text


def clauses_in(lines):
    """The clauses among the lines of a contract."""
    clauses, comment, place = [], [], 0
    while place < len(lines):
        line = lines[place].strip()
        match = re.match(CLAUSE, line) or re.match(GHOST, line)
        if line.startswith("//"):
            comment.append(line.lstrip("/").strip())
        elif match:
            body, depth = match[3], 1 + depth_of(match[3])
            while depth > 0:
                place += 1
                body, depth = f"{body} {lines[place].strip()}", depth + depth_of(lines[place])
            formula = " ".join(re.sub(r"\}[;,]?\s*$|\} = \{.*$", "", body.strip()).split())
            clauses.append(Clause(match[1], match[2] or "", formula, "\n".join(comment)))
            comment = []
        else:
            comment = []
        place += 1
    return clauses


def header_of(lines):
    """Of lines that begin with a function those before its body."""
    header, indent = [], len(lines[0]) - len(lines[0].lstrip())
    for line in lines:
        is_within = len(line) - len(line.lstrip()) > indent
        if header and not is_within and not line.lstrip().startswith((")", "where", "//")):
            break
        header.append(line)
        if not is_within and ("{" in code_of(line) or code_of(line).rstrip().endswith(";")):
            break
    return header


def call_in(lines, says):
    """The call that begins at the first of the lines."""
    header = header_of(lines)
    at = next((n for n, it in enumerate(header) if re.match(r"\s*(requires|ensures)\b|\s*//", it)), len(header))
    signature = "\n".join(it[len(lines[0]) - len(lines[0].lstrip()) :] for it in header[:at])
    signature = re.sub(r"[ \n]*(\{\}?|;)$", "", signature.rstrip())
    match = re.match(FUNCTION, lines[0])
    return Call(match[2], bool(match[1]), says, signature, clauses_in(header[at:]))


def plain(line):
    """The line without what stands in angle brackets."""
    while re.search(r"<[^<>]*>", line):
        line = re.sub(r"<[^<>]*>", "", line)
    return line


def items_in(lines):
    """The calls and the ghost items of a trait or an impl, each with the comment above it."""
    calls, ghosts, says = [], [], []
    for place, line in enumerate(lines[1:], 1):
        text = line.strip()
        if text.startswith("//") and line.startswith("    //"):
            says.append(text.lstrip("/"))
        elif not text:
            says = []
        elif re.match(r"    [^\s#]", line):
            if re.match(FUNCTION, text):
                calls.append(call_in(lines[place:], says))
            elif re.match(GHOST, text):
                ghosts += clauses_in([*(f"// {it}" for it in says), *lines[place:]])[:1]
            says = []
    return calls, ghosts


def block_of(lines, says):
    """The block that begins at the first of the lines, at the first level of a file; none if it is another item."""
    line = plain(lines[0])
    if re.match(FUNCTION, line):
        call = call_in(lines, says)
        return Block("fn", call.name, "", call.is_public, says, [call], [])
    match = re.match(r"(pub )?(?:struct|enum|type) (\w+)", line)
    if match:
        return Block("type", match[2], "", bool(match[1]), says, [], [])
    of_trait = re.match(r"(pub )?trait (\w+)", line)
    of_impl = re.match(r"impl (?:(\S+) for )?(\S+)", line)
    if not of_trait and not of_impl:
        return None
    calls, ghosts = items_in(lines)
    if of_trait:
        return Block("trait", of_trait[2], "", bool(of_trait[1]), says, calls, ghosts)
    return Block("impl", of_impl[2].lstrip("&"), of_impl[1] or "", True, says, calls, ghosts)


def source_of(module, text):
    """What a file declares. Its tests are left out."""
    blocks, lines, says, place, is_test = [], text.splitlines(), [], 0, False
    while place < len(lines):
        line, end = lines[place], place + 1
        if line.startswith("//"):
            says.append(line.lstrip("/"))
        elif line.startswith("#[cfg(test)]"):
            is_test = True
        elif re.match(r"\w", line):
            while end < len(lines) and re.match(r"$|[ )}]|where$", lines[end]) and lines[end - 1] != "}":
                end += 1
            block = None if is_test else block_of(lines[place:end], says)
            blocks += [block] if block else []
            says, is_test = [], False
        elif not line:
            says = []
        place = end
    return Source(module, blocks, imports_of(text), aids_of(text))


class Crate:
    """A crate: what it says first of itself, its files by their modules, as texts and as what they declare, and the
    names that it hands on."""

    def __init__(self, name):
        self.name, folder = name, CRATES / name / "src"
        self.is_library = (folder / "lib.rt").exists()
        self.main = (folder / ("lib.rt" if self.is_library else "main.rt")).read_text(encoding="utf-8")
        said = [it[3:] for it in self.main.splitlines() if it.startswith("//!")]
        self.says = said[: said.index("")] if "" in said else said
        files = [(str(it.relative_to(folder).with_suffix("")), it) for it in sorted(folder.rglob("*.rt"))]
        files = [(module, it) for module, it in files if not {"tests", "testing"} & set(module.split("/"))]
        self.texts = [(module, it.read_text(encoding="utf-8")) for module, it in files]
        self.sources = [source_of(module, unaliased(text)) for module, text in self.texts]
        self.sources.sort(key=lambda it: it.module == "laws")
        self.exported = {}
        for path, names in re.findall(r"^pub use (\w+(?:::\w+)*)::(\w+|\{[^}]*\});", self.main, re.MULTILINE):
            self.exported.update({name: path.replace("::", "/") for name in re.findall(r"\w+", names)})
        self.open = set(re.findall(r"^pub mod (\w+);", self.main, re.MULTILINE))
        self.types = {it.name: it for source in self.sources for it in source.blocks if it.kind in ("type", "trait")}

    def shown_name(self, source, block):
        """The name by which a caller has a function or a type; nothing if it is private."""
        if not self.is_library:
            return block.name if source.module in PROGRAM_PARTS and (block.is_public or block.kind == "impl") else ""
        if block.kind in ("impl", "type", "trait"):
            return block.name if block.name in self.exported else ""
        if block.is_public and self.exported.get(block.name) == source.module:
            return block.name
        return f"{source.module}::{block.name}" if block.is_public and source.module in self.open else ""


def is_shown(crate, call):
    """Whether a function is shown: of a program those with a contract."""
    return call.is_public and (crate.is_library or bool(call.clauses))


def calls_of(crate):
    """The public calls of a crate: the names that the page has for them, the calls, and their files."""
    for source in crate.sources:
        for block in source.blocks:
            shown = crate.shown_name(source, block)
            if shown and block.kind == "fn" and is_shown(crate, block.calls[0]):
                yield shown, block.calls[0], source
            elif shown and block.kind != "fn" and not block.trait:
                calls = block.calls if block.kind == "trait" else [it for it in block.calls if is_shown(crate, it)]
                yield from ((f"{shown}::{it.name}", it, source) for it in calls)


def names_cited(clause, names):
    """Which of the names a clause cites, each once."""
    return list(dict.fromkeys(it for it in re.findall(r"[^\s(){},;⟦⟧.]+", clause.formula) if it in names))

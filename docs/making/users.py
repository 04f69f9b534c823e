"""Who uses what the pages describe: of a definition, the definitions and the contracts that cite it; of a call or a
type, the files of other crates that import it."""

import re

from . import contracts

# Of more users than this the page says how many more there are.
MOST_NAMED = 5


class Users:
    """The users of definitions, by the file and the name of each. A user is a definition, by its file and its name, or
    a call, by nothing and its name."""

    def __init__(self, files, crates):
        self.by_definition = {(path, it.name): [] for path, file in files.items() for it in file.definitions}
        for file in files.values():
            for definition in file.definitions:
                self.add_definition(file, definition)
        for crate in crates:
            self.add_contracts(crate)

    def add(self, cited, user):
        """Adds a user of a definition once. What is cited may be no definition of these files."""
        users = self.by_definition.get(cited)
        if users is not None and user not in users:
            users.append(user)

    def add_definition(self, file, definition):
        """Adds a definition to the users of those that it cites."""
        for cited in words_cited(file, definition):
            self.add(cited, (file.path, definition.name))

    def add_contracts(self, crate):
        """Adds the public calls of a crate to the users of the definitions that their contracts cite."""
        for shown, call, source in contracts.calls_of(crate):
            for name in (it for clause in call.clauses for it in contracts.names_cited(clause, source.imports)):
                cited = "{}/specs/{}.antt".format(*source.imports[name])
                self.add((cited, name), ("", f"{crate.name}::{shown}"))


def words_cited(file, definition):
    """What the words of a definition mean: of the same file by its path, of other files by what is imported."""
    own = {it.name for it in file.definitions} - {definition.name}
    return [(file.path, word) if word in own else file.imports.get(word, ()) for word in sorted(definition.words)]


def cited_by(files, path, name):
    """The definitions that the one of this name cites, each by its file and its name."""
    known = {(other, it.name) for other, file in files.items() for it in file.definitions}
    found = [it for it in files[path].definitions if it.name == name]
    return [cited for it in found for cited in words_cited(files[path], it) if cited in known]


def listed(users):
    """The first of the users as a list, and how many more there are."""
    more = len(users) - MOST_NAMED
    return ", ".join(users[:MOST_NAMED]) + (f" and {more} more" if more > 0 else "")


def named_in(text, owners):
    """What a text names of these crates: the crate and the name of each."""
    paths = re.findall(rf"(?<![\w:])({'|'.join(owners)})::(?:[a-z_]+::)*(\w+|\{{[^}}]*\}})", text)
    return [(owner, name) for owner, names in paths for name in re.findall(r"\w+", names)]


def importing_files(crates):
    """The files of other crates that import or name something of a crate, by the crate and the name. What a crate only
    hands on is used by those that import it from there."""
    found, handed_on = {}, {}
    for crate in crates:
        own = {module.split("/")[0] for module, _ in crate.texts}
        owners = [it.name for it in crates if it.name != crate.name and it.name not in own]
        for module, text in crate.texts:
            code = re.sub(r"//.*|ghost use .*", "", text)
            for reexport in re.findall(r"^pub use [^;]*;", code, re.MULTILINE):
                handed_on.update({(crate.name, name): (owner, name) for owner, name in named_in(reexport, owners)})
            code = re.sub(r"^pub use [^;]*;", "", code, flags=re.MULTILINE)
            for cited in dict.fromkeys(named_in(code, owners)):
                while cited in handed_on:
                    cited = handed_on[cited]
                found.setdefault(cited, {})[f"{crate.name} `{module}.rt`"] = True
    return {cited: list(files) for cited, files in found.items()}

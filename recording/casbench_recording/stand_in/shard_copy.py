"""A copy of a shard: its numbered operations, and the resulting documents."""

from typing import Any, Dict, List, NamedTuple, Optional, Tuple

KEPT = 1000
"""How many operations a copy keeps at least, so that they can be rolled back or sent to another copy."""


class Entry(NamedTuple):
    """An operation by its number, and the resulting document. One that only fills a gap in the numbers (a
    no-op) has no document."""

    number: int
    term: int
    document: Optional[str] = None
    # the number of changes of the document, its `_version`
    changes: int = 0
    # None if the document was deleted
    source: Optional[Dict[str, Any]] = None
    # when it was performed, by the monotonic clock
    time: float = 0.0

    @property
    def pair(self) -> Tuple[int, int]:
        """The term and the number."""
        return self.term, self.number


class Contents(NamedTuple):
    """The contents of a copy: its operations, and the number up to which it has all."""

    entries: List[Entry]
    checkpoint: int


class ShardCopy:
    """A copy of a shard. It takes operations in any order, each once."""

    def __init__(self, term: int = 1, attempt: int = 0) -> None:
        self.term = term
        # the number of the recovery in this term that made the copy, if any
        self.attempt = attempt
        # by their numbers, at least the last KEPT
        self.entries: Dict[int, Entry] = {}
        # for each document, in order: the versions that may be rolled back, and two before them
        self.versions: Dict[str, List[Entry]] = {}
        # the greatest number; the number up to which it has all; and the global checkpoint, as far as it is
        # known
        self.top = self.checkpoint = self.known = -1
        # the documents after the first operations, if they were noted
        self.beginning: Optional[Dict[str, Entry]] = None
        self._forgotten = -1

    def put(self, entry: Entry) -> None:
        """Adds an operation."""
        if self.entries.get(entry.number) == entry:
            return
        self.entries[entry.number] = entry
        self.top = max(self.top, entry.number)
        while self.checkpoint + 1 in self.entries:
            self.checkpoint += 1
        if entry.document is not None:
            self._put_version(self.versions.setdefault(entry.document, []), entry)

    def _put_version(self, versions: List[Entry], entry: Entry) -> None:
        """Adds the resulting document of an operation in order, and drops versions that aren't needed any
        more."""
        at = len(versions)
        while at and versions[at - 1].number > entry.number:
            at -= 1
        if not at or versions[at - 1] != entry:
            versions.insert(at, entry)
        while len(versions) > 2 and versions[2].number <= self._forgotten:
            del versions[0]

    def note_known(self, known: int) -> None:
        """Notes the global checkpoint, and forgets operations that aren't needed any more."""
        self.known = max(self.known, min(known, self.checkpoint))
        bound = min(self.known, self.top - KEPT)
        while self._forgotten < bound:
            self._forgotten += 1
            self.entries.pop(self._forgotten, None)

    def note_beginning(self) -> None:
        """Notes the current documents. A document of which all changes were rolled back has no version."""
        self.beginning = {document: versions[-1] for document, versions in self.versions.items() if versions}

    def last(self, document: str) -> Optional[Entry]:
        """Returns the last change of a document."""
        versions = self.versions.get(document)
        return versions[-1] if versions else None

    def before(self, document: str) -> Optional[Entry]:
        """Returns the change before the last one of a document."""
        versions = self.versions.get(document, [])
        return versions[-2] if len(versions) > 1 else None

    def above(self, number: int) -> List[Entry]:
        """Returns the operations above a number."""
        return [self.entries[it] for it in range(number + 1, self.top + 1) if it in self.entries]

    def roll_back(self, number: int) -> None:
        """Forgets the operations above a number."""
        for entry in self.above(number):
            del self.entries[entry.number]
            if entry.document is not None:
                versions = self.versions[entry.document]
                versions[:] = [it for it in versions if it.number <= number]
        self.top, self.checkpoint = min(self.top, number), min(self.checkpoint, number)
        self.known = min(self.known, number)

    def fill_gaps(self, term: int) -> None:
        """Fills each gap in the numbers with a no-op."""
        for number in range(self.checkpoint + 1, self.top):
            if number not in self.entries:
                self.put(Entry(number, term))

    def contents(self) -> Contents:
        """Returns its contents, for a new copy."""
        entries = {id(it): it for versions in self.versions.values() for it in versions}
        entries.update((id(it), it) for it in self.entries.values())
        return Contents(sorted(entries.values(), key=lambda it: it.number), self.checkpoint)

    def take(self, contents: Contents) -> None:
        """Takes the contents of another copy."""
        self.checkpoint = max(self.checkpoint, contents.checkpoint)
        for it in contents.entries:
            self.put(it)
        self.top = max(self.top, self.checkpoint)
        while self.checkpoint + 1 in self.entries:
            self.checkpoint += 1

"""Keeps the most recently used documents, up to a number. Of the others only the ids are kept, in a set of
fixed size.

Documents are kept in two generations. A document that is used moves to the younger one. When that is full,
the older one contains only documents that weren't used since: they are dropped, a few at a time, and the
younger one becomes the older.
"""

import mmap
from typing import Dict, Iterator, Optional

from .documents import Document

MOST_KEPT = 200_000
"""The default number of documents that are kept."""

AT_ONCE = 2
"""How many documents are dropped for each one that is added, so that all are gone before the next generation
is full."""

BITS = 28
"""The binary logarithm of the number of bits of the set of ids: 32 MiB."""

PROBES = 4
"""How many bits of it an id sets."""


class DroppedIds:
    """A set of ids of fixed size (a Bloom filter). It contains each id that was added, and by chance others:
    with ten million ids one in 2,700, with thirty million one in 59."""

    def __init__(self) -> None:
        # (memory is allocated page by page as bits are set; a bytearray would take all of it at once)
        self._bits = mmap.mmap(-1, 1 << BITS - 3, flags=mmap.MAP_PRIVATE)

    def add(self, id: str) -> None:
        """Adds an id."""
        for it in bits_of(id):
            self._bits[it >> 3] |= 1 << (it & 7)

    def __contains__(self, id: str) -> bool:
        return all(self._bits[it >> 3] >> (it & 7) & 1 for it in bits_of(id))


def bits_of(id: str) -> Iterator[int]:
    """Returns the bits of an id. A client can't predict them, since the hash of a text is different in each
    process."""
    number = hash(id) % (1 << 64)
    first, step = number >> 32, number & 0xFFFF_FFFF | 1
    return ((first + at * step * 0x9E37_79B1) >> 2 & (1 << BITS) - 1 for at in range(1, PROBES + 1))


class RecentDocuments:
    """The documents that are kept, by their ids."""

    def __init__(self, most: Optional[int] = None) -> None:
        # the size of a generation (None if all documents are kept)
        self._most = most // 2 if most is not None else None
        self._young: Dict[str, Document] = {}
        self._old: Dict[str, Document] = {}
        # those that are dropped next, and those that are dropped now
        self._leaving: Dict[str, Document] = {}
        self.given_up: Dict[str, Document] = {}

    def get(self, id: str) -> Optional[Document]:
        """Returns the document, if it is kept, as the most recently used one."""
        document = self._young.get(id)
        if document is None and self._most is not None:
            document = self._old.pop(id, None) or self._leaving.pop(id, None) or self.given_up.pop(id, None)
            if document is not None:
                self.add(document)
        return document

    def add(self, document: Document) -> None:
        """Adds a document."""
        self._young[document.id] = document
        if self._most is None:
            return
        for _ in range(min(AT_ONCE, len(self._leaving))):
            self.given_up.update([self._leaving.popitem()])
        if len(self._young) > self._most:
            self.given_up.update(self._leaving)
            self._young, self._old, self._leaving = {}, self._young, self._old

    def pop(self, id: str) -> Optional[Document]:
        """Removes and returns the document, or None if it isn't kept."""
        for generation in (self._young, self._old, self._leaving, self.given_up):
            if id in generation:
                return generation.pop(id)
        return None

    def values(self) -> Iterator[Document]:
        """Yields the documents."""
        for generation in (self._young, self._old, self._leaving, self.given_up):
            yield from generation.values()

    def __iter__(self) -> Iterator[str]:
        return (it.id for it in self.values())

    def __len__(self) -> int:
        return len(self._young) + len(self._old) + len(self._leaving)

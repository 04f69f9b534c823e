"""The list of what the proxy doesn't judge: documents, each with the reason, and why a recording ended
early."""

import contextlib
import json
import os
from typing import BinaryIO, Dict, Iterable, List, Optional, Tuple

from casbench_recording.history.format import compact
from casbench_recording.history.writing import HistoryError

MOST_REPORTED = 20
"""How many documents are reported at the end; the list has all of them."""

MOST_LISTED = 32 * 1024 * 1024
"""The maximum length of the list in bytes. Further documents are only counted."""


class UnjudgedList:
    """A file beside the history, with a line for each document that isn't judged, or isn't any more; one with
    the number of further documents, if the list is full; and a last one with the number of calls that were
    left out. Without any document there is no file."""

    def __init__(self, history: str) -> None:
        self.path = f"{history}.not-judged"
        if os.path.exists(self.path):
            raise HistoryError(f"{self.path}: File exists")
        # the reasons of the first documents
        self.reasons: Dict[str, str] = {}
        self.count = 0
        # how many documents have no line
        self._unlisted = 0
        self.ended: List[str] = []
        self._length = 0
        self._file: Optional[BinaryIO] = None

    def names(self, documents: Iterable[Tuple[str, str]]) -> None:
        """Adds documents, each with the reason."""
        lines = []
        for document, why in documents:
            if len(self.reasons) < MOST_REPORTED:
                self.reasons[document] = why
            self.count += 1
            if self._length < MOST_LISTED:
                lines.append(f'{{"id": {compact(document)}, "why": {compact(why)}}}')
                self._length += len(lines[-1])
            else:
                self._unlisted += 1
        self._write(lines)

    def ends(self, why: str) -> None:
        """Adds why the recording ended early."""
        self.ended.append(why)
        self._write([json.dumps({"ended": True, "why": why})])

    def _write(self, lines: List[str]) -> None:
        """Appends lines to the file. Errors such as a full disk are ignored: everything is reported at the
        end too."""
        if not lines:
            return
        data = "".join(f"{it}\n" for it in lines).encode()
        with contextlib.suppress(OSError):
            if self._file is None:
                self._file = open(self.path, "ab", buffering=0)
            self._file.write(data)

    def close(self, left_out: int = 0) -> None:
        """Closes the file, if there is one, after the numbers of documents that it doesn't list, and of calls
        that were left out."""
        if self._unlisted:
            self._write([json.dumps({"documents": self._unlisted})])
        if self.count and left_out:
            self._write([json.dumps({"calls": left_out})])
        if self._file is not None:
            with contextlib.suppress(OSError):
                self._file.close()
            self._file = None

    def report(self) -> List[str]:
        """Returns the report at the end, line by line."""
        lines = [f"the recording ended early: {it}" for it in self.ended]
        if self.count:
            are = "document is" if self.count == 1 else "documents are"
            lines.append(f"{self.count} {are} not judged, from some moment on or at all ({self.path}):")
            lines += [f"  {document}: {why}" for document, why in self.reasons.items()]
            lines += [f"  and {self.count - MOST_REPORTED} more"] if self.count > MOST_REPORTED else []
        return lines

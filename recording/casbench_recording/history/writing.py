"""Writes history texts: a line for each call, and one for its ending, as the calls are made.

    with History("carts.ndjson") as history:
        with history.call("index", "cart-17", 7, Pair(term=1, seq=4)) as call:
            response = send(...)
            call.reply(response.status, response.body)

The line of a call is in the file before `call` returns, and so before its request can be sent; the line of
its reply when `reply` returns. A call without a reply is written as lost. A lock orders all lines.
"""

import contextlib
import os
import threading
import time
from typing import TYPE_CHECKING, Callable, Dict, List, Optional, Sequence, Set, Tuple, TypeVar, Union

from .format import (
    CONFLICT,
    LONGEST_LINE,
    LONGEST_NOTE,
    LOST,
    MOST_EVENTS,
    WRITES_A_VALUE,
    CallError,
    Loss,
    Operation,
    Pair,
    Reply,
    ReplyBody,
    Rest,
    checked_pair,
    compact,
    is_whole,
    line_of_ending,
    members_of_call,
    rest_of,
    text_of,
    text_of_find,
    text_of_missing,
    text_of_write,
)

if TYPE_CHECKING:
    from .readings import Reading


MOST_LOST_AT_ONCE = 65_536
"""How many lost calls are written together."""


Ending = Tuple["Call", Union[Reply, Loss, None]]
"""A call that ends, with its reply, or what is known without one; None is the same as an unknown loss."""


class HistoryError(Exception):
    """Why a history can't be created or continued, for the operator."""


class Ended(Exception):
    """The history takes no more calls: it is full, or it was ended."""


class NoOutcome(Exception):
    """No complete answer was received, or none that says what was done: the outcome of the call is
    unknown."""


class Call:
    """A call that was made. It ends once: by a reply, or as lost, which is the default at the end of its
    block."""

    __slots__ = ("history", "number", "operation")

    def __init__(self, history: "CallWriter", number: int, operation: Operation) -> None:
        self.history = history
        self.number = number
        self.operation = operation

    def __enter__(self) -> "Call":
        return self

    def __exit__(self, *_: object) -> None:
        self.history.lose([self])

    @property
    def is_open(self) -> bool:
        """Whether the call has no ending yet."""
        return self.history.is_open(self)

    def reply(self, status: int, body: ReplyBody = None) -> None:
        """Writes the reply: the status, and the body as received. A body that isn't JSON is left out, so its
        call is of unknown outcome."""
        if not is_whole(status, 0, 65_535):
            raise CallError(f"a status is a whole number up to 65535, and not {status!r}")
        self.history.end_one(self, (status, text_of(body)))

    def lost(self) -> None:
        """Writes that the outcome is unknown."""
        self.history.end_one(self, Loss.UNKNOWN)

    def void(self) -> None:
        """Writes that nothing was performed, at any attempt. Use it only for a refusal that proves this."""
        self.history.end_one(self, Loss.VOID)

    # Replies by their meaning, for stores whose answers differ from OpenSearch's

    def indexed(self, pair: Pair, created: bool) -> None:
        """The write was performed, with this pair, and created the document or replaced a version."""
        self.check_operation(
            WRITES_A_VALUE if created else ("index",), "indexed" if created else "indexed and not created"
        )
        result = "created" if created else "updated"
        self.reply_with(201 if created else 200, text_of_write(self.operation.id, result, checked_pair(pair)))

    def deleted(self, pair: Pair, found: bool) -> None:
        """The delete was performed, with this pair, and the document existed or not."""
        self.check_operation(("delete",), "deleted")
        result = "deleted" if found else "not_found"
        self.reply_with(200 if found else 404, text_of_write(self.operation.id, result, checked_pair(pair)))

    def found(self, pair: Pair, k: int) -> None:
        """The get found the version with this pair, which has this value."""
        self.check_operation(("get",), "found")
        if not is_whole(k, 0, 2**64 - 1):
            raise CallError(f"a value is a whole number below 2^64, and not {k!r}")
        self.reply_with(200, text_of_find(self.operation.id, checked_pair(pair), k))

    def missing(self) -> None:
        """The get found no document."""
        self.check_operation(("get",), "missing")
        self.reply_with(404, text_of_missing(self.operation.id))

    def conflict(self) -> None:
        """The write was refused because its condition wasn't met."""
        self.check_operation(("index", "delete", "create"), "a conflict")
        self.reply_with(409, compact({"error": {"type": CONFLICT}}))

    def reply_with(self, status: int, text: str) -> None:
        """Writes a reply with the text of a body."""
        self.history.end_one(self, (status, text))

    def check_operation(self, operations: Sequence[str], reply: str) -> None:
        """Raises CallError if the reply doesn't fit the operation."""
        if self.operation.op not in operations:
            raise CallError(f"call {self.number} is a {self.operation.op}, and can't be answered as {reply}")


class Histories:
    """Where a recording is written: one history, or several. It ends with its block, or with `end`."""

    def __enter__(self: "AnyHistories") -> "AnyHistories":
        return self

    def __exit__(self, *_: object) -> None:
        self.end()

    @property
    def histories(self) -> "Tuple[CallWriter, ...]":
        """The histories of the recording."""
        raise NotImplementedError

    def of_shard(self, shard: int) -> "CallWriter":
        """Returns the history for the calls of a shard."""
        raise NotImplementedError

    def judge_in(self, reading: "Reading") -> None:
        """Sets the reading in which the recording will be judged. It is called before the first call."""
        raise NotImplementedError

    def call(
        self,
        op: str,
        id: str,
        value: Optional[int] = None,
        condition: Optional[Pair] = None,
        shard: int = 0,
        client: str = "",
    ) -> Call:
        """Writes the line of a call. Raises Ended if there is no room, CallError if the call is invalid."""
        return self.of_shard(shard).call_one(Operation(op, id, value, condition, shard, client))

    def end(self) -> None:
        """Ends each history: its open calls are lost, and it takes no more. Without a call no file is
        left."""
        raise NotImplementedError


AnyHistories = TypeVar("AnyHistories", bound=Histories)


class CallWriter(Histories):
    """Numbers calls and writes their lines and those of their endings: a history, or a recording without a
    limit. It may be used by any thread."""

    def __init__(self, path: str) -> None:
        self.path = path
        self.calls = self.replies = self.lost = 0
        self.has_ended = False
        self._lock = threading.RLock()

    @property
    def histories(self) -> "Tuple[CallWriter, ...]":
        """This history."""
        return (self,)

    def of_shard(self, shard: int) -> "CallWriter":
        """Returns this history, which is that of each shard."""
        return self

    @property
    def unanswered(self) -> int:
        """How many calls have no reply: open and lost ones."""
        return self.calls - self.replies

    @property
    def room(self) -> int:
        """How many calls it takes at a time."""
        raise NotImplementedError

    def note(self, text: str) -> None:
        """Puts a note on the next line, such as what was done to the store. A check ignores it."""
        raise NotImplementedError

    def write(
        self, op: str, id: str, condition: Optional[Pair] = None, shard: int = 0, client: str = ""
    ) -> Call:
        """Writes the line of an index or a create whose value is the number of its call, and so unique.

        A get, or the log of the store, then shows which call wrote a value, even if the write was never
        answered.
        """
        return self.write_all([writing(Operation(op, id, None, condition, shard, client))])[0]

    def write_all(self, operations: Sequence[Operation]) -> List[Call]:
        """The same as `call_all`, but the value of each index and each create is the number of its call."""
        with self._lock:
            return self.call_all(numbered(operations, self.calls))

    def call_one(self, operation: Operation) -> Call:
        """Writes the line of a call."""
        raise NotImplementedError

    def call_all(self, operations: Sequence[Operation]) -> List[Call]:
        """Writes the lines of several calls, such as the items of a bulk request; none if it raises."""
        raise NotImplementedError

    def is_open(self, call: Call) -> bool:
        """Returns whether the call has no ending yet."""
        raise NotImplementedError

    def end_one(self, call: Call, ending: Union[Reply, Loss]) -> None:
        """Writes the ending of a call: its reply, or what is known without one."""
        raise NotImplementedError

    def end_all(self, endings: Sequence[Ending]) -> None:
        """Writes the endings of several calls together, except for calls that have ended already. After the
        end of the history it writes nothing."""
        raise NotImplementedError

    def lose(self, calls: Sequence[Call]) -> None:
        """Writes the open ones of these calls as lost. After the end of the history it writes nothing."""
        self.end_all([(it, Loss.UNKNOWN) for it in calls])

    def damage(self) -> Optional[str]:
        """Returns what another process did to a file, or None."""
        raise NotImplementedError


class History(CallWriter):
    """The file of a history text.

    Each line is in the file, complete, when the method that writes it returns. If a line can't be written, as
    on a full disk, the written part of it is removed, HistoryError is raised, and the history is ended.
    """

    def __init__(
        self, path: str, most_events: int = MOST_EVENTS, clock: Callable[[], float] = time.time
    ) -> None:
        super().__init__(path)
        self._clock = clock
        self._most_calls = min(most_events, MOST_EVENTS) // 2
        self._open: Set[int] = set()
        self._shards: Dict[str, int] = {}
        self._length = 0
        # the note for the next line
        self._note = ""
        try:
            # (unbuffered, always appending, and never overwriting a file)
            self._file = open(
                path, "xb", buffering=0, opener=lambda path, flags: os.open(path, flags | os.O_APPEND, 0o666)
            )
        except OSError as fault:
            raise HistoryError(f"{path}: {fault.strerror}") from fault

    @property
    def open_calls(self) -> int:
        """The number of open calls."""
        return len(self._open)

    @property
    def room(self) -> int:
        """How many more calls the history takes."""
        return 0 if self.has_ended else self._most_calls - self.calls

    def note(self, text: str) -> None:
        """Puts a note on the next line.

        Several notes for the same line are joined. Characters outside ASCII are escaped, and a note is cut
        off after 1,000.
        """
        plain = text.encode("ascii", "backslashreplace").decode()
        with self._lock:
            self._note = f"{self._note}; {plain}"[:LONGEST_NOTE] if self._note else plain[:LONGEST_NOTE]

    def call_one(self, operation: Operation) -> Call:
        members = members_of_call(operation)
        with self._lock:
            number = self.calls
            if self.has_ended or number >= self._most_calls:
                raise Ended
            if self._shards.setdefault(operation.id, operation.shard) != operation.shard:
                raise self._on_other_shard(operation)
            self._write(f'{{"e":"call","n":{number},"t":{self._now()},{members}\n')
            self.calls = number + 1
            self._open.add(number)
        return Call(self, number, operation)

    def call_all(self, operations: Sequence[Operation]) -> List[Call]:
        members = [members_of_call(it) for it in operations]
        with self._lock:
            if self.room < len(operations):
                raise Ended
            for it in operations:
                if self._shards.setdefault(it.id, it.shard) != it.shard:
                    raise self._on_other_shard(it)
            first, now = self.calls, self._now()
            self._write(
                "".join(
                    [
                        f'{{"e":"call","n":{number},"t":{now},{it}\n'
                        for number, it in enumerate(members, first)
                    ]
                )
            )
            self.calls += len(members)
            self._open.update(range(first, self.calls))
        return [Call(self, number, it) for number, it in enumerate(operations, first)]

    def _on_other_shard(self, operation: Operation) -> CallError:
        """Returns the error if an operation names another shard for a document than its first call did."""
        shard = self._shards[operation.id]
        return CallError(f"the document {operation.id!r} is on shard {shard}, and not on {operation.shard}")

    def is_open(self, call: Call) -> bool:
        with self._lock:
            return call.number in self._open

    def end_one(self, call: Call, ending: Union[Reply, Loss]) -> None:
        number, rest = call.number, rest_of(ending)
        with self._lock:
            if self.has_ended:
                raise Ended
            if number not in self._open:
                raise CallError(f"call {number} has ended already")
            self._write(line_of_ending(number, self._now(), rest))
            self._open.remove(number)
            if isinstance(rest, Loss):
                self.lost += 1
            else:
                self.replies += 1

    def judge_in(self, reading: "Reading") -> None:
        with self._lock:
            self._most_calls = min(self._most_calls, reading.most_events // 2)

    def end_all(self, endings: Sequence[Ending]) -> None:
        rests: Dict[int, Rest] = {}
        for call, ending in endings:
            # (if a call has two endings, the first one counts)
            rests.setdefault(call.number, rest_of(ending or Loss.UNKNOWN))
        with self._lock:
            if not self.has_ended:
                self._end_calls([it for it in rests.items() if it[0] in self._open])

    def lose(self, calls: Sequence[Call]) -> None:
        with self._lock:
            if not self.has_ended:
                self._lose(
                    [number for number in dict.fromkeys(it.number for it in calls) if number in self._open]
                )

    def end(self) -> None:
        """Writes the open calls as lost, and closes the file; later calls, and endings of a call, raise
        Ended.

        A file without a call is removed: an empty text would be a valid history.
        """
        with self._lock:
            try:
                if not self.has_ended:
                    self._lose(sorted(self._open))
            finally:
                self._close()

    def damage(self) -> Optional[str]:
        """Returns what another process did to the file, or None."""
        with self._lock:
            if self.has_ended:
                return None
            own = os.fstat(self._file.fileno())
            try:
                there = os.stat(self.path)
            except OSError:
                return f"{self.path} was removed while it was recorded"
            if (there.st_dev, there.st_ino) != (own.st_dev, own.st_ino):
                return f"{self.path} was replaced while it was recorded"
            return None if own.st_size == self._length else f"{self.path} was changed while it was recorded"

    def _close(self) -> None:
        """Closes the file, once."""
        self.has_ended = True
        self._open.clear()
        self._shards.clear()
        if not self._file.closed:
            self._file.close()
            if self.calls == 0:
                with contextlib.suppress(FileNotFoundError):
                    os.remove(self.path)

    def _end_calls(self, endings: Sequence[Tuple[int, Rest]]) -> None:
        """Writes and counts endings."""
        now = self._now()
        self._write("".join([line_of_ending(number, now, rest) for number, rest in endings]))
        lost = len([rest for _, rest in endings if isinstance(rest, Loss)])
        self._open.difference_update([number for number, _ in endings])
        self.replies += len(endings) - lost
        self.lost += lost

    def _lose(self, numbers: Sequence[int]) -> None:
        """Writes and counts lost calls, many at a time."""
        behind = f',"t":{self._now()}}}\n'
        for at in range(0, len(numbers), MOST_LOST_AT_ONCE):
            some = numbers[at : at + MOST_LOST_AT_ONCE]
            self._write(LOST + (behind + LOST).join(map(str, some)) + behind)
            self._open.difference_update(some)
            self.lost += len(some)

    def _now(self) -> int:
        """Returns the time in milliseconds since 1970. It isn't used for any order."""
        return int(self._clock() * 1000)

    def _write(self, lines: str) -> None:
        """Appends lines to the file. If that fails, the written part is removed."""
        data = lines.encode()
        if self._note:
            data = self._noted(data)
        length = len(data)
        try:
            count = self._file.write(data)
            while count < length:
                count += self._file.write(data[count:])
        except OSError as fault:
            self.has_ended = True
            self._file.truncate(self._length)
            raise HistoryError(f"{self.path}: {fault.strerror}. The lines before are whole") from fault
        self._length += length

    def _noted(self, data: bytes) -> bytes:
        """Returns the lines with the note on the first one, if it has room for it."""
        note = b'{"note":%s,' % compact(self._note).encode()
        if data.index(b"\n") + len(note) > LONGEST_LINE:
            return data
        self._note = ""
        return note + data[1:]


# Values


def writing(operation: Operation) -> Operation:
    """Returns the operation; raises CallError if it writes no value."""
    if operation.op not in WRITES_A_VALUE:
        raise CallError(f"a {operation.op} writes no value")
    return operation


def numbered(operations: Sequence[Operation], first: int) -> List[Operation]:
    """Returns the operations with the number of its call as the value of each that writes one; `first` is the
    first number."""
    return [
        it._replace(value=number) if it.op in WRITES_A_VALUE else it
        for number, it in enumerate(operations, first)
    ]


# The text of a line
